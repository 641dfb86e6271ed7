"""XDR (RFC 4506): items of bytes, written by functions and read by a reader."""
import struct


class XdrError(Exception):
    """Bytes that aren't the item that should stand there."""


def u32(value):
    return struct.pack(">I", value)


def i32(value):
    return struct.pack(">i", value)


def u64(value):
    return struct.pack(">Q", value)


def boolean(value):
    return u32(1 if value else 0)


def opaque(data):
    return u32(len(data)) + data + bytes(-len(data) % 4)


class Reader:
    """Reads items from the front of bytes."""

    def __init__(self, data):
        self.data = data
        self.at = 0

    def fixed(self, count):
        if len(self.data) - self.at < count:
            raise XdrError("the bytes end within an item")
        self.at += count
        return self.data[self.at - count : self.at]

    def u32(self):
        return struct.unpack(">I", self.fixed(4))[0]

    def i32(self):
        return struct.unpack(">i", self.fixed(4))[0]

    def u64(self):
        return struct.unpack(">Q", self.fixed(8))[0]

    def boolean(self):
        value = self.u32()
        if value > 1:
            raise XdrError("a bool is neither 0 nor 1")
        return value == 1

    def opaque(self, most):
        count = self.u32()
        if count > most:
            raise XdrError("an opaque is too long")
        data = self.fixed(count)
        if any(self.fixed(-count % 4)):
            raise XdrError("padding isn't zero")
        return data

    def rest(self):
        return self.data[self.at :]

    def end(self):
        if self.at != len(self.data):
            raise XdrError("bytes stand behind the last item")
