"""ONC RPC (RFC 5531): calls, replies and record marking."""
from dataclasses import dataclass

from xlock.xdr import Reader, XdrError, u32

MOST_AUTH = 400
ACCEPTED = {1: "PROG_UNAVAIL", 2: "PROG_MISMATCH", 3: "PROC_UNAVAIL", 4: "GARBAGE_ARGS", 5: "SYSTEM_ERR"}


@dataclass(frozen=True)
class Call:
    xid: int
    program: int
    version: int
    procedure: int
    arguments: bytes
    head: bytes = b""
    """The bytes before the arguments, as they were read."""


@dataclass(frozen=True)
class Reply:
    xid: int
    verdict: str
    """SUCCESS, or what stands in its place."""
    results: bytes


def call_bytes(call):
    """A call with the credential and the verifier AUTH_NONE."""
    head = b"".join(map(u32, [call.xid, 0, 2, call.program, call.version, call.procedure, 0, 0, 0, 0]))
    return head + call.arguments


def success_bytes(xid, results):
    return b"".join(map(u32, [xid, 1, 0, 0, 0, 0])) + results


def is_call(record):
    return record[4:8] == u32(0)


def read_call(record):
    reader = Reader(record)
    xid = reader.u32()
    if reader.u32() != 0 or reader.u32() != 2:
        raise XdrError("this is no call of RPC version 2")
    program, version, procedure = reader.u32(), reader.u32(), reader.u32()
    for _ in "credential", "verifier":
        reader.u32()
        reader.opaque(MOST_AUTH)
    return Call(xid, program, version, procedure, reader.rest(), record[: reader.at])


def read_reply(record):
    reader = Reader(record)
    xid = reader.u32()
    if reader.u32() != 1:
        raise XdrError("this is no reply")
    if reader.u32() == 1:
        if reader.u32() == 0:
            return Reply(xid, f"RPC_MISMATCH {reader.u32()} {reader.u32()}", b"")
        return Reply(xid, f"AUTH_ERROR {reader.u32()}", b"")
    reader.u32()
    reader.opaque(MOST_AUTH)
    status = reader.u32()
    if status == 0:
        return Reply(xid, "SUCCESS", reader.rest())
    if status not in ACCEPTED:
        raise XdrError("the status of the reply is none")
    if status == 2:
        return Reply(xid, f"PROG_MISMATCH {reader.u32()} {reader.u32()}", b"")
    return Reply(xid, ACCEPTED[status], b"")


def framed(record, fragment=None):
    """A record with its marks (RFC 5531 section 11), in fragments of so many bytes where that is said."""
    size = fragment or max(len(record), 1)
    parts = [record[at : at + size] for at in range(0, len(record), size)] or [b""]
    marks = [len(part) | (0x80000000 if place == len(parts) - 1 else 0) for place, part in enumerate(parts)]
    return b"".join(u32(mark) + part for mark, part in zip(marks, parts))


class RecordCutter:
    """Cuts a stream into records, as the server does: at most 64 fragments and 65,536 bytes in a record, and only the
    last fragment of one may be empty."""

    KIND = "rpc"
    MOST_BYTES, MOST_FRAGMENTS = 65536, 64

    def __init__(self):
        self.held = b""
        self.is_bad = False
        self.record, self.fragments = b"", 0

    def feed(self, data):
        """The records that are whole with these bytes. At a bad mark `is_bad` becomes true, and nothing more comes."""
        records = []
        self.held += data
        while not self.is_bad and len(self.held) >= 4:
            mark = int.from_bytes(self.held[:4], "big")
            is_last, count = mark >> 31 == 1, mark & 0x7FFFFFFF
            is_empty = count == 0 and not is_last
            if is_empty or self.fragments == self.MOST_FRAGMENTS or len(self.record) + count > self.MOST_BYTES:
                self.is_bad = True
                break
            if len(self.held) < 4 + count:
                break
            self.record += self.held[4 : 4 + count]
            self.fragments += 1
            self.held = self.held[4 + count :]
            if is_last:
                records.append(self.record)
                self.record, self.fragments = b"", 0
        return records


def begins_a_record(data):
    """Whether these bytes look like the beginning of a record with a call or a reply, as where a capture begins in the
    midst of a connection."""
    if len(data) < 12:
        return False
    mark, kind = int.from_bytes(data[:4], "big"), data[8:12]
    return mark >> 31 == 1 and 8 <= mark & 0x7FFFFFFF <= RecordCutter.MOST_BYTES and kind in (u32(0), u32(1))
