"""Packets, files of packets and calls of NLM laid out by hand, by RFC 9293, 768, 791, 8200 and the formats of pcap."""
import ipaddress
import struct

FIN, SYN, RST, PSH, ACK = 1, 2, 4, 8, 16


def address(word):
    return ipaddress.ip_address(word).packed


def tcp(source, target, sequence, flags, data=b""):
    return struct.pack(">HHIIBBHHH", source, target, sequence % 2**32, 0, 5 << 4, flags, 65535, 0, 0) + data


def udp(source, target, data):
    return struct.pack(">HHHH", source, target, 8 + len(data), 0) + data


def ipv4(source, target, protocol, data, fragment=0, options=b""):
    head = struct.pack(">BBHHHBBH", 0x45 + len(options) // 4, 0, 20 + len(options) + len(data), 0, fragment, 64, protocol, 0)
    return head + address(source) + address(target) + options + data


def ipv6(source, target, protocol, data, extensions=b"", first=None):
    head = struct.pack(">IHBB", 6 << 28, len(extensions) + len(data), protocol if first is None else first, 64)
    return head + address(source) + address(target) + extensions + data


def ethernet(kind, data):
    return bytes(12) + struct.pack(">H", kind) + data


def pcap(packets, link=1, order="<", nanoseconds=False):
    """Packets with their times in nanoseconds."""
    magic, unit = (0xA1B23C4D, 1) if nanoseconds else (0xA1B2C3D4, 1000)
    out = struct.pack(order + "IHHiIII", magic, 2, 4, 0, 0, 65535, link)
    for time, data in packets:
        out += struct.pack(order + "IIII", time // 10**9, time % 10**9 // unit, len(data), len(data)) + data
    return out


def block(kind, body, order="<"):
    body += bytes(-len(body) % 4)
    return struct.pack(order + "II", kind, 12 + len(body)) + body + struct.pack(order + "I", 12 + len(body))


def pcapng(packets, link=1, order="<", resolution=None):
    """The same as blocks; the resolution is the byte of if_tsresol, nanoseconds where it is 9."""
    options = b"" if resolution is None else struct.pack(order + "HHB3xHH", 9, 1, resolution, 0, 0)
    out = block(0x0A0D0D0A, struct.pack(order + "IHHq", 0x1A2B3C4D, 1, 0, -1), order)
    out += block(1, struct.pack(order + "HHI", link, 0, 0) + options, order)
    for time, data in packets:
        ticks = time if resolution == 9 else time // 1000
        head = struct.pack(order + "IIIII", 0, ticks >> 32, ticks & 0xFFFFFFFF, len(data), len(data))
        out += block(6, head + data, order)
    return out


CALL = "{xid:08x} 00000000 00000002 000186b5 00000004 {procedure:08x} 00000000 00000000 00000000 00000000"
LOCK = "00000000 {block:08x} 00000001 00000001 {caller}000000 00000004 {handle} 00000000 00000007 0000000000000000 {length:016x} 00000000 00000000"
UNLOCK = "00000000 00000001 {caller}000000 00000004 {handle} 00000000 00000007 0000000000000000 {length:016x}"


def lock(xid, caller="61", handle="aabbccdd", block=0, length=10):
    """A LOCK of the bytes from 0 on, exclusive, by process 7 of a caller of one letter; the handle has four bytes."""
    return bytes.fromhex(CALL.format(xid=xid, procedure=2) + LOCK.format(caller=caller, handle=handle, block=block, length=length))


def unlock(xid, caller="61", handle="aabbccdd", length=10):
    return bytes.fromhex(CALL.format(xid=xid, procedure=4) + UNLOCK.format(caller=caller, handle=handle, length=length))


def granted(xid, caller, handle="aabbccdd", cookie="0000002a"):
    call = CALL.format(xid=xid, procedure=5)
    body = f"00000004 {cookie} 00000001 00000001 {caller}000000 00000004 {handle} 00000000 00000007 0000000000000000 000000000000000a"
    return bytes.fromhex(call + body)


def reply(xid, status, cookie=""):
    """A reply with a status of NLM."""
    return bytes.fromhex(f"{xid:08x} 00000001 00000000 00000000 00000000 00000000 {len(cookie) // 2:08x} {cookie} {status:08x}")


def marked(record):
    return struct.pack(">I", 0x80000000 | len(record)) + record


class Talk:
    """Writes the packets of connections of TCP over IPv4 in Ethernet, a millisecond apart, or as many nanoseconds as it is told."""

    def __init__(self, step=10**6):
        self.packets, self.sequences, self.time, self.step = [], {}, 10**18, step

    def segment(self, source, target, sequence, flags=ACK, data=b""):
        self.time += self.step
        frame = ethernet(0x0800, ipv4(source[0], target[0], 6, tcp(source[1], target[1], sequence, flags, data)))
        self.packets.append((self.time, frame))

    def datagram(self, source, target, data):
        self.time += self.step
        frame = ethernet(0x0800, ipv4(source[0], target[0], 17, udp(source[1], target[1], data)))
        self.packets.append((self.time, frame))

    def connect(self, client, server, first=1000, second=5000):
        self.segment(client, server, first, SYN)
        self.segment(server, client, second, SYN | ACK)
        self.sequences[client, server], self.sequences[server, client] = first + 1, second + 1

    def say(self, source, target, data):
        sequence = self.sequences[source, target]
        self.segment(source, target, sequence, PSH | ACK, data)
        self.sequences[source, target] = sequence + len(data)

    def close(self, source, target):
        self.segment(source, target, self.sequences[source, target], FIN | ACK)
