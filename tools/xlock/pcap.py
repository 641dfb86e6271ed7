"""Files of packets: pcap, with times in micro- or nanoseconds and in either byte order, and pcapng."""
import struct
from dataclasses import dataclass


class PcapError(Exception):
    """Bytes that are no file of packets."""


@dataclass(frozen=True)
class Packet:
    link: int
    """The type of the link layer, as https://www.tcpdump.org/linktypes.html numbers them."""
    time: int
    """In nanoseconds since 1970."""
    data: bytes
    whole: bool
    """Whether the packet was captured to its end."""


def packets(data):
    """The packets of a file, in its order."""
    magic = data[:4]
    if magic == b"\x0a\x0d\x0d\x0a":
        return _pcapng(data)
    for order in "<", ">":
        for number, unit in (0xA1B2C3D4, 1000), (0xA1B23C4D, 1):
            if magic == struct.pack(order + "I", number):
                return _pcap(data, order, unit)
    raise PcapError("this is neither pcap nor pcapng")


def _pcap(data, order, unit):
    if len(data) < 24:
        raise PcapError("the file's header is cut")
    link = struct.unpack_from(order + "I", data, 20)[0] & 0x0FFFFFFF
    at = 24
    while at + 16 <= len(data):
        seconds, fraction, count, length = struct.unpack_from(order + "IIII", data, at)
        if at + 16 + count > len(data):
            return  # the file ends within a packet, as where its writer was stopped
        yield Packet(link, seconds * 10**9 + fraction * unit, data[at + 16 : at + 16 + count], count == length)
        at += 16 + count


def _options(data, order):
    """The options of a block, by their number."""
    options, at = {}, 0
    while at + 4 <= len(data):
        number, count = struct.unpack_from(order + "HH", data, at)
        if number == 0:
            break
        options[number] = data[at + 4 : at + 4 + count]
        at += 4 + count + -count % 4
    return options


@dataclass(frozen=True)
class _Interface:
    link: int
    most: int
    """How many bytes of a packet are captured at most; 0 for no such bound."""
    ticks: int
    """A second."""
    offset: int
    """Seconds."""


def _interface(body, order):
    link, _, most = struct.unpack_from(order + "HHI", body)
    options = _options(body[8:], order)
    resolution = options.get(9, b"\x06")[0]
    ticks = 2 ** (resolution & 0x7F) if resolution & 0x80 else 10**resolution
    offset = struct.unpack(order + "q", options[14])[0] if len(options.get(14, b"")) == 8 else 0
    return _Interface(link, most, ticks, offset)


def _time(interface, ticks):
    return interface.offset * 10**9 + ticks * 10**9 // interface.ticks


def _packet_of(kind, body, order, interfaces, last):
    """The packet of a block; None of a block of another kind."""
    if kind == 6:  # enhanced packet
        number, high, low, count, length = struct.unpack_from(order + "IIIII", body)
        interface = interfaces[number]
        return Packet(interface.link, _time(interface, high << 32 | low), body[20 : 20 + count], count == length)
    if kind == 3:  # simple packet: it has no time, so that of the packet before it stands
        length = struct.unpack_from(order + "I", body)[0]
        count = min(length, interfaces[0].most or length, len(body) - 4)
        return Packet(interfaces[0].link, last, body[4 : 4 + count], count == length)
    if kind == 2:  # packet, as files were once written
        number, _, high, low, count, length = struct.unpack_from(order + "HHIIII", body)
        interface = interfaces[number]
        return Packet(interface.link, _time(interface, high << 32 | low), body[20 : 20 + count], count == length)
    return None


def _pcapng(data):
    order, interfaces, at, last = "<", [], 0, 0
    while at + 12 <= len(data):
        if data[at : at + 4] == b"\x0a\x0d\x0d\x0a":  # a section begins, in an order of its own
            order = "<" if data[at + 8 : at + 12] == b"\x4d\x3c\x2b\x1a" else ">"
            interfaces = []
        kind, count = struct.unpack_from(order + "II", data, at)
        if count < 12 or count % 4:
            raise PcapError(f"the block at byte {at} has a length that no block has")
        if at + count > len(data):
            return
        body = data[at + 8 : at + count - 4]
        try:
            if kind == 1:
                interfaces.append(_interface(body, order))
            packet = _packet_of(kind, body, order, interfaces, last)
        except (struct.error, IndexError):
            raise PcapError(f"the block at byte {at} is cut, or names no interface") from None
        if packet:
            last = packet.time
            yield packet
        at += count
