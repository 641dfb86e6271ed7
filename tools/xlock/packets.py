"""Packets: from the link layer to the segments of TCP (RFC 9293) and the datagrams of UDP (RFC 768)."""
import ipaddress
import struct
from dataclasses import dataclass

FIN, SYN, RST = 1, 2, 4
TCP, UDP = 6, 17
IPV4, IPV6 = 0x0800, 0x86DD
VLAN_TAGS = (0x8100, 0x88A8, 0x9100)
# The families of the loopback link, as the systems number them.
FAMILIES = {2: IPV4, 10: IPV6, 24: IPV6, 28: IPV6, 30: IPV6}


@dataclass(frozen=True)
class Segment:
    """A segment of TCP, or a datagram of UDP."""

    protocol: int
    time: int
    source: tuple
    """Address and port."""
    target: tuple
    sequence: int
    flags: int
    data: bytes
    lost: int = 0
    """How many of its bytes weren't captured."""


def segment_of(packet):
    """The segment or datagram of a packet; None where it has none. A fragment of an IP packet counts as none."""
    try:
        kind, data = _network_layer(packet.link, packet.data)
        if kind == IPV4:
            return _ipv4(packet, data)
        if kind == IPV6:
            return _ipv6(packet, data)
    except (struct.error, IndexError, ValueError):
        pass  # what is cut too short to be read is passed over
    return None


def _ethernet_payload(kind, data):
    while kind in VLAN_TAGS:
        kind, data = struct.unpack_from(">H", data, 2)[0], data[4:]
    return kind, data


def _by_version(data):
    return {4: IPV4, 6: IPV6}.get(data[0] >> 4), data


def _by_family(data, orders):
    """A loopback link's header has the family in four bytes, on some in the order of the machine that captured."""
    for order in orders:
        family = struct.unpack_from(order + "I", data)[0]
        if family in FAMILIES:
            return FAMILIES[family], data[4:]
    return None, b""


def _network_layer(link, data):
    """The type of the network layer, as Ethernet has it, and the bytes behind the link's header."""
    if link == 1:  # Ethernet
        return _ethernet_payload(struct.unpack_from(">H", data, 12)[0], data[14:])
    if link == 0:  # BSD loopback
        return _by_family(data, "<>")
    if link == 108:  # OpenBSD loopback
        return _by_family(data, ">")
    if link in (12, 14, 101):  # raw IP
        return _by_version(data)
    if link == 228:
        return IPV4, data
    if link == 229:
        return IPV6, data
    if link == 113:  # Linux cooked
        return _ethernet_payload(struct.unpack_from(">H", data, 14)[0], data[16:])
    if link == 276:  # Linux cooked, version 2
        return _ethernet_payload(struct.unpack_from(">H", data, 0)[0], data[20:])
    return None, b""


def _ipv4(packet, data):
    if data[0] >> 4 != 4:
        return None
    head, total, fragment = (data[0] & 15) * 4, *struct.unpack_from(">H2xH", data, 2)
    if fragment & 0x3FFF:  # more fragments, or not the first
        return None
    source, target = (ipaddress.ip_address(data[at : at + 4]) for at in (12, 16))
    # A sender that leaves the cutting to its card has 0 as the length.
    end = total if total >= head else len(data)
    return _transport(packet, data[9], source, target, data[head:end], max(end - len(data), 0))


def _ipv6(packet, data):
    if data[0] >> 4 != 6:
        return None
    total, protocol = struct.unpack_from(">HB", data, 4)
    source, target = (ipaddress.ip_address(data[at : at + 16]) for at in (8, 24))
    at, end = 40, 40 + total if total else len(data)
    while protocol in (0, 43, 44, 51, 60):  # extension headers
        if protocol == 44:
            if struct.unpack_from(">H", data, at + 2)[0] & 0xFFF9:
                return None
            count = 8
        else:
            count = (data[at + 1] + 2) * 4 if protocol == 51 else (data[at + 1] + 1) * 8
        protocol, at = data[at], at + count
    return _transport(packet, protocol, source, target, data[at:end], max(end - len(data), 0))


def _transport(packet, protocol, source, target, data, lost):
    if protocol not in (TCP, UDP):
        return None
    ports = struct.unpack_from(">HH", data)
    ends = (source, ports[0]), (target, ports[1])
    if protocol == UDP:
        return Segment(UDP, packet.time, *ends, 0, 0, data[8:], lost)
    sequence, offset, flags = struct.unpack_from(">I4xBB", data, 4)
    return Segment(TCP, packet.time, *ends, sequence, flags, data[(offset >> 4) * 4 :], lost)
