"""Files of packets, links, and streams of TCP."""
import struct
import unittest

from tests import by_hand
from xlock.packets import TCP, UDP, segment_of
from xlock.pcap import Packet, PcapError, packets
from xlock.streams import Connections

TIMES = [(1_700_000_000_123_456_000, b"one"), (1_700_000_001_000_000_000, b"three")]


class Files(unittest.TestCase):
    def test_forms(self):
        files = [by_hand.pcap(TIMES, order=order, nanoseconds=fine) for order in "<>" for fine in (False, True)]
        files += [by_hand.pcapng(TIMES, order=order, resolution=fine) for order in "<>" for fine in (None, 6, 9)]
        for place, data in enumerate(files):
            found = list(packets(data))
            self.assertEqual([(packet.time, packet.data) for packet in found], TIMES, place)
            self.assertTrue(all(packet.link == 1 and packet.whole for packet in found))
            self.assertEqual(len(list(packets(data[:-3]))), 1, place)

    def test_other_blocks(self):
        # A resolution of powers of two and an offset; a simple packet; a packet of old; a block that is passed over.
        options = struct.pack("<HHB3xHHqHH", 9, 1, 0x8A, 14, 8, 100, 0, 0)
        data = by_hand.block(0x0A0D0D0A, struct.pack("<IHHq", 0x1A2B3C4D, 1, 0, -1))
        data += by_hand.block(1, struct.pack("<HHI", 101, 0, 4) + options)
        data += by_hand.block(2, struct.pack("<HHIIII", 0, 0, 0, 1536, 3, 3) + b"old")
        data += by_hand.block(5, bytes(16)) + by_hand.block(3, struct.pack("<I", 6) + b"simp")
        found = list(packets(data))
        self.assertEqual([(one.time, one.data, one.whole) for one in found], [(101_500_000_000, b"old", True), (101_500_000_000, b"simp", False)])

    def test_refused(self):
        for data in b"", b"GET / HTTP", by_hand.pcap([])[:20], by_hand.pcapng([])[:28] + bytes(16):
            with self.assertRaises(PcapError):
                list(packets(data))


def tcp(source, target, **how):
    make = by_hand.ipv6 if ":" in source else by_hand.ipv4
    return make(source, target, 6, by_hand.tcp(700, 2049, 5, by_hand.ACK, b"data"), **how)


class Links(unittest.TestCase):
    def test_links(self):
        four, six = tcp("10.0.0.1", "10.0.0.2"), tcp("fe80::1", "fe80::2")
        tag = struct.pack(">HH", 5, 0x0800)
        for link, data in [
            (1, by_hand.ethernet(0x0800, four + bytes(6))), (1, by_hand.ethernet(0x86DD, six)),
            (1, by_hand.ethernet(0x8100, tag + four)), (1, by_hand.ethernet(0x88A8, struct.pack(">HH", 5, 0x8100) + tag + four)),
            (0, b"\x02\0\0\0" + four), (0, b"\0\0\0\x02" + four), (0, b"\x1e\0\0\0" + six), (108, b"\0\0\0\x18" + six),
            (101, four), (101, six), (12, four), (228, four), (229, six),
            (113, bytes(14) + b"\x08\x00" + four), (276, b"\x86\xdd" + bytes(18) + six),
            (101, tcp("10.0.0.1", "10.0.0.2", options=bytes(8))),
            (101, tcp("fe80::1", "fe80::2", extensions=b"\x06\0" + bytes(6), first=0)),
            (101, tcp("fe80::1", "fe80::2", extensions=b"\x06\0\0\0" + bytes(4), first=44)),
        ]:  # fmt: skip
            segment = segment_of(Packet(link, 0, data, True))
            self.assertIsNotNone(segment, (link, data.hex()))
            self.assertEqual((segment.protocol, segment.source[1], segment.target[1]), (TCP, 700, 2049))
            self.assertEqual((segment.sequence, segment.data, segment.lost), (5, b"data", 0))

    def test_others(self):
        datagram = by_hand.ipv4("10.0.0.1", "10.0.0.2", 17, by_hand.udp(1, 2, b"x"))
        self.assertEqual(segment_of(Packet(101, 0, datagram, True)).protocol, UDP)
        cut = segment_of(Packet(101, 0, tcp("10.0.0.1", "10.0.0.2")[:-3], False))
        self.assertEqual((cut.data, cut.lost), (b"d", 3))
        for link, data in [
            (1, by_hand.ethernet(0x0806, bytes(28))), (101, tcp("10.0.0.1", "10.0.0.2", fragment=0x2000)),
            (101, tcp("10.0.0.1", "10.0.0.2", fragment=5)), (101, by_hand.ipv4("10.0.0.1", "10.0.0.2", 1, bytes(8))),
            (101, tcp("fe80::1", "fe80::2", extensions=b"\x06\0\0\x08" + bytes(4), first=44)), (101, b""), (1, b"short"),
            (147, tcp("10.0.0.1", "10.0.0.2")), (0, bytes(30)),
        ]:  # fmt: skip
            self.assertIsNone(segment_of(Packet(link, 0, data, True)), (link, data.hex()))


# Segments of one direction, each by the place of its first byte and its bytes, and what comes out.
STREAMS = [
    ([(0, "abc"), (3, "def")], "abcdef"),
    ([(3, "def"), (0, "abc")], "abcdef"),
    ([(0, "abc"), (0, "abc"), (3, "def"), (3, "def")], "abcdef"),
    ([(0, "abc"), (0, "abcdef")], "abcdef"),
    ([(0, "abc"), (1, "bcde"), (4, "ef")], "abcdef"),
    ([(2, "cd"), (4, "ef"), (1, "bcdef"), (0, "a")], "abcdef"),
    ([(4, "ef"), (2, "cdX"), (0, "ab")], "abcdef"),
    ([(5, "f"), (2, "c"), (0, "abXdeXg")], "abcdefg"),
    ([(0, "abc"), (4, "ef")], "abc"),
    ([(0, "abc"), (2, "X"), (3, "def")], "abcdef"),
]


class Streams(unittest.TestCase):
    def pieces(self, segments, first, begins=True):
        connections = Connections()
        if begins:
            segments = [(-1, "")] + segments
        out = ""
        for place, data in segments:
            flags = by_hand.SYN if place == -1 else by_hand.ACK
            packet = by_hand.ipv4("10.0.0.1", "10.0.0.2", 6, by_hand.tcp(9, 2049, first + place, flags, data.encode()))
            segment = segment_of(Packet(101, 0, packet, True))
            out += "".join(piece.decode() for piece in connections.of(segment)[1].add(segment))
        return out

    def test_streams(self):
        # Numbers that pass 2^32 among them.
        for first in 1001, 2**32 - 2, 2**32, 2**31:
            for segments, wanted in STREAMS:
                self.assertEqual(self.pieces(segments, first), wanted, (first, segments))

    def test_midst(self):
        # Without a beginning the first segment counts as one.
        self.assertEqual(self.pieces([(3, "def"), (0, "abc"), (6, "g")], 77, begins=False), "defg")

    def test_connections(self):
        connections = Connections()
        for sequence, flags, wanted in [
            (10, by_hand.SYN, 1), (10, by_hand.SYN, 1), (11, by_hand.ACK, 1), (900, by_hand.SYN, 2), (901, by_hand.RST, 2),
            (3, by_hand.SYN, 3),
        ]:  # fmt: skip
            packet = by_hand.ipv4("10.0.0.1", "10.0.0.2", 6, by_hand.tcp(9, 2049, sequence, flags, b""))
            segment = segment_of(Packet(101, 0, packet, True))
            (_, count), connection = connections.of(segment)
            connection.add(segment)
            self.assertEqual(count, wanted, sequence)
            self.assertEqual(connection.was_reset, flags == by_hand.RST)


if __name__ == "__main__":
    unittest.main()
