"""Streams of TCP (RFC 9293), put together from segments in any order, sent again, overlapping."""
from xlock.packets import FIN, RST, SYN

HALF = 2**31


class Stream:
    """One direction of a connection. Bytes come out in order, each once: of segments that overlap the one that was
    captured first counts."""

    def __init__(self):
        self.next = None
        """The number of the next byte, not cut to 32 bits; None before the first segment."""
        self.waiting = {}
        """Bytes that came before those in front of them, by the number of their first."""
        self.finish = None
        """The number past the last byte, once it is known."""
        self.first = None
        """The number in 32 bits of its first byte, where the beginning was seen."""

    def add(self, segment):
        """The pieces that are in order with this segment."""
        if segment.flags & SYN:
            if self.next is None:
                self.first = (segment.sequence + 1) % 2**32
                self.next = self.first + 2**32
            start = self.place(segment.sequence + 1)
        elif self.next is None:
            start = self.next = segment.sequence + 2**32
        else:
            start = self.place(segment.sequence)
        if segment.data:
            self.keep(start, segment.data)
        if segment.flags & FIN:
            self.finish = start + len(segment.data) + segment.lost
        return list(self.in_order())

    def place(self, sequence):
        """The number of 32 bits as the one nearest to the next byte's."""
        return self.next + (sequence - self.next + HALF) % 2**32 - HALF

    def keep(self, start, data):
        """Keeps those of the bytes that are new."""
        if start < self.next:
            data, start = data[self.next - start :], self.next
        for place, held in sorted(self.waiting.items()):
            end = place + len(held)
            if start < end and place < start + len(data):
                if start < place:
                    self.waiting[start] = data[: place - start]
                data, start = data[end - start :], end
        if data:
            self.waiting[start] = data

    def in_order(self):
        while self.waiting and min(self.waiting) == self.next:
            start = self.next
            data = self.waiting.pop(start)
            self.next += len(data)
            yield data

    @property
    def has_ended(self):
        return self.finish is not None and self.next is not None and self.next >= self.finish

    @property
    def missing(self):
        """How many bytes are missing before those that wait."""
        return min(self.waiting) - self.next if self.waiting else 0


class Connection:
    """A connection of TCP: the two ends, and a stream from each."""

    def __init__(self, first, second):
        self.streams = {first: Stream(), second: Stream()}
        self.was_reset = False

    def is_over(self):
        return self.was_reset or all(stream.has_ended for stream in self.streams.values())

    def add(self, segment):
        """The pieces that are in order with this segment, from its source."""
        if segment.flags & RST:
            self.was_reset = True
            return []
        return self.streams[segment.source].add(segment)


class Connections:
    """The connections of a capture. Each has its ends as key, and a count where the same two connect again."""

    def __init__(self):
        self.counts, self.all = {}, {}

    def of(self, segment):
        """The connection of a segment, and its key."""
        ends = frozenset([segment.source, segment.target])
        held = self.all.get((ends, self.counts.get(ends)))
        if held is None or (segment.flags & SYN and self._begins_anew(held, segment)):
            self.counts[ends] = self.counts.get(ends, 0) + 1
            held = self.all[ends, self.counts[ends]] = Connection(segment.source, segment.target)
        return (ends, self.counts[ends]), held

    @staticmethod
    def _begins_anew(held, segment):
        """A beginning of another connection between the same ends, not the same beginning sent again."""
        stream = held.streams[segment.source]
        if stream.next is None:
            return held.is_over()
        return stream.first != (segment.sequence + 1) % 2**32
