"""Conversations: which messages a client and a server exchanged in a file of packets, in the order in which they were
whole."""
from dataclasses import dataclass, field

from xlock import nfs, nfs_ops, nlm, pcap, protocols, rpc, smb
from xlock.packets import FIN, UDP, segment_of
from xlock.streams import Connections
from xlock.xdr import XdrError



class Records(rpc.RecordCutter):
    """Cuts other servers' streams, which may have longer records than ours takes: of what is read and written."""

    MOST_BYTES, MOST_FRAGMENTS = 2**24, 2**16


class Frames(smb.FrameCutter):
    MOST_BYTES = 2**24


# Of each kind of connection: what cuts a stream into messages, and what tells where one may begin.
KINDS = {"rpc": (Records, rpc.begins_a_record), "smb": (Frames, smb.begins_a_message)}


@dataclass(frozen=True)
class Piece:
    """A message, or bytes that are none."""

    number: int
    """Of the packet with which it was whole."""
    time: int
    data: bytes


@dataclass
class Side:
    """What one end of a connection sent."""

    end: tuple | None
    """Address and port; None where nothing came from there."""
    messages: list = field(default_factory=list)
    rest: list = field(default_factory=list)
    """Bytes from a bad frame on."""
    finish: Piece | None = None
    """The packet that ended it."""
    cutter: object = None
    missing: int = 0
    """How many bytes weren't captured, before some that were."""

    def add(self, data, kind, is_whole, number, time):
        """Bytes of the stream. Of one whose beginning wasn't seen those before the first message are passed over."""
        make, begins = KINDS[kind]
        if self.cutter is None and (is_whole or begins(data)):
            self.cutter = make()
        if self.cutter is None:
            return
        if not self.cutter.is_bad:
            self.messages += [Piece(number, time, message) for message in self.cutter.feed(data)]
            data = self.cutter.held
        if self.cutter.is_bad:
            self.rest.append(Piece(number, time, data))


@dataclass
class Conversation:
    kind: str
    """rpc or smb."""
    is_datagrams: bool
    client: Side
    server: Side

    def __str__(self):
        ends = ("?" if side.end is None else f"{side.end[0]} port {side.end[1]}" for side in (self.client, self.server))
        return " to ".join(ends)


def _calls(side):
    """The calls that a side sent."""
    for piece in side.messages:
        try:
            yield rpc.read_call(piece.data)
        except XdrError:
            pass


def _asks(side, kind):
    """Whether a side asks something of a server."""
    if kind == "smb":
        return side.end is not None and side.end[1] != smb.PORT and bool(side.messages)
    known = ((call, protocols.of_call(call)) for call in _calls(side))
    return any(module.asks_server(call.procedure) for call, module in known if module)


def _programs_of(side):
    """The programs by which the clients of NFSv4 on this side want to be called back."""
    calls = (call for call in _calls(side) if protocols.of_call(call) is nfs)
    return {program for call in calls for program in nfs_ops.callback_programs(call.arguments)}


def _calls_back(side, programs):
    """Whether a side calls a client back, by NLM or by one of the programs that clients of NFSv4 named."""
    for call in _calls(side):
        module = nlm if protocols.of_call(call) is nlm else nfs if call.program in programs else None
        if module and module.calls_back(call.procedure):
            return True
    return False


class Conversations:
    """What is known of a file of packets: `asked` are the conversations of clients with servers, in the order of their
    first messages; in those of `called_back` a server calls a client, and stands as the client. `notes` say what is
    missing."""

    def __init__(self, data):
        self.asked, self.called_back, self.notes = [], [], []
        self._sides, self._connections, passed_over = {}, Connections(), 0
        for number, packet in enumerate(pcap.packets(data)):
            segment = segment_of(packet)
            if segment is None:
                passed_over += 1
            elif segment.protocol == UDP:
                self._datagram(number, segment)
            else:
                self._segment(number, segment)
        if passed_over:
            self.notes.append(f"{passed_over} packets with no segment of TCP or datagram of UDP were passed over")
        self._judge()
        self.asked.sort(key=lambda conversation: conversation.client.messages[0].number)

    def _side(self, key, end):
        return self._sides.setdefault(key, {}).setdefault(end, Side(end))

    def _datagram(self, number, segment):
        side = self._side(("rpc", True, frozenset([segment.source, segment.target])), segment.source)
        if not segment.lost:
            side.messages.append(Piece(number, segment.time, segment.data))

    def _segment(self, number, segment):
        ends, connection = self._connections.of(segment)
        kind = "smb" if smb.PORT in (segment.source[1], segment.target[1]) else "rpc"
        side = self._side((kind, False, ends), segment.source)
        other = self._side((kind, False, ends), segment.target)
        if connection.was_reset:
            return
        for data in connection.add(segment):
            is_whole = connection.streams[segment.source].first is not None
            side.add(data, kind, is_whole, number, segment.time)
        end = Piece(number, segment.time, b"")
        if segment.flags & FIN:
            side.finish = side.finish or end
        if connection.was_reset:
            side.finish, other.finish = side.finish or end, other.finish or end
        side.missing = connection.streams[segment.source].missing

    def _judge(self):
        """Tells conversations of clients from those in which a server calls one back."""
        others = []
        for (kind, is_datagrams, _), sides in self._sides.items():
            sides = list(sides.values()) + [Side(None)] * (len(sides) == 1)
            both = [Conversation(kind, is_datagrams, *sides), Conversation(kind, is_datagrams, *sides[::-1])]
            asked = next((one for one in both if _asks(one.client, kind)), None)
            self.asked += [asked] if asked else []
            others += [] if asked or kind == "smb" else [both]
        programs = {program for conversation in self.asked for program in _programs_of(conversation.client)}
        for both in others:
            self.called_back += [one for one in both if _calls_back(one.client, programs)][:1]
        for conversation in self.asked + self.called_back:
            self._note_missing(conversation)

    def _note_missing(self, conversation):
        for side in conversation.client, conversation.server:
            if side.missing:
                what = f"{conversation}: {side.missing} bytes from {side.end[0]} weren't captured"
                self.notes.append(what + ", and what follows them is left out")
