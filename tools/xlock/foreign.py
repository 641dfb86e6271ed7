"""A session with another server, from a file of packets to a capture.

A `Recording` is what the packets say: who asked what, what was answered, and which files there are. A `Session` is a capture
of it: each request as ours may be asked it. Both leave the protocols to the modules `foreign_nlm`, `foreign_nfs` and
`foreign_smb`, each with a class that has

- `requests(conversation)`: the requests of a conversation, with their replies;
- `survey(request, things)`: what a request and its replies say of files;
- `Changer(session)`, whose `changed(request)` gives what ours is asked in its place, None where nothing is, and whose
  `answered(request, asked, reply)` learns the ids that a reply brings; `asked` is None where the request was left out;
- `difference(session, asked, ours)`: what both answered, and `call_in_words(session, asked)`: what was asked, in words.
"""
import ipaddress
from collections import Counter

from xlock import foreign_nfs, foreign_nlm, foreign_smb, nfs, nlm, protocols, rpc
from xlock.asked import Asked, Request, Told
from xlock.captures import MOST_OPEN, Writer
from xlock.conversations import Conversations
from xlock.replays import Ids, Ours, replayed
from xlock.things import MOST_FILES, Things
from xlock.xdr import XdrError, u32


class ForeignError(Exception):
    """A file of packets that comes to no capture."""


class Recording:
    """What a file of packets says: `chosen` are the conversations, `requests` what was asked in them, `steps` all that
    happened, in order, `things` the files, `told` the other server's calls back, `notes` what is missing."""

    def __init__(self, data, servers=(), one_tree=False):
        found = Conversations(data)
        self.notes = list(found.notes)
        self.chosen = [one for one in found.asked if self._is_chosen(one, servers)]
        self._check_servers()
        addresses = {conversation.server.end[0] for conversation in self.chosen if conversation.server.end}
        self.called_back = [one for one in found.called_back if one.client.end[0] in addresses]
        self.requests = [request for conversation in self.chosen for request in self._requests_of(conversation)]
        self.told = list(self._told())
        self.steps = sorted(self._steps(), key=lambda step: step[:3])
        self.things = Things()
        for *_, what, step in self.steps:
            if what == "request":
                step.protocol.survey(step, self.things)
        if one_tree:
            self.things.join_names()
        if not self.things.export():
            raise ForeignError(f"the calls name more than {MOST_FILES} files")

    @staticmethod
    def _is_chosen(conversation, servers):
        end = conversation.server.end or (None, None)
        return not servers or any(end[0] == address and port in (None, end[1]) for address, port in servers)

    def _check_servers(self):
        if not self.chosen:
            raise ForeignError("there are no calls of a protocol that is known")
        addresses = {str(conversation.server.end[0]) for conversation in self.chosen if conversation.server.end}
        if len(addresses) > 1:
            self.notes.append(f"the calls go to {', '.join(sorted(addresses))}; --server chooses")

    def _requests_of(self, conversation):
        if conversation.kind == "smb":
            return [Request(foreign_smb, conversation, *request) for request in foreign_smb.requests(conversation)]
        return list(self._calls_of(conversation))

    def _calls_of(self, conversation):
        """The calls of ONC RPC, each with the reply that its xid finds. A datagram that was sent again, since no answer came
        in time, is left out."""
        replies, seen = {}, set()
        for piece in conversation.server.messages:
            try:
                replies.setdefault(rpc.read_reply(piece.data).xid, []).append(piece)
            except XdrError:
                pass
        for piece in conversation.client.messages:
            if conversation.is_datagrams and piece.data in seen:
                self.notes.append(f"{conversation}: a call that was sent again is left out")
                continue
            seen.add(piece.data)
            request = Request(foreign_nlm, conversation, piece, piece.data)
            try:
                request.call = rpc.read_call(piece.data)
            except XdrError:
                yield request
                continue
            if protocols.of_call(request.call) is nfs:
                request.protocol = foreign_nfs
            request.replies = [found.pop(0)] if (found := replies.get(request.call.xid)) else []
            yield request

    def _steps(self):
        """What happened in all conversations: the packet's number, the order within it by two numbers, what it was. The reply
        to a request that others follow in its packet comes before these, as ours will."""
        last = len(self.requests)
        for place, request in enumerate(self.requests):
            yield request.piece.number, place, 0, "request", request
            for reply in request.replies:
                number = request.piece.number if request.is_followed else reply.number
                yield number, place, 1, "answer", (request, reply)
        for told in self.told:
            yield told.called, last, 0, "told", told
            if told.record is not None:
                yield told.number, last, 0, "called", told
        for conversation in self.chosen:
            for piece in conversation.client.rest:
                yield piece.number, last, 1, "rest", (conversation, piece)
            if conversation.client.finish:
                yield conversation.client.finish.number, last, 2, "end", (conversation, conversation.client.finish)

    def _told(self):
        """The other server's calls back: what each tells of, and what was answered, where that was captured."""
        for conversation in self.called_back:
            for request in self._calls_of(conversation):
                module = request.call and (protocols.of_call(request.call) or nfs)
                if module and module.calls_back(request.call.procedure):
                    reply = [(piece.data, piece.number) for piece in request.replies]
                    yield Told(request.call, module, request.piece.number, *(reply[0] if reply else ()))

    def has_ids(self):
        """Whether replies brought ids that later requests name."""
        return any(request.protocol is not foreign_nlm for request in self.requests)


def universal_address(address, port):
    """An address and a port as RFC 5665 section 5.2.3.3 writes them."""
    return f"{address}.{port >> 8}.{port & 255}"


class Session:
    """A capture of a recording: `writer` has it, `asked` its messages, `left_out` how often what was left out. Its ids are
    those that ours answered in a replay of the capture, or those that are counted where none is known."""

    def __init__(self, recording, ours=None, times=False, without_delegations=False, lines=None):
        self.recording, self.things = recording, recording.things
        self.times, self.without_delegations = times, without_delegations
        self.ids, self.lines_replayed, self.compared = Ids(ours), lines, 0
        self.writer, self.asked, self.left_out = Writer(), [], Counter()
        self.writer.capture.files = self.things.files
        self.numbers, self.ended, self.began, self.moment, self.by_request = {}, set(), None, 0, {}
        self.called = {}
        """Of our calls that a client answers in the capture: what told of each."""
        self.changers = {module: module.Changer(self) for module in (foreign_nlm, foreign_nfs, foreign_smb)}
        self.notes = list(recording.notes)
        for *_, what, step in recording.steps:
            getattr(self, "_take_" + what)(step)
        self._name_callers()
        for line in self.things.table() + self._left_out_in_words():
            self.writer.note(line)

    def _write(self, act, *given):
        """Writes a line, and sees whether the capture still is that which was replayed."""
        act(*given)
        if self.ids.is_replayed and self.lines_replayed is not None:
            begin, self.compared = self.compared, len(self.writer.lines)
            self.ids.is_replayed = self.writer.lines[begin:] == self.lines_replayed[begin : self.compared]
        self.ids.place = self.writer.place

    def _take_request(self, request):
        changed = self.changers[request.protocol].changed(request)
        if changed is None or not self._connection(request.conversation, request.piece):
            return
        message, framed, kept = changed
        number = self.numbers[id(request.conversation)]
        self.by_request[id(request)] = Asked(self.writer.place, number, request, message, kept)
        self.asked.append(self.by_request[id(request)])
        self._write(self.writer.bytes, number, framed)

    def _take_answer(self, step):
        request, reply = step
        self.changers[request.protocol].answered(request, self.by_request.get(id(request)), reply)

    def _take_told(self, told):
        """Ours draws a number for such a call too."""
        self.ids.draw()

    def _take_called(self, told):
        """A client's answer to the other server's call goes to ours that tells of the same, where ours made one by then."""
        made = self.ids.ours.calls if self.ids.is_replayed else []
        wanted = self.told_in_words(told.call, is_ours=False)
        for out in made:
            is_open = out.place < self.writer.place and out.call not in self.called
            if is_open and self.told_in_words(rpc.read_call(out.data), is_ours=True) == wanted:
                self.called[out.call] = told
                reply = foreign_nlm.answer_to(out.call, told.record) if told.module is nlm else told.record
                self._write(self.writer.called, out.call, u32(out.call) + reply[4:])
                return

    def told_in_words(self, call, is_ours):
        """What a call back tells of; None of one that tells nothing."""
        module = foreign_nlm if protocols.of_call(call) is nlm else foreign_nfs
        return module.told_in_words(self, call, is_ours)

    def refused(self):
        """What is said of each call of GRANTED that a client refused, where that isn't in the capture."""
        for told in self.recording.told:
            answer = foreign_nlm.answer_in_words_to(told) if told.module is nlm else None
            if answer not in (None, "GRANTED") and told not in self.called.values():
                said = self.told_in_words(told.call, is_ours=False)
                yield f"a client answered {answer} to the call {said}; this isn't in the capture"

    def _take_rest(self, step):
        conversation, piece = step
        if self._connection(conversation, piece):
            self._write(self.writer.bytes, self.numbers[id(conversation)], piece.data)

    def _take_end(self, step):
        conversation, piece = step
        key = id(conversation)
        if key in self.numbers and key not in self.ended:
            self._pass_time(piece.time)
            self._write(self.writer.end, self.numbers[key])
            self.ended.add(key)

    def _connection(self, conversation, piece):
        """Whether a conversation's connection is open; the first message of one opens it."""
        key = id(conversation)
        if key in self.ended:
            return False
        self._pass_time(piece.time)
        if key not in self.numbers:
            if len(self.writer.capture.cutters) == MOST_OPEN:
                self.notes.append(f"{conversation}: {MOST_OPEN} connections are open already, and this one is refused")
            self.writer.comment(str(conversation))
            self._write(self._open, conversation)
        return True

    def _open(self, conversation):
        self.numbers[id(conversation)] = self.writer.open(conversation.kind)

    def _pass_time(self, time):
        if self.began is None:
            self.began = time
        moment = (time - self.began) // 10**6
        if self.times and moment > self.moment:
            self.moment = moment
            self._write(self.writer.line, f"T {moment}")

    def leaves_out(self, whats):
        """What the next message lacks, as a comment above it."""
        if whats:
            self.left_out.update(whats)
            self.writer.comment("left out here: " + ", ".join(whats))

    def _left_out_in_words(self):
        return [f"left out: {what} ({count})" for what, count in sorted(self.left_out.items())]

    def said(self):
        """What is told of the capture beside it."""
        return self.things.table() + self._left_out_in_words() + self.notes + list(self.refused())

    def _name_callers(self):
        """The addresses of those who may have to be called back: the port is that at which the other server did so, 0
        where it didn't."""
        called = self.recording.called_back
        ports = dict(conversation.server.end for conversation in called if conversation.server.end)
        for asked in self.asked:
            caller = foreign_nlm.caller_of(asked.request) if asked.request.protocol is foreign_nlm else None
            if caller is not None:
                address = asked.request.conversation.client.end[0]
                self.writer.address(caller, universal_address(address, ports.get(address, 0)))


def learned(recording, program, **options):
    """The session with the ids that the built program answers, and the transcript of its replay. Each replay tells the ids up
    to the first request that named another than the one before, so one more is made until the capture stays as it is."""
    session = Session(recording, **options)
    while True:
        transcript = replayed(program, session.writer.text())
        following = Session(recording, ours=Ours(transcript), lines=session.writer.lines, **options)
        if following.writer.lines == session.writer.lines:
            return following, transcript
        session = following


def server_of(word):
    """An address, with a port behind a blank or, of IPv4, a colon where one is meant."""
    address, mark, port = word.partition(":") if word.count(":") == 1 else (word, "", "")
    return ipaddress.ip_address(address), int(port) if mark else None

