"""NLM in recorded sessions, and calls of ONC RPC that no protocol here knows. Nothing but the handles is the server's."""
from xlock import nlm, protocols, rpc
from xlock.xdr import Reader, XdrError, opaque, u64

NO_ANSWER = "no answer"


def module_of(call):
    """The module of a call that this one takes care of."""
    module = call and protocols.of_call(call)
    return module if module is nlm else None


def survey(request, things):
    """What a call and its reply say of files: that there is one, unless the answer is that the handle is stale."""
    def appears(handle):
        thing = things.of_handle(handle)
        thing.exists = thing.exists or not is_stale
        return handle

    if module_of(request.call):
        is_stale = bool(request.replies) and answer_in_words(request.replies[0].data, request.call) == "STALE_FH"
        nlm.with_handles(request.call.procedure, request.call.arguments, appears)


class Changer:
    """Changes the handles of calls."""

    def __init__(self, session):
        self.things, self.ids = session.things, session.ids
        self.waiting = set()
        """The locks that wait, each by its words: ours draws a number for each."""

    def changed(self, request):
        message, call = request.message, request.call
        if module_of(call):
            change = lambda handle: self.things.handle_of(self.things.of_handle(handle))
            message = call.head + nlm.with_handles(call.procedure, call.arguments, change)
        return message, rpc.framed(message), []

    def answered(self, request, asked, reply):
        """No reply of NLM brings an id, but ours draws a number for one that waits."""
        if module_of(request.call) and answer_in_words(reply.data, request.call) == "BLOCKED":
            said = nlm.call_in_words(request.call.procedure, request.call.arguments, self.things.files, None)
            if said not in self.waiting:
                self.waiting.add(said)
                self.ids.draw()
        elif module_of(request.call) and request.call.procedure == nlm.UNLOCK:
            self.waiting.clear()  # some may have been granted, which then may wait anew


def caller_of(request):
    """The caller name of a lock that may have to be called back, else None."""
    return nlm.caller_of(request.call.procedure, request.call.arguments) if module_of(request.call) else None


def call_in_words(session, asked):
    call = rpc.read_call(asked.message)
    module = protocols.of_call(call)
    try:
        cookie = module.cookie_of(call.procedure, call.arguments)
        return module.call_in_words(call.procedure, call.arguments, session.things.files, cookie)
    except XdrError:
        return f"call {call.program} {call.version} {call.procedure} 0x{call.arguments.hex()}"


def answer_in_words(record, call):
    """What a reply says, in words that are compared."""
    if record is None:
        return NO_ANSWER
    try:
        reply = rpc.read_reply(record)
        if reply.verdict != "SUCCESS":
            return reply.verdict
        return nlm.results_in_words(call.procedure, reply.results, nlm.cookie_of(call.procedure, call.arguments))
    except XdrError:
        return "bytes 0x" + record.hex()


def difference(session, asked, ours):
    """What both answered; None where a call isn't compared: another program's, or one whose answer wasn't captured."""
    call = asked.request.call
    if not module_of(call) or not asked.request.replies:
        return None
    our = ours.replies.get((asked.connection, asked.place))
    return answer_in_words(asked.request.replies[0].data, call), answer_in_words(our, call)


def told_in_words(session, call, is_ours):
    change = (lambda handle: handle) if is_ours else session.things.ours
    return nlm.told_in_words(call.procedure, call.arguments, change, session.things.files)


def answer_to(number, record):
    """A client's reply to a call of GRANTED, as one to ours of this number."""
    try:
        reply = rpc.read_reply(record)
        reader = Reader(reply.results)
        reader.opaque(nlm.MOST_TEXT)
    except XdrError:
        return record
    if reply.verdict != "SUCCESS":
        return record
    return rpc.success_bytes(number % 2**32, opaque(u64(number)) + reader.rest())


def answer_in_words_to(told):
    """The status that a client answered to a call of GRANTED; None where it answered none."""
    try:
        reply = rpc.read_reply(told.record) if told.record is not None else None
        if reply and reply.verdict == "SUCCESS":
            return nlm.results_in_words(told.call.procedure, reply.results).split()[0]
    except XdrError:
        pass
    return None
