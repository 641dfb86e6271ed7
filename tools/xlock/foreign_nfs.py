"""NFSv4.0 in recorded sessions. Handles, names, clientids and stateids become ours; what ours doesn't serve is left out."""
from xlock import nfs, nfs_ops, rpc, words
from xlock.nfs import CLOSE, COMPOUND, CONFIRM, DENIED, GET_FH, LOCK, LOCK_TEST, LOOKUP, OK, OPEN, OPEN_CONFIRM, OPEN_DOWNGRADE
from xlock.nfs import PUT_FH, PUT_ROOT_FH, RELEASE, RENEW, RETURN_DELEGATION, SET_CLIENT_ID, UNLOCK
from xlock.nfs_ops import CREATE, GET_ATTRIBUTES, LINK, LOOKUP_PARENT, OPEN_ATTRIBUTES, PUT_PUBLIC_FH, READ, READ_DIRECTORY
from xlock.nfs_ops import REMOVE, RENAME, RESTORE_FH, SAVE_FH, SECURITY, SERVED, SET_ATTRIBUTES, WRITE
from xlock.replays import NOBODY
from xlock.xdr import XdrError, opaque, u32, u64

EPOCH = 1
# The parts of stateids that stand for no state (RFC 7530 9.1.4.3).
SPECIAL = (bytes(12), b"\xff" * 12)
NO_ANSWER = "no answer"
NOENT = 2
# The statuses of an OPEN that tell that there is a file of its name: EXIST, ACCESS, DELAY and SHARE_DENIED.
OF_A_FILE = (OK, 13, 17, 10008, 10015)
# The operations that don't look at the current handle.
WITHOUT_HANDLE = {PUT_FH, PUT_ROOT_FH, PUT_PUBLIC_FH, RENEW, SET_CLIENT_ID, CONFIRM, RELEASE}
IN_A_DIRECTORY = {LOOKUP, CREATE, LINK, READ_DIRECTORY, REMOVE, RENAME, SECURITY, LOOKUP_PARENT}
OF_A_STATE = {CLOSE, LOCK, UNLOCK, OPEN, OPEN_CONFIRM, OPEN_DOWNGRADE}


def ops_of(call):
    """The operations of a COMPOUND of NFSv4.0; None where it is another call, or can't be read."""
    if call is None or call.procedure != COMPOUND:
        return None
    try:
        _, minor, ops = nfs_ops.read_ops(call.arguments)
    except XdrError:
        return None
    return ops if minor == 0 else None


def results_of(record):
    """The results in a reply to a COMPOUND; None where there is none that can be read."""
    try:
        reply = rpc.read_reply(record) if record else None
        return nfs_ops.read_results(reply.results)[1] if reply and reply.verdict == "SUCCESS" else None
    except XdrError:
        return None


def their_results(request):
    return results_of(request.replies[0].data) if request.replies else None


class Walk:
    """Goes through a COMPOUND as the other server did: before each operation `current` is what it is about."""

    def __init__(self, things, ops, results):
        self.things, self.ops, self.results = things, ops, results
        self.current = self.saved = self.target = None

    def steps(self):
        """Each operation with its place, its result, and whether it was done. Where no reply was captured all count as done."""
        for place, op in enumerate(self.ops):
            result = None
            if self.results is not None:
                result = self.results[place] if place < len(self.results) else None
            is_done = self.results is None or (result is not None and result.status == OK)
            self.target = self._target_of(op)
            yield place, op, result, is_done
            if op.number == SAVE_FH and is_done:
                self.saved = self.current
            elif is_done:
                self.current = self.target

    def _target_of(self, op):
        """What the operation makes the current one."""
        here = self.things.find(self.current) if self.current else None
        if op.number in (PUT_ROOT_FH, PUT_PUBLIC_FH):
            return self.things.root
        if op.number == PUT_FH:
            return self.things.of_handle(op.said["handle"])
        if here is None:
            return None
        if op.number in (LOOKUP, CREATE) or (op.number == OPEN and "name" in op.said):
            return self.things.child(here, name_of(op.said["name"]))
        if op.number == LOOKUP_PARENT:
            return self.things.parent_of(here)
        if op.number == OPEN_ATTRIBUTES:
            return self.things.child(here, None)
        return self.saved if op.number == RESTORE_FH else here


def name_of(data):
    try:
        return data.decode("ascii")
    except UnicodeDecodeError:
        return data


def survey(request, things):
    """What a COMPOUND and its reply say of files and directories."""
    ops = ops_of(request.call)
    if ops is None:
        return
    walk = Walk(things, ops, their_results(request))
    for _, op, result, is_done in walk.steps():
        if walk.current is not None:
            _look_at(op, result, is_done, things.find(walk.current), things)
        if is_done and walk.target is not None and op.number in (LOOKUP, PUT_FH, CREATE, OPEN):
            walk.target.exists = True
        if op.number == OPEN and "name" in op.said and walk.target and result and result.status in OF_A_FILE:
            walk.target.exists = True
        if is_done and walk.target and op.number in (CREATE, OPEN, OPEN_ATTRIBUTES):
            walk.target.is_directory = op.number != OPEN
        if is_done and walk.target and op.number in OF_A_STATE | {READ, WRITE}:
            _look_at_state(op, result, things.find(walk.target), things)


def _look_at_state(op, result, here, things):
    """The stateids that an operation names, or gives, stand for its thing."""
    named = [] if op.number == OPEN else [op.said["stateid"]]
    given = [result.said["stateid"]] if result and "stateid" in result.said else []
    for stateid in named + given:
        if stateid[4:] not in SPECIAL:
            things.has_state(things.find(here), stateid[4:])
    if op.number == CLOSE:  # it may stand for another open later
        things.states.pop(op.said["stateid"][4:], None)
        for stateid in given:
            things.states.pop(stateid[4:], None)


def _look_at(op, result, is_done, here, things):
    """What an operation on a thing says of it."""
    is_absent = result is not None and result.status == NOENT
    if op.number in IN_A_DIRECTORY or (op.number == OPEN and "name" in op.said):
        here.is_directory = here.is_directory or is_done or is_absent
    elif is_done and op.number in OF_A_STATE | {READ, WRITE}:
        here.is_directory = False
    if result is None or not is_done:
        return
    if op.number == GET_ATTRIBUTES and "type" in result.said:
        here.is_directory = result.said["type"] == nfs_ops.DIRECTORY
    if op.number == GET_FH:
        things.has_handle(here, result.said["handle"])


# ---- what ours is asked

class Changer:
    """Changes COMPOUNDs. `client_of` has the clientid of each stateid, as the other server counts them."""

    def __init__(self, session):
        self.session, self.things, self.ids = session, session.things, session.ids
        self.client_of = {}

    def changed(self, request):
        ops = ops_of(request.call)
        if ops is None:
            return request.message, rpc.framed(request.message), []
        out, kept, without = self._ops(request, ops)
        if ops and not out:
            return None
        self.session.leaves_out(without)
        tag = request.call.arguments[: 4 + (len(nfs.cookie_of(COMPOUND, request.call.arguments)) + 3) // 4 * 4]
        message = request.call.head + tag + u32(0) + u32(len(out)) + b"".join(out)
        return message, rpc.framed(message), kept

    def _ops(self, request, ops):
        """Our operations, the place of each in the other server's, and what is left out."""
        out, kept, without, have = [], [], [], None
        results = their_results(request)
        walk = Walk(self.things, ops, results)
        for place, op, result, is_done in walk.steps():
            own = self._op(op, result, is_done, walk)
            here = self.things.handle_of(self.things.find(walk.current)) if walk.current else None
            if own is None:
                without.append(self._left_out(op))
                own = self._renewal(op)
                if own:
                    out.append(own)
                    kept.append(None)
                if result is not None and result.status != OK:
                    without += [f"{nfs_ops.NAMES[one.number]}, behind one that failed" for one in ops[place + 1 :]]
                    break
                continue
            if op.number not in WITHOUT_HANDLE and here != have and here is not None:
                out.append(u32(PUT_FH) + opaque(here))
                kept.append(None)
                have = here
            out.append(own)
            kept.append(place)
            if op.number in (PUT_FH, PUT_ROOT_FH, PUT_PUBLIC_FH, LOOKUP, OPEN) and is_done and walk.target:
                have = self.things.handle_of(self.things.find(walk.target))
        return out, kept, without

    def _left_out(self, op):
        if op.number == LOOKUP:
            return "LOOKUP of a directory"
        return nfs_ops.NAMES[op.number]

    def _renewal(self, op):
        """Reading and writing by a stateid renews a lease (RFC 7530 9.5), so a RENEW stands in its place where time passes."""
        if not self.session.times or op.number not in (READ, WRITE, SET_ATTRIBUTES):
            return None
        client = self.client_of.get(op.said["stateid"][4:])
        return u32(RENEW) + self._client(client) if client else None

    def _op(self, op, result, is_done, walk):
        """An operation as ours is asked it; None where it is left out."""
        said = op.said
        if op.number == PUT_PUBLIC_FH:
            return u32(PUT_ROOT_FH)
        if op.number not in SERVED or (op.number == LOOKUP and is_done and walk.target and walk.target.is_directory):
            return None
        form = {
            PUT_FH: lambda: opaque(self.things.handle_of(self.things.of_handle(said["handle"]))),
            LOOKUP: lambda: opaque(self._name(walk.target, said["name"])),
            OPEN: lambda: self._open(op, result, walk),
            LOCK: lambda: self._lock(said),
            LOCK_TEST: lambda: said["range"] + self._owner(said),
            UNLOCK: lambda: said["type"] + said["seqid"] + self._stateid(said["stateid"]) + said["range"],
            CLOSE: lambda: said["seqid"] + self._stateid(said["stateid"]),
            OPEN_CONFIRM: lambda: self._stateid(said["stateid"]) + said["seqid"],
            OPEN_DOWNGRADE: lambda: self._stateid(said["stateid"]) + said["rest"],
            RETURN_DELEGATION: lambda: self._stateid(said["stateid"]),
            RENEW: lambda: self._client(said["client"]),
            CONFIRM: lambda: self._client(said["client"]) + self._confirm(said),
            SET_CLIENT_ID: lambda: self._set_client_id(op),
            RELEASE: lambda: self._owner(said),
        }.get(op.number, lambda: op.data)
        return u32(op.number) + form()

    def _name(self, thing, name):
        return self.things.name_of(thing).encode() if thing and isinstance(thing.name, str) else name

    def _owner(self, said):
        return self._client(said["client"]) + opaque(said["owner"])

    def _client(self, client):
        number = self.ids.get(("client", client))
        return client if number is None else u32(EPOCH) + u32(number)

    def _confirm(self, said):
        number = self.ids.get(("confirm", said["client"], said["verifier"]))
        return said["verifier"] if number is None else u64(number)

    def _stateid(self, stateid):
        """Our stateid; the seqid is that which the same reply brought."""
        number = self.ids.get(("state", stateid[4:]))
        if number is None:
            return stateid
        seqid = self.ids.get(("seqid", stateid)) if self.ids.is_replayed else None
        theirs = int.from_bytes(stateid[:4], "big")
        return u32(theirs if seqid in (None, NOBODY) else seqid) + u32(EPOCH) + u64(number)

    def _lock(self, said):
        head = said["type"] + said["reclaim"] + said["range"] + u32(said["is_new"])
        if not said["is_new"]:
            return head + self._stateid(said["stateid"]) + said["seqid"]
        return head + said["open_seqid"] + self._stateid(said["stateid"]) + said["seqid"] + self._owner(said)

    def _open(self, op, result, walk):
        """An OPEN that creates is asked as one that doesn't where the file is there in the end."""
        said, how = op.said, op.said["how_bytes"]
        is_there = walk.target is not None and walk.target.exists and (result is None or result.status != 17)
        if said["how"] is not None and is_there:
            how = u32(0)
            self.session.left_out["that an OPEN creates"] += 1
        claim = u32(said["claim"]) + said.get("delegation", b"")
        claim += self._stateid(said["stateid"]) if "stateid" in said else b""
        claim += opaque(self._name(walk.target, said["name"])) if "name" in said else b""
        return said["seqid"] + said["share"] + self._owner(said) + how + claim

    def _set_client_id(self, op):
        if not self.session.without_delegations:
            return op.data
        said = op.said
        callback = u32(0) + opaque(said["netid"]) + opaque(said["address"]) + u32(said["ident"])
        return said["verifier"] + opaque(said["id"]) + callback

    # ---- what replies bring

    def answered(self, request, asked, reply):
        results, ops = results_of(reply.data), ops_of(request.call)
        if asked is None or results is None or ops is None:
            return
        for own, place in enumerate(asked.kept):
            if place is not None and place < len(results) and results[place].status == OK:
                self._learn(asked, own, ops[place], results[place])

    def _learn(self, asked, own, op, result):
        """The ids that a result brings, and where ours stand in what ours answered."""
        def take(read):
            def taken(ours, place):
                record = ours.replies.get((asked.connection, asked.place)) if asked.place < place else None
                found = results_of(record)
                if found is None or own >= len(found) or found[own].status != OK:
                    return None
                return read(found[own].said)

            return taken

        if op.number == SET_CLIENT_ID:
            client, verifier = result.said["client"], result.said["verifier"]
            is_new = ("client", client) not in self.ids.sources
            self.ids.bring(("client", client), take(lambda said: _low(said["client"])), is_new)
            self.ids.bring(("confirm", client, verifier), take(lambda said: _low(said["verifier"])))
        if "stateid" in result.said:
            self._learn_state(result.said["stateid"], op, "stateid", take)
        if "delegation_stateid" in result.said:
            self._learn_state(result.said["delegation_stateid"], op, "delegation_stateid", take)

    def _learn_state(self, stateid, op, name, take):
        other = stateid[4:]
        client = op.said.get("client") or self.client_of.get(op.said.get("stateid", b"")[4:])
        self.client_of.setdefault(other, client)
        is_new = ("state", other) not in self.ids.sources
        self.ids.bring(("state", other), take(lambda said: _low(said[name]) if name in said else None), is_new)
        seqid = take(lambda said: int.from_bytes(said[name][:4], "big") if name in said else None)
        self.ids.sources["seqid", stateid] = seqid, None


def _low(data):
    return int.from_bytes(data[-4:], "big")


# ---- what both answered

def call_in_words(session, asked):
    call = rpc.read_call(asked.message)
    try:
        cookie = nfs.cookie_of(call.procedure, call.arguments)
        return nfs.call_in_words(call.procedure, call.arguments, session.things.files, cookie)
    except XdrError:
        pass
    ops = ops_of(call)
    if ops is None:
        return f"call {call.program} {call.version} {call.procedure} 0x{call.arguments.hex()}"
    return "compound of " + ", ".join(nfs_ops.NAMES[op.number] for op in ops)


def difference(session, asked, ours):
    """What both answered; None where it isn't compared."""
    request = asked.request
    if not request.replies:
        return None
    our = ours.replies.get((asked.connection, asked.place))
    changer = session.changers[request.protocol]
    their = _answer_in_words(request.replies[0].data, asked, changer, is_ours=False)
    return their, _answer_in_words(our, asked, changer, is_ours=True)


def _answer_in_words(record, asked, changer, is_ours):
    """What a reply says of the operations that both were asked, without the ids."""
    if record is None:
        return NO_ANSWER
    results = results_of(record)
    if results is None:
        return _verdict(record)
    if not asked.kept:
        return _verdict(record) if not ops_of(asked.request.call) else ""
    said, last = "", None
    for own, place in enumerate(asked.kept):
        at = own if is_ours else place
        if at is None or at >= len(results):
            continue
        last = results[at]
        said += _result_words(last, changer, is_ours)
        if last.status != OK:
            break
    if last is None:
        return "nothing of it was done"
    status = nfs.STATUSES.get(last.status, f"status {last.status}")
    at = f" at {nfs_ops.NAMES.get(last.number, 'an operation that is none')}" if last.status != OK else ""
    return status + at + said


def _verdict(record):
    try:
        reply = rpc.read_reply(record)
    except XdrError:
        return "bytes 0x" + record.hex()
    if reply.verdict != "SUCCESS":
        return reply.verdict
    return f"SUCCESS 0x{reply.results[:4].hex()}" if reply.results else "done"


def _result_words(result, changer, is_ours):
    said, things = result.said, changer.things
    if result.number == OPEN and result.status == OK:
        kind = {1: " read_delegation", 2: " write_delegation"}.get(said["delegation"], "")
        return " to_confirm" * (said["flags"] & nfs.TO_CONFIRM != 0) + kind
    if result.number == GET_FH and result.status == OK:
        return " handle=" + things.files.word(said["handle"] if is_ours else things.ours(said["handle"]))
    if result.status == DENIED and "denied" in said:
        return _holder_words(said["denied"], changer, is_ours)
    return ""


def _holder_words(held, changer, is_ours):
    mode = "x" if held["type"] in (2, 4) else "s"
    last = None if held["length"] == nfs.TO_THE_END else held["offset"] + held["length"] - 1
    client = held["client"] if is_ours else changer._client(held["client"])
    whose = "" if client == bytes(8) else f" of client {int.from_bytes(client[:4], 'big')}.{_low(client)}"
    return f" by {mode} {words.bytes_in_words(held['offset'], last)} of {words.word_of(held['owner'])}{whose}"


def told_in_words(session, call, is_ours):
    """A recall, without its stateid and the client's number of it; None of another call."""
    try:
        said = nfs.recall_in_words(call, session.things.files).split()
    except XdrError:
        return None
    file = said[2]
    if not is_ours and file.startswith("0x"):
        file = session.things.files.word(session.things.ours(bytes.fromhex(file[2:])))
    return f"recall {file} {' '.join(said[3:])}"


