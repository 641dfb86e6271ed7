"""The Network Lock Manager, version 4 (XNFS C702, chapter 14): its calls and results, as bytes and in words.

A protocol's module has PROGRAM and VERSION, and these functions, which the tools call by `protocols`:

- `USAGES`: the words of its calls and how each is used; `make(name, given, files)`: procedure and arguments of one;
- `call_in_words(procedure, arguments, files, cookie)`: the same words again;
- `results_in_words(procedure, results, cookie)`: what an answer says, `answer_in_words` that of a client;
- `asks_server(procedure)`, `calls_back(procedure)`: which calls clients make, and which servers;
- `cookie_of`: what an answer repeats.

`with_handles` is the arguments with each file's handle changed, `caller_of` who may have to be called back, `told_in_words`
what such a call tells of.
"""
from xlock import words
from xlock.words import WordError, bytes_of, word_of
from xlock.xdr import Reader, XdrError, boolean, i32, opaque, u32, u64

PROGRAM, VERSION = 100021, 4
NULL, TEST, LOCK, CANCEL, UNLOCK, GRANTED = 0, 1, 2, 3, 4, 5
SHARE, UNSHARE, NM_LOCK, FREE_ALL = 20, 21, 22, 23
TEST_MSG, LOCK_MSG, CANCEL_MSG, UNLOCK_MSG, GRANTED_MSG = 6, 7, 8, 9, 10
STATUSES = [
    "GRANTED", "DENIED", "DENIED_NOLOCKS", "BLOCKED", "DENIED_GRACE_PERIOD",
    "DEADLCK", "ROFS", "STALE_FH", "FBIG", "FAILED",
]  # fmt: skip
MOST_TEXT = 1024
# The asynchronous procedures have the arguments of the others.
ARGUMENTS_OF = {TEST_MSG: TEST, LOCK_MSG: LOCK, CANCEL_MSG: CANCEL, UNLOCK_MSG: UNLOCK, GRANTED_MSG: GRANTED}
NAMES = {
    NULL: "null", TEST: "test", LOCK: "lock", CANCEL: "cancel", UNLOCK: "unlock", GRANTED: "granted",
    SHARE: "share", UNSHARE: "unshare", NM_LOCK: "nm_lock", FREE_ALL: "free_all", TEST_MSG: "test_msg",
    LOCK_MSG: "lock_msg", CANCEL_MSG: "cancel_msg", UNLOCK_MSG: "unlock_msg", GRANTED_MSG: "granted_msg",
}  # fmt: skip
PROCEDURES = {name: number for number, name in NAMES.items()}


class Lock:
    """nlm4_lock."""

    def __init__(self, caller, handle, owner, svid, offset, length):
        self.caller, self.handle, self.owner = caller, handle, owner
        self.svid, self.offset, self.length = svid, offset, length

    @staticmethod
    def read(reader):
        return Lock(*(reader.opaque(MOST_TEXT) for _ in range(3)), reader.i32(), reader.u64(), reader.u64())

    def bytes(self):
        names = opaque(self.caller) + opaque(self.handle) + opaque(self.owner)
        return names + i32(self.svid) + u64(self.offset) + u64(self.length)


# ---- arguments: a dictionary of what stands in them, in the order of the standard

def _rights(number):
    if number > 3:
        raise XdrError("a mode or an access is above 3")
    return {letter for letter, bit in (("r", 1), ("w", 2)) if number & bit}


def _rights_number(rights):
    return ("r" in rights) * 1 + ("w" in rights) * 2


def read_arguments(procedure, arguments):
    """What stands in the arguments of a call. XdrError where they can't be read."""
    reader, said = Reader(arguments), {}
    form = ARGUMENTS_OF.get(procedure, procedure)
    if form in (TEST, LOCK, CANCEL, UNLOCK, GRANTED, NM_LOCK):
        said["cookie"] = reader.opaque(MOST_TEXT)
        if form in (LOCK, CANCEL, NM_LOCK):
            said["block"] = reader.boolean()
        if form != UNLOCK:
            said["exclusive"] = reader.boolean()
        said["lock"] = Lock.read(reader)
        if form in (LOCK, NM_LOCK):
            said["reclaim"], said["state"] = reader.boolean(), reader.i32()
    elif form in (SHARE, UNSHARE):
        for field in "cookie", "caller", "handle", "owner":
            said[field] = reader.opaque(MOST_TEXT)
        said["mode"], said["access"] = _rights(reader.u32()), _rights(reader.u32())
        said["reclaim"] = reader.boolean()
    elif form == FREE_ALL:
        said["caller"], said["state"] = reader.opaque(MOST_TEXT), reader.i32()
    elif form != NULL:
        raise XdrError("the procedure's arguments aren't known")
    reader.end()
    return said


def arguments_bytes(procedure, said):
    """The arguments that say this."""
    form, out = ARGUMENTS_OF.get(procedure, procedure), b""
    if form in (TEST, LOCK, CANCEL, UNLOCK, GRANTED, NM_LOCK):
        out += opaque(said["cookie"])
        if form in (LOCK, CANCEL, NM_LOCK):
            out += boolean(said["block"])
        if form != UNLOCK:
            out += boolean(said["exclusive"])
        out += said["lock"].bytes()
        if form in (LOCK, NM_LOCK):
            out += boolean(said["reclaim"]) + i32(said["state"])
    elif form in (SHARE, UNSHARE):
        out += b"".join(opaque(said[field]) for field in ("cookie", "caller", "handle", "owner"))
        out += u32(_rights_number(said["mode"])) + u32(_rights_number(said["access"])) + boolean(said["reclaim"])
    elif form == FREE_ALL:
        out += opaque(said["caller"]) + i32(said["state"])
    return out


# ---- from words

MARKS = " [oh=NAME] [cookie=NAME]"
RANGE = "CALLER SVID FILE OFFSET LENGTH"
USAGES = {
    "null": "",
    "test": RANGE + " x|s" + MARKS,
    "lock": RANGE + " x|s [block] [reclaim] [state=N]" + MARKS,
    "nm_lock": RANGE + " x|s [block] [reclaim] [state=N]" + MARKS,
    "cancel": RANGE + " x|s [block]" + MARKS,
    "unlock": RANGE + MARKS,
    "granted": RANGE + " x|s" + MARKS,
    "share": "CALLER FILE ACCESS DENY [reclaim]" + MARKS,
    "unshare": "CALLER FILE [ACCESS] [DENY] [reclaim]" + MARKS,
    "free_all": "CALLER [state=N]",
}


def _signed(word):
    return words.number_of(word, 2**31 - 1, -(2**31))


def _lock_said(positions, owner, files):
    caller, svid, file, offset, length = positions[:5]
    length = words.length_of(length)
    handle, offset = files.handle(file), words.number_of(offset)
    lock = Lock(bytes_of(caller), handle, owner, _signed(svid), offset, 0 if length is None else length)
    return {"lock": lock, "exclusive": len(positions) > 5 and words.is_exclusive(positions[5])}


def _share_said(positions, owner, files):
    caller, file, access, deny = (positions + ["-", "-"])[:4]
    said = {"caller": bytes_of(caller), "handle": files.handle(file), "owner": owner}
    return said | {"access": words.rights_of(access), "mode": words.rights_of(deny)}


def make(name, given, files):
    """The procedure and the arguments of a call in words."""
    positions, flags, options = words.Usage(name, USAGES[name]).read(given)
    owner = bytes_of(options.get("oh", "-"))
    said = {"cookie": bytes_of(options.get("cookie", "-")), "state": _signed(options.get("state", "0"))}
    said |= {flag: flag in flags for flag in ("block", "reclaim")}
    if USAGES[name].startswith(RANGE):
        said |= _lock_said(positions, owner, files)
    elif "share" in name:
        said |= _share_said(positions, owner, files)
    elif positions:
        said["caller"] = bytes_of(positions[0])
    return PROCEDURES[name], arguments_bytes(PROCEDURES[name], said)


# ---- into words

def _lock_words(lock, files):
    length = "end" if lock.length == 0 else str(lock.length)
    return [word_of(lock.caller), str(lock.svid), files.word(lock.handle), str(lock.offset), length]


def call_in_words(procedure, arguments, files, cookie=b""):
    """A call in the words that make it, its cookie only where it isn't this one. XdrError where its arguments can't be
    read."""
    said = read_arguments(procedure, arguments)
    out = [NAMES[procedure]]
    if "lock" in said:
        out += _lock_words(said["lock"], files)
        if "exclusive" in said:
            out.append(words.mode_word(said["exclusive"]))
    elif "handle" in said:
        out += [word_of(said["caller"]), files.word(said["handle"])]
        out += [words.rights_word(said["access"]), words.rights_word(said["mode"])]
    elif "caller" in said:
        out.append(word_of(said["caller"]))
    out += [flag for flag in ("block", "reclaim") if said.get(flag)]
    owner = said["lock"].owner if "lock" in said else said.get("owner", b"")
    if owner:
        out.append("oh=" + word_of(owner))
    if said.get("state"):
        out.append(f"state={said['state']}")
    if said.get("cookie", cookie) != cookie:
        out.append("cookie=" + word_of(said["cookie"]))
    return " ".join(out)


def _status(reader):
    status = reader.u32()
    if status >= len(STATUSES):
        raise XdrError("the status is none")
    return STATUSES[status]


def _holder_words(reader):
    exclusive, svid, owner = reader.boolean(), reader.i32(), reader.opaque(MOST_TEXT)
    offset, length = reader.u64(), reader.u64()
    held = words.bytes_in_words(offset, None if length == 0 else offset + length - 1)
    mode = "exclusive" if exclusive else "shared"
    return f" held: {held}, {mode}, svid {svid}, oh {word_of(owner)}"


def results_in_words(procedure, results, cookie=b""):
    """What the results say; the cookie only where it isn't that of the call. XdrError where they can't be read."""
    if procedure in (NULL, FREE_ALL):
        Reader(results).end()
        return "done"
    reader = Reader(results)
    other = reader.opaque(MOST_TEXT)
    said = _status(reader)
    if procedure == TEST and said == "DENIED":
        said += _holder_words(reader)
    if procedure in (SHARE, UNSHARE):
        sequence = reader.i32()
        said += f" sequence={sequence}" if sequence else ""
    reader.end()
    return said if other == cookie else f"{said} cookie={word_of(other)}"


def granted_answer(number, status):
    """The results that a client answers to the server's call of this number."""
    if status.upper() not in STATUSES:
        raise WordError(f"{status} is none of {', '.join(STATUSES).lower()}")
    return opaque(u64(number)) + u32(STATUSES.index(status.upper()))


def answer_in_words(number, results):
    """What a client answers to the server's call of this number, as `granted_answer` makes it."""
    reader = Reader(results)
    if reader.opaque(MOST_TEXT) != u64(number):
        raise XdrError("the cookie is another")
    said = _status(reader).lower()
    reader.end()
    return said


# ---- what the tools on packets ask

def with_handles(procedure, arguments, change):
    """The arguments with each file's handle changed; as they are where they can't be read."""
    try:
        said = read_arguments(procedure, arguments)
    except XdrError:
        return arguments
    if "lock" in said:
        said["lock"].handle = change(said["lock"].handle)
    elif "handle" in said:
        said["handle"] = change(said["handle"])
    return arguments_bytes(procedure, said)


def asks_server(procedure):
    """A call that a client makes. The others are GRANTED and the results of asynchronous calls."""
    return procedure not in (GRANTED, GRANTED_MSG) and not 11 <= procedure <= 15


def calls_back(procedure):
    return procedure in (GRANTED, GRANTED_MSG)


def cookie_of(procedure, arguments):
    try:
        return read_arguments(procedure, arguments).get("cookie", b"")
    except XdrError:
        return b""


def caller_of(procedure, arguments):
    """The caller name of a lock that may have to be called back, else None."""
    if procedure not in (LOCK, NM_LOCK, LOCK_MSG):
        return None
    try:
        return read_arguments(procedure, arguments)["lock"].caller
    except XdrError:
        return None


def told_in_words(procedure, arguments, change, files):
    """What a call back tells of, with the handle changed and without its cookie, in the words of GRANTED."""
    try:
        said = read_arguments(procedure, with_handles(procedure, arguments, change))
    except XdrError:
        return "0x" + arguments.hex()
    said["cookie"] = b""
    return call_in_words(GRANTED, arguments_bytes(GRANTED, said), files)
