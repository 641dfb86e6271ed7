"""NFS version 4.0 (RFC 7530, RFC 7531): NULL, and COMPOUNDs of the operations that are served, as bytes and in words.

The functions are those that xlock/nlm.py lists; `nfs_ops` has all operations, also those that aren't served.
"""
from xlock import words
from xlock.words import WordError, bytes_of, word_of
from xlock.xdr import Reader, XdrError, opaque, u32, u64

PROGRAM, VERSION = 100003, 4
NULL, COMPOUND = 0, 1
CLOSE, RETURN_DELEGATION, GET_FH, LOCK, LOCK_TEST, UNLOCK, LOOKUP, OPEN = 4, 8, 10, 12, 13, 14, 15, 18
OPEN_CONFIRM, OPEN_DOWNGRADE, PUT_FH, PUT_ROOT_FH, RENEW, SET_CLIENT_ID, CONFIRM, RELEASE = 20, 21, 22, 24, 30, 35, 36, 39
ILLEGAL = 10044
# The version of a client's callback program, and its operation that recalls a delegation.
CALLBACK_VERSION, RECALL = 1, 4
OK, DENIED = 0, 10010
STATUSES = {
    0: "OK", 1: "PERM", 2: "NOENT", 5: "IO", 13: "ACCESS", 17: "EXIST", 20: "NOTDIR", 21: "ISDIR", 22: "INVAL", 27: "FBIG",
    28: "NOSPC", 30: "ROFS", 63: "NAMETOOLONG", 66: "NOTEMPTY", 69: "DQUOT", 70: "STALE", 10001: "BADHANDLE",
    10003: "BAD_COOKIE", 10004: "NOTSUPP", 10005: "TOOSMALL", 10006: "SERVERFAULT", 10007: "BADTYPE", 10008: "DELAY",
    10009: "SAME", 10010: "DENIED", 10011: "EXPIRED", 10012: "LOCKED", 10013: "GRACE", 10014: "FHEXPIRED",
    10015: "SHARE_DENIED", 10016: "WRONGSEC", 10017: "CLID_INUSE", 10018: "RESOURCE", 10019: "MOVED", 10020: "NOFILEHANDLE",
    10021: "MINOR_VERS_MISMATCH", 10022: "STALE_CLIENTID", 10023: "STALE_STATEID", 10024: "OLD_STATEID", 10025: "BAD_STATEID",
    10026: "BAD_SEQID", 10027: "NOT_SAME", 10028: "LOCK_RANGE", 10029: "SYMLINK", 10030: "RESTOREFH", 10031: "LEASE_MOVED",
    10032: "ATTRNOTSUPP", 10033: "NO_GRACE", 10034: "RECLAIM_BAD", 10035: "RECLAIM_CONFLICT", 10036: "BADXDR",
    10037: "LOCKS_HELD", 10038: "OPENMODE", 10039: "BADOWNER", 10040: "BADCHAR", 10041: "BADNAME", 10042: "BAD_RANGE",
    10043: "LOCK_NOTSUPP", 10044: "OP_ILLEGAL", 10045: "DEADLOCK", 10046: "FILE_OPEN", 10047: "ADMIN_REVOKED",
    10048: "CB_PATH_DOWN",
}  # fmt: skip
MOST_TEXT, MOST_HANDLE, MOST_ADDRESS = 1024, 128, 64
MOST_U32, TO_THE_END = 2**32 - 1, 2**64 - 1
# The types of a lock, by whether it is exclusive and whether its owner says that it waits (RFC 7531 nfs_lock_type4).
LOCK_TYPES = {(False, False): 1, (True, False): 2, (False, True): 3, (True, True): 4}
# The claims of an OPEN that have words: by name, and of what was open before the server's restart.
BY_NAME, PREVIOUS = 0, 1
RIGHTS = {"r": 1, "w": 2}
# The types of a delegation that an OPEN reclaims.
DELEGATIONS = {"read": 1, "write": 2}
# The flag of an OPEN's result that its owner has to confirm.
TO_CONFIRM = 2

USAGES = {"nfs_null": "", "compound": "OP [WORD ..] [then OP [WORD ..] ..] [tag=NAME]"}
# The operations in words: their numbers, and how each is used.
OPS = {
    "put_root_fh": (PUT_ROOT_FH, ""),
    "put_fh": (PUT_FH, "FILE"),
    "get_fh": (GET_FH, ""),
    "lookup": (LOOKUP, "NAME"),
    "set_client_id": (SET_CLIENT_ID, "ID [VERIFIER] [program=N] [netid=NAME] [address=NAME] [ident=N]"),
    "confirm": (CONFIRM, "CLIENTID CONFIRM"),
    "renew": (RENEW, "CLIENTID"),
    "open": (OPEN, "SEQID CLIENTID OWNER NAME ACCESS [DENY]"),
    "open_previous": (OPEN, "SEQID CLIENTID OWNER ACCESS [DENY] [delegation=read|write]"),
    "open_confirm": (OPEN_CONFIRM, "STATEID SEQID"),
    "open_downgrade": (OPEN_DOWNGRADE, "STATEID SEQID ACCESS [DENY]"),
    "close": (CLOSE, "SEQID STATEID"),
    "return_delegation": (RETURN_DELEGATION, "STATEID"),
    "lock": (LOCK, "OFFSET LENGTH x|s STATEID SEQID [wait] [reclaim]"),
    "first_lock": (LOCK, "OFFSET LENGTH x|s STATEID SEQID CLIENTID OWNER SEQID [wait] [reclaim]"),
    "lock_test": (LOCK_TEST, "OFFSET LENGTH x|s CLIENTID OWNER [wait]"),
    "unlock": (UNLOCK, "OFFSET LENGTH x|s STATEID SEQID [wait]"),
    "release_lock_owner": (RELEASE, "CLIENTID OWNER"),
    "op": (None, "NUMBER [BYTES]"),
}
# The first name of each number.
NAMES = {number: name for name, (number, _) in reversed(OPS.items()) if number}


# ---- from words

def _u32(word):
    return u32(words.number_of(word, MOST_U32))


def _clientid(word):
    epoch, _, number = word.partition(".")
    return _u32(epoch) + _u32(number)


def _stateid(word):
    """A stateid by its epoch, its number and its seqid."""
    epoch, number, seqid = (word.split(".") + ["", ""])[:3]
    return _u32(seqid) + _u32(epoch) + u64(words.number_of(number))


def _rights(word):
    return u32(sum(RIGHTS[letter] for letter in words.rights_of(word)))


def _share(given):
    """An access, and what is denied: nothing where no word says it."""
    return _rights(given[0]) + _rights(given[1] if len(given) > 1 else "-")


def _length(word):
    length = words.length_of(word)
    return u64(TO_THE_END if length is None else length)


def _type(word, flags):
    return u32(LOCK_TYPES[words.is_exclusive(word), "wait" in flags])


def _delegation(options):
    """The type of the delegation that is reclaimed, 0 where none is."""
    said = options.get("delegation")
    if said is not None and said not in DELEGATIONS:
        raise WordError(f"{said} is none of {', '.join(DELEGATIONS)}")
    return u32(DELEGATIONS.get(said, 0))


def _open(seqid, client, owner, share, claim):
    return _u32(seqid) + share + _clientid(client) + opaque(bytes_of(owner)) + u32(0) + claim


def _lock(given, flags, locker):
    return _type(given[2], flags) + u32("reclaim" in flags) + u64(words.number_of(given[0])) + _length(given[1]) + locker


def _verifier(word):
    return words.fixed_of(word, 8)


def _set_client_id_bytes(given, options):
    program, ident = (words.number_of(options.get(name, "0"), 2**32 - 1) for name in ("program", "ident"))
    callback = u32(program) + opaque(bytes_of(options.get("netid", "-"))) + opaque(bytes_of(options.get("address", "-")))
    return _verifier(given[1] if len(given) > 1 else "0") + opaque(bytes_of(given[0])) + callback + u32(ident)


def _op_bytes(given, files):
    """An operation in words."""
    if not given or given[0] not in OPS:
        raise WordError(f"an operation is one of {', '.join(OPS)}")
    name, (number, usage) = given[0], OPS[given[0]]
    given, flags, options = words.Usage(name, usage).read(given[1:])
    if number is None:
        return _u32(given[0]) + b"".join(map(bytes_of, given[1:]))
    return u32(number) + {
        "put_fh": lambda: opaque(files.handle(given[0])),
        "lookup": lambda: opaque(bytes_of(given[0])),
        "set_client_id": lambda: _set_client_id_bytes(given, options),
        "confirm": lambda: _clientid(given[0]) + _verifier(given[1]),
        "renew": lambda: _clientid(given[0]),
        "open": lambda: _open(*given[:3], _share(given[4:]), u32(BY_NAME) + opaque(bytes_of(given[3]))),
        "open_previous": lambda: _open(*given[:3], _share(given[3:]), u32(PREVIOUS) + _delegation(options)),
        "open_confirm": lambda: _stateid(given[0]) + _u32(given[1]),
        "open_downgrade": lambda: _stateid(given[0]) + _u32(given[1]) + _share(given[2:]),
        "close": lambda: _u32(given[0]) + _stateid(given[1]),
        "return_delegation": lambda: _stateid(given[0]),
        "first_lock": lambda: _lock(
            given, flags, u32(1) + _u32(given[4]) + _stateid(given[3]) + _u32(given[7]) + _clientid(given[5]) + opaque(bytes_of(given[6]))
        ),
        "lock": lambda: _lock(given, flags, u32(0) + _stateid(given[3]) + _u32(given[4])),
        "lock_test": lambda: _type(given[2], flags)
        + u64(words.number_of(given[0]))
        + _length(given[1])
        + _clientid(given[3])
        + opaque(bytes_of(given[4])),
        "unlock": lambda: _type(given[2], flags)
        + _u32(given[4])
        + _stateid(given[3])
        + u64(words.number_of(given[0]))
        + _length(given[1]),
        "release_lock_owner": lambda: _clientid(given[0]) + opaque(bytes_of(given[1])),
    }.get(name, bytes)()


def _parted(given):
    """The words of each operation."""
    parts = [[]]
    for word in given:
        if word == "then":
            parts.append([])
        else:
            parts[-1].append(word)
    return parts


def make(name, given, files):
    """The procedure and the arguments of a call in words."""
    if name == "nfs_null":
        words.Usage(name, "").read(given)
        return NULL, b""
    tags = [word.removeprefix("tag=") for word in given if word.startswith("tag=")]
    given = [word for word in given if not word.startswith("tag=")]
    ops = [_op_bytes(part, files) for part in _parted(given)] if given else []
    return COMPOUND, opaque(bytes_of(tags[-1] if tags else "-")) + u32(0) + u32(len(ops)) + b"".join(ops)


# ---- into words

def _clientid_word(reader):
    return f"{reader.u32()}.{reader.u32()}"


def _verifier_word(reader):
    return str(reader.u64())


def _set_client_id_words(reader):
    verifier, client = _verifier_word(reader), word_of(reader.opaque(MOST_TEXT))
    program, netid, address, ident = reader.u32(), reader.opaque(MOST_ADDRESS), reader.opaque(MOST_ADDRESS), reader.u32()
    out = [client] + ([verifier] if verifier != "0" else []) + ([f"program={program}"] if program else [])
    out += [f"{name}={word_of(data)}" for name, data in (("netid", netid), ("address", address)) if data]
    return out + ([f"ident={ident}"] if ident else [])


def _stateid_word(reader):
    seqid, epoch, number = reader.u32(), reader.u32(), reader.u64()
    return f"{epoch}.{number}.{seqid}"


def _rights_word(number):
    if number > 3:
        raise XdrError("these rights have no word")
    return words.rights_word({letter for letter, bit in RIGHTS.items() if number & bit})


def _share_words(reader):
    access, deny = _rights_word(reader.u32()), _rights_word(reader.u32())
    return [access] + ([deny] if deny != "-" else [])


def _length_word(length):
    return "end" if length == TO_THE_END else str(length)


def _type_words(number):
    """The mode of a type of lock, and the flag of one that waits."""
    for (exclusive, waits), known in LOCK_TYPES.items():
        if known == number:
            return words.mode_word(exclusive), ["wait"] * waits
    raise XdrError("this type of lock has no word")


def _reclaimed_words(number):
    """The delegation that is reclaimed, where one is."""
    for word, known in DELEGATIONS.items():
        if known == number:
            return ["delegation=" + word]
    if number:
        raise XdrError("this type of delegation has no word")
    return []


def _open_words(reader):
    seqid = str(reader.u32())
    share = _share_words(reader)
    owner = [seqid, _clientid_word(reader), word_of(reader.opaque(MOST_TEXT))]
    how, claim = reader.u32(), reader.u32()
    if how == 0 and claim == BY_NAME:
        return "open", owner + [word_of(reader.opaque(MOST_TEXT))] + share
    if how == 0 and claim == PREVIOUS:
        return "open_previous", owner + share + _reclaimed_words(reader.u32())
    raise XdrError("this OPEN has no words")


def _lock_words(reader):
    mode, waits = _type_words(reader.u32())
    flags = waits + ["reclaim"] * reader.boolean()
    range_ = [str(reader.u64()), _length_word(reader.u64()), mode]
    if reader.boolean():
        seqid, opened, lock_seqid = str(reader.u32()), _stateid_word(reader), str(reader.u32())
        owner = [_clientid_word(reader), word_of(reader.opaque(MOST_TEXT))]
        return "first_lock", range_ + [opened, seqid] + owner + [lock_seqid] + flags
    return "lock", range_ + [_stateid_word(reader), str(reader.u32())] + flags


def _lock_test_words(reader):
    mode, waits = _type_words(reader.u32())
    return [str(reader.u64()), _length_word(reader.u64()), mode, _clientid_word(reader), word_of(reader.opaque(MOST_TEXT))] + waits


def _unlock_words(reader):
    mode, waits = _type_words(reader.u32())
    seqid, locks = str(reader.u32()), _stateid_word(reader)
    return [str(reader.u64()), _length_word(reader.u64()), mode, locks, seqid] + waits


def _op_words(reader, files):
    """The words of an operation. XdrError where the bytes are those of none that has words."""
    number = reader.u32()
    if number not in NAMES:
        raise XdrError("the operation has no words")
    if number in (OPEN, LOCK):
        name, arguments = (_open_words if number == OPEN else _lock_words)(reader)
        return " ".join([name] + arguments)
    arguments = {
        OPEN_CONFIRM: lambda: [_stateid_word(reader), str(reader.u32())],
        OPEN_DOWNGRADE: lambda: [_stateid_word(reader), str(reader.u32())] + _share_words(reader),
        CLOSE: lambda: [str(reader.u32()), _stateid_word(reader)],
        RETURN_DELEGATION: lambda: [_stateid_word(reader)],
        LOCK_TEST: lambda: _lock_test_words(reader),
        UNLOCK: lambda: _unlock_words(reader),
        RELEASE: lambda: [_clientid_word(reader), word_of(reader.opaque(MOST_TEXT))],
        PUT_FH: lambda: [files.word(reader.opaque(MOST_HANDLE))],
        LOOKUP: lambda: [word_of(reader.opaque(MOST_TEXT))],
        SET_CLIENT_ID: lambda: _set_client_id_words(reader),
        CONFIRM: lambda: [_clientid_word(reader), _verifier_word(reader)],
        RENEW: lambda: [_clientid_word(reader)],
    }.get(number, list)()
    return " ".join([NAMES[number]] + arguments)


def call_in_words(procedure, arguments, files, cookie=b""):
    """A call in the words that make it, its tag only where it isn't this one. XdrError where it has no words."""
    reader = Reader(arguments)
    if procedure == NULL:
        reader.end()
        return "nfs_null"
    tag, minor, count = reader.opaque(MOST_TEXT), reader.u32(), reader.u32()
    if procedure != COMPOUND or minor != 0 or count > len(arguments):
        raise XdrError("this is no COMPOUND that has words")
    ops = " then ".join(_op_words(reader, files) for _ in range(count))
    reader.end()
    return " ".join(["compound"] + [ops] * bool(ops) + ["tag=" + word_of(tag)] * (tag != cookie))


def _delegation_words(reader):
    """A delegation that comes with an OPEN, to whom (an ace) and up to which size aside."""
    kind = reader.u32()
    if kind == 0:
        return ""
    said = f" {'read' if kind == 1 else 'write'}_delegation={_stateid_word(reader)}"
    for _ in range(4 if kind == 1 else 7):  # recall, a limit of one number and a size, three numbers of the ace
        reader.u32()
    reader.opaque(MOST_TEXT)
    return said


def _opened_words(reader):
    said = f" stateid={_stateid_word(reader)}"
    reader.u32(), reader.u64(), reader.u64()
    said += " to_confirm" * (reader.u32() & TO_CONFIRM != 0)
    for _ in range(reader.u32()):
        reader.u32()
    return said + _delegation_words(reader)


def _denied_words(reader):
    """What stands against a lock, and whose that is."""
    offset, length, (mode, _) = reader.u64(), reader.u64(), _type_words(reader.u32())
    last = None if length == TO_THE_END else offset + length - 1
    client, owner = _clientid_word(reader), word_of(reader.opaque(MOST_TEXT))
    return f" by {mode} {words.bytes_in_words(offset, last)} of {owner}" + ("" if client == "0.0" else f" of client {client}")


def _result_words(reader):
    """What one result has beside its status, its status, and the operation's name."""
    number, status = reader.u32(), reader.u32()
    said = {
        (GET_FH, OK): lambda: f" handle={word_of(reader.opaque(MOST_HANDLE))}",
        (SET_CLIENT_ID, OK): lambda: f" clientid={_clientid_word(reader)} confirm={_verifier_word(reader)}",
        (OPEN, OK): lambda: _opened_words(reader),
        (LOCK, DENIED): lambda: _denied_words(reader),
        (LOCK_TEST, DENIED): lambda: _denied_words(reader),
        **{(op, OK): lambda: f" stateid={_stateid_word(reader)}" for op in (OPEN_CONFIRM, OPEN_DOWNGRADE, CLOSE, LOCK, UNLOCK)},
    }.get((number, status), str)()
    return said, status, NAMES.get(number, "op" if number == ILLEGAL else f"op {number}")


def results_in_words(procedure, results, cookie=b""):
    """What the results say: the last status, the operation that failed or behind which one could not be read, and what the
    others gave."""
    reader = Reader(results)
    if procedure == NULL:
        reader.end()
        return "done"
    status, tag, count = reader.u32(), reader.opaque(MOST_TEXT), reader.u32()
    said, last, name = "", 0, ""
    for _ in range(count):
        given, last, name = _result_words(reader)
        said += given
    reader.end()
    told = STATUSES.get(status, f"status {status}")
    if status != 0 and name:
        told += f" {'at' if last else 'behind'} {name}"
    return told + said + (f" tag={word_of(tag)}" if tag != cookie else "")


def recall_in_words(call, files):
    """The server's call that recalls a delegation (RFC 7530 18.2), of the program and the number that the client chose. XdrError
    where it is another."""
    reader = Reader(call.arguments)
    reader.opaque(MOST_TEXT)
    if (call.version, call.procedure, reader.u32()) != (CALLBACK_VERSION, COMPOUND, 0):
        raise XdrError("this is no call back that has words")
    ident, count, number = reader.u32(), reader.u32(), reader.u32()
    stateid, truncates, handle = _stateid_word(reader), reader.boolean(), reader.opaque(MOST_HANDLE)
    reader.end()
    if (count, number, truncates) != (1, RECALL, False):
        raise XdrError("this is no recall that has words")
    return f"recall {stateid} {files.word(handle)} program={call.program} ident={ident}"


def answer_in_words(number, results):
    raise XdrError("what a client says of a recall has no words")


# ---- what the tools on packets ask

def asks_server(procedure):
    """The server's calls go to other programs, which the clients choose."""
    return procedure in (NULL, COMPOUND)


def calls_back(procedure):
    """Of a program that a client chose."""
    return procedure == COMPOUND


def cookie_of(procedure, arguments):
    """The tag, which the reply repeats."""
    try:
        return Reader(arguments).opaque(MOST_TEXT) if procedure == COMPOUND else b""
    except XdrError:
        return b""
