"""All operations of NFSv4.0 (RFC 7530 16, RFC 7531): where the arguments and the results of each end, and what stands in
those that the tools on packets ask for."""
from dataclasses import dataclass, field

from xlock.nfs import CLOSE, CONFIRM, DENIED, GET_FH, ILLEGAL, LOCK, LOCK_TEST, LOOKUP, MOST_TEXT, OK, OPEN
from xlock.nfs import OPEN_CONFIRM, OPEN_DOWNGRADE, PUT_FH, PUT_ROOT_FH, RELEASE, RENEW, RETURN_DELEGATION, SET_CLIENT_ID, UNLOCK
from xlock.xdr import Reader, XdrError

ACCESS, COMMIT, CREATE, PURGE, GET_ATTRIBUTES, LINK, LOOKUP_PARENT = 3, 5, 6, 7, 9, 11, 16
NOT_VERIFY, OPEN_ATTRIBUTES, PUT_PUBLIC_FH, READ, READ_DIRECTORY, READ_LINK = 17, 19, 23, 25, 26, 27
REMOVE, RENAME, RESTORE_FH, SAVE_FH, SECURITY, SET_ATTRIBUTES, VERIFY, WRITE = 28, 29, 31, 32, 33, 34, 37, 38
NAMES = {
    ACCESS: "ACCESS", CLOSE: "CLOSE", COMMIT: "COMMIT", CREATE: "CREATE", PURGE: "DELEGPURGE",
    RETURN_DELEGATION: "DELEGRETURN", GET_ATTRIBUTES: "GETATTR", GET_FH: "GETFH", LINK: "LINK", LOCK: "LOCK",
    LOCK_TEST: "LOCKT", UNLOCK: "LOCKU", LOOKUP: "LOOKUP", LOOKUP_PARENT: "LOOKUPP", NOT_VERIFY: "NVERIFY", OPEN: "OPEN",
    OPEN_ATTRIBUTES: "OPENATTR", OPEN_CONFIRM: "OPEN_CONFIRM", OPEN_DOWNGRADE: "OPEN_DOWNGRADE", PUT_FH: "PUTFH",
    PUT_PUBLIC_FH: "PUTPUBFH", PUT_ROOT_FH: "PUTROOTFH", READ: "READ", READ_DIRECTORY: "READDIR", READ_LINK: "READLINK",
    REMOVE: "REMOVE", RENAME: "RENAME", RENEW: "RENEW", RESTORE_FH: "RESTOREFH", SAVE_FH: "SAVEFH",
    SECURITY: "SECINFO", SET_ATTRIBUTES: "SETATTR", SET_CLIENT_ID: "SETCLIENTID", CONFIRM: "SETCLIENTID_CONFIRM",
    VERIFY: "VERIFY", WRITE: "WRITE", RELEASE: "RELEASE_LOCKOWNER",
}  # fmt: skip
SERVED = {
    CLOSE, RETURN_DELEGATION, GET_FH, LOCK, LOCK_TEST, UNLOCK, LOOKUP, OPEN, OPEN_CONFIRM, OPEN_DOWNGRADE,
    PUT_FH, PUT_ROOT_FH, RENEW, SET_CLIENT_ID, CONFIRM, RELEASE,
}  # fmt: skip
# The most bytes of an opaque that is passed over: data that is read or written among them.
MOST = 2**24
# How an OPEN creates (RFC 7531 createmode4), and what its claim is of.
CREATES, UNCHECKED, GUARDED, EXCLUSIVE = 1, 0, 1, 2
CLAIM_NAME, CLAIM_PREVIOUS, CLAIM_DELEGATED, CLAIM_DELEGATED_PREVIOUS = range(4)
CLIENT_IN_USE = 10017
DIRECTORY = 2


@dataclass
class Op:
    """An operation: its number, its arguments' bytes, and those of them that the tools ask for."""

    number: int
    data: bytes
    said: dict = field(default_factory=dict)


@dataclass
class Result:
    """A result: its operation, its status, and what it gives."""

    number: int
    status: int
    said: dict = field(default_factory=dict)


# ---- arguments

def _text(reader):
    return reader.opaque(MOST)


def _bitmap(reader):
    return [reader.u32() for _ in range(_count(reader, 4))]


def _count(reader, size):
    """A count of items that have at least so many bytes."""
    count = reader.u32()
    if count * size > len(reader.data) - reader.at:
        raise XdrError("the bytes end within an item")
    return count


def _attributes(reader):
    return {"mask": _bitmap(reader), "values": _text(reader)}


def _created(reader):
    kind = reader.u32()
    if kind == 5:
        _text(reader)
    if kind in (3, 4):
        reader.fixed(8)
    name = _text(reader)
    return {"name": name} | _attributes(reader)


def _stateid(reader):
    return {"stateid": reader.fixed(16)}


def _locked(reader):
    said = {"type": reader.fixed(4), "reclaim": reader.fixed(4), "range": reader.fixed(16)}
    said["is_new"] = reader.boolean()
    if not said["is_new"]:
        return said | {"stateid": reader.fixed(16), "seqid": reader.fixed(4)}
    said |= {"open_seqid": reader.fixed(4), "stateid": reader.fixed(16), "seqid": reader.fixed(4)}
    return said | {"client": reader.fixed(8), "owner": reader.opaque(MOST_TEXT)}


def _how(reader):
    """How an OPEN creates, None where it doesn't."""
    if reader.u32() != CREATES:
        return None
    how = reader.u32()
    if how == EXCLUSIVE:
        reader.fixed(8)
    else:
        _attributes(reader)
    return how


def _opened(reader):
    said = {"seqid": reader.fixed(4), "share": reader.fixed(8), "client": reader.fixed(8), "owner": reader.opaque(MOST_TEXT)}
    begin = reader.at
    said["how"] = _how(reader)
    said["how_bytes"] = reader.data[begin : reader.at]
    said["claim"] = reader.u32()
    if said["claim"] == CLAIM_PREVIOUS:
        said["delegation"] = reader.fixed(4)
    if said["claim"] == CLAIM_DELEGATED:
        said["stateid"] = reader.fixed(16)
    if said["claim"] in (CLAIM_NAME, CLAIM_DELEGATED, CLAIM_DELEGATED_PREVIOUS):
        said["name"] = _text(reader)
    return said


def _client(reader):
    said = {"verifier": reader.fixed(8), "id": reader.opaque(MOST_TEXT), "program": reader.u32()}
    return said | {"netid": _text(reader), "address": _text(reader), "ident": reader.u32()}


ARGUMENTS = {
    ACCESS: lambda reader: {"access": reader.fixed(4)},
    CLOSE: lambda reader: {"seqid": reader.fixed(4)} | _stateid(reader),
    COMMIT: lambda reader: {"range": reader.fixed(12)},
    CREATE: _created,
    PURGE: lambda reader: {"client": reader.fixed(8)},
    RETURN_DELEGATION: _stateid,
    GET_ATTRIBUTES: lambda reader: {"mask": _bitmap(reader)},
    LINK: lambda reader: {"name": _text(reader)},
    LOCK: _locked,
    LOCK_TEST: lambda reader: {"range": reader.fixed(20), "client": reader.fixed(8), "owner": reader.opaque(MOST_TEXT)},
    UNLOCK: lambda reader: {"type": reader.fixed(4), "seqid": reader.fixed(4)} | _stateid(reader) | {"range": reader.fixed(16)},
    LOOKUP: lambda reader: {"name": _text(reader)},
    NOT_VERIFY: _attributes,
    OPEN: _opened,
    OPEN_ATTRIBUTES: lambda reader: {"creates": reader.boolean()},
    OPEN_CONFIRM: lambda reader: _stateid(reader) | {"seqid": reader.fixed(4)},
    OPEN_DOWNGRADE: lambda reader: _stateid(reader) | {"rest": reader.fixed(12)},
    PUT_FH: lambda reader: {"handle": reader.opaque(128)},
    READ: lambda reader: _stateid(reader) | {"range": reader.fixed(12)},
    READ_DIRECTORY: lambda reader: {"from": reader.fixed(24), "mask": _bitmap(reader)},
    REMOVE: lambda reader: {"name": _text(reader)},
    RENAME: lambda reader: {"name": _text(reader), "new": _text(reader)},
    RENEW: lambda reader: {"client": reader.fixed(8)},
    SECURITY: lambda reader: {"name": _text(reader)},
    SET_ATTRIBUTES: lambda reader: _stateid(reader) | _attributes(reader),
    SET_CLIENT_ID: _client,
    CONFIRM: lambda reader: {"client": reader.fixed(8), "verifier": reader.fixed(8)},
    VERIFY: _attributes,
    WRITE: lambda reader: _stateid(reader) | {"range": reader.fixed(12), "data": _text(reader)},
    RELEASE: lambda reader: {"client": reader.fixed(8), "owner": reader.opaque(MOST_TEXT)},
}


def read_ops(arguments):
    """The tag, the minor version and the operations of a COMPOUND. XdrError where they can't all be read."""
    reader = Reader(arguments)
    tag, minor, ops = reader.opaque(MOST_TEXT), reader.u32(), []
    for _ in range(_count(reader, 4)):
        number, begin = reader.u32(), reader.at
        if number not in NAMES:
            raise XdrError("the operation is none of NFSv4.0")
        said = ARGUMENTS.get(number, lambda reader: {})(reader)
        ops.append(Op(number, reader.data[begin : reader.at], said))
    reader.end()
    return tag, minor, ops


# ---- results

def _type_of(mask, values):
    """The file's type, where the attributes have it: it is the second, behind the list of those that there are."""
    if not mask or not mask[0] & 2:
        return {}
    reader = Reader(values)
    if mask[0] & 1:
        _bitmap(reader)
    return {"type": reader.u32()}


def _attributes_read(reader):
    return _type_of(_bitmap(reader), _text(reader))


def _denied(reader):
    names = ("offset", "length", "type")
    said = dict(zip(names, (reader.u64(), reader.u64(), reader.u32())))
    return {"denied": said | {"client": reader.fixed(8), "owner": reader.opaque(MOST_TEXT)}}


def _delegation(reader):
    kind = reader.u32()
    said = {"delegation": kind}
    if kind in (1, 2):
        said["delegation_stateid"] = reader.fixed(16)
        reader.fixed(4)
        if kind == 2:
            reader.fixed(4 + 8)  # a limit by its size, or by a number of blocks and theirs
        reader.fixed(12)
        _text(reader)
    return said


def _open_given(reader):
    said = _stateid(reader)
    reader.fixed(20)
    said["flags"] = reader.u32()
    _bitmap(reader)
    return said | _delegation(reader)


def _entries(reader):
    reader.fixed(8)
    while reader.boolean():
        reader.fixed(8)
        _text(reader)
        _attributes_read(reader)
    reader.boolean()
    return {}


def _flavors(reader):
    for _ in range(_count(reader, 4)):
        if reader.u32() == 6:
            _text(reader)
            reader.fixed(8)
    return {}


RESULTS = {
    ACCESS: lambda reader: {"access": reader.fixed(8)},
    COMMIT: lambda reader: {"verifier": reader.fixed(8)},
    CREATE: lambda reader: {"change": reader.fixed(20), "mask": _bitmap(reader)},
    GET_ATTRIBUTES: _attributes_read,
    GET_FH: lambda reader: {"handle": reader.opaque(128)},
    LINK: lambda reader: {"change": reader.fixed(20)},
    OPEN: _open_given,
    READ: lambda reader: {"is_end": reader.boolean(), "data": _text(reader)},
    READ_DIRECTORY: _entries,
    READ_LINK: lambda reader: {"path": _text(reader)},
    REMOVE: lambda reader: {"change": reader.fixed(20)},
    RENAME: lambda reader: {"change": reader.fixed(40)},
    SECURITY: _flavors,
    SET_CLIENT_ID: lambda reader: {"client": reader.fixed(8), "verifier": reader.fixed(8)},
    WRITE: lambda reader: {"written": reader.fixed(16)},
    **{number: _stateid for number in (CLOSE, LOCK, UNLOCK, OPEN_CONFIRM, OPEN_DOWNGRADE)},
}


def read_results(results):
    """The status and the results of a COMPOUND. XdrError where they can't all be read."""
    reader = Reader(results)
    status, _, found = reader.u32(), reader.opaque(MOST_TEXT), []
    for _ in range(_count(reader, 8)):
        number, one = reader.u32(), reader.u32()
        if number not in NAMES and number != ILLEGAL:
            raise XdrError("the result is of no operation of NFSv4.0")
        said = {}
        if one == OK:
            said = RESULTS.get(number, lambda reader: {})(reader)
        elif one == DENIED and number in (LOCK, LOCK_TEST):
            said = _denied(reader)
        elif one == CLIENT_IN_USE and number == SET_CLIENT_ID:
            said = {"netid": _text(reader), "address": _text(reader)}
        if number == SET_ATTRIBUTES:
            _bitmap(reader)
        found.append(Result(number, one, said))
    reader.end()
    return status, found


def callback_programs(arguments):
    """The programs that the client of a COMPOUND wants to be called back by."""
    try:
        return {op.said["program"] for op in read_ops(arguments)[2] if op.number == SET_CLIENT_ID}
    except XdrError:
        return set()

