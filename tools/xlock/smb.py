"""SMB 2 over TCP (MS-SMB2 2.1, 2.2): the frames of its messages, requests of words, and messages in words."""
import struct
from dataclasses import dataclass

from xlock import words
from xlock.words import WordError, bytes_of

PORT = 445
MAGIC = b"\xfeSMB"
HEADER = struct.Struct("<4sHHIHHIIQQQ16s")
REPLY, ASYNC = 1, 2
NOTICE_ID = 2**64 - 1
DIALECT = 0x0210
NEGOTIATE, SESSION_SETUP, LOGOFF, TREE_CONNECT, TREE_DISCONNECT, CREATE, CLOSE = range(7)
LOCK, CANCEL, ECHO, BREAK = 10, 12, 13, 18
STATUSES = {
    0: "SUCCESS", 0x103: "PENDING", 0x80000006: "NO_MORE_FILES", 0xC0000001: "UNSUCCESSFUL", 0xC0000008: "INVALID_HANDLE",
    0xC000000D: "INVALID_PARAMETER", 0xC0000010: "INVALID_DEVICE_REQUEST", 0xC0000011: "END_OF_FILE",
    0xC0000016: "MORE_PROCESSING_REQUIRED", 0xC0000022: "ACCESS_DENIED", 0xC0000033: "OBJECT_NAME_INVALID",
    0xC0000034: "OBJECT_NAME_NOT_FOUND", 0xC0000035: "OBJECT_NAME_COLLISION", 0xC000003A: "OBJECT_PATH_NOT_FOUND",
    0xC0000043: "SHARING_VIOLATION", 0xC0000054: "FILE_LOCK_CONFLICT", 0xC0000055: "LOCK_NOT_GRANTED",
    0xC0000056: "DELETE_PENDING", 0xC000006D: "LOGON_FAILURE", 0xC000007E: "RANGE_NOT_LOCKED",
    0xC000009A: "INSUFFICIENT_RESOURCES", 0xC00000BA: "FILE_IS_A_DIRECTORY", 0xC00000BB: "NOT_SUPPORTED",
    0xC00000C9: "NETWORK_NAME_DELETED", 0xC00000CC: "BAD_NETWORK_NAME", 0xC00000D0: "REQUEST_NOT_ACCEPTED",
    0xC00000E3: "INVALID_OPLOCK_PROTOCOL", 0xC0000103: "NOT_A_DIRECTORY", 0xC0000120: "CANCELLED", 0xC0000121: "CANNOT_DELETE",
    0xC0000128: "FILE_CLOSED", 0xC0000184: "INVALID_DEVICE_STATE", 0xC00001A1: "INVALID_LOCK_RANGE",
    0xC0000203: "USER_SESSION_DELETED", 0xC0000225: "NOT_FOUND",
}  # fmt: skip
LEVELS = {"none": 0, "level2": 1, "exclusive": 8, "batch": 9, "lease": 255}
RIGHTS = {"r": 1, "w": 2, "d": 0x10000}
SHARED = {"r": 1, "w": 2, "d": 4}
# The states of a lease: for reads, for the handle, for writes (2.2.13.2.8); the flag of a reply while its break runs.
STATES, BREAKS = {"r": 1, "h": 2, "w": 4}, 2
LEASE = struct.Struct("<16s2IQ")
CONTEXT = struct.Struct("<I4HI4s4x")
LEASE_NAME = b"RqLs"
# The guid of a client that names none.
GUID = bytes([17] * 16)
# The level of impersonation of a CREATE, which isn't looked at (2.2.13).
IMPERSONATION = 2
# The flags of an element of a LOCK: shared, exclusive, an unlock; and that it is refused rather than waits.
KINDS, AT_ONCE = {"s": 1, "x": 2, "unlock": 4}, 0x10

# The requests in words. Each also takes session=ID and tree=N, the ids of the replies to session_setup and tree_connect,
# which those that follow on the connection keep, and message=N, else its place among the connection's messages.
USAGES = {
    "negotiate": (NEGOTIATE, "[GUID]"),
    "session_setup": (SESSION_SETUP, ""),
    "logoff": (LOGOFF, ""),
    "tree_connect": (TREE_CONNECT, "PATH"),
    "tree_disconnect": (TREE_DISCONNECT, ""),
    "create": (CREATE, "NAME ACCESS [SHARED] [oplock=LEVEL] [lease=KEY] [state=STATE] [disposition=N]"),
    "close": (CLOSE, "OPEN"),
    "lock": (LOCK, "OPEN ELEMENT [then ELEMENT ..]"),
    "cancel": (CANCEL, "[async=N]"),
    "echo": (ECHO, ""),
    "break": (BREAK, "OPEN LEVEL"),
    "break_lease": (BREAK, "KEY STATE"),
}
ELEMENT = "OFFSET LENGTH x|s|unlock [wait]"
NAMES = {number: name for name, (number, _) in reversed(USAGES.items())}


class FrameCutter:
    """Cuts a stream into messages, as the server does: a zero byte, a length of 24 bits, at most 65,536 bytes."""

    KIND = "smb"
    MOST_BYTES = 65536

    def __init__(self):
        self.held = b""
        self.is_bad = False

    def feed(self, data):
        messages = []
        self.held += data
        while not self.is_bad and len(self.held) >= 4:
            count = int.from_bytes(self.held[1:4], "big")
            if self.held[0] != 0 or count > self.MOST_BYTES:
                self.is_bad = True
                break
            if len(self.held) < 4 + count:
                break
            messages.append(self.held[4 : 4 + count])
            self.held = self.held[4 + count :]
        return messages


def framed(message):
    return len(message).to_bytes(4, "big") + message


def begins_a_message(data):
    """Whether these bytes look like the beginning of a framed message of SMB 2."""
    return len(data) >= 8 and data[0] == 0 and data[4:8] in (b"\xfeSMB", b"\xffSMB", b"\xfdSMB")


class SmbError(Exception):
    """Bytes that have no words."""


# ---- from words

def id_of(word):
    """A session's id, or either half of an open's, by its epoch and its number, as 1.3."""
    epoch, mark, number = word.partition(".")
    if not mark:
        raise WordError(f"{word} isn't an epoch and a number, as 1.3")
    return (words.number_of(epoch, 2**32 - 1) << 32) + words.number_of(number, 2**32 - 1)


def id_word(number):
    return f"{number >> 32}.{number & 0xFFFFFFFF}"


def _file_id(word):
    return struct.pack("<2Q", id_of(word), id_of(word))


def _level(word):
    if word not in LEVELS:
        raise WordError(f"{word} is none of {', '.join(LEVELS)}")
    return LEVELS[word]


def _key(word):
    key = bytes_of(word)
    if len(key) > 16:
        raise WordError("a lease's key has 16 bytes")
    return key.ljust(16, b"\0")


def _state(word):
    return sum(STATES[letter] for letter in words.rights_of(word, "rwh"))


def _lease_context(key, state):
    return CONTEXT.pack(0, 16, len(LEASE_NAME), 0, 24, LEASE.size, LEASE_NAME) + LEASE.pack(_key(key), _state(state), 0, 0)


def _element(given):
    (offset, length, kind), flags, _ = words.Usage("an element", ELEMENT).read(given)
    if kind not in KINDS:
        raise WordError(f"{kind} is none of {', '.join(KINDS)}")
    waits = "wait" in flags or kind == "unlock"
    return struct.pack("<2Q2I", words.number_of(offset), words.number_of(length), KINDS[kind] | (0 if waits else AT_ONCE), 0)


def _lock_body(given):
    elements = [[]]
    for word in given[1:]:
        if word == "then":
            elements.append([])
        else:
            elements[-1].append(word)
    if not given:
        raise WordError(f"usage: lock {USAGES['lock'][1]}, ELEMENT: {ELEMENT}")
    return struct.pack("<HHI", 48, len(elements), 0) + _file_id(given[0]) + b"".join(map(_element, elements))


def _create_body(given, options):
    name, access = given[:2]
    shared = given[2] if len(given) > 2 else "rwd"
    rights = sum(RIGHTS[letter] for letter in words.rights_of(access, "rwd"))
    shares = sum(SHARED[letter] for letter in words.rights_of(shared, "rwd"))
    level, disposition = _level(options.get("oplock", "none")), words.number_of(options.get("disposition", "1"), 2**32 - 1)
    name, contexts = name.encode("utf-16-le"), b""
    behind, padding = 120 + len(name), -len(name) % 8
    if "lease" in options:
        level, contexts = LEVELS["lease"], _lease_context(options["lease"], options.get("state", "-"))
    fixed = struct.pack("<HBBIQQ5I", 57, 0, level, IMPERSONATION, 0, 0, rights, 0, shares, disposition, 0)
    fixed += struct.pack("<HHII", 120, len(name), behind + padding if contexts else 0, len(contexts))
    return fixed + name + (bytes(padding) + contexts if contexts else b"")


def _path_body(path):
    path = path.encode("utf-16-le")
    return struct.pack("<4H", 9, 0, 72, len(path)) + path


def _negotiate_body(given):
    guid = bytes_of(given[0]) if given else GUID
    if len(guid) != 16:
        raise WordError("a guid has 16 bytes")
    return struct.pack("<HHHHI16sQH", 36, 1, 1, 0, 0, guid, 0, DIALECT)


def _body(name, given, options):
    return {
        "negotiate": lambda: _negotiate_body(given),
        "session_setup": lambda: struct.pack("<HBBIIHHQ", 25, 0, 1, 0, 0, 88, 0, 0),
        "tree_connect": lambda: _path_body(given[0]),
        "create": lambda: _create_body(given, options),
        "close": lambda: struct.pack("<HHI", 24, 0, 0) + _file_id(given[0]),
        "lock": lambda: _lock_body(given),
        "break": lambda: struct.pack("<HBBI", 24, _level(given[1]), 0, 0) + _file_id(given[0]),
        "break_lease": lambda: struct.pack("<HHI", 36, 0, 0) + struct.pack("<16sIQ", _key(given[0]), _state(given[1]), 0),
    }.get(name, lambda: struct.pack("<HH", 4, 0))()


class Sender:
    """Makes the requests of a connection, whose ids stay until others are named."""

    OWN = ("session", "tree", "message")

    def __init__(self):
        self.session, self.tree, self.sent = "0.0", "0", 0

    def request(self, given):
        """The message of a request in words."""
        if not given or given[0] not in USAGES:
            raise WordError(f"a request is one of {', '.join(USAGES)}")
        name, (command, usage) = given[0], USAGES[given[0]]
        pairs = [word.partition("=") for word in given[1:]]
        own = {key: value for key, mark, value in pairs if mark and key in self.OWN}
        rest = [word for word, (key, mark, _) in zip(given[1:], pairs) if not (mark and key in self.OWN)]
        positions, _, options = (rest, set(), {}) if command == LOCK else words.Usage(name, usage).read(rest)
        self.session, self.tree = own.get("session", self.session), own.get("tree", self.tree)
        number = words.number_of(own["message"]) if "message" in own else self.sent
        self.sent += command != CANCEL
        flags, ids = 0, words.number_of(self.tree, 2**32 - 1) << 32
        if "async" in options:
            flags, ids = ASYNC, words.number_of(options["async"])
        head = HEADER.pack(MAGIC, 64, 0, 0, command, 1, flags, 0, number, ids, id_of(self.session), bytes(16))
        return head + _body(name, positions, options)


# ---- into words

@dataclass(frozen=True)
class Head:
    """The parts of a header that words are made of."""

    status: int
    command: int
    flags: int
    message: int
    ids: int
    session: int

    @property
    def is_reply(self):
        return self.flags & REPLY != 0

    @property
    def is_async(self):
        return self.flags & ASYNC != 0

    @property
    def is_notice(self):
        return self.command == BREAK and self.message == NOTICE_ID


def read_head(message):
    if len(message) < HEADER.size or message[:4] != MAGIC:
        raise SmbError("no message of SMB 2")
    _, _, _, status, command, _, flags, _, number, ids, session, _ = HEADER.unpack_from(message)
    return Head(status, command, flags, number, ids, session)


def _part(form, message, at=HEADER.size):
    try:
        return struct.unpack_from("<" + form, message, at)
    except struct.error:
        raise SmbError("the message ends within a part") from None


def _text(message, offset, length):
    try:
        text = message[offset : offset + length].decode("utf-16-le")
    except UnicodeDecodeError:
        text = ""
    if length == 0 or len(text) * 2 != length or not all("!" <= letter <= "~" for letter in text) or text[0] == "#":
        raise SmbError("the name has no word")
    return text


def _letters(number, table):
    letters = {letter for letter, bit in table.items() if number & bit}
    if number != sum(table[letter] for letter in letters):
        raise SmbError("these rights have no word")
    return words.rights_word(letters, "rwd")


def level_word(level):
    return next((name for name, number in LEVELS.items() if number == level), str(level))


def key_word(key):
    return words.word_of(key.rstrip(b"\0"))


def state_word(state):
    letters = {letter for letter, bit in STATES.items() if state & bit}
    if state != sum(STATES[letter] for letter in letters):
        raise SmbError("this state has no word")
    return words.rights_word(letters, "rwh")


def _lease_in(message, at, length):
    """The key, state and flags of the lease that is the one context at this place."""
    found = _part("I4HI4s4x", message, at)
    if length != CONTEXT.size + LEASE.size or found != (0, 16, len(LEASE_NAME), 0, 24, LEASE.size, LEASE_NAME):
        raise SmbError("other contexts have no words")
    return _part("16s2I", message, at + CONTEXT.size)


def _oplock_words(message, level, at, length):
    """The oplock or the lease that a CREATE asks for."""
    if not length:
        return [f"oplock={level_word(level)}"] * (level != 0)
    key, state, flags = _lease_in(message, at, length)
    if level != LEVELS["lease"] or flags:
        raise SmbError("this lease has no words")
    return [f"lease={key_word(key)}", f"state={state_word(state)}"]


def _create_words(message):
    _, _, level, _, _, _, access, _, shared, disposition, _, offset, length, *contexts = _part("HBBIQQ5IHHII", message)
    out = [_text(message, offset, length), _letters(access, RIGHTS)]
    out += [_letters(shared, SHARED)] * (shared != 7) + _oplock_words(message, level, *contexts)
    return out + [f"disposition={disposition}"] * (disposition != 1)


def _lock_words(message):
    _, count, _, first, second = _part("HHI2Q", message)
    if first != second or not count:
        raise SmbError("this LOCK has no words")
    said = []
    for at in range(count):
        offset, length, flags, _ = _part("2Q2I", message, HEADER.size + 24 + 24 * at)
        kind = next((name for name, flag in KINDS.items() if flags & ~AT_ONCE == flag), None)
        if kind is None or (kind == "unlock" and flags & AT_ONCE):
            raise SmbError("these flags have no words")
        waits = " wait" if kind != "unlock" and not flags & AT_ONCE else ""
        said.append(f"{offset} {length} {kind}{waits}")
    return [id_word(first), " then ".join(said)]


def _request_words(head, message):
    """What stands behind a request's name."""
    if head.command == NEGOTIATE:
        guid = _part("4HI16s", message)[5]
        return ["0x" + guid.hex()] * (guid != GUID)
    if head.command == TREE_CONNECT:
        _, _, offset, length = _part("4H", message)
        return [_text(message, offset, length)]
    if head.command == CREATE:
        return _create_words(message)
    if head.command == LOCK:
        return _lock_words(message)
    if head.command == CANCEL:
        return [f"async={head.ids}"] if head.is_async else [f"message={head.message}"]
    if head.command == CLOSE or (head.command == BREAK and _part("H", message) == (24,)):
        return [id_word(_part("Q", message, HEADER.size + 8)[0])] + (
            [level_word(message[HEADER.size + 2])] if head.command == BREAK else []
        )
    if head.command == BREAK:
        _, _, _, key, state = _part("HHI16sI", message)
        return [key_word(key), state_word(state)]
    return []


def request_in_words(message):
    """A request, with the ids that it names. SmbError where it has no words."""
    head = read_head(message)
    if head.is_reply or head.command not in NAMES:
        raise SmbError("no request that has words")
    ids = [f"session={id_word(head.session)}"] * (head.session != 0)
    ids += [f"tree={head.ids >> 32}"] * (not head.is_async and head.ids >> 32 != 0)
    name = "break_lease" if head.command == BREAK and _part("H", message) == (36,) else NAMES[head.command]
    return " ".join(["smb", name] + _request_words(head, message) + ids)


def _notice_words(message):
    size, level = _part("HB", message)
    if size == 24:
        return f"notice: the cache of open {id_word(_part('Q', message, HEADER.size + 8)[0])} to {level_word(level)} breaks"
    _, _, flags, key, current, new = _part("HHI16s2I", message)
    answer = "" if flags & 1 else ", without an answer"
    return f"notice: the lease {key_word(key)} breaks from {state_word(current)} to {state_word(new)}{answer}"


def _cache_words(message, level, at, length):
    """What an open has of an oplock or a lease."""
    if not length:
        return f" oplock={level_word(level)}" if level else ""
    key, state, flags = _lease_in(message, at, length)
    return f" lease={key_word(key)} state={state_word(state)}" + (" breaking" if flags & BREAKS else "")


def reply_in_words(message):
    """What a reply or a notice says beside the message that it answers."""
    head = read_head(message)
    if head.is_notice:
        return _notice_words(message)
    said = STATUSES.get(head.status, f"status {head.status:08x}")
    if head.status == 0x103:
        return f"{said} async={head.ids}"
    if head.status == 0 and head.command == SESSION_SETUP:
        return f"{said} session={id_word(head.session)}"
    if head.status == 0 and head.command == TREE_CONNECT:
        return f"{said} tree={head.ids >> 32}"
    if head.status == 0 and head.command == CREATE:
        (level,), (number, _, *contexts) = _part("B", message, HEADER.size + 2), _part("2Q2I", message, HEADER.size + 64)
        return f"{said} open={id_word(number)}" + _cache_words(message, level, *contexts)
    if head.status == 0 and head.command == BREAK and _part("H", message) == (36,):
        _, _, _, key, state = _part("HHI16sI", message)
        return f"{said} lease={key_word(key)} state={state_word(state)}"
    return said
