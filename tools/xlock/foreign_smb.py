"""SMB 2 in recorded sessions. Names, ids of sessions, tree connects and opens become ours; what ours doesn't serve is left
out, and requests that came in one frame are asked one by one."""
import struct
from dataclasses import dataclass, replace

from xlock import smb
from xlock.replays import NOBODY
from xlock.smb import ASYNC, BREAK, CANCEL, CLOSE, CREATE, ECHO, HEADER, LOCK, LOGOFF, NEGOTIATE, SESSION_SETUP, TREE_CONNECT
from xlock.smb import TREE_DISCONNECT

EPOCH = 1
NO_ANSWER = "no answer"
RELATED = 4
SUCCESS, PENDING, MORE_NEEDED, SHARING_VIOLATION = 0, 0x103, 0xC0000016, 0xC0000043
NOTHING = b"\xff" * 16
# The statuses of a CREATE that tell that there is something of its name: SHARING_VIOLATION, ACCESS_DENIED, FILE_IS_A_DIRECTORY
# and NOT_A_DIRECTORY, DELETE_PENDING, OBJECT_NAME_COLLISION.
OF_A_THING = (SUCCESS, SHARING_VIOLATION, 0xC0000022, 0xC00000BA, 0xC0000103, 0xC0000056, 0xC0000035)
IS_A_DIRECTORY, NOT_A_DIRECTORY = 0xC00000BA, 0xC0000103
DIRECTORY_ATTRIBUTE, DIRECTORY_OPTION = 0x10, 1
DISK = 1
SUPERSEDE, OPEN, MAKE, OPEN_IF, OVERWRITE, OVERWRITE_IF = range(6)
SERVED = {NEGOTIATE, SESSION_SETUP, LOGOFF, TREE_CONNECT, TREE_DISCONNECT, CREATE, CLOSE, LOCK, CANCEL, ECHO, BREAK}
COMMANDS = {
    7: "FLUSH", 8: "READ", 9: "WRITE", 11: "IOCTL", 14: "QUERY_DIRECTORY", 15: "CHANGE_NOTIFY", 16: "QUERY_INFO", 17: "SET_INFO",
}  # fmt: skip
OTHER_MARKS = {b"\xffSMB": "a message of SMB 1", b"\xfdSMB": "an encrypted message", b"\xfcSMB": "a compressed message"}
# The place of the FileId in the requests that have one, and in the reply to CREATE.
FILE_AT = {CLOSE: 8, LOCK: 8, BREAK: 8, 7: 8, 8: 16, 9: 16, 11: 8, 14: 8, 15: 8, 16: 24, 17: 16}


@dataclass
class Part:
    """A request or a reply: its header's fields and its bytes, with those that come from the part before it."""

    command: int
    flags: int
    message: int
    tree: int
    ids: int
    session: int
    status: int
    data: bytes
    file: bytes = b""
    """The FileId, where the request has one."""
    before: object = None
    """The parts whose ids a related request takes."""
    made: bytes = b""
    """Of a CREATE that was done: the FileId that its reply brought."""

    @property
    def tree_key(self):
        """The session and the tree connect; of a related request those of the part before it."""
        return self.before.tree_key if self.before else (self.session, self.tree)

    @property
    def named(self):
        """The FileId that is meant: of a related request that of the part before it."""
        if self.file in (b"", NOTHING) and self.before:
            return self.before.made or self.before.named
        return self.file


def parts_of(message):
    """The messages of a frame (MS-SMB2 2.2.1, NextCommand)."""
    at = 0
    while True:
        following = int.from_bytes(message[at + 20 : at + 24], "little")
        is_last = following < HEADER.size or at + following + HEADER.size > len(message)
        yield message[at:] if is_last else message[at : at + following]
        if is_last:
            return
        at += following


def part_of(data):
    """A message's parts; None where it is none of SMB 2."""
    try:
        head = smb.read_head(data)
    except smb.SmbError:
        return None
    part = Part(head.command, head.flags, head.message, head.ids >> 32, head.ids, head.session, head.status, data)
    at = HEADER.size + FILE_AT.get(head.command, 0)
    has_file = head.command in FILE_AT and not (head.command == BREAK and data[HEADER.size : HEADER.size + 2] == b"\x24\0")
    part.file = data[at : at + 16] if has_file and len(data) >= at + 16 else b""
    return part


def requests(conversation):
    """The requests of a conversation, one by one: the piece of each, its bytes, its parts, its replies, of which a CANCEL has none,
    and whether others follow in its frame."""
    replies, out = {}, []
    for piece in conversation.server.messages:
        for data in parts_of(piece.data):
            part = part_of(data)
            if part and part.flags & smb.REPLY and part.message != smb.NOTICE_ID:
                replies.setdefault(part.message, []).append(replace(piece, data=data))
    for piece in conversation.client.messages:
        before, parts = None, list(parts_of(piece.data))
        for place, data in enumerate(parts, 1):
            part = part_of(data)
            if part and part.flags & RELATED:
                part.before = before
            found = replies.get(part.message, []) if part and part.command != CANCEL else []
            if part and part.command == CREATE and found:
                part.made = made_by(found[-1].data)
            out.append((piece, data, part, found, place < len(parts)))
            before = part
    return out


def made_by(reply):
    """The FileId that a reply to CREATE brings; no bytes where the open wasn't made."""
    return reply[HEADER.size + 64 : HEADER.size + 80] if smb.read_head(reply).status == SUCCESS else b""


def last_reply(request):
    return part_of(request.replies[-1].data) if request.replies else None


def notices(conversation):
    """The notices of breaks that the server sent."""
    for piece in conversation.server.messages:
        part = part_of(piece.data)
        if part and smb.read_head(piece.data).is_notice:
            yield piece.data


# ---- files

def _utf16(data, offset, length):
    return data[offset : offset + length].decode("utf-16-le", "replace")


def path_of(part):
    """The path of a TREE_CONNECT or the name of a CREATE."""
    try:
        at = HEADER.size + (4 if part.command == TREE_CONNECT else 44)
        return _utf16(part.data, *struct.unpack_from("<2H", part.data, at))
    except struct.error:
        return ""


def small(path):
    """A path, of which small and great letters are one."""
    return path.strip("\\").lower()


def survey(request, things):
    """What a request and its replies say of shares, files and directories. `things.shares` has the path of each tree connect,
    `things.opens` what each open is of."""
    part, reply = request.call, last_reply(request)
    if part is None or reply is None:
        return
    if part.command == TREE_CONNECT and reply.status == SUCCESS:
        is_disk = reply.data[HEADER.size + 2] == DISK
        key = reply.session, reply.tree
        request.share = things.shares[key] = small(path_of(part)) if is_disk else None
    if part.command == CREATE:
        share = request.share = things.shares.get(part.tree_key, "")
        request.thing = None if share is None else thing_of(things, share, path_of(part))
        _look_at(request, part, reply)


def thing_of(things, share, path):
    path = small(path)
    directory = things.child(things.root, share)
    directory.is_directory = True
    for name in path.split("\\") if path else []:
        directory = things.child(directory, name)
        directory.is_of_share = True
    return directory


def _look_at(request, part, reply):
    """What the reply to a CREATE says of its thing."""
    thing = request.thing
    if thing is None or reply.status not in OF_A_THING:
        return
    thing.exists = True
    options = int.from_bytes(part.data[HEADER.size + 40 : HEADER.size + 44], "little")
    if reply.status == SUCCESS:
        attributes = int.from_bytes(reply.data[HEADER.size + 56 : HEADER.size + 60], "little")
        thing.is_directory = bool(attributes & DIRECTORY_ATTRIBUTE)
    elif reply.status == IS_A_DIRECTORY or (options & DIRECTORY_OPTION and reply.status != NOT_A_DIRECTORY):
        thing.is_directory = True


# ---- what ours is asked

class Changer:
    """Changes requests. `unserved` has the ids of what ours isn't told of: tree connects of other shares than disks', opens of
    directories, requests that were left out."""

    def __init__(self, session):
        self.session, self.things, self.ids = session, session.things, session.ids
        self.unserved = set()
        self.drawn = {}
        """The number of each CREATE that waits: ours draws it before that of the waiter."""

    def changed(self, request):
        part = request.call
        if part is None:
            what = OTHER_MARKS.get(request.message[:4], "a message that is none of SMB 2")
            return self._leave_out(request, what)
        without = self._reason(request, part)
        if without:
            return self._leave_out(request, without)
        if request.piece.data != request.message:
            self.session.left_out["that requests came in one frame"] += 1
        message = self._head(request, part) + self._body(request, part)
        return message, smb.framed(message), []

    def _leave_out(self, request, what):
        self.session.leaves_out([what])
        if request.call:
            self.unserved.add(("message", id(request.conversation), request.call.message))
        return None

    def _reason(self, request, part):
        """Why a request is left out; nothing where it isn't."""
        if part.command not in SERVED:
            return COMMANDS.get(part.command, f"command {part.command}")
        if part.command == TREE_CONNECT and request.share is None:
            return "TREE_CONNECT of a share without files"
        if part.command == CANCEL and ("message", id(request.conversation), part.message) in self.unserved:
            return "CANCEL of what was left out"
        if part.command not in (CANCEL, BREAK) and ("tree", *part.tree_key) in self.unserved:
            return f"{smb.NAMES[part.command].upper()} in a share without files"
        if part.command == CREATE and request.thing is not None and self.things.find(request.thing).is_directory:
            return "CREATE of a directory"
        return f"{smb.NAMES[part.command].upper()} of a directory" if ("file", part.named) in self.unserved else ""

    def _head(self, request, part):
        session, tree = part.tree_key
        ids = self._number(("tree", session, tree), tree) << 32
        if part.flags & ASYNC:
            ids = self._number(("async", id(request.conversation), part.ids), part.ids)
        session = self._long(("session", session), session)
        _, _, charge, _, _, credits, *_ = HEADER.unpack_from(part.data)
        flags = part.flags & ASYNC
        return HEADER.pack(smb.MAGIC, 64, charge, 0, part.command, credits, flags, 0, part.message, ids, session, bytes(16))

    def _number(self, key, theirs):
        number = self.ids.get(key)
        return theirs if number is None else number

    def _long(self, key, theirs):
        """A session's id, or a half of an open's: the epoch and the number."""
        number = self.ids.get(key)
        return theirs if number is None else (EPOCH << 32) + number

    def _body(self, request, part):
        body = part.data[HEADER.size :]
        if part.command == TREE_CONNECT:
            server = path_of(part).strip("\\").split("\\")[0]
            path = f"\\\\{server}\\xl".encode("utf-16-le")
            return struct.pack("<4H", 9, 0, HEADER.size + 8, len(path)) + path
        if part.command == CREATE:
            return self._create(request, part)
        if part.command == NEGOTIATE:
            return self._negotiate(body)
        if part.file:
            at, file = FILE_AT[part.command], part.named
            number = self.ids.get(("file", file))
            ours = file if number is None else struct.pack("<2Q", *[(EPOCH << 32) + number] * 2)
            return body[:at] + (ours or part.file) + body[at + 16 :]
        return body

    def _negotiate(self, body):
        """A NEGOTIATE that offers no dialect 2.1 offers it in the place of its first."""
        count = int.from_bytes(body[2:4], "little")
        offered = [body[36 + 2 * at : 38 + 2 * at] for at in range(count)]
        wanted = smb.DIALECT.to_bytes(2, "little")
        if not offered or wanted in offered:
            return body
        self.session.left_out["that a NEGOTIATE offers other dialects than 2.1"] += 1
        return body[:36] + wanted + body[38:]

    def _create(self, request, part):
        """A CREATE by our name. One that makes or empties the file is asked as one that opens it."""
        fixed = bytearray(part.data[HEADER.size : HEADER.size + 56])
        if len(fixed) < 56:
            return bytes(fixed)
        disposition, reply = int.from_bytes(fixed[36:40], "little"), last_reply(request)
        is_done = reply is None or reply.status == SUCCESS
        if disposition in (SUPERSEDE, OVERWRITE, OVERWRITE_IF) or (disposition == MAKE and is_done):
            self.session.left_out["that a CREATE makes or empties a file"] += 1
            fixed[36:40] = OPEN.to_bytes(4, "little")
        last = path_of(part).split("\\")[-1]
        name = self.things.name_of(self.things.find(request.thing)) if request.thing else path_of(part)
        name = (last if last.lower() == name else name).encode("utf-16-le")
        offset, length = struct.unpack_from("<2I", fixed, 48)
        contexts = part.data[offset : offset + length] if length else b""
        behind = HEADER.size + 56 + len(name)
        padding = -behind % 8 if contexts else 0
        fixed[44:48] = struct.pack("<2H", HEADER.size + 56, len(name))
        fixed[48:56] = struct.pack("<2I", behind + padding if contexts else 0, len(contexts))
        return bytes(fixed) + name + bytes(padding) + contexts

    # ---- what replies bring

    def answered(self, request, asked, piece):
        reply = part_of(piece.data)
        if request.call is None:
            return
        is_drawn = asked is not None and request.call.command == CREATE and reply.status in (PENDING, SHARING_VIOLATION)
        if is_drawn and id(request) not in self.drawn:
            self.drawn[id(request)] = self.ids.draw()
        for key, take, is_new in self._brought(request, reply):
            if asked is None:
                self.unserved.add(key)
            else:
                self.unserved.discard(key)
                guess = self.drawn.get(id(request)) if key[0] == "file" else None
                self.ids.bring(key, self._taker(asked, take), is_new, guess)

    def _brought(self, request, reply):
        """The ids that a reply brings: what is theirs, how ours is read, and whether none stood for it before."""
        command = request.call.command
        if reply.status == PENDING:
            yield ("async", id(request.conversation), reply.ids), lambda ours: ours.ids if ours.status == PENDING else None, True
        elif command == SESSION_SETUP and reply.status in (SUCCESS, MORE_NEEDED):
            key = "session", reply.session
            yield key, lambda ours: ours.session & NOBODY if ours.status == SUCCESS else None, key not in self.ids.sources
        elif command == TREE_CONNECT and reply.status == SUCCESS:
            yield ("tree", reply.session, reply.tree), lambda ours: ours.tree if ours.status == SUCCESS else None, True
        elif command == CREATE and reply.status == SUCCESS:
            yield ("file", made_by(reply.data)), _opened, True

    def _taker(self, asked, read):
        """Reads an id in the first of our replies that has it, of those before a place."""
        def taken(ours, place):
            for at, message in ours.smb.get((asked.connection, asked.request.call.message), []):
                number = read(part_of(message)) if at < place else None
                if number is not None:
                    return number
            return None

        return taken


def _opened(reply):
    file = made_by(reply.data)
    return int.from_bytes(file[:4], "little") if file else None


# ---- what both answered

def call_in_words(session, asked):
    try:
        return smb.request_in_words(asked.message)
    except smb.SmbError:
        part = part_of(asked.message)
        name = f" {path_of(part)}" if part.command == CREATE else ""
        return f"smb {smb.NAMES.get(part.command, part.command)}{name}, whose parts have no words"


def difference(session, asked, ours):
    """What both answered in the end, since a server that has one wait needn't say so (MS-SMB2 3.3.4.2); None where it isn't
    compared: a CANCEL, and a step of a session's setup behind which the other server wants another, where ours needs one."""
    request = asked.request
    if request.call.command == CANCEL or not request.replies:
        return None
    their = request.replies[-1].data
    if smb.read_head(their).status == MORE_NEEDED:
        return None
    our = ours.smb.get((asked.connection, request.call.message), [])
    return answer_in_words(their), answer_in_words(our[-1][1]) if our else NO_ANSWER


def answer_in_words(message):
    """What a reply says, without ids: the status, and of an open's cache what it has."""
    part = part_of(message)
    status = smb.STATUSES.get(part.status, f"status {part.status:08x}")
    if part.status != SUCCESS or part.command != CREATE or len(message) < HEADER.size + 88:
        return status
    level = message[HEADER.size + 2]
    offset, length = struct.unpack_from("<2I", message, HEADER.size + 80)
    if level != smb.LEVELS["lease"]:
        return status + (f" oplock={smb.level_word(level)}" if level else "")
    lease = lease_of(message[offset : offset + length])
    return status + (f" lease state={lease}" if lease else " lease")


def lease_of(contexts):
    """The state of the lease among the contexts of an open."""
    at = 0
    while at + smb.CONTEXT.size <= len(contexts):
        following, name, name_length, _, data, length = struct.unpack_from("<I4HI", contexts, at)
        if contexts[at + name : at + name + name_length] == smb.LEASE_NAME and length >= 20:
            state = int.from_bytes(contexts[at + data + 16 : at + data + 20], "little")
            return smb.state_word(state) if state < 8 else str(state)
        if not following:
            return None
        at += following
    return None


def notice_in_words(message, session=None):
    """A notice, with our FileId in the place of the other server's where a session is given."""
    at = HEADER.size + 8
    if session is not None and message[HEADER.size : HEADER.size + 2] == b"\x18\0":
        number = session.ids.get(("file", message[at : at + 16]))
        if number is not None:
            message = message[:at] + struct.pack("<2Q", *[(EPOCH << 32) + number] * 2) + message[at + 16 :]
    try:
        return smb.reply_in_words(message)
    except smb.SmbError:
        return "notice 0x" + message[HEADER.size :].hex()
