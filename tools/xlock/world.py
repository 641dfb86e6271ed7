"""A world of random sessions: its connections, files, clients and owners, and the bytes that they send. It counts as the server
counts: events from 0, and the numbers of ids from 1 in each epoch, in the order in which they are drawn. An id has the epoch in its
upper 32 bits and the number in the lower ones."""
import random
import struct

from xlock import nfs, nlm, rpc, smb
from xlock.words import Files
from xlock.xdr import opaque, u32

LEASE, GRACE, BREAK = 60_000, 60_000, 20_000
FILES = 64
CALLERS = 8
CALL_HEAD = struct.Struct(">10I")
# A range is of cells of ten bytes.
CELL = 10
OK, DENIED, BLOCKED, IN_GRACE = 0, 1, 3, 4


def number_of(id_):
    return id_ & 0xFFFFFFFF


def stateid(id_, seqid):
    return struct.pack(">IIQ", seqid, id_ >> 32, number_of(id_))


def clientid(id_):
    return struct.pack(">Q", id_)


# ---- operations of NFSv4.0

PUT_ROOT, GET_FH = u32(nfs.PUT_ROOT_FH), u32(nfs.GET_FH)


def put_fh(file):
    return u32(nfs.PUT_FH) + opaque(Files.MARK + u32(file))


def op_open(seqid, client, owner, file, access, deny=0):
    head = struct.pack(">4I", nfs.OPEN, seqid, access, deny) + clientid(client)
    return head + opaque(owner) + struct.pack(">2I", 0, nfs.BY_NAME) + opaque(name_of(file))


def op_lock(first, count, exclusive, state, seqid, new=None):
    """`new` has the lock owner's clientid, its name, and the open owner's seqid."""
    head = struct.pack(">3I", nfs.LOCK, 2 if exclusive else 1, 0) + struct.pack(">2Q", first * CELL, count * CELL)
    if new is None:
        return head + u32(0) + state + u32(seqid)
    client, owner, open_seqid = new
    return head + struct.pack(">2I", 1, open_seqid) + state + u32(seqid) + clientid(client) + opaque(owner)


def op_test(first, count, exclusive, client, owner):
    head = struct.pack(">2I", nfs.LOCK_TEST, 2 if exclusive else 1) + struct.pack(">2Q", first * CELL, count * CELL)
    return head + clientid(client) + opaque(owner)


def op_unlock(first, count, state, seqid):
    return struct.pack(">3I", nfs.UNLOCK, 2, seqid) + state + struct.pack(">2Q", first * CELL, count * CELL)


def op_close(seqid, state):
    return struct.pack(">2I", nfs.CLOSE, seqid) + state


def op_confirm(state, seqid):
    return u32(nfs.OPEN_CONFIRM) + state + u32(seqid)


def name_of(file):
    return b"f%d" % file


class Client:
    """A client of NFSv4, with its owners, each by its name."""

    def __init__(self, name, connection, program):
        self.name, self.connection, self.program = name, connection, program
        self.id = self.renewed = 0
        self.idle, self.owners = [], 0
        self.opens = {}
        """The owners of its opens of shared files."""


class Owner:
    """An open owner with a lock owner of the same name: their last seqids, and what they have on a file."""

    def __init__(self, name):
        self.name = name
        self.seqid = self.lock_seqid = 0
        self.is_confirmed = False
        self.is_open = False
        """Of a shared file: whether its open is confirmed."""
        self.open, self.open_seqid = 0, 0
        self.lock, self.lock_state_seqid = None, 0

    def next(self):
        self.seqid += 1
        return self.seqid

    def next_lock(self):
        self.lock_seqid += 1
        return self.lock_seqid

    @property
    def state(self):
        return stateid(self.open, self.open_seqid)

    @property
    def lock_state(self):
        return stateid(self.lock, self.lock_state_seqid)


class Desk:
    """A client of SMB: a connection with a session and a tree connect."""

    def __init__(self, connection, guid):
        self.connection, self.guid = connection, guid
        self.session = self.tree = 0
        self.messages = 0
        self.opens = {}
        """Its opens of shared files."""


class Ranges:
    """The ranges of a shared file, by cells: of owners who have each byte once, and of opens of SMB, who have elements."""

    CELLS = 16

    def __init__(self):
        self.cells, self.elements = {}, []

    def is_free(self, owner, first, count, exclusive):
        for other, cells in self.cells.items():
            if other != owner and any(mode and (exclusive or mode == "x") for mode in cells[first : first + count]):
                return False
        for other, begin, length, mode in self.elements:
            meets = begin < first + count and first < begin + length
            if meets and (exclusive or (mode == "x" and other != owner)):
                return False
        return True

    def lock(self, owner, first, count, exclusive):
        """Whether a POSIX owner gets it."""
        if not self.is_free(owner, first, count, exclusive):
            return False
        cells = self.cells.setdefault(owner, [""] * self.CELLS)
        cells[first : first + count] = ["x" if exclusive else "s"] * count
        return True

    def unlock(self, owner, first, count):
        if owner in self.cells:
            self.cells[owner][first : first + count] = [""] * count

    def add(self, open_, first, count, exclusive):
        """Whether an open of SMB gets it."""
        is_free = self.is_free(open_, first, count, exclusive)
        if is_free:
            self.elements.append((open_, first, count, "x" if exclusive else "s"))
        return is_free

    def remove(self, open_, first, count):
        """Whether an open of SMB had it; of two equal ones the exclusive goes first."""
        for mode in "xs":
            if (open_, first, count, mode) in self.elements:
                self.elements.remove((open_, first, count, mode))
                return True
        return False


class Full(Exception):
    """A capture that has as many events, or bytes, as it may."""


class World:
    """What there is, and what was sent. `expected` has the status of each answer that is sure, where it is asked for, by the
    event's place: the protocol, the connection, of SMB the message's number, and the status."""

    def __init__(self, seed, write, most_events, most_bytes, expects=False):
        self.generator, self.write = random.Random(seed), write
        self.most_events, self.most_bytes = most_events, most_bytes
        self.place, self.epoch, self.number, self.clock, self.xid, self.size = 0, 1, 0, 0, 0, 0
        self.expected = {} if expects else None
        self.rpc, self.smb_count, self.harmful = [], 0, {}
        self.deadlines = []
        """Of breaks that are to be answered: the clock stays before them."""
        self.recorded = set()
        """Callers that are recorded; others may be, too."""

    # ---- chance

    def pick(self, most):
        """A number from 0 on, below this."""
        return int(self.generator.random() * most)

    def choice(self, items):
        return items[self.pick(len(items))]

    def chance(self, percent):
        return self.generator.random() * 100 < percent

    def bytes(self, count):
        return bytes(self.pick(256) for _ in range(count))

    # ---- lines

    def line(self, line, events=1):
        if self.place + events > self.most_events or self.size + len(line) + 1 > self.most_bytes:
            raise Full
        self.write(line + "\n")
        self.size += len(line) + 1
        self.place += events

    def header(self):
        for file in range(1, FILES + 1):
            self.line(f"F {name_of(file).decode()}", 0)
        for caller in range(CALLERS):
            self.line(f"H {caller_name(caller).hex()} 10.0.0.{caller + 1}.3.4", 0)
        self.line(f"L {LEASE} {GRACE} {BREAK}", 0)

    def open(self, kind):
        self.line("O " + kind)
        return self.place - 1

    def draw(self):
        self.number += 1
        return self.id_of(self.number)

    def id_of(self, number):
        return self.epoch << 32 | number

    def tick(self, moment):
        self.clock = moment
        self.line(f"T {moment}")

    def restart(self):
        """The server starts again: connections, ids and breaks are gone."""
        self.line("R")
        self.epoch += 1
        self.number, self.rpc, self.harmful, self.deadlines = 0, [], {}, []

    def rpc_connection(self):
        """A connection of ONC RPC, one of some that stay."""
        if len(self.rpc) < 4 or (len(self.rpc) < 8 and self.chance(1)):
            self.rpc.append(self.open("rpc"))
        return self.choice(self.rpc)

    def expect(self, protocol, connection, status, message=0):
        if self.expected is not None and status is not None:
            self.expected[self.place - 1] = protocol, connection, message, status

    # ---- messages

    def record(self, connection, record):
        """A record of ONC RPC, at times in fragments, or with its bytes in two lines."""
        way = self.pick(64)
        data = rpc.framed(record, 48 if way == 0 and len(record) < 48 * 60 else None)
        if way == 1:
            at = 1 + self.pick(len(data) - 1)
            self.line(f"B {connection} {data[:at].hex()}", 0)
            data = data[at:]
        self.line(f"B {connection} {data.hex()}")

    def call(self, connection, program, version, procedure, arguments):
        self.xid = (self.xid + 1) % 2**32
        self.record(connection, CALL_HEAD.pack(self.xid, 0, 2, program, version, procedure, 0, 0, 0, 0) + arguments)

    def nlm(self, procedure, said, status=None, connection=None):
        connection = self.rpc_connection() if connection is None else connection
        said = {"cookie": b"", "block": False, "exclusive": True, "reclaim": False, "state": 0, **said}
        self.call(connection, nlm.PROGRAM, nlm.VERSION, procedure, nlm.arguments_bytes(procedure, said))
        self.expect("nlm", connection, status)

    def range(self, procedure, caller, svid, file, first, count, status=None, **said):
        lock = nlm.Lock(caller, Files.MARK + u32(file), b"", svid, first * CELL, count * CELL)
        self.nlm(procedure, {"lock": lock, **said}, status)
        if procedure == nlm.LOCK and status == OK:
            self.recorded.add(caller)

    def compound(self, client, ops, status=None):
        """A COMPOUND by a client's connection, or by any."""
        connection = client.connection if client else self.rpc_connection()
        head = struct.pack(">3I", 0, 0, len(ops))
        self.call(connection, nfs.PROGRAM, nfs.VERSION, nfs.COMPOUND, head + b"".join(ops))
        self.expect("nfs", connection, status)

    def smb(self, desk, command, body, status=None, message=None, ids=None, flags=0):
        """A request of SMB; its number is the connection's next."""
        if message is None:
            message, desk.messages = desk.messages, desk.messages + 1
        ids = desk.tree << 32 if ids is None else ids
        head = smb.HEADER.pack(smb.MAGIC, 64, 0, 0, command, 1, flags, 0, message, ids, desk.session, bytes(16))
        self.line(f"B {desk.connection} {smb.framed(head + body).hex()}")
        self.expect("smb", desk.connection, status, message)
        return message

    def granted(self, call, status="granted"):
        """A caller's answer to a call of GRANTED."""
        number = number_of(call)
        self.line(f"C {number} {rpc.success_bytes(number, nlm.granted_answer(number, status)).hex()}")

    # ---- clients

    def set_client(self, client):
        """A SETCLIENTID and its confirmation, one event each."""
        callback = struct.pack(">I", client.program) + opaque(b"tcp") + opaque(b"127.0.0.1.3.4") + u32(1)
        self.compound(client, [u32(nfs.SET_CLIENT_ID) + bytes(8) + opaque(client.name) + callback], OK)
        client.id, confirm = self.draw(), self.draw()
        yield
        self.compound(client, [u32(nfs.CONFIRM) + clientid(client.id) + struct.pack(">Q", number_of(confirm))], OK)
        client.renewed = self.clock
        yield

    def renew(self, client):
        self.compound(client, [u32(nfs.RENEW) + clientid(client.id)], OK)
        client.renewed = self.clock

    def owner_of(self, client):
        """An owner of a client's that has nothing open."""
        if client.idle:
            return client.idle.pop()
        client.owners += 1
        return Owner(b"o%d" % client.owners)

    def nfs_open(self, client, owner, file, access, deny=0):
        """An OPEN that succeeds, and its confirmation where the owner needs one."""
        seqid = owner.next()
        self.compound(client, [PUT_ROOT, op_open(seqid, client.id, owner.name, file, access, deny), GET_FH], OK)
        owner.open, owner.open_seqid = self.draw(), 1
        yield
        if not owner.is_confirmed:
            self.compound(client, [put_fh(file), op_confirm(owner.state, owner.next())], OK)
            owner.is_confirmed, owner.open_seqid = True, owner.open_seqid + 1
            yield

    def nfs_lock(self, client, owner, file, first, count, exclusive=True, status=OK):
        """A LOCK, whose answer is known."""
        if owner.lock is None:
            new = client.id, owner.name, owner.next()
            op = op_lock(first, count, exclusive, owner.state, owner.next_lock(), new)
        else:
            op = op_lock(first, count, exclusive, owner.lock_state, owner.next_lock())
        self.compound(client, [put_fh(file), op], status)
        if status == OK and owner.lock is None:
            owner.lock, owner.lock_state_seqid = self.draw(), 0
        owner.lock_state_seqid += status == OK

    def nfs_unlock(self, client, owner, file, first, count):
        self.compound(client, [put_fh(file), op_unlock(first, count, owner.lock_state, owner.next_lock())], OK)
        owner.lock_state_seqid += 1

    def nfs_close(self, client, owner, file):
        self.compound(client, [put_fh(file), op_close(owner.next(), owner.state)], OK)
        owner.lock = None

    # ---- desks of SMB

    def new_desk(self):
        """A connection of SMB with its session and tree connect, one event each."""
        self.smb_count += 1
        desk = Desk(self.open("smb"), self.smb_count.to_bytes(16, "big"))
        yield
        body = struct.pack("<HHHHI16sQH", 36, 1, 1, 0, 0, desk.guid, 0, smb.DIALECT)
        self.smb(desk, smb.NEGOTIATE, body, OK)
        yield
        self.smb(desk, smb.SESSION_SETUP, struct.pack("<HBBIIHHQ", 25, 0, 1, 0, 0, 88, 0, 0), OK)
        desk.session = self.draw()
        yield
        path = "\\\\x\\xl".encode("utf-16-le")
        self.smb(desk, smb.TREE_CONNECT, struct.pack("<4H", 9, 0, 72, len(path)) + path, OK)
        desk.tree = number_of(self.draw())
        yield
        return desk

    def create(self, desk, file, status=OK, access=3, shared=7, level="none", lease=None):
        """A CREATE, and the number of its open. `lease` has its key and the states that are asked for."""
        name, contexts = name_of(file).decode().encode("utf-16-le"), b""
        if lease:
            level, (key, state) = "lease", lease
            contexts = smb.CONTEXT.pack(0, 16, 4, 0, 24, smb.LEASE.size, smb.LEASE_NAME) + smb.LEASE.pack(key, state, 0, 0)
        padding = -len(name) % 8 if contexts else 0
        at = 120 + len(name) + padding if contexts else 0
        body = struct.pack("<HBBIQQ5I", 57, 0, smb.LEVELS[level], 0, 0, 0, access, 0, shared, 1, 0)
        body += struct.pack("<HHII", 120, len(name), at, len(contexts)) + name + bytes(padding) + contexts
        self.smb(desk, smb.CREATE, body, status)
        return self.draw()

    def lock(self, desk, open_, elements, status=None):
        """A LOCK of elements: first cell, how many, flags."""
        body = struct.pack("<HHI", 48, len(elements), 0) + file_id(open_)
        body += b"".join(struct.pack("<2Q2I", first * CELL, count * CELL, flags, 0) for first, count, flags in elements)
        return self.smb(desk, smb.LOCK, body, status)

    def close(self, desk, open_, status=OK):
        self.smb(desk, smb.CLOSE, struct.pack("<HHI", 24, 0, 0) + file_id(open_), status)

    def acknowledge(self, desk, open_, level, status=OK):
        self.smb(desk, smb.BREAK, struct.pack("<HBBI", 24, smb.LEVELS[level], 0, 0) + file_id(open_), status)

    def acknowledge_lease(self, desk, key, state, status=OK):
        self.smb(desk, smb.BREAK, struct.pack("<HHI16sIQ", 36, 0, 0, key, state, 0), status)


def file_id(open_):
    return struct.pack("<2Q", open_, open_)


def caller_name(number):
    return b"host-%d" % number
