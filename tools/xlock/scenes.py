"""Scenes of random sessions: what clients of the three protocols do with a file that nobody else names, so that each answer is
known, and what they do with the files that all share.

A scene is a generator that sends one event, or waits for the clock, before each `yield`. The numbers that ids have are known
since each event is sent where its scene draws them."""
import struct
from collections import Counter

from xlock import nfs, nlm, rpc, smb
from xlock.world import BLOCKED, BREAK, DENIED, GRACE, IN_GRACE, LEASE, OK, PUT_ROOT, Client, Ranges, World, caller_name
from xlock.world import clientid, name_of, number_of, op_close, op_open, op_test, put_fh, stateid
from xlock.xdr import opaque, u32

SHARED_FILES, MOST_ELEMENTS = 8, 200
CLIENTS, CALLED_BACK, DESKS = 6, 4, 6
CALLBACK_PROGRAM = 0x40000000
AT_ONCE = 0x10
NFS_DENIED, NFS_DELAY, NFS_SHARE_DENIED = 10010, 10008, 10015
PENDING, NOT_GRANTED, SHARING_VIOLATION, NOT_LOCKED = 0x103, 0xC0000055, 0xC0000043, 0xC000007E
# The states of a lease: for reads 1, for the handle 2, for writes 4.
ALL_STATES, READS_AND_HANDLE = 7, 3


class Stage:
    """The world, and who may be in a scene."""

    def __init__(self, world: World, files):
        self.world = world
        self.files = list(range(SHARED_FILES + 1, files + 1))
        self.clients, self.desks, self.called_back = [], [], []
        self.ranges = {file: Ranges() for file in range(1, SHARED_FILES + 1)}
        self.made, self.serial = Counter(), 0
        """How many there are of each kind, and how many names were given."""
        self.hosts = [caller_name(6), caller_name(7)]

    def file(self):
        return self.files.pop(self.world.pick(len(self.files)))

    def new_client(self, kind, program=0):
        """A client of a new name, which isn't set yet."""
        self.serial += 1
        return Client(b"%s-%d" % (kind, self.serial), self.world.rpc_connection(), program)

    def callers(self, count):
        """Some callers, each another."""
        first = self.world.pick(6)
        return [caller_name((first + at) % 6) for at in range(count)]

    def client(self):
        """One of the clients that stay; some are made first."""
        world = self.world
        if not self.clients or (self.made["client"] < CLIENTS and world.chance(10)):
            self.made["client"] += 1
            client = self.new_client(b"client")
            yield
            yield from world.set_client(client)
            self.clients.append(client)
        return world.choice(self.clients)

    def desk(self):
        """One of the desks that stay."""
        if not self.desks or (self.made["desk"] < DESKS and self.world.chance(10)):
            self.made["desk"] += 1
            desk = yield from self.world.new_desk()
            self.desks.append(desk)
        return self.world.choice(self.desks)

    def two_desks(self):
        one = yield from self.desk()
        others = [desk for desk in self.desks if desk is not one]
        if others:
            return one, self.world.choice(others)
        other = yield from self.world.new_desk()
        self.desks.append(other)
        return one, other

    def delegate(self):
        """A client that can be called back, in no other scene; None where all are."""
        world = self.world
        if self.called_back:
            return self.called_back.pop()
        if self.made["called_back"] >= CALLED_BACK:
            return None
        self.made["called_back"] += 1
        client = self.new_client(b"delegate", CALLBACK_PROGRAM)
        yield
        yield from world.set_client(client)
        return client

    def until(self, moment):
        """Waits for the clock."""
        while self.world.clock < moment:
            yield

    def break_answered(self, deadline):
        self.world.deadlines.remove(deadline)

    def break_begins(self):
        """The deadline of a break, before which the clock stays until `break_answered`."""
        deadline = self.world.clock + BREAK
        self.world.deadlines.append(deadline)
        return deadline


# ---- NLM

def nlm_waits(stage):
    """One holds a range, others wait for it, one by one, and answer the calls in different ways."""
    world, file = stage.world, stage.file()
    holder, *waiting = stage.callers(2 + world.pick(2))
    svid, first, count = world.pick(9), world.pick(90), 1 + world.pick(9)
    world.range(nlm.LOCK, holder, svid, file, first, count, OK)
    yield
    for caller in waiting:
        world.range(nlm.LOCK, caller, svid, file, first, count, BLOCKED, block=True)
        world.draw()
        yield
        if world.chance(20):
            world.range(nlm.LOCK, caller, svid, file, first, count, BLOCKED, block=True)
            yield
    if world.chance(20):
        caller = waiting.pop()
        world.range(nlm.CANCEL, caller, svid, file, first, count, OK, block=True)
        yield
    while waiting:
        world.range(nlm.UNLOCK, holder, svid, file, first, count, OK)
        holder, call = waiting.pop(0), world.draw()
        yield
        if world.chance(70):
            world.granted(call)
            yield
    world.range(nlm.UNLOCK, holder, svid, file, first, count, OK)
    yield
    stage.files.append(file)


def nlm_refuses(stage):
    """One who waited doesn't want the range any more."""
    world, file = stage.world, stage.file()
    holder, caller, third = stage.callers(3)
    world.range(nlm.LOCK, holder, 1, file, 0, 5, OK)
    yield
    world.range(nlm.LOCK, caller, 1, file, 2, 9, BLOCKED, block=True)
    world.draw()
    yield
    world.range(nlm.UNLOCK, holder, 1, file, 0, 5, OK)
    call = world.draw()
    yield
    world.range(nlm.LOCK, third, 1, file, 2, 9, DENIED)
    yield
    world.granted(call, "denied")
    yield
    world.range(nlm.LOCK, third, 1, file, 2, 9, OK)
    yield
    world.range(nlm.UNLOCK, third, 1, file, 0, 99, OK)
    yield
    stage.files.append(file)


def nlm_shares(stage):
    world, file = stage.world, stage.file()
    one, other = stage.callers(2)
    said = {"caller": one, "handle": b"XLK1" + u32(file), "owner": b"", "mode": {"w"}, "access": {"r"}}
    world.nlm(nlm.SHARE, said, OK)
    yield
    world.nlm(nlm.SHARE, {**said, "caller": other, "access": {"w"}, "mode": set()}, DENIED)
    yield
    world.nlm(nlm.UNSHARE, said, OK)
    yield
    world.nlm(nlm.SHARE, {**said, "caller": other, "access": {"w"}, "mode": set()}, OK)
    yield
    world.nlm(nlm.UNSHARE, {**said, "caller": other, "access": {"w"}, "mode": set()}, OK)
    yield
    stage.files.append(file)


def nlm_host_ends(stage):
    """A host starts anew: what it had is free."""
    world = stage.world
    if not stage.hosts:
        return
    host, other, file = stage.hosts.pop(), stage.callers(1)[0], stage.file()
    for at in range(1 + world.pick(5)):
        world.range(nlm.LOCK, host, world.pick(3), file, 3 * at, 2, OK)
        yield
    world.nlm(nlm.FREE_ALL, {"caller": host})
    yield
    world.range(nlm.LOCK, other, 0, file, 0, 20, OK)
    yield
    world.range(nlm.UNLOCK, other, 0, file, 0, 20, OK)
    yield
    stage.files.append(file)
    stage.hosts.append(host)


def grace(world):
    """Behind a restart a recorded caller reclaims, whoever else asks has to wait, and grace ends; then nobody reclaims any more. Of
    the callers that are known to be recorded the one that reclaimed is left."""
    if world.recorded:
        one, file = world.choice(sorted(world.recorded)), SHARED_FILES + 1
        world.range(nlm.LOCK, one, 1, file, 0, 5, IN_GRACE)
        world.range(nlm.LOCK, one, 1, file, 0, 5, OK, reclaim=True)
        world.range(nlm.LOCK, b"nobody", 1, file, 9, 5, DENIED, reclaim=True)
        world.range(nlm.LOCK, b"nobody", 1, file, 9, 5, IN_GRACE, block=True)
        world.range(nlm.UNLOCK, one, 1, file, 0, 5, OK)
        world.recorded = {one}
    world.tick(world.clock + GRACE)
    world.range(nlm.LOCK, b"nobody", 1, SHARED_FILES + 1, 9, 5, IN_GRACE, reclaim=True)


# ---- NFSv4.0

def nfs_locks(stage):
    """A client opens a file, locks and unlocks, and another meets the locks and the share."""
    world, file = stage.world, stage.file()
    client = yield from stage.client()
    owner = world.owner_of(client)
    other = yield from stage.client()
    denies = 2 if world.chance(40) else 0
    yield from world.nfs_open(client, owner, file, 3, denies)
    for at in range(world.pick(6)):
        world.nfs_lock(client, owner, file, 4 * at, 1 + world.pick(3), world.chance(60))
        yield
    if owner.lock is not None:
        world.compound(other, [put_fh(file), op_test(0, 40, True, other.id, b"tester")], NFS_DENIED)
        yield
        world.range(nlm.LOCK, stage.callers(1)[0], 3, file, 0, 40, DENIED)
        yield
        world.nfs_unlock(client, owner, file, world.pick(5), 1 + world.pick(5))
        yield
    if denies:
        opener = world.owner_of(other)
        op = op_open(opener.next(), other.id, opener.name, file, 2)
        world.compound(other, [PUT_ROOT, op], NFS_SHARE_DENIED)
        other.idle.append(opener)
        yield
    world.nfs_close(client, owner, file)
    yield
    client.idle.append(owner)
    stage.files.append(file)


def _delegated(stage, holder, owner, file):
    """An OPEN of a confirmed owner, and the number of the delegation that it brings."""
    world = stage.world
    if not owner.is_confirmed:
        yield from world.nfs_open(holder, owner, file, 1)
        world.nfs_close(holder, owner, file)
        yield
    op = op_open(owner.next(), holder.id, owner.name, file, 2 if world.chance(50) else 1)
    world.compound(holder, [PUT_ROOT, op], OK)
    owner.open, owner.open_seqid, delegation = world.draw(), 1, world.draw()
    yield
    return delegation


def nfs_delegation(stage):
    """A client has a delegation, another asks for what that keeps off; the first returns it, or is silent until the deadline."""
    world = stage.world
    holder = yield from stage.delegate()
    if holder is None:
        return
    asker, file = (yield from stage.client()), stage.file()
    owner, opener = world.owner_of(holder), world.owner_of(asker)
    delegation = yield from _delegated(stage, holder, owner, file)
    op = op_open(opener.next(), asker.id, opener.name, file, 2)
    world.compound(asker, [PUT_ROOT, op], NFS_DELAY)
    call, deadline = world.draw(), stage.break_begins()
    yield
    if world.chance(50):
        number = number_of(call)
        world.line(f"C {number} {rpc.success_bytes(number, u32(0) + u32(0) + struct.pack('>3I', 1, 4, 0)).hex()}")
        yield
    is_silent = world.chance(25)
    if is_silent:
        stage.break_answered(deadline)
        yield from stage.until(deadline)
        stage.made["called_back"] -= 1
    else:
        world.compound(holder, [put_fh(file), u32(nfs.RETURN_DELEGATION) + stateid(delegation, 1)], OK)
        stage.break_answered(deadline)
        yield
    yield from world.nfs_open(asker, opener, file, 2)
    world.nfs_close(asker, opener, file)
    yield
    asker.idle.append(opener)
    if not is_silent:
        world.nfs_close(holder, owner, file)
        yield
        holder.idle.append(owner)
        stage.called_back.append(holder)
    stage.files.append(file)


def nfs_expires(stage):
    """A client is silent until its lease has ended; what it locked is free then."""
    world, file = stage.world, stage.file()
    client = stage.new_client(b"short")
    yield
    yield from world.set_client(client)
    owner = world.owner_of(client)
    yield from world.nfs_open(client, owner, file, 3)
    world.nfs_lock(client, owner, file, 0, 9)
    last = world.clock
    yield
    caller = stage.callers(1)[0]
    world.range(nlm.LOCK, caller, 4, file, 0, 9, DENIED)
    yield
    yield from stage.until(last + LEASE)
    world.range(nlm.LOCK, caller, 4, file, 0, 9, OK)
    yield
    world.compound(client, [u32(nfs.RENEW) + clientid(client.id)], 10022)
    yield
    world.range(nlm.UNLOCK, caller, 4, file, 0, 9, OK)
    yield
    stage.files.append(file)


# ---- SMB

def _leave(stage, file, *opens):
    """The opens of a file are closed, and nobody has it any more."""
    for desk, open_ in opens:
        stage.world.close(desk, open_)
        yield
    stage.files.append(file)


def smb_locks(stage):
    """Two opens meet; one waits, and is served, or cancelled."""
    world, file = stage.world, stage.file()
    one, other = yield from stage.two_desks()
    first = world.create(one, file)
    yield
    second = world.create(other, file)
    yield
    world.lock(one, first, [(0, 5, 2 | AT_ONCE), (7, 1, 1 | AT_ONCE)], OK)
    yield
    world.lock(other, second, [(3, 4, 1 | AT_ONCE)], NOT_GRANTED)
    yield
    message = world.lock(other, second, [(3, 4, 2)], PENDING)
    waiter = world.draw()
    yield
    if world.chance(30):
        is_by_message = world.chance(50)
        ids, flags = (None, 0) if is_by_message else (number_of(waiter), 2)
        world.smb(other, smb.CANCEL, struct.pack("<HH", 4, 0), message=message, ids=ids, flags=flags)
        yield
        world.lock(one, first, [(0, 5, 4), (7, 1, 4)], OK)
        yield
        world.lock(other, second, [(3, 4, 4)], NOT_LOCKED)
        yield
    else:
        world.lock(one, first, [(0, 5, 4)], OK)
        yield
        world.lock(other, second, [(3, 4, 4)], OK)
        yield
    yield from _leave(stage, file, (one, first), (other, second))


def smb_oplock(stage):
    """An open has an oplock, another comes; the first answers the break, or is silent until the deadline."""
    world, file = stage.world, stage.file()
    one, other = yield from stage.two_desks()
    level = world.choice(["batch", "exclusive"])
    first = world.create(one, file, level=level)
    yield
    second = world.create(other, file, PENDING)
    world.draw()
    deadline = stage.break_begins()
    yield
    if world.chance(20):
        stage.break_answered(deadline)
        yield from stage.until(deadline)
    else:
        world.acknowledge(one, first, world.choice(["none", "level2"]))
        stage.break_answered(deadline)
        yield
    world.lock(other, second, [(0, 3, 2 | AT_ONCE)], OK)
    yield
    world.range(nlm.LOCK, stage.callers(1)[0], 2, file, 2, 9, DENIED)
    yield
    yield from _leave(stage, file, (one, first), (other, second))


def smb_lease(stage):
    """A lease is broken by an open of another client, and then by a lock of NLM that waits for the answer."""
    world, file = stage.world, stage.file()
    one, other = yield from stage.two_desks()
    key = world.bytes(16)
    first = world.create(one, file, lease=(key, ALL_STATES))
    yield
    second = world.create(other, file, PENDING)
    world.draw()
    deadline = stage.break_begins()
    yield
    world.acknowledge_lease(one, key, READS_AND_HANDLE)
    stage.break_answered(deadline)
    yield
    caller = stage.callers(1)[0]
    world.range(nlm.LOCK, caller, 2, file, 2, 9, BLOCKED, block=True)
    world.draw()
    deadline = stage.break_begins()
    yield
    world.acknowledge_lease(one, key, 0)
    call = world.draw()
    stage.break_answered(deadline)
    yield
    world.granted(call)
    yield
    world.lock(other, second, [(5, 1, 1 | AT_ONCE)], NOT_GRANTED)
    yield
    world.range(nlm.UNLOCK, caller, 2, file, 0, 90, OK)
    yield
    yield from _leave(stage, file, (one, first), (other, second))


def smb_leaves(stage):
    """A connection of SMB ends with all that it has."""
    world, file = stage.world, stage.file()
    desk = yield from world.new_desk()
    open_ = world.create(desk, file, shared=1)
    yield
    world.lock(desk, open_, [(0, 9, 2 | AT_ONCE)], OK)
    yield
    other = yield from stage.desk()
    world.create(other, file, SHARING_VIOLATION)
    yield
    world.range(nlm.LOCK, stage.callers(1)[0], 1, file, 0, 9, DENIED)
    yield
    world.line(f"E {desk.connection}")
    yield
    second = world.create(other, file)
    yield
    world.lock(other, second, [(0, 9, 2 | AT_ONCE)], OK)
    yield
    yield from _leave(stage, file, (other, second))


# ---- over protocols

def over_protocols(stage):
    """A lock of NLM keeps off the others; one of SMB waits for it."""
    world, file = stage.world, stage.file()
    client = yield from stage.client()
    desk = yield from stage.desk()
    owner, caller = world.owner_of(client), stage.callers(1)[0]
    open_ = world.create(desk, file)
    yield
    yield from world.nfs_open(client, owner, file, 3)
    world.range(nlm.LOCK, caller, 5, file, 0, 9, OK)
    yield
    world.nfs_lock(client, owner, file, 5, 9, status=NFS_DENIED)
    yield
    world.lock(desk, open_, [(8, 9, 2)], PENDING)
    world.draw()
    yield
    world.range(nlm.UNLOCK, caller, 5, file, 0, 9, OK)
    yield
    world.lock(desk, open_, [(8, 9, 4)], OK)
    yield
    world.nfs_lock(client, owner, file, 5, 9)
    yield
    world.nfs_close(client, owner, file)
    yield
    world.close(desk, open_)
    yield
    client.idle.append(owner)
    stage.files.append(file)


ALL = [
    nlm_waits, nlm_refuses, nlm_shares, nlm_host_ends, nfs_locks, nfs_locks, nfs_delegation, nfs_expires, smb_locks, smb_oplock,
    smb_lease, smb_leaves, over_protocols,
]  # fmt: skip


# ---- on shared files

def shared_range(stage):
    """A random lock, unlock or test on a file that all share, by any protocol."""
    world = stage.world
    file, first = 1 + world.pick(SHARED_FILES), world.pick(Ranges.CELLS)
    count, exclusive = 1 + world.pick(min(4, Ranges.CELLS - first)), world.chance(50)
    way = world.pick(3)
    if way == 0:
        yield from _by_nlm(stage, file, first, count, exclusive)
    elif way == 1:
        yield from _by_nfs(stage, file, first, count, exclusive)
    else:
        yield from _by_smb(stage, file, first, count, exclusive)


def _by_nlm(stage, file, first, count, exclusive):
    world, ranges = stage.world, stage.ranges[file]
    caller, svid = stage.callers(1)[0], world.pick(4)
    owner, way = ("nlm", caller, svid), world.pick(5)
    if way == 0:
        is_free = ranges.is_free(owner, first, count, exclusive)
        world.range(nlm.TEST, caller, svid, file, first, count, OK if is_free else DENIED, exclusive=exclusive)
    elif way < 3:
        is_done = ranges.lock(owner, first, count, exclusive)
        world.range(nlm.LOCK, caller, svid, file, first, count, OK if is_done else DENIED, exclusive=exclusive)
    else:
        ranges.unlock(owner, first, count)
        world.range(nlm.UNLOCK, caller, svid, file, first, count, OK)
    yield


def _by_nfs(stage, file, first, count, exclusive):
    world, ranges = stage.world, stage.ranges[file]
    client = yield from stage.client()
    if file not in client.opens:
        client.opens[file] = opened = world.owner_of(client)
        yield from world.nfs_open(client, opened, file, 3)
        opened.is_open = True
    owner = client.opens[file]
    if not owner.is_open:
        return
    key = "nfs", client.name, owner.name
    if world.chance(60) or owner.lock is None:
        is_done = ranges.lock(key, first, count, exclusive)
        world.nfs_lock(client, owner, file, first, count, exclusive, OK if is_done else NFS_DENIED)
    else:
        ranges.unlock(key, first, count)
        world.nfs_unlock(client, owner, file, first, count)
    yield


def _by_smb(stage, file, first, count, exclusive):
    world, ranges = stage.world, stage.ranges[file]
    desk = yield from stage.desk()
    if file not in desk.opens:
        desk.opens[file] = world.create(desk, file)
        yield
    open_ = desk.opens[file]
    if world.chance(50) and len(ranges.elements) < MOST_ELEMENTS:
        is_done = ranges.add(open_, first, count, exclusive)
        flags = (2 if exclusive else 1) | AT_ONCE
        world.lock(desk, open_, [(first, count, flags)], OK if is_done else NOT_GRANTED)
    else:
        held = [element for element in ranges.elements if element[0] == open_]
        if held and world.chance(80):
            _, first, count, _ = world.choice(held)
        is_done = ranges.remove(open_, first, count)
        world.lock(desk, open_, [(first, count, 4)], OK if is_done else NOT_LOCKED)
    yield


# ---- hostile

def hostile(stage):
    """An event of one who means harm, or is broken. It draws nothing and changes nothing that the scenes know."""
    world = stage.world
    world.choice([_no_record, _no_frame, _cut_call, _strange_call, _strange_ops, _strange_smb, _strange_smb, _others_ids])(stage)


def _open_for_harm(world, kind):
    if kind not in world.harmful:
        world.harmful[kind] = world.open(kind)
    return world.harmful[kind]


def _no_record(stage):
    """A mark that none is ends a connection; bytes that are no call are passed over."""
    world = stage.world
    connection = _open_for_harm(world, "rpc")
    if world.chance(20):
        del world.harmful["rpc"]
        world.line(f"B {connection} {world.choice(['00000000', '7fffffff', 'ffffffff'])}{world.bytes(8).hex()}")
    else:
        world.line(f"B {connection} {rpc.framed(world.bytes(world.pick(60))).hex()}")


def _no_frame(stage):
    world = stage.world
    connection = _open_for_harm(world, "smb")
    if world.chance(20):
        del world.harmful["smb"]
        world.line(f"B {connection} {world.choice(['01000000', '00ffffff', 'ff534d42'])}{world.bytes(8).hex()}")
    else:
        data = world.choice([smb.MAGIC, b"\xffSMB", b""]) + world.bytes(world.pick(120))
        world.line(f"B {connection} {smb.framed(data).hex()}")


def _cut_call(stage):
    """A TEST that ends too early, or with a bit that is another."""
    world = stage.world
    lock = nlm.Lock(b"x", b"XLK1" + u32(world.pick(80)), b"", 1, world.pick(2**31), 5)
    arguments = bytearray(nlm.arguments_bytes(nlm.TEST, {"cookie": b"", "exclusive": True, "lock": lock}))
    if world.chance(50):
        arguments = arguments[: world.pick(len(arguments))]
    else:
        arguments[world.pick(len(arguments))] ^= 1 << world.pick(8)
    world.call(_open_for_harm(world, "rpc"), nlm.PROGRAM, nlm.VERSION, nlm.TEST, bytes(arguments))


def _strange_call(stage):
    """Another program, version or procedure."""
    world = stage.world
    program = world.choice([nlm.PROGRAM, nfs.PROGRAM, 100000, world.pick(2**31)])
    version, procedure = world.choice([1, 3, 4, 5, 2**32 - 1]), world.choice([5, 10, 15, 19, 24, 2**32 - 1])
    world.call(_open_for_harm(world, "rpc"), program, version, procedure, world.bytes(4 * world.pick(20)))


def _strange_ops(stage):
    """A COMPOUND with stateids and clientids that nobody has, operations that none are, or too many."""
    world = stage.world
    nobody = world.id_of(2**31 + world.pick(2**31))
    seqid, epoch = world.pick(9), world.choice([world.epoch, world.epoch, 0, world.epoch + 6])
    other = stateid(epoch << 32 | number_of(nobody), seqid)
    file = world.pick(99)
    op = world.choice([
        lambda: op_close(world.pick(9), other),
        lambda: u32(nfs.RENEW) + clientid(nobody),
        lambda: op_open(1, nobody, b"nobody", 1, world.pick(5), world.pick(5)),
        lambda: u32(nfs.RETURN_DELEGATION) + other,
        lambda: u32(world.choice([0, 1, 2, 3, 9, 17, 25, 40, 10044, 2**32 - 1])) + world.bytes(8),
        lambda: u32(nfs.LOCK) + world.bytes(world.pick(60)),
        lambda: u32(nfs.LOOKUP) + opaque(world.bytes(world.pick(40))),
        lambda: u32(nfs.LOOKUP) + opaque(name_of(file)),
    ])()  # fmt: skip
    ops = [world.choice([put_fh(file), PUT_ROOT, u32(nfs.PUT_FH) + opaque(world.bytes(8))]), op] * world.choice([1, 1, 1, 1, 40])
    world.compound(None, ops)


def _strange_smb(stage):
    """A request of a desk's with ids that nobody has, or a part that is another than it says."""
    world = stage.world
    if not stage.desks:
        return _no_frame(stage)
    desk, nobody = world.choice(stage.desks), world.id_of(2**31 + world.pick(2**31))
    way = world.pick(6)
    if way == 0:
        world.lock(desk, nobody, [(0, 1, world.pick(64))])
    elif way == 1:
        world.close(desk, nobody, None)
    elif way == 2:
        world.smb(desk, world.choice([7, 8, 9, 11, 14, 16, 17, 19, 65535]), world.bytes(world.pick(90)))
    elif way == 3:
        world.smb(desk, smb.LOCK, world.bytes(world.pick(60)), ids=world.pick(2**31) << 32)
    elif way == 4:
        world.smb(desk, smb.CREATE, struct.pack("<H", 57) + world.bytes(world.pick(40)))
    else:
        world.smb(desk, smb.BREAK, struct.pack("<HHI16sIQ", 36, 0, 0, world.bytes(16), world.pick(8), 0))


def _others_ids(stage):
    """A client is set again by another verifier and never confirmed; it draws two numbers."""
    world = stage.world
    callback = u32(0) + opaque(b"tcp") + opaque(b"") + u32(0)
    world.compound(None, [u32(nfs.SET_CLIENT_ID) + world.bytes(8) + opaque(b"stranger") + callback], OK)
    world.draw(), world.draw()
