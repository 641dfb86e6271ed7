"""Calls of NLM, of NFSv4.0 and of SMB 2.1 in captures, and how long a replay takes."""
import re
import struct
import subprocess
import sys

from links import ended

TEST, LOCK, UNLOCK, FREE_ALL = 1, 2, 4, 23
NLM, NFS = 100021, 100003
CALLER = b"m"


def opaque(data):
    return struct.pack(">I", len(data)) + data + bytes(-len(data) % 4)


def framed(xid, program, procedure, arguments):
    """A framed call of version 4 of a program."""
    call = struct.pack(">10I", xid, 0, 2, program, 4, procedure, 0, 0, 0, 0) + arguments
    return struct.pack(">I", 2**31 + len(call)) + call


def record(xid, procedure, file, svid, offset, length, exclusive=True, block=False, caller=CALLER):
    """A framed call of NLM, with a lock as its argument."""
    mode = struct.pack(">I", exclusive)
    before = {LOCK: struct.pack(">I", block) + mode, TEST: mode, UNLOCK: b""}[procedure]
    handle = b"XLK1" + struct.pack(">I", file)
    lock = opaque(caller) + opaque(handle) + opaque(b"") + struct.pack(">iQQ", svid, offset, length)
    after = bytes(8) if procedure == LOCK else b""
    return framed(xid, NLM, procedure, opaque(b"") + before + lock + after)


def free_all(xid, caller):
    """A framed FREE_ALL of this host."""
    return framed(xid, NLM, FREE_ALL, opaque(caller) + bytes(4))


def compound(xid, *ops):
    """A framed COMPOUND of NFSv4.0 of these operations."""
    return framed(xid, NFS, 1, opaque(b"") + struct.pack(">2I", 0, len(ops)) + b"".join(ops))


PUT_ROOT_FH, GET_FH = struct.pack(">I", 24), struct.pack(">I", 10)


def lookup(name):
    return struct.pack(">I", 15) + opaque(name)


def clientid(number):
    """The clientid of this number of a replay, whose epoch is 1."""
    return struct.pack(">2I", 1, number)


def renew(number):
    return struct.pack(">I", 30) + clientid(number)


def set_client_id(name):
    return struct.pack(">I", 35) + bytes(8) + opaque(name) + bytes(16)


def confirm(number, by):
    return struct.pack(">I", 36) + clientid(number) + struct.pack(">Q", by)


def put_fh(file):
    return struct.pack(">I", 22) + opaque(b"XLK1" + struct.pack(">I", file))


def stateid(number, seqid):
    """The stateid of this number of a replay, whose epoch is 1."""
    return struct.pack(">2IQ", seqid, 1, number)


def open_file(seqid, client, owner, name, access=3):
    """OPEN for reading and writing, or with another access, which denies nothing."""
    arguments = struct.pack(">4I", 18, seqid, access, 0) + clientid(client) + opaque(owner)
    return arguments + struct.pack(">2I", 0, 0) + opaque(name)


def open_confirm(opened, seqid):
    return struct.pack(">I", 20) + opened + struct.pack(">I", seqid)


WRITE_LOCK = 2


def first_lock(offset, length, opened, open_seqid, client, owner):
    """LOCK of an owner that has none under the open."""
    arguments = struct.pack(">3I2QI", 12, WRITE_LOCK, 0, offset, length, 1) + struct.pack(">I", open_seqid) + opened
    return arguments + struct.pack(">I", 0) + clientid(client) + opaque(owner)


def nfs_lock(offset, length, locks, seqid):
    return struct.pack(">3I2QI", 12, WRITE_LOCK, 0, offset, length, 0) + locks + struct.pack(">I", seqid)


def nfs_unlock(offset, length, locks, seqid):
    return struct.pack(">3I", 14, WRITE_LOCK, seqid) + locks + struct.pack(">2Q", offset, length)


def message(number, command, body, tree=0, session=0):
    """A framed request of SMB 2.1."""
    head = struct.pack("<4sHHIHHIIQIIQ", b"\xfeSMB", 64, 0, 0, command, 1, 0, 0, number, 0, tree, session) + bytes(16)
    return struct.pack(">I", len(head + body)) + head + body


def smb_number(number):
    """The session's id, or either half of the open's, of this number of a replay, whose epoch is 1."""
    return 2**32 + number


NEGOTIATE = struct.pack("<HHHHI16sQH", 36, 1, 1, 0, 0, bytes([17] * 16), 0, 0x0210)
SESSION_SETUP = struct.pack("<HBBIIHHQ", 25, 0, 1, 0, 0, 88, 0, 0)
ECHO = struct.pack("<HH", 4, 0)


def tree_connect(path):
    path = path.encode("utf-16-le")
    return struct.pack("<4H", 9, 0, 72, len(path)) + path


def create(name, access=3, share=7):
    """CREATE that opens what is there, without an oplock."""
    name = name.encode("utf-16-le")
    fixed = struct.pack("<HBBIQQ5I", 57, 0, 0, 0, 0, 0, access, 0, share, 1, 0)
    return fixed + struct.pack("<HHII", 120, len(name), 0, 0) + name


ALL_OF_A_LEASE, READS_AND_HANDLE, READS = 7, 3, 1


def create_leased(name, key, state=ALL_OF_A_LEASE):
    """The same for reading, with a lease of this state, of a key of one letter and zeros."""
    name = name.encode("utf-16-le")
    fixed = struct.pack("<HBBIQQ5I", 57, 0, 0xFF, 0, 0, 0, 1, 0, 7, 1, 0)
    padding = bytes(-len(name) % 8)
    lease = struct.pack("<16s2IQ", key, state, 0, 0)
    context = struct.pack("<I4HI4s4x", 0, 16, 4, 0, 24, len(lease), b"RqLs") + lease
    return fixed + struct.pack("<HHII", 120, len(name), 120 + len(name + padding), len(context)) + name + padding + context


def keep(key, state):
    """The acknowledgement of a lease's break, which keeps this state."""
    return struct.pack("<HHI16sIQ", 36, 0, 0, key, state, 0)


def close(opened):
    return struct.pack("<HHI2Q", 24, 0, 0, smb_number(opened), smb_number(opened))


EXCLUSIVE_AT_ONCE, UNLOCKED = 0x12, 4


def smb_lock(opened, offset, length, flags):
    """LOCK of one element."""
    fixed = struct.pack("<HHI2Q", 48, 1, 0, smb_number(opened), smb_number(opened))
    return fixed + struct.pack("<2Q2I", offset, length, flags, 0)


def write_capture(path, files, records, kind="rpc"):
    """A capture of one connection."""
    with open(path, "w") as out:
        for file in range(files):
            out.write(f"F f{file}\n")
        out.write(f"O {kind}\n")
        for data in records:
            out.write(f"B 0 {data.hex()}\n")


def measured(words, source):
    """The seconds of the processor and the peak of resident bytes of one run of a program on this input."""
    status, seconds, memory = ended(subprocess.Popen(words, stdin=source, stdout=subprocess.DEVNULL))
    if status != 0:
        sys.exit(f"{' '.join(words)} ended in {status}")
    return seconds, memory


def replay(binary, path):
    """The same of a replay of the capture in this file."""
    with open(path) as capture:
        return measured([binary, "replay"], capture)


def instructions(binary, path):
    """The instructions of a replay of the capture in this file, as callgrind of valgrind counts them: each run has as many."""
    words = ["valgrind", "--tool=callgrind", "--callgrind-out-file=/dev/null", binary, "replay"]
    with open(path) as capture:
        ran = subprocess.run(words, stdin=capture, stdout=subprocess.DEVNULL, stderr=subprocess.PIPE, text=True)
    counted = re.search(r"refs:\s+([\d,]+)", ran.stderr)
    if ran.returncode != 0 or counted is None:
        sys.exit(f"{' '.join(words)} ended in {ran.returncode}")
    return int(counted[1].replace(",", ""))


def make(binary, seed, count):
    """The same of so many calls that a number gives."""
    return measured([binary, "make", str(seed), str(count)], subprocess.DEVNULL)
