"""Clients of every kind at a server, and a server that is killed.

usage: serve_clients.py PROGRAM [KILLS]

PROGRAM is xlockd. It says nothing where all is well, else what went wrong:
- 16 lanes of each kind are served at once, a client each, and one more client as soon as a lane is free;
- a client that sends byte by byte is answered; meanwhile one that never reads, and one that is cut in a frame, hold up nobody, and the
  one that never reads is ended;
- a caller of NLM that waits is called back once it has its lock, and the capture that is written replays alike;
- a server is killed KILLS times (default 100), each time at another moment of its start; the record is read back whole each time, and
  the next start raises its epoch by one.
"""
import os
import random
import socket
import struct
import subprocess
import sys
import tempfile
import time

from calls import LOCK, NEGOTIATE, UNLOCK, message, record
from links import REPLY, Server, connect, take

RPC_PORT, SMB_PORT = 7021, 7022
NEGOTIATION = message(0, 0, NEGOTIATE)


def started(program, folder, lanes=2, turns=1_000_000, more=b""):
    """A server of one file."""
    return Server(program, (RPC_PORT, SMB_PORT), b"F a\n" + more, folder, lanes, turns)


def is_granted(link, number, seconds=10):
    """Whether a lock of a range of one's own, and its unlock, are granted."""
    for xid, procedure in (1, LOCK), (2, UNLOCK):
        link.sendall(record(xid, procedure, 1, number, 20 * number, 10))
        reply = take(link, REPLY, seconds)
        if len(reply) != REPLY or reply[-4:] != bytes(4):
            return False
    return True


def locks(link, seconds):
    """The same of a range that no other client asks for."""
    return is_granted(link, 16, seconds)


def negotiates(link, seconds=10):
    """Whether an SMB server answers with the dialect that is asked for (MS-SMB2 2.2.4)."""
    link.sendall(NEGOTIATION)
    reply = take(link, 4 + 64 + 6, seconds)
    return reply[4:8] == b"\xfeSMB" and reply[-2:] == struct.pack("<H", 0x0210)


def check_many(program, folder):
    with started(program, folder, lanes=16):
        callers = [connect(RPC_PORT) for _ in range(16)]
        openers = [connect(SMB_PORT) for _ in range(16)]
        for number, link in enumerate(callers):
            if not is_granted(link, number):
                return f"the client {number} of ONC RPC isn't served"
        for number, link in enumerate(openers):
            if not negotiates(link):
                return f"the client {number} of SMB isn't served"
        for port, links, serves in (RPC_PORT, callers, locks), (SMB_PORT, openers, negotiates):
            late = connect(port)
            if serves(late, 1):
                return f"a client of port {port} is served that has no lane"
            links[0].close()
            late.close()
            later = connect(port)
            if not serves(later, 10):
                return f"a client of port {port} isn't served once a lane is free"
    return None


class Flood:
    """A client that sends calls and reads no reply."""

    def __init__(self, port):
        self.link = connect(port)
        self.link.setsockopt(socket.SOL_SOCKET, socket.SO_RCVBUF, 4096)
        self.link.setblocking(False)
        self.rest = b""

    def is_ended(self, seconds):
        """Sends until none of it was taken for so many seconds, or two minutes have passed; whether the server ended the link before."""
        last = time.monotonic()
        end = last + 120
        while time.monotonic() < min(last + seconds, end):
            self.rest = self.rest or record(1, LOCK, 1, 7, 2000, 10) * 16
            try:
                self.rest = self.rest[self.link.send(self.rest) :]
                last = time.monotonic()
            except BlockingIOError:
                time.sleep(0.01)
            except OSError:
                return True
        return False


def check_slow(program, folder):
    with started(program, folder, lanes=4):
        cut = connect(RPC_PORT)
        cut.sendall(record(1, LOCK, 1, 3, 3000, 10)[:50])
        silent = Flood(RPC_PORT)
        if silent.is_ended(0.5):
            return "a client that reads nothing is ended at once"
        bytewise, other = connect(RPC_PORT), connect(RPC_PORT)
        for place in record(1, LOCK, 1, 1, 1000, 10):
            bytewise.sendall(bytes([place]))
            time.sleep(0.005)
        if len(take(bytewise, REPLY)) != REPLY:
            return "a client that sends byte by byte isn't answered"
        for _ in range(100):
            if not is_granted(other, 9, 2):
                return "a client beside slow ones isn't answered"
        if not silent.is_ended(20):
            return "a client that reads nothing isn't ended"
        cut.close()
        if not is_granted(connect(RPC_PORT), 10):
            return "a client isn't served behind one that was cut in a frame"
    return None


def answered_call(listener):
    """The call that comes to a listener, which answers that it is granted (XNFS C702, NLM version 4)."""
    with listener.accept()[0] as link:
        length = struct.unpack(">I", take(link, 4))[0] - 2**31
        call = take(link, length)
        cookie = call[40 : 44 + struct.unpack(">I", call[40:44])[0]]
        reply = call[:4] + struct.pack(">5I", 1, 0, 0, 0, 0) + cookie + bytes(4)
        link.sendall(struct.pack(">I", 2**31 + len(reply)) + reply)
        take(link, 1)
        return call


def check_call_back(program, folder):
    with socket.create_server(("127.0.0.1", 0)) as listener:
        listener.settimeout(10)
        high, low = divmod(listener.getsockname()[1], 256)
        address = f"H {b'b'.hex()} 127.0.0.1.{high}.{low}\n".encode()
        with started(program, folder, turns=300, more=address) as server:
            holder, waiter = connect(RPC_PORT), connect(RPC_PORT)
            told = []
            for link, procedure, caller in (holder, LOCK, b"a"), (waiter, LOCK, b"b"), (holder, UNLOCK, b"a"):
                link.sendall(record(1, procedure, 1, 7, 0, 10, block=caller == b"b", caller=caller))
                told.append(take(link, REPLY)[-1:])
            call = answered_call(listener)
            captured = server.captured()
    replayed = subprocess.run([program, "replay"], input=captured, capture_output=True, check=True).stdout.decode()
    if told != [b"\0", b"\3", b"\0"] or f" {call.hex()}\n" not in replayed or "1 range nlm:62/7/- 0 9 x" not in replayed:
        return "a caller that waits isn't called back, or the replay says otherwise"
    return None


def epoch_in(path):
    """The epoch of a record file, 0 without one: the mark XLR2, the epoch, the count of names, and the names (docs/LIMITS.md)."""
    if not os.path.exists(path):
        return 0
    with open(path, "rb") as file:
        content = file.read()
    mark, epoch, count = struct.unpack(">4sII", content[:12])
    if mark != b"XLR2" or len(content) != 12 or count != 0:
        sys.exit(f"the record file has {content!r}")
    return epoch


def start_time(program, folder):
    """How many seconds a start takes until the ports are open and the record is stored."""
    began = time.monotonic()
    with started(program, folder):
        with connect(SMB_PORT) as link:
            if not negotiates(link):
                sys.exit("a client of a new server isn't served")
            return time.monotonic() - began


def check_kills(program, folder, kills):
    path = os.path.join(folder, "record")
    most = start_time(program, folder)
    before = epoch_in(path)
    for number in range(kills):
        server = started(program, folder)
        time.sleep(random.uniform(0, most))
        server.kill()
        server.close()
        after = epoch_in(path)
        if after not in (before, before + 1):
            return f"kill {number}: the epoch went from {before} to {after}"
        before = after
        if number % 10 == 9:
            with started(program, folder) as whole:
                with connect(SMB_PORT) as link:
                    if not negotiates(link):
                        return f"kill {number}: the next start doesn't serve"
            if epoch_in(path) != before + 1:
                return f"kill {number}: the next start didn't raise the epoch"
            before += 1
    return None


def check_all(program, kills):
    """What went wrong, if something did; each check begins without a record, so that no grace runs in it."""
    checks = [check_many, check_slow, check_call_back, lambda program, folder: check_kills(program, folder, kills)]
    for check in checks:
        with tempfile.TemporaryDirectory() as folder:
            if wrong := check(program, folder):
                return wrong
    return None


def main(program, kills):
    random.seed(1)
    sys.exit(check_all(program, kills))


if __name__ == "__main__":
    main(sys.argv[1], int(sys.argv[2]) if len(sys.argv) > 2 else 100)
