"""A soak: random sessions of all protocols, half of whose events are hostile, replayed and served.

usage: soak.py PROGRAM [EVENTS]

PROGRAM is xlockd. It replays captures of 500,000 events each until EVENTS (default 10,000,000) are replayed, and then serves until as many
are entered, by one server after another. A line tells of each run; the first that isn't as it should be is told and ends all:
- a replay ends with status 0;
- a server grants each of PAIRS pairs of a lock and an unlock of an honest client, ends once its journal is full (status 7), and its capture
  replays;
- neither holds more memory than what it reads and its journal need, MOST bytes for each byte of the capture.

What is served has the bytes of such captures, sent by some clients at once as fast as they are taken. So ids and places are others than
those that they were made for, and more of them are nobody's.
"""
import multiprocessing
import os
import select
import subprocess
import sys
import tempfile
import time
from pathlib import Path

from calls import LOCK, UNLOCK, record
from links import REPLY, Server, connect, ended, take

sys.path.insert(0, str(Path(__file__).resolve().parent.parent / "tools"))
from make_capture import MOST_BYTES, Show, write_capture  # noqa: E402
from xlock.world import FILES, Full, World  # noqa: E402

RPC_PORT, SMB_PORT = 7031, 7032
EACH, HOSTILE = 500_000, 50
# Bytes of memory for each byte of a capture, and what a program takes without one.
MOST, WITHOUT = 8, 32 * 2**20
DONE, JOURNAL_FULL = 0, 7
PAIRS = 2_000
# Of 16 lanes of each kind one is the honest client's.
FEEDERS, LINKS = 3, 5
# The file of the honest client, behind those of the sessions.
HONEST = FILES


def judged(what, events, size, run, *wanted):
    """Tells of a run, and ends all if it isn't as it should be."""
    status, seconds, memory = run
    print(f"{what}: {events:,} events, {seconds:.1f} s, {memory / 2**20:.0f} MB for {size / 2**20:.0f} MB of capture", flush=True)
    if status not in wanted:
        sys.exit(f"{what} ended with status {status}")
    if memory > WITHOUT + MOST * size:
        sys.exit(f"{what} held too much memory")


def check_replay(program, what, events, path):
    with open(path) as capture:
        run = ended(subprocess.Popen([program, "replay"], stdin=capture, stdout=subprocess.DEVNULL))
    judged(what, events, os.path.getsize(path), run, DONE)


def check_replays(program, folder, count):
    path, number = os.path.join(folder, "capture"), 0
    while count > 0:
        number += 1
        with open(path, "w") as file:
            world = write_capture(f"soak/{number}", min(count, EACH), HOSTILE, file.write, restarts=100_000)
        check_replay(program, f"replay {number}", world.place, path)
        count -= world.place


# ---- clients of a server


class Links:
    """The connections of a session, by their numbers in its capture: of each kind as many as lanes are there for. One more ends the oldest."""

    def __init__(self):
        self.links, self.kinds = {}, {}

    def open(self, number, kind):
        alike = [other for other in self.links if self.kinds[other] == kind]
        if len(alike) == LINKS:
            self.end(alike[0])
        try:
            link = connect(RPC_PORT if kind == "rpc" else SMB_PORT, 5)
        except (TimeoutError, ConnectionResetError):
            return
        link.setblocking(False)
        self.links[number], self.kinds[number] = link, kind

    def take(self, link):
        """Takes what the server sent; whether the link is there still."""
        try:
            while piece := link.recv(65536):
                if len(piece) < 65536:
                    return True
            return False
        except BlockingIOError:
            return True
        except OSError:
            return False

    def send(self, number, data):
        """Sends bytes as the server takes them, for two seconds at most."""
        link, end = self.links.get(number), time.monotonic() + 2
        while link and data:
            if not self.take(link) or time.monotonic() > end:
                self.end(number)
                return
            try:
                data = data[link.send(data) :]
            except BlockingIOError:
                select.select([], [link], [], 0.1)
            except OSError:
                self.end(number)
                return

    def end(self, number):
        if link := self.links.pop(number, None):
            link.close()

    def end_all(self):
        for number in [*self.links]:
            self.end(number)


class Feed:
    """Sends the bytes of a session as they are made."""

    def __init__(self, seed):
        self.links = Links()
        self.world = World(seed, self.play, EACH, MOST_BYTES)
        self.world.header()

    def play(self, line):
        kind, *words = line.split()
        if kind == "O":
            self.links.open(self.world.place, words[0])
        elif kind == "B":
            self.links.send(int(words[0]), bytes.fromhex(words[1]))
        elif kind == "E":
            self.links.end(int(words[0]))

    def run(self):
        """Sends all of it; whether somebody listened up to its end."""
        show = Show(self.world, HOSTILE, 0)
        try:
            while True:
                show.event()
        except Full:
            return True
        except ConnectionRefusedError:
            return False
        finally:
            self.links.end_all()


def feed(seed):
    """Sends sessions until nobody listens any more."""
    number = 1
    while Feed(f"{seed}/{number}").run():
        number += 1


def honest_pairs(link):
    """Locks and unlocks a range of one's own; how often both were granted, and what went wrong, if something did."""
    pairs = 0
    while pairs < PAIRS:
        for procedure in LOCK, UNLOCK:
            try:
                link.sendall(record(1, procedure, HONEST + 1, 1, 0, 10, caller=b"honest"))
                reply = take(link, REPLY, 10)
            except OSError:
                reply = b""
            if len(reply) != REPLY or reply[-4:] != bytes(4):
                return pairs, f"an honest client is told {reply.hex() or 'nothing'} within ten seconds, after {pairs:,} pairs"
        pairs += 1
        time.sleep(0.01)
    link.close()
    return pairs, None


def check_server(program, folder, seed):
    """Serves, and replays what was served: how many events these were."""
    lines = []
    World(seed, lines.append, 0, MOST_BYTES).header()
    path = os.path.join(folder, "served")
    with open(path, "wb") as captured:
        server = Server(program, (RPC_PORT, SMB_PORT), ("".join(lines) + f"F f{HONEST + 1}\n").encode(), lanes=16, written=captured)
    server.wait_until_open()
    # It comes first, so that it has a lane.
    honest = connect(RPC_PORT, 10)
    feeders = [multiprocessing.Process(target=feed, args=(f"{seed}/{number}",), daemon=True) for number in range(FEEDERS)]
    for feeder in feeders:
        feeder.start()
    pairs, wrong = honest_pairs(honest)
    if wrong:
        sys.exit(f"{seed}: {wrong}")
    run = ended(server.process)
    server.close()
    for feeder in feeders:
        feeder.terminate()
    with open(path) as captured:
        events = sum(line[0] in "OBECT" for line in captured)
    judged(f"{seed}, {pairs:,} pairs of an honest client", events, os.path.getsize(path), run, JOURNAL_FULL)
    check_replay(program, f"{seed}, replayed", events, path)
    return events


def main(program, count):
    with tempfile.TemporaryDirectory() as folder:
        check_replays(program, folder, count)
        served, number = 0, 0
        while served < count:
            number += 1
            served += check_server(program, folder, f"serve {number}")


if __name__ == "__main__":
    main(os.path.abspath(sys.argv[1]), int(sys.argv[2]) if len(sys.argv) > 2 else 10_000_000)
