"""Pairs of LOCK and UNLOCK a second over loopback, and how long the slowest hundredth takes.

usage: serve.py PROGRAM [PAIRS]

PROGRAM is xlockd. It is measured with 1, 4 and 16 connections, each of which has a lane and a process of its own, and sends its next
call once the last is answered; then again with 10,000 ranges held. Beside each stands the floor: `echo.c`, built with gcc, which
answers as many bytes by the same loop of reads, writes and waits. The connections make PAIRS pairs together (default 40,000), three
times; what is told is of the fastest time.
"""
import multiprocessing
import os
import subprocess
import sys
import tempfile
import time

import links
from calls import LOCK, UNLOCK, record
from links import REPLY, Server

RPC_PORT, SMB_PORT, ECHO_PORT = 7011, 7012, 7013
HELD = 10_000


def connect(port):
    """A connection to a port of this machine, once somebody listens there."""
    for _ in range(100):
        try:
            return links.connect(port)
        except ConnectionRefusedError:
            time.sleep(0.1)
    sys.exit(f"nobody listens at port {port}")


def ask(link, call):
    """The reply to a call."""
    link.sendall(call)
    reply = b""
    while len(reply) < REPLY:
        piece = link.recv(REPLY - len(reply))
        if not piece:
            sys.exit("the connection was closed")
        reply += piece
    return reply


def hold(port, count):
    """Locks so many ranges that don't touch, of another file."""
    with connect(port) as link:
        for number in range(count):
            ask(link, record(number, LOCK, 2, 7, 20 * number, 10))


def measure(port, number, pairs, start, times):
    """Makes pairs of calls on a range of one's own, once all others are ready; when they began and ended, and how many seconds each took."""
    lock = record(1, LOCK, 1, number, 20 * number, 10)
    unlock = record(2, UNLOCK, 1, number, 20 * number, 10)
    with connect(port) as link:
        ask(link, lock), ask(link, unlock)
        start.wait()
        moments = [time.monotonic()]
        for _ in range(pairs):
            ask(link, lock)
            ask(link, unlock)
            moments.append(time.monotonic())
        times.put((moments[0], moments[-1], [after - before for before, after in zip(moments, moments[1:])]))


def rate(port, connections, pairs):
    """Pairs a second of so many connections together, and the milliseconds of the slowest hundredth of the pairs."""
    start, times = multiprocessing.Barrier(connections), multiprocessing.Queue()
    share = pairs // connections
    workers = [
        multiprocessing.Process(target=measure, args=(port, number, share, start, times))
        for number in range(connections)
    ]
    for worker in workers:
        worker.start()
    told = [times.get() for _ in workers]
    for worker in workers:
        worker.join()
    taken = sorted(second for _, _, seconds in told for second in seconds)
    slowest = taken[-(-99 * len(taken) // 100) - 1]
    whole = max(end for _, end, _ in told) - min(begin for begin, _, _ in told)
    return len(taken) / whole, 1000 * slowest


def fastest(port, connections, pairs):
    """The fastest of three."""
    return max(rate(port, connections, pairs) for _ in range(3))


def built_echo(folder):
    """The echo's program."""
    program = os.path.join(folder, "echo")
    source = os.path.join(os.path.dirname(os.path.abspath(__file__)), "echo.c")
    subprocess.run(["gcc", "-O2", "-pthread", "-o", program, source], check=True)
    return program


def told(name, connections, rated):
    pairs, slowest = rated
    print(f"{name:24} {connections:3} connections {pairs:10.0f} pairs/s, slowest hundredth {slowest:8.3f} ms", flush=True)


def main(program, pairs):
    with tempfile.TemporaryDirectory() as folder:
        echo_program = built_echo(folder)
        for connections in 1, 4, 16:
            echo = subprocess.Popen([echo_program, str(ECHO_PORT), str(connections)])
            told("echo", connections, fastest(ECHO_PORT, connections, pairs))
            echo.kill()
            echo.wait()
            for held in 0, HELD:
                with Server(program, (RPC_PORT, SMB_PORT), b"F a\nF b\n", lanes=min(connections + 1, 16)):
                    hold(RPC_PORT, held)
                    told(f"serve, {held} ranges held", connections, fastest(RPC_PORT, connections, pairs))
                server.wait()


if __name__ == "__main__":
    main(sys.argv[1], int(sys.argv[2]) if len(sys.argv) > 2 else 40_000)
