#!/usr/bin/env python3
"""replay.py BINARY [COUNT ..]: how fast `BINARY replay` is, and how much memory it takes.

For each COUNT (10000, 100000 and 1000000 by default) it makes a capture of that many NLM calls on one connection: half
LOCK, a quarter UNLOCK, a quarter TEST, over 8 files, 4 owners and 16 ranges of 10 bytes, so that at most 512 claims
stand. It replays the capture five times and prints the processor's least time, the calls a second, the greatest peak of
resident memory, and that peak in terms of the capture's bytes. The draws are those of a linear congruential generator, so that
each run has the same calls.
"""
import os
import sys
import tempfile

from calls import LOCK, TEST, UNLOCK, record, replay, write_capture

FILES, OWNERS, RANGES, LENGTH = 8, 4, 16, 10


def draws(seed):
    x = seed
    while True:
        x = (x * 1103515245 + 12345) % 2**31
        yield x // 65536


def call(xid, a, b, c, d):
    """A framed call, by four draws."""
    procedure = [LOCK, LOCK, UNLOCK, TEST][a % 4]
    return record(xid, procedure, 1 + b % FILES, c % OWNERS, LENGTH * (d % RANGES), LENGTH, exclusive=bool(a // 4 % 2))


def main():
    binary = sys.argv[1]
    counts = [int(word) for word in sys.argv[2:]] or [10_000, 100_000, 1_000_000]
    print("calls  seconds  calls a second  microseconds a call  peak MB  peak by the capture's bytes")
    for count in counts:
        with tempfile.TemporaryDirectory() as folder:
            path = os.path.join(folder, "capture")
            draw = draws(0)
            write_capture(path, FILES, (call(xid, *(next(draw) for _ in range(4))) for xid in range(1, count + 1)))
            runs = [replay(binary, path) for _ in range(5)]
            seconds, peak = min(run[0] for run in runs), max(run[1] for run in runs)
            size = os.path.getsize(path)
        rate = f"{seconds:.3f}  {count / seconds:.0f}  {seconds / count * 1e6:.2f}"
        print(f"{count}  {rate}  {peak / 1e6:.1f}  {peak / size:.1f}")


if __name__ == "__main__":
    main()
