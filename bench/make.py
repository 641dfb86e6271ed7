#!/usr/bin/env python3
"""make.py BINARY [COUNT ..]: how fast `BINARY make 7 COUNT` is, and how much memory it takes.

For each COUNT (10000, 100000 and 1000000 by default) it makes and steps that many NLM calls five times, without a capture
or a transcript, and prints the processor's least time, the events a second (the calls, and the opening of their
connection), and the greatest peak of resident memory.
"""
import sys

from calls import make

SEED = 7


def main():
    binary = sys.argv[1]
    counts = [int(word) for word in sys.argv[2:]] or [10_000, 100_000, 1_000_000]
    print("calls  seconds  events a second  microseconds an event  peak MB")
    for count in counts:
        runs = [make(binary, SEED, count) for _ in range(5)]
        seconds, peak, events = min(run[0] for run in runs), max(run[1] for run in runs), count + 1
        print(f"{count}  {seconds:.3f}  {events / seconds:.0f}  {seconds / events * 1e6:.2f}  {peak / 1e6:.1f}")


if __name__ == "__main__":
    main()
