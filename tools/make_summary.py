#!/usr/bin/env python3
"""The summary that `xlockd make SEED COUNT` writes, by the rules of the calls and of locks alone.

    python3 tools/make_summary.py SEED COUNT

draws the calls and looks at each byte by itself: who has it locked, and how. It shares no code with the server.
"""
import argparse

FILES, OWNERS, RANGES, LENGTH = 8, 4, 16, 10
LOCK, UNLOCK, TEST = "LOCK", "UNLOCK", "TEST"
CHOICES = [LOCK, LOCK, UNLOCK, TEST]
SHARED, EXCLUSIVE = "shared", "exclusive"


def draws(seed):
    """The upper bits of each number of a linear congruential generator below 2^31."""
    x = seed
    while True:
        x = (x * 1103515245 + 12345) % 2**31
        yield x // 65536


def calls(seed, count):
    """What is done, the mode, the file, the owner and the bytes of each call."""
    drawn = draws(seed)
    for _ in range(count):
        a, b, c, d = (next(drawn) for _ in range(4))
        first = LENGTH * (d % RANGES)
        yield CHOICES[a % 4], [SHARED, EXCLUSIVE][a // 4 % 2], 1 + b % FILES, c % OWNERS, range(first, first + LENGTH)


def stands_against(mode, held):
    return held is not None and EXCLUSIVE in (mode, held)


def runs(modes):
    """How many runs of equal modes there are, apart from the bytes that aren't locked."""
    return sum(mode is not None and mode != before for before, mode in zip([None, *modes], modes))


def summary(seed, count):
    """The four numbers, a line each."""
    size = LENGTH * RANGES
    held = {(file, owner): [None] * size for file in range(1, FILES + 1) for owner in range(OWNERS)}
    granted = denied = 0
    for choice, mode, file, owner, asked in calls(seed, count):
        others = [held[file, other] for other in range(OWNERS) if other != owner]
        if choice != UNLOCK and any(stands_against(mode, modes[byte]) for modes in others for byte in asked):
            denied += 1
            continue
        granted += 1
        if choice != TEST:
            for byte in asked:
                held[file, owner][byte] = mode if choice == LOCK else None
    claims = sum(runs(modes) for modes in held.values())
    return f"entries {count + 1}\ngranted {granted}\ndenied {denied}\nclaims {claims}\n"


def main():
    form = argparse.RawDescriptionHelpFormatter
    parser = argparse.ArgumentParser(description=__doc__, formatter_class=form)
    parser.add_argument("seed", type=int, metavar="SEED", help="below 2^31")
    parser.add_argument("count", type=int, metavar="COUNT", help="at most 1,000,000")
    given = parser.parse_args()
    print(summary(given.seed, given.count), end="")


if __name__ == "__main__":
    main()
