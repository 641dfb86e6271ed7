#!/usr/bin/env python3
"""Refuses a program memory, one call at a time, and looks how it ends.

    python3 tools/refuse_memory.py PROGRAM CAPTURE [--every STEP] [--from FIRST] [--most RUNS]

replays the capture with a built xlockd as often as it calls for memory: in the first run the first call is refused, in the
second the second, up to the last. Each run has to end with status 6 and to have written a beginning of the transcript that
a run writes to which nothing is refused; but a run may also end as that one does, byte for byte. It prints each run that does
neither, then how many runs there were and how many of them ended with status 6. The exit status is 1 if one did neither. It
needs a C compiler (`cc`, or what CC names) and Linux, since it loads `refuse_memory.c` into the program.
"""
import argparse
import os
import subprocess
import sys
import tempfile
from pathlib import Path

SHIM = Path(__file__).resolve().parent / "refuse_memory.c"
NO_MEMORY = 6


def run(program, capture, library, refused, counted):
    """The status and the output of a replay in which the call of this number is refused, none at 0."""
    given = {**os.environ, "LD_PRELOAD": str(library), "REFUSE_AT": str(refused), "COUNT_TO": str(counted)}
    done = subprocess.run([program, "replay"], input=capture, env=given, capture_output=True, check=False)
    return done.returncode, done.stdout


def main():
    form = argparse.RawDescriptionHelpFormatter
    parser = argparse.ArgumentParser(description=__doc__, formatter_class=form)
    parser.add_argument("program", metavar="PROGRAM", help="a built xlockd, as crates/xlockd/out/xlockd")
    parser.add_argument("capture", metavar="CAPTURE", type=Path)
    parser.add_argument("--every", type=int, default=1, metavar="STEP", help="refuse each call of so many alone")
    parser.add_argument("--from", type=int, default=1, dest="first", metavar="FIRST", help="begin with the call of this number")
    parser.add_argument("--most", type=int, metavar="RUNS", help="make at most so many runs")
    given = parser.parse_args()
    program, capture = os.path.abspath(given.program), given.capture.read_bytes()
    with tempfile.TemporaryDirectory() as folder:
        library, counted = Path(folder) / "refuse_memory.so", Path(folder) / "count"
        subprocess.run([os.environ.get("CC", "cc"), "-shared", "-fPIC", "-O1", "-o", library, SHIM], check=True)
        status, whole = run(program, capture, library, 0, counted)
        numbers = range(given.first, int(counted.read_text()) + 1, given.every)[: given.most]
        refused, faults = 0, 0
        for number in numbers:
            ended, written = run(program, capture, library, number, counted)
            refused += ended == NO_MEMORY
            if not (ended == NO_MEMORY and whole.startswith(written)) and (ended, written) != (status, whole):
                faults += 1
                print(f"call {number}: status {ended}, {len(written)} bytes written, {'a' if whole.startswith(written) else 'no'} beginning")
        print(f"{len(numbers)} runs, {refused} of them ended with status {NO_MEMORY}; unrefused the status is {status}")
    sys.exit(1 if faults else 0)


if __name__ == "__main__":
    main()
