#!/usr/bin/env python3
"""Writes the captures that reach the limits of each front, by which `crates/xl_tests_served` tests them.

    python3 tools/captures_of_limits.py FOLDER

reads the cases of src/limits.rt there, and writes the capture of each with its lines in full, as FOLDER/NAME-NUMBER.capture: NAME is
that of the text that has the case. `tools/refuse_memory.py` can be run over each, with --every where it has many calls for memory.
"""
import argparse
import re
import sys
from pathlib import Path

SOURCE = Path(__file__).resolve().parent.parent / "crates/xl_tests_served/src/limits.rt"
TEXT = re.compile(r'const (\w+): &str = "\\\n(.*?)";', re.DOTALL)
BITS = 2**32


def swapped(number):
    return int.from_bytes((number % BITS).to_bytes(4, "big"), "little")


def lines_of(several):
    """The lines that `COUNT NUMBER STEP PLACE LINE` stands for."""
    count, number, step, place, line = several.split(" ", 4)
    for row in range(int(count)):
        value = (int(number) + row * int(step)) % BITS
        signs = {"#": f"{value:08x}", "$": f"{(value + 1) % BITS:08x}", "%": f"{swapped(value):08x}", "&": f"{swapped(value + 1):08x}", "@": str(int(place) + row)}
        yield re.sub("[#$%&@]", lambda found: signs[found[0]], line)


def in_full(text):
    """A text with all of its lines."""
    return "".join(f"{line}\n" for short in text.splitlines() for line in (lines_of(short[2:]) if short.startswith("* ") else [short]))


def captures(source):
    """The captures of the cases of a source, each with its name."""
    for name, text in TEXT.findall(source):
        for number, case in enumerate(text.split("--\n"), 1):
            yield f"{name.lower()}-{number}", in_full(case.partition("=>\n")[0])


def main():
    form = argparse.RawDescriptionHelpFormatter
    parser = argparse.ArgumentParser(description=__doc__, formatter_class=form)
    parser.add_argument("folder", metavar="FOLDER", type=Path, help="an existing folder")
    folder = parser.parse_args().folder
    if not folder.is_dir():
        sys.exit(f"{folder} is no folder")
    for name, capture in captures(SOURCE.read_text()):
        (folder / f"{name}.capture").write_text(capture)


if __name__ == "__main__":
    main()
