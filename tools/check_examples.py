#!/usr/bin/env python3
"""Checks that what belongs together in examples/ does.

    python3 tools/check_examples.py [PROGRAM]

Each example is NAME.words, NAME.capture, NAME.transcript and NAME.said. The capture has to be that of the words, what is
said that of capture and transcript, and, if PROGRAM names a built xlockd, the transcript that of the replay. Prints a
line for each file that differs, with the first line that does, and nothing if all hold; the exit status is 1 if
one differs. With --write it writes the captures, the transcripts (with PROGRAM) and what is said anew: look at the
difference before it is kept.
"""
import argparse
import itertools
import subprocess
import sys
from pathlib import Path

from capture_from_words import capture_of
from transcript_in_words import in_words


def replayed(program, capture):
    """The transcript of a replay; what went wrong, where something did."""
    ran = subprocess.run([program, "replay"], input=capture, capture_output=True, text=True)
    return ran.stdout if ran.returncode == 0 else f"status {ran.returncode}: {ran.stderr}"


def parts_of(folder, name, program):
    """The files of an example that follow from others, in their order, with what they have to be."""
    yield "capture", capture_of((folder / f"{name}.words").read_text())
    capture = (folder / f"{name}.capture").read_text()
    if program:
        yield "transcript", replayed(program, capture)
    transcript = (folder / f"{name}.transcript").read_text()
    yield "said", "".join(line + "\n" for line in in_words(capture, transcript))


def first_difference(wanted, found):
    pairs = itertools.zip_longest(wanted.splitlines(), found.splitlines(), fillvalue="the end")
    said = (f"line {at}: {one}, and it is {two}" for at, (one, two) in enumerate(pairs, 1) if one != two)
    return next(said, "its end")


def ending(program, words):
    """The exit status and the line on standard error of the program with these words and no input."""
    ran = subprocess.run([program, *words], stdin=subprocess.DEVNULL, capture_output=True)
    return ran.returncode, ran.stderr.decode().rstrip()


def word_faults(program):
    """A word that isn't UTF-8 is no command's, and so is one that no command has."""
    usage = 1, "xlockd: usage: replay, serve, show or make SEED COUNT"
    for words in ([b"\xff"], [b"replay", b"\xff"], [b"fly"], []):
        found = ending(program, words)
        if found != usage:
            yield f"the words {words} end with {found}"


def faults(folder, program=None, writes=False):
    if program:
        yield from word_faults(program)
    names = sorted(path.stem for path in folder.glob("*.words"))
    if not names:
        yield f"{folder} has no examples"
    for name in names:
        for ending, wanted in parts_of(folder, name, program):
            path = folder / f"{name}.{ending}"
            if writes:
                path.write_text(wanted)
            found = path.read_text() if path.is_file() else ""
            if found != wanted:
                yield f"examples/{path.name} isn't what it has to be, at {first_difference(wanted, found)}"


def main():
    form = argparse.RawDescriptionHelpFormatter
    parser = argparse.ArgumentParser(description=__doc__, formatter_class=form)
    parser.add_argument("program", nargs="?", metavar="PROGRAM", help="a built xlockd, as crates/xlockd/out/xlockd")
    parser.add_argument("--write", action="store_true", help="writes the files anew")
    given = parser.parse_args()
    folder = Path(__file__).resolve().parent.parent / "examples"
    found = list(faults(folder, given.program, given.write))
    for line in found:
        print(line)
    sys.exit(1 if found else 0)


if __name__ == "__main__":
    main()
