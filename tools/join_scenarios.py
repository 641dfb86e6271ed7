#!/usr/bin/env python3
"""Checks that what belongs together in scenarios/ and crates/xl_tests_replay does.

    python3 tools/join_scenarios.py [--write]

A file NAME.words of scenarios/ has cases in the words of capture_from_words.py, a file NAME.cases captures and other texts
as they stand. The program xl_tests_replay reads all of them, one behind the other, as its stdin, and stdout is what it has
to tell. NAME.said is what a case in words comes to, in the words of transcript_in_words.py. Prints a line for each file that
differs, with the first line that does, and nothing if all hold; the exit status is 1 if one differs. With --write it
writes stdin and what is said anew. stdout is written by hand: of a case that is new, see that what the program tells is
what the standards say before it is kept.
"""
import argparse
import sys
from pathlib import Path

from check_examples import first_difference
from xlock import scenarios

ROOT = Path(__file__).resolve().parent.parent


def parts_of(folder, crate):
    """The files that follow from others, with what they have to be."""
    yield crate / "stdin", scenarios.read_of(folder)
    told = dict(scenarios.cases_of(scenarios.text_of(crate / "stdout")))
    for path in folder.glob("*.words"):
        yield path.with_suffix(".said"), scenarios.joined(scenarios.said_of(path, told))


def names_of(path):
    return [head.split(" ")[0] for head, _ in scenarios.cases_of(scenarios.text_of(path))]


def faults(root, writes=False):
    folder, crate = root / "scenarios", root / "crates" / "xl_tests_replay"
    names = [name for path in scenarios.files_of(folder) for name in names_of(path)]
    if len(set(names)) < len(names) or names != names_of(crate / "stdout"):
        yield "scenarios/ and crates/xl_tests_replay/stdout don't have the same cases, each once and in one order"
        return
    for path, wanted in parts_of(folder, crate):
        if writes:
            path.write_text(wanted)
        found = scenarios.text_of(path) if path.is_file() else ""
        if found != wanted:
            yield f"{path.relative_to(root)} isn't what it has to be, at {first_difference(wanted, found)}"


def main():
    form = argparse.RawDescriptionHelpFormatter
    parser = argparse.ArgumentParser(description=__doc__, formatter_class=form)
    parser.add_argument("--write", action="store_true", help="writes stdin and what is said anew")
    found = list(faults(ROOT, parser.parse_args().write))
    for line in found:
        print(line)
    sys.exit(1 if found else 0)


if __name__ == "__main__":
    main()
