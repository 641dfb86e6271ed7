#!/usr/bin/env python3
"""Runs the tests of the tools and the checks of documents, of errors of memory, of examples and of scenarios.

    python3 tools/run_checks.py [PROGRAM]

prints what doesn't hold, and nothing if all does; the exit status is 1 if something doesn't. PROGRAM is a built
xlockd, by which the examples, recorded sessions and random ones are replayed.
"""
import argparse
import io
import sys
import unittest
from pathlib import Path

import check_documents
import check_examples
import check_memory_errors
import check_sessions
import join_scenarios

ROOT = Path(__file__).resolve().parent.parent


def failed_tests():
    """What the tests of the tools say, where one fails."""
    said = io.StringIO()
    tests = unittest.defaultTestLoader.discover(str(ROOT / "tools" / "tests"), top_level_dir=str(ROOT / "tools"))
    result = unittest.TextTestRunner(stream=said, verbosity=0).run(tests)
    if result.testsRun == 0:
        yield "there are no tests of the tools"
    if not result.wasSuccessful():
        yield said.getvalue().rstrip()


def main():
    form = argparse.RawDescriptionHelpFormatter
    parser = argparse.ArgumentParser(description=__doc__, formatter_class=form)
    parser.add_argument("program", nargs="?", metavar="PROGRAM", help="a built xlockd, as crates/xlockd/out/xlockd")
    given = parser.parse_args()
    found = [*failed_tests(), *check_documents.faults(ROOT), *check_examples.faults(ROOT / "examples", given.program)]
    found += check_memory_errors.faults(ROOT)
    found += check_sessions.faults(given.program)
    found += join_scenarios.faults(ROOT)
    for line in found:
        print(line)
    sys.exit(1 if found else 0)


if __name__ == "__main__":
    main()
