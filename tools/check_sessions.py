#!/usr/bin/env python3
"""Checks what the tools make of sessions by a built xlockd.

    python3 tools/check_sessions.py PROGRAM

Each recording in tools/tests/recorded is made a capture and compared: what differs has to be what NAME.differences says, which
--write writes anew. And in random sessions of make_capture.py each answer that is known has to come. Prints a line for each that
is otherwise, and nothing if all hold; the exit status is 1 if one is.
"""
import argparse
import struct
import sys
from pathlib import Path

from check_examples import first_difference
from compare_with_pcap import compare
from make_capture import write_capture
from xlock import rpc, smb
from xlock.foreign import Recording, learned
from xlock.replays import Ours, ReplayError, replayed
from xlock.xdr import Reader

RECORDED = Path(__file__).resolve().parent / "tests" / "recorded"
# The seeds of the random sessions, with how many events of a hundred are hostile, and behind how many the server starts again.
RANDOM, EVENTS = [("1", 0, 0), ("2", 10, 0), ("3", 50, 0), ("4", 5, 400)], 4000


def differences_of(path, program):
    """What differs between a recording and ours, in lines."""
    session, transcript = learned(Recording(path.read_bytes()), program)
    compared, lines = compare(session, Ours(transcript))
    return "".join(line + "\n" for line in lines + [f"{compared} messages were compared"])


def status_of(protocol, record):
    """The status of a reply."""
    if protocol == "smb":
        return smb.read_head(record).status
    reader = Reader(rpc.read_reply(record).results)
    if protocol == "nlm":
        reader.opaque(1024)
    return reader.u32()


def random_faults(program, seed, hostile, restarts):
    """The first answer of a random session that isn't the one that is known."""
    lines = []
    world = write_capture(seed, EVENTS, hostile, lines.append, expects=True, restarts=restarts)
    ours = Ours(replayed(program, "".join(lines)))
    for place, (protocol, connection, message, status) in world.expected.items():
        records = [ours.replies[connection, place]] if (connection, place) in ours.replies else []
        if protocol == "smb":
            records = [record for at, record in ours.smb.get((connection, message), []) if at == place]
        found = status_of(protocol, records[0]) if records else None
        if found != status:
            what = f"make_capture {seed} {EVENTS} --hostile {hostile} --restarts {restarts}"
            yield f"{what}: the answer of {protocol} at place {place} is {found}, and {status} is due"
            return


def faults(program, writes=False):
    if not program:
        return
    try:
        for path in sorted(RECORDED.glob("*.pcap")):
            wanted, kept = differences_of(path, program), path.with_suffix(".differences")
            if writes:
                kept.write_text(wanted)
            found = kept.read_text() if kept.is_file() else ""
            if found != wanted:
                yield f"{kept.name} isn't what differs, at {first_difference(wanted, found)}"
        for seed, hostile, restarts in RANDOM:
            yield from random_faults(program, seed, hostile, restarts)
    except (ReplayError, struct.error) as error:
        yield f"check_sessions: {error}"


def main():
    form = argparse.RawDescriptionHelpFormatter
    parser = argparse.ArgumentParser(description=__doc__, formatter_class=form)
    parser.add_argument("program", metavar="PROGRAM", help="a built xlockd, as crates/xlockd/out/xlockd")
    parser.add_argument("--write", action="store_true", help="writes what differs anew")
    given = parser.parse_args()
    found = list(faults(given.program, given.write))
    for line in found:
        print(line)
    sys.exit(1 if found else 0)


if __name__ == "__main__":
    main()
