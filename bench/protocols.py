#!/usr/bin/env python3
"""What a COMPOUND of NFSv4.0 or a message of SMB 2.1 costs beside a call of NLM.

    python3 bench/protocols.py BINARY

replays captures with a built xlockd. A row is a call that is made many times behind what prepares it: its cost is the
processor's least time of five captures with many of them, without that of what prepares alone, over their number. The
rows are measured in turns, so that what else the machine does meets all. The columns are microseconds, and the ratio to
the row of NLM above it: a call of NULL is read and answered; a TEST also looks in the core; a LOCK and its UNLOCK change
the core and back, a half for each.
"""
import argparse
import os
import tempfile
from dataclasses import dataclass, field
from typing import Callable

from calls import (
    ECHO, EXCLUSIVE_AT_ONCE, GET_FH, LOCK, NEGOTIATE, NFS, NLM, PUT_ROOT_FH, READS_AND_HANDLE, SESSION_SETUP, TEST, UNLOCK,
    UNLOCKED, close, compound, confirm, create, create_leased, first_lock, framed, keep, lookup, message, nfs_lock, nfs_unlock,
    open_confirm, open_file, put_fh, record, renew, replay, set_client_id, smb_lock, smb_number, stateid, tree_connect,
    write_capture,
)  # fmt: skip

CALLS, TIMES = 100_000, 5
MOST_FILES, MOST_CLIENTS = 1024, 256


@dataclass
class Row:
    """A call that is made many times: its maker takes the number of the call in the capture, from 1, and its place among
    those that are measured, from 0; those that prepare take the number alone."""

    name: str
    call: Callable
    prepare: list = field(default_factory=list)
    files: int = 1
    kind: str = "rpc"
    is_nlm: bool = False


def come(count):
    """So many clients come and are confirmed; their numbers are 1, 3, 5 and so on."""
    return [lambda xid, at=at: compound(xid, set_client_id(b"c%d" % at), confirm(2 * at + 1, 2 * at + 2)) for at in range(count)]


def looked_up(file):
    return lambda xid, at: compound(xid, PUT_ROOT_FH, lookup(b"f%d" % (file - 1)), GET_FH)


def nlm_locks(xid, at):
    return record(xid, UNLOCK if at % 2 else LOCK, 1, 1, 0, 1)


# A client (number 1) comes, its owner opens the file (3) and is confirmed, and an owner of locks (4) has locked there once.
LOCKED = [
    *come(1),
    lambda xid: compound(xid, PUT_ROOT_FH, open_file(1, 1, b"o", b"f0"), open_confirm(stateid(3, 1), 2)),
    lambda xid: compound(xid, put_fh(1), first_lock(9, 1, stateid(3, 2), 3, 1, b"l")),
]


def nfs_locks(xid, at):
    """By turns LOCK and LOCKU: the owner's seqid and that of its stateid rise by one each."""
    made = nfs_unlock if at % 2 else nfs_lock
    return compound(xid, put_fh(1), made(0, 1, stateid(4, at + 1), at + 1))


# A session (1) and a tree connect (2); an open (3) besides.
CONNECTED = [
    lambda number: message(number, 0, NEGOTIATE),
    lambda number: message(number, 1, SESSION_SETUP),
    lambda number: message(number, 3, tree_connect("\\\\x\\xl"), session=smb_number(1)),
]
OPENED = [*CONNECTED, lambda number: message(number, 5, create("f0"), 2, smb_number(1))]


def smb_locks(number, at):
    flags = UNLOCKED if at % 2 else EXCLUSIVE_AT_ONCE
    return message(number, 10, smb_lock(3, 0, 1, flags), 2, smb_number(1))


def leases(number, at):
    """By turns an open under a lease for all, and its CLOSE: the opens are 3, 4 and so on."""
    command, body = (6, close(3 + at // 2)) if at % 2 else (5, create_leased("f0", b"k"))
    return message(number, command, body, 2, smb_number(1))


def broken_leases(number, at):
    """By turns such an open, one under another lease, which waits for the break of the first, the acknowledgement, and both
    CLOSEs: of three numbers that each turn takes, from 3 on, two are the opens'."""
    first, step = 3 + at // 5 * 3, at % 5
    command, body = [
        (5, create_leased("f0", b"k")),
        (5, create_leased("f0", b"l")),
        (18, keep(b"k", READS_AND_HANDLE)),
        (6, close(first)),
        (6, close(first + 1)),
    ][step]
    return message(number, command, body, 2, smb_number(1))


HELD = [lambda xid: record(xid, LOCK, 1, 1, 0, 1)]
ROWS = [
    Row("NLM NULL", lambda xid, at: framed(xid, NLM, 0, b""), is_nlm=True),
    Row("NFSv4 NULL", lambda xid, at: framed(xid, NFS, 0, b"")),
    Row("COMPOUND without operations", lambda xid, at: compound(xid)),
    Row("PUTROOTFH", lambda xid, at: compound(xid, PUT_ROOT_FH)),
    Row("SMB ECHO", lambda number, at: message(number, 13, ECHO), OPENED, kind="smb"),
    Row("NLM TEST, of a held byte", lambda xid, at: record(xid, TEST, 1, 2, 0, 1), HELD, is_nlm=True),
    Row("NLM TEST, of a free byte", lambda xid, at: record(xid, TEST, 1, 2, 9, 1), HELD, is_nlm=True),
    Row("PUTROOTFH, LOOKUP, GETFH: 1 file", looked_up(1)),
    Row("the last of 1,024 files", looked_up(MOST_FILES), files=MOST_FILES),
    Row("NLM LOCK or UNLOCK", nlm_locks, is_nlm=True),
    Row("PUTFH, LOCK or LOCKU", nfs_locks, LOCKED),
    Row("SMB LOCK, of a lock or an unlock", smb_locks, OPENED, kind="smb"),
    Row("SMB CREATE with a lease, or CLOSE", leases, CONNECTED, kind="smb"),
    Row("two leases, of which one breaks the other: each of five", broken_leases, CONNECTED, kind="smb"),
    Row("RENEW: 1 client", lambda xid, at: compound(xid, renew(1)), come(1)),
    Row("the last of 256 clients", lambda xid, at: compound(xid, renew(2 * MOST_CLIENTS - 1)), come(MOST_CLIENTS)),
    Row("SETCLIENTID_CONFIRM again: 1 client", lambda xid, at: compound(xid, confirm(1, 2)), come(1)),
    Row("SETCLIENTID again: 1 client", lambda xid, at: compound(xid, set_client_id(b"c0")), come(1)),
]


def made(row, many):
    for xid, make in enumerate(row.prepare, 1):
        yield make(xid)
    for at in range(many):
        yield row.call(len(row.prepare) + 1 + at, at)


def written(folder, name, row, many):
    path = os.path.join(folder, name)
    write_capture(path, row.files, made(row, many), row.kind)
    return path


def main():
    form = argparse.RawDescriptionHelpFormatter
    parser = argparse.ArgumentParser(description=__doc__, formatter_class=form)
    parser.add_argument("binary", metavar="BINARY", help="a built xlockd, as crates/xlockd/out/xlockd")
    parser.add_argument("--calls", type=int, default=CALLS, help="how many calls a capture has")
    given = parser.parse_args()
    least = [[float("inf")] * 2 for _ in ROWS]
    with tempfile.TemporaryDirectory() as folder:
        captures = [[written(folder, f"{at}.{many}", row, many) for many in (0, given.calls)] for at, row in enumerate(ROWS)]
        for _ in range(TIMES):
            for times, paths in zip(least, captures):
                times[:] = [min(time, replay(given.binary, path)[0]) for time, path in zip(times, paths)]
    print("| a call | microseconds | by the call of NLM above |")
    print("|---|---|---|")
    for row, (before, all_) in zip(ROWS, least):
        cost = (all_ - before) / given.calls * 1e6
        if row.is_nlm:
            beside = cost
        print(f"| {row.name} | {cost:.2f} | {'' if row.is_nlm else f'{cost / beside:.2f}'} |")


if __name__ == "__main__":
    main()
