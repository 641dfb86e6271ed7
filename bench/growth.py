#!/usr/bin/env python3
"""How the cost of a LOCK and its UNLOCK grows with what is held, and with who waits.

    python3 bench/growth.py BINARY [--instructions]

replays captures with a built xlockd and prints six tables. A pair is a LOCK of one byte that nothing stands against and
its UNLOCK; its cost is the processor's time of a capture that prepares what is held and then makes many pairs, without
that of one that prepares alone, over the number of pairs. The first column has microseconds, the others the ratio to it.

- one owner: so many ranges of the owner that locks, in the same file, with free bytes between;
- as many owners: each with one range, in the same file;
- files before, files behind: as many ranges of as many owners, in other files, whose claims stand before or behind in
  the table's list;
- waiters: so many who wait for a range of another file, with 1 claim, and with 10,000 in other files.

The third table has the pair beside so many who wait on the very file for other bytes, all of whom are looked at by the LOCK, and
behind what it and the UNLOCK change; and what each of them costs, which is to stay within three times.

The fourth has the cost of a host that locks a byte of each of so many files, on each of which another one waits and goes
on to wait, and whose claims are all freed then; with so many who wait elsewhere.

The fifth has the cost of a reading of the clock with so many caches, as leases of SMB opens, none of which breaks; an SMB
server has 4,096 opens at most.

The sixth, which is printed with --instructions alone, has the instructions of one message beside so many things that it has to
do with, and how often they are those at the number before.

With --instructions a cost is a count of instructions, by valgrind: it is the same in each run, whatever else the machine does.
"""
import argparse
import os
import tempfile

from calls import FREE_ALL, LOCK, PUT_ROOT_FH, READS, READS_AND_HANDLE, TEST, UNLOCK, compound, confirm, create, create_leased
from calls import free_all, instructions, message, open_file, record, replay, set_client_id, smb_number, write_capture
from protocols import CONNECTED

HELD = (1, 100, 1_000, 10_000)
WAITERS = (0, 100, 1_000)
CACHES = (0, 100, 1_000, 4_000)
FILES = 1_000
STEP = 10
HOST = b"n"
# The processor's time that the repeated calls of one measure take at least, and how often it is taken.
LEAST_SECONDS, TIMES = 0.5, 3
TICKS = 200_000
# How often the repeated calls, and how many readings of the clock, are counted.
COUNTED, COUNTED_TICKS = 500, 20_000


def pair(file, svid, offset):
    """A LOCK of one byte and its UNLOCK."""
    return [(LOCK, file, svid, offset, 1, True, False), (UNLOCK, file, svid, offset, 1)]


def held_by_one(count):
    """The preparing calls, and those that are made many times."""
    return [(LOCK, 1, 1, STEP * at, 1, True, False) for at in range(count)], pair(1, 1, STEP * (count // 2) + STEP // 2)


def held_by_many(count):
    calls = [(LOCK, 1, 2 + at, STEP * at, 1, True, False) for at in range(count)]
    return calls, pair(1, 1, STEP * (count // 2) + STEP // 2)


def held_behind(count):
    calls = [(LOCK, 2 + at % (FILES - 1), 2 + at, STEP * at, 1, True, False) for at in range(count)]
    return calls, pair(1, 1, STEP // 2)


def held_before(count):
    calls = [(LOCK, 1 + at % (FILES - 1), 2 + at, STEP * at, 1, True, False) for at in range(count)]
    return calls, pair(FILES, 1, STEP // 2)


def waiters(file, count):
    """So many who wait for a byte of this file, behind who has it."""
    calls = [(LOCK, file, 0, 10**9, 1, True, False)]
    return calls + [(LOCK, file, 2 + 10**6 + at, 10**9, 1, True, True) for at in range(count)]


def waiting(held):
    """Waiters for a byte of another file, beside as many ranges in other files."""

    def prepare(count):
        calls, repeated = held_before(held)
        return calls + waiters(2, count), repeated

    return prepare


def waiting_there(count):
    """So many who wait for another byte of the very file."""
    return waiters(1, count), pair(1, 1, STEP // 2)


def freed(files):
    """Waiters for a byte of another file, beside one on each of so many, of which a host locks a byte, and all is freed."""

    def prepare(count):
        own = range(3, 3 + files)
        calls = [call for file in own for call in waiters(file, 1)] + waiters(2, count)
        return calls, [(LOCK, file, 1, 0, 1, True, False, HOST) for file in own] + [(FREE_ALL, HOST)]

    return prepare


def leased(count):
    """Opens of so many files and keys, each with a lease for reading and its handle."""
    for number, make in enumerate(CONNECTED, 1):
        yield make(number)
    for at in range(count):
        body = create_leased(f"f{at % FILES}", at.to_bytes(4, "little"), READS_AND_HANDLE)
        yield message(len(CONNECTED) + 1 + at, 5, body, 2, smb_number(1))


def least_time(binary, path):
    """The least time of the replays of a capture."""
    return min(replay(binary, path)[0] for _ in range(TIMES))


def made(xid, procedure, *arguments):
    """One of the calls, framed."""
    if procedure == FREE_ALL:
        return free_all(xid % 2**32, *arguments)
    return record(xid % 2**32, procedure, *arguments)


def of_calls(measure, binary, calls):
    """A measure of a capture of these calls."""
    records = [made(xid, *call) for xid, call in enumerate(calls, 1)]
    with tempfile.TemporaryDirectory() as folder:
        path = os.path.join(folder, "capture")
        write_capture(path, FILES, records)
        return measure(binary, path)


def of_ticks(measure, binary, caches, ticks):
    """The same of so many caches and readings of the clock behind them."""
    with tempfile.TemporaryDirectory() as folder:
        path = os.path.join(folder, "capture")
        write_capture(path, FILES, leased(caches), "smb")
        with open(path, "a") as out:
            out.writelines(f"T {at}\n" for at in range(1, 1 + ticks))
        return measure(binary, path)


def microseconds(binary, prepare, count):
    """What the repeated calls cost once, as a pair."""
    calls, repeated = prepare(count)
    before, times = of_calls(least_time, binary, calls), 64
    while True:
        spent = of_calls(least_time, binary, calls + repeated * times) - before
        if spent >= max(LEAST_SECONDS, before / 20) or times >= 400_000:
            return spent / times * 1e6
        times *= 4


def microseconds_of_tick(binary, caches):
    """What a reading of the clock costs."""
    return (of_ticks(least_time, binary, caches, TICKS) - of_ticks(least_time, binary, caches, 0)) / TICKS * 1e6


def instructions_of_calls(binary, prepare, count):
    """How many instructions the repeated calls are, as a pair."""
    calls, repeated = prepare(count)
    once, more = (of_calls(instructions, binary, calls + repeated * times) for times in (1, 1 + COUNTED))
    return (more - once) / COUNTED


def instructions_of_tick(binary, caches):
    """How many instructions a reading of the clock is."""
    return (of_ticks(instructions, binary, caches, COUNTED_TICKS) - of_ticks(instructions, binary, caches, 0)) / COUNTED_TICKS


# ---- one message, and what it has to do with


def by_rpc(calls):
    """Lines of a capture in which a connection of ONC RPC is opened, before its calls."""
    return "rpc", [made(xid, *call) for xid, call in enumerate(calls, 1)]


def opened(count, body):
    """Lines in which one of SMB is opened, a session and a tree connect are made, and so many opens of the first file."""
    messages = [make(number) for number, make in enumerate(CONNECTED, 1)]
    first = len(messages) + 1
    return "smb", messages + [message(first + at, 5, body(at), 2, smb_number(1)) for at in range(count)]


def leased_as(state):
    """Opens for reading of the first file, each with a lease of its own, of this state."""
    return lambda count: opened(count, lambda at: create_leased("f0", (1 + at).to_bytes(4, "little"), state))


def plain(count):
    return opened(count, lambda at: create("f0"))


def next_of_smb(command, body):
    """A message behind those of the connection of SMB."""
    return lambda count, at: f"B 0 {message(len(CONNECTED) + 1 + count, command, body, 2, smb_number(1)).hex()}"


def next_of_rpc(*call):
    """A call on the first connection, of ONC RPC."""
    return lambda count, at: f"B 0 {made(2**31, *call).hex()}"


def on_another(*records):
    """Records on a connection of ONC RPC that is opened for them; the last is the message that is measured."""
    return lambda count, at: "\n".join(["O rpc"] + [f"B {at} {data.hex()}" for data in records])


def waiting_for(exclusive, host, count):
    """A byte is locked, and so many owners of this host wait for it."""
    return [(LOCK, 1, 0, 0, 1, True, False)] + [(LOCK, 1, 2 + at, 0, 1, exclusive, True, host) for at in range(count)]


def waiting_behind(count):
    """The same of half as many for a shared lock of it, behind as many who wait for another byte."""
    half = count // 2
    others = [(LOCK, 1, 1, 9, 1, True, False)] + [(LOCK, 1, 2 + half + at, 9, 1, True, True, HOST) for at in range(half)]
    return others + waiting_for(False, HOST, half)


def waiting_last(count):
    """A byte is locked, and so many owners wait for it, of whom the last alone waits for the bytes before it too."""
    others = [(LOCK, 1, 2 + at, 9, 1, True, True, HOST) for at in range(count - 1)]
    return [(LOCK, 1, 1, 9, 1, True, False)] + others + [(LOCK, 1, 2 + count, 0, 10, True, True, HOST)]


def waiting_in_row(count):
    """A byte is locked, and so many owners wait, each for two bytes: nothing but the one before it holds up each but the first."""
    return [(LOCK, 1, 1, 0, 1, True, False)] + [(LOCK, 1, 2 + at, at, 2, True, True, HOST) for at in range(count)]


def ranges_of(count):
    return [(LOCK, 1, 2 + at, STEP * at, 1, False, False) for at in range(count)]


def waiting_for_all(count):
    """As many ranges as there are files elsewhere, of as many owners, and so many owners who wait for all of them."""
    return ranges_of(FILES) + [(LOCK, 1, 2 + FILES + at, 0, STEP * FILES, True, True, HOST) for at in range(count)]


DENIES_ALL, LOG_OFF = create("f0", 1, 0), b"\x04\0\0\0"
READS_OF = create("f0", 1)


def nfs_open(count, at):
    """An OPEN for reading of the first file by a client of NFSv4 that came before; the session, the tree connect and the opens
    have the numbers before its own."""
    client = 3 + count
    come = compound(1, set_client_id(b"c"), confirm(client, client + 1))
    return on_another(come, compound(2, PUT_ROOT_FH, open_file(1, client, b"o", b"f0", 1)))(count, at)


ASKED, DENIED = "TEST, by n ranges of n owners", "a LOCK that is denied, by these"
BEHIND_FIRST, BEHIND_LAST = "a LOCK that the first of n who wait denies", "a LOCK that the last of n who wait denies"
# How often a message is counted that changes nothing: one alone costs less than two runs of a long capture differ by.
TIMES_COUNTED = {ASKED: 200, DENIED: 200, BEHIND_FIRST: 200, BEHIND_LAST: 200}
OF_LEASES, OF_WAITERS, OF_RANGES = (100, 1_000, 3_990), (10, 100, 1_000), (1, 1_000, 10_000)
# A message, the numbers, what is prepared, and the lines whose last is the message.
MESSAGES = [
    ("CREATE that denies all, n leases RH of the file", OF_LEASES, leased_as(READS_AND_HANDLE), next_of_smb(5, DENIES_ALL)),
    ("the same, n leases R (refused)", OF_LEASES, leased_as(READS), next_of_smb(5, DENIES_ALL)),
    ("NLM LOCK that takes away n leases R", OF_LEASES, leased_as(READS), on_another(made(1, LOCK, 1, 1, 0, 1))),
    ("LOGOFF with n leases RH of a file", (100, 1_000, 3_900), leased_as(READS_AND_HANDLE), next_of_smb(2, LOG_OFF)),
    ("end of an SMB connection with n opens of a file", (100, 1_000, 4_000), plain, lambda count, at: "E 0"),
    (
        "UNLOCK that n shared locks wait for",
        OF_WAITERS,
        lambda count: by_rpc(waiting_for(False, HOST, count)),
        next_of_rpc(UNLOCK, 1, 0, 0, 1),
    ),
    (
        "the same of n / 2, behind as many who wait on",
        OF_WAITERS,
        lambda count: by_rpc(waiting_behind(count)),
        next_of_rpc(UNLOCK, 1, 0, 0, 1),
    ),
    (
        "FREE_ALL of a host with n who wait",
        OF_WAITERS,
        lambda count: by_rpc(waiting_for(True, HOST, count)),
        next_of_rpc(FREE_ALL, HOST),
    ),
    (ASKED, OF_RANGES, lambda count: by_rpc(ranges_of(count)), next_of_rpc(TEST, 1, 1, 0, 0)),
    (DENIED, OF_RANGES, lambda count: by_rpc(ranges_of(count)), next_of_rpc(LOCK, 1, 1, 0, 0)),
    (BEHIND_FIRST, OF_WAITERS, lambda count: by_rpc(waiting_in_row(count)), next_of_rpc(LOCK, 1, 0, 1, 1)),
    (BEHIND_LAST, OF_WAITERS, lambda count: by_rpc(waiting_last(count)), next_of_rpc(LOCK, 1, 0, 0, 1)),
    (
        "a LOCK beside n who wait, each held up by the one before alone",
        OF_WAITERS,
        lambda count: by_rpc(waiting_in_row(count)),
        next_of_rpc(LOCK, 1, 0, 10**9, 1),
    ),
    (
        "a LOCK by one of 1,000 who hold a range, for all of whom n wait",
        OF_WAITERS,
        lambda count: by_rpc(waiting_for_all(count)),
        next_of_rpc(LOCK, 1, 2, 0, 1, False),
    ),
    ("SMB CREATE for reading that breaks none of n leases R", OF_LEASES, leased_as(READS), next_of_smb(5, READS_OF)),
    ("NFSv4 OPEN for reading that breaks none of these", OF_LEASES, leased_as(READS), nfs_open),
]


def instructions_of_lines(binary, kind, records, lines):
    """The instructions of a capture of these records, on one connection, and of these lines behind them."""
    with tempfile.TemporaryDirectory() as folder:
        path = os.path.join(folder, "capture")
        write_capture(path, 1, records, kind)
        with open(path, "a") as out:
            out.writelines(f"{line}\n" for line in lines)
        return instructions(binary, path)


def instructions_of_message(binary, prepare, last, count, times):
    """How many instructions one message is: those of a capture that ends with it, so many times, without those of one that ends before it."""
    kind, records = prepare(count)
    *lines, message_line = last(count, 1 + len(records)).split("\n")
    before, after = (instructions_of_lines(binary, kind, records, lines + [message_line] * most) for most in (0, times))
    return (after - before) / times


def table_of_messages(binary):
    print("| one message | n | instructions at each n, in millions | by those before |")
    print("|---|---|---|---|")
    for name, counts, prepare, last in MESSAGES:
        costs = [instructions_of_message(binary, prepare, last, count, TIMES_COUNTED.get(name, 1)) for count in counts]
        ratios = [f"{after / before:.1f}" for before, after in zip(costs, costs[1:])]
        ns, millions = (", ".join(words) for words in ([f"{n:,}" for n in counts], [f"{cost / 1e6:,.3f}" for cost in costs]))
        print(f"| {name} | {ns} | {millions} | {', '.join(ratios)} |", flush=True)
    print()


def table(title, columns, places, unit, rows):
    print(f"| {title} | {' | '.join(f'{column:,}' for column in columns)} |")
    print("|---" * (1 + len(columns)) + "|")
    for name, cost in rows:
        costs = [cost(column) for column in columns]
        ratios = [f"{cost / costs[0]:.2f}" for cost in costs[1:]]
        print(f"| {name} | {costs[0]:,.{places}f}{unit} | {' | '.join(ratios)} |", flush=True)
    print()


def table_of_each(columns, places, unit, cost):
    """What a pair costs beside so many who wait there, and what each of them does, by the costs of the first column."""
    costs = [cost(column) for column in columns]
    each = [(spent - costs[0]) / column for column, spent in zip(columns[1:], costs[1:])]
    ratios = [f"{spent / costs[0]:.2f}" for spent in costs[1:]]
    print(f"| with so many who wait on the very file | {' | '.join(f'{column:,}' for column in columns)} | within |")
    print("|---" * (2 + len(columns)) + "|")
    print(f"| a LOCK and UNLOCK | {costs[0]:,.{places}f}{unit} | {' | '.join(ratios)} | |", flush=True)
    within = f"{max(each) / min(each):.2f}" if min(each) > 0 else "unknown"
    print(f"| of each who waits | | {' | '.join(f'{one:,.{places + 1}f}{unit}' for one in each)} | {within} |", flush=True)
    print()


def costs_of(cost, binary, rows):
    """For each row what its repeated calls cost behind what it prepares."""
    return [(name, lambda count, prepare=prepare: cost(binary, prepare, count)) for name, prepare in rows]


def main():
    form = argparse.RawDescriptionHelpFormatter
    parser = argparse.ArgumentParser(description=__doc__, formatter_class=form)
    parser.add_argument("binary", metavar="BINARY", help="a built xlockd, as crates/xlockd/out/xlockd")
    parser.add_argument("--instructions", action="store_true", help="count instructions by valgrind in the place of seconds")
    given = parser.parse_args()
    binary, cost, tick, unit = given.binary, microseconds, microseconds_of_tick, (1, " us")
    if given.instructions:
        cost, tick, unit = instructions_of_calls, instructions_of_tick, (0, "")
    held = [("one owner", held_by_one), ("as many owners", held_by_many), ("files before", held_before), ("files behind", held_behind)]
    waits = [("1 claim", waiting(1)), ("10,000 claims in other files", waiting(10_000))]
    frees = [("1 file", freed(1)), ("2 files", freed(2)), ("8 files", freed(8))]
    table("a LOCK and UNLOCK with so many ranges held by", HELD, *unit, costs_of(cost, binary, held))
    table("with so many who wait elsewhere, and", WAITERS, *unit, costs_of(cost, binary, waits))
    table_of_each(WAITERS, *unit, lambda count: cost(binary, waiting_there, count))
    table("a host's locks freed, while so many wait elsewhere, on", WAITERS, *unit, costs_of(cost, binary, frees))
    table("a reading of the clock with so many caches", CACHES, *unit, [("none due", lambda caches: tick(binary, caches))])
    if given.instructions:
        table_of_messages(binary)


if __name__ == "__main__":
    main()
