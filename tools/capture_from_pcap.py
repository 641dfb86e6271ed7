#!/usr/bin/env python3
"""Makes a capture of a recorded session with another server.

    python3 tools/capture_from_pcap.py SESSION.pcap --program XLOCKD | XLOCKD replay

reads packets as tcpdump or Wireshark records them, pcap or pcapng, over Ethernet, loopback, raw IP or Linux cooked, IPv4
or IPv6, and writes a capture (docs/CAPTURE.md) of all that clients asked in them by NLM version 4, NFSv4.0, and SMB 2: an `O`
line for each connection, a `B` line for each call or request, an `E` line if the client closed it or it was reset, in the
order in which the messages were whole. Streams of TCP are put together also if segments were lost and sent again, overlap,
or came in another order. Calls of ONC RPC by UDP come by a connection of their own; SMB is what goes to port 445.

What is the other server's becomes ours. Each file gets a number in order of appearance, its handle `XLK1` and that number,
and the name that it has, or `f` and the number; directories and shares are the root. Clientids, stateids, sessions, tree
connects and opens become those that our server answers. PROGRAM, a built xlockd, replays what is known so far, and tells
them; it is run until the capture stays as it is. Without it they are counted as if ours answered all that the other did.

What ours doesn't serve is left out: of a COMPOUND the operations on attributes, data and directories, of SMB such requests,
and those in shares without files. A file that is made or emptied is opened as it is. Requests of SMB that came in one frame
are asked one by one. Comments above the messages name what is left out, and standard error counts it, beside the table of
files and what is missing.

How a client answered the other server's call back has a `C` line, if PROGRAM made a call that tells of the same by then.
Without it each lock that a call told of counts as taken, and standard error says which one was refused.

What stays as it is: calls of other programs on such a connection, and calls that can't be read.
"""
import argparse
import sys

from xlock.foreign import ForeignError, Recording, Session, learned, server_of
from xlock.pcap import PcapError
from xlock.replays import ReplayError

WITHOUT_PROGRAM = "the ids of NFSv4 and SMB are counted, not learned: --program names a built xlockd, which tells them"


def add_arguments(parser):
    """The words that say which session is meant."""
    parser.add_argument("pcap", metavar="SESSION", help="the file of packets")
    program = "a built xlockd, as crates/xlockd/out/xlockd, which tells the ids of NFSv4 and SMB"
    parser.add_argument("--program", metavar="PROGRAM", help=program)
    server = "only calls to this server, ADDRESS or ADDRESS:PORT of IPv4; may stand several times"
    parser.add_argument("--server", action="append", type=server_of, default=[], metavar="ADDRESS", help=server)
    times = "also a line T if time passed, in milliseconds since the first message: leases, and breaks that nobody answers, end by it"
    parser.add_argument("--times", action="store_true", help=times)
    delegations = "clients of NFSv4 can't be called back, so that ours gives them no delegation, as a server that gives none"
    tree = "a file of SMB and one of NFSv4 that have the same name are one, if no other has it; without it they are two"
    parser.add_argument("--one-tree", action="store_true", help=tree)
    parser.add_argument("--without-delegations", action="store_true", help=delegations)


def recording_of(given):
    with open(given.pcap, "rb") as file:
        return Recording(file.read(), given.server, given.one_tree)


def options_of(given):
    return {"times": given.times, "without_delegations": given.without_delegations}


def main():
    form = argparse.RawDescriptionHelpFormatter
    parser = argparse.ArgumentParser(description=__doc__, formatter_class=form)
    add_arguments(parser)
    given = parser.parse_args()
    try:
        recording = recording_of(given)
        if given.program:
            session, _ = learned(recording, given.program, **options_of(given))
        else:
            session = Session(recording, **options_of(given))
        guessed = [WITHOUT_PROGRAM] if recording.has_ids() and not given.program else []
        for line in session.said() + guessed:
            print(line, file=sys.stderr)
        sys.stdout.write(session.writer.text())
    except (ForeignError, PcapError, ReplayError, OSError) as error:
        sys.exit(f"capture_from_pcap: {error}")


if __name__ == "__main__":
    main()
