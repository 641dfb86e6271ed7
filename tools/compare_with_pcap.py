#!/usr/bin/env python3
"""Says where our answers differ from those of the server in a recorded session.

    python3 tools/compare_with_pcap.py SESSION.pcap --program XLOCKD

reads the packets of the session, makes the capture of them (capture_from_pcap.py), has PROGRAM, a built xlockd, replay it, and
compares. If a transcript is named behind SESSION, or stands on standard input, it is read in the place of a replay; then the
capture has to have been made with the same options. For each message it compares what the other server answered with what ours
did, and for each call back and each notice of a break whether both sent it. It writes

    3 c0  lock b 7 f1 0 10 x block
        theirs  BLOCKED
        ours    GRANTED

for each difference, with the place of the message in our journal, and last how many were compared. It ends with status 1
if something differs, with 2 if it can't compare. Ids and cookies, and what carries no meaning for the client, aren't
compared, nor what is left out of the capture, nor the steps of a session's setup, of which ours needs one; of SMB the last answer
to a request counts. The first difference may be the reason of those that follow.
"""
import argparse
import sys
from collections import Counter

from capture_from_pcap import add_arguments, options_of, recording_of
from xlock import foreign_smb, rpc
from xlock.foreign import ForeignError, Session, learned
from xlock.pcap import PcapError
from xlock.replays import Ours, ReplayError
from xlock.transcripts import TranscriptError


def differences(session, ours):
    """How many messages were compared, and the lines of each difference."""
    compared, lines = 0, []
    for asked in session.asked:
        module = asked.request.protocol
        both = module.difference(session, asked, ours) if asked.request.call else None
        if both is None:
            continue
        compared += 1
        their, our = both
        if their != our:
            lines.append(f"{asked.place} c{asked.connection}  {module.call_in_words(session, asked)}")
            lines += [f"    theirs  {their}", f"    ours    {our}"]
    return compared, lines


def told_differences(session, ours):
    """What one server told of by a call back or a notice, and the other didn't."""
    theirs_told = [session.told_in_words(told.call, is_ours=False) for told in session.recording.told]
    ours_told = [session.told_in_words(rpc.read_call(out.data), is_ours=True) for out in ours.calls]
    lines = only_one("called back", theirs_told, ours_told)
    chosen = [one for one in session.recording.chosen if one.kind == "smb"]
    sent = [foreign_smb.notice_in_words(message, session) for one in chosen for message in foreign_smb.notices(one)]
    return lines + only_one("sent", sent, [foreign_smb.notice_in_words(message) for _, _, message in ours.notices])


def only_one(did, theirs, ours):
    theirs, ours = (Counter(told for told in side if told is not None) for side in (theirs, ours))
    lines = [f"only they {did}, {count} times: {told}" for told, count in (theirs - ours).items()]
    return lines + [f"only we {did}, {count} times: {told}" for told, count in (ours - theirs).items()]


def compare(session, ours):
    """How many messages were compared, and the lines of what differs."""
    compared, lines = differences(session, ours)
    return compared, lines + told_differences(session, ours)


def of_transcript(recording, transcript, **options):
    """The session that was replayed, and what ours answered, by the transcript."""
    ours = Ours(transcript)
    return Session(recording, ours=ours, **options), ours


def main():
    form = argparse.RawDescriptionHelpFormatter
    parser = argparse.ArgumentParser(description=__doc__, formatter_class=form)
    add_arguments(parser)
    whose = "our transcript; without it and without --program standard input"
    parser.add_argument("transcript", nargs="?", metavar="TRANSCRIPT", help=whose)
    given = parser.parse_args()
    try:
        recording = recording_of(given)
        if given.program and not given.transcript:
            session, transcript = learned(recording, given.program, **options_of(given))
            ours = Ours(transcript)
        else:
            with open(given.transcript) if given.transcript else sys.stdin as text:
                session, ours = of_transcript(recording, text.read(), **options_of(given))
        compared, lines = compare(session, ours)
    except (ForeignError, PcapError, ReplayError, TranscriptError, OSError) as error:
        print(f"compare_with_pcap: {error}", file=sys.stderr)
        sys.exit(2)
    for line in lines:
        print(line)
    print(f"{compared} messages were compared, and {'nothing differs' if not lines else 'something differs'}")
    sys.exit(1 if lines else 0)


if __name__ == "__main__":
    main()
