#!/usr/bin/env python3
"""Says in words what a transcript says.

    xlockd replay <CAPTURE | python3 tools/transcript_in_words.py CAPTURE

reads the capture and, from standard input or from the file that is named behind it, the transcript of its replay. It
writes a line for each event of the capture, with its place in the journal and what was answered, and behind it what else
was sent; at the end a line for each claim that is held:

    0   c0   open
    1   c0   lock a 7 a.txt 0 10 x               GRANTED
    2   c0   lock b 7 a.txt 0 10 x block         BLOCKED
    3   c0   unlock a 7 a.txt 0 10               GRANTED
    3        call 2 to 127.0.0.1.3.4: granted b 7 a.txt 0 10 x
    held: a.txt, bytes 0 to 9, exclusive, by nlm b 7 -

`c0` is the connection that was opened at place 0. The words of calls are those of capture_from_words.py.
"""
import argparse
import sys

from xlock import nfs, protocols, rpc, smb, transcripts, words, xdr
from xlock.captures import Capture, CaptureError
from xlock.transcripts import TranscriptError
from xlock.xdr import XdrError

WIDTH = 48


def call_in_words(record, files, cookie=b""):
    """A call, its cookie only where it isn't this one, and its protocol's module; bytes that are no call in hex."""
    try:
        call = rpc.read_call(record)
    except XdrError:
        return "bytes 0x" + record.hex(), None, None
    module = protocols.of_call(call)
    if module:
        try:
            return module.call_in_words(call.procedure, call.arguments, files, cookie), call, module
        except XdrError:
            pass
    arguments = " 0x" + call.arguments.hex() if call.arguments else ""
    return f"call {call.program} {call.version} {call.procedure}{arguments}", call, module


def call_back_in_words(record, files, cookie):
    """A call of the server's: a recall of NFSv4, or one of a program that clients call too."""
    try:
        return nfs.recall_in_words(rpc.read_call(record), files)
    except XdrError:
        return call_in_words(record, files, cookie)[0]


def reply_in_words(record, call, module):
    """What a reply to this call says."""
    try:
        reply = rpc.read_reply(record)
        if reply.verdict != "SUCCESS":
            return reply.verdict
        if call and module:
            return module.results_in_words(call.procedure, reply.results, module.cookie_of(call.procedure, call.arguments))
    except XdrError:
        pass
    return "bytes 0x" + record.hex()


def request_in_words(message):
    """A request of SMB; bytes that are none in hex."""
    try:
        return smb.request_in_words(message)
    except smb.SmbError:
        return "bytes 0x" + message.hex()


def event_in_words(event, files):
    """An event, and what its reply is read by."""
    if event.what == "message" and event.kind == "rpc":
        return call_in_words(event.data, files)
    if event.what == "message":
        return request_in_words(event.data), None, None
    said = {
        "open": lambda: f"open{' smb' if event.kind == 'smb' else ''}",
        "end": lambda: "end",
        "called": lambda: called_in_words(event),
        "tick": lambda: f"T {event.number}",
        "restart": lambda: "restart",
    }
    return said[event.what](), None, None


def called_in_words(event):
    """What the end of one of the server's calls says."""
    if not event.answered:
        return f"no_answer {event.number}"
    try:
        reply = rpc.read_reply(event.data)
        for module in protocols.RPC.values():
            if reply.verdict == "SUCCESS" and reply.xid == event.number % 2**32:
                return f"answer {event.number} {module.answer_in_words(event.number, reply.results)}"
    except XdrError:
        pass
    return f"answer {event.number} {words.word_of(event.data) if not event.data else '0x' + event.data.hex()}"


def message_in(out):
    """The message of an out without its frame."""
    if out.connection is None:
        return out.data
    cutter = smb.FrameCutter() if out.data[:1] == b"\0" else rpc.RecordCutter()
    return b"".join(cutter.feed(out.data))


def sent_in_words(message):
    """What a message of SMB that is no reply to the event says, and which request it answers."""
    try:
        head = smb.read_head(message)
        of = f"{smb.NAMES.get(head.command, 'command ' + str(head.command))}, message {head.message}: "
        return ("" if head.is_notice else of) + smb.reply_in_words(message)
    except smb.SmbError:
        return "bytes 0x" + message.hex()


def answers(message, event):
    """Whether a message of SMB is the reply to this one, and no later one to a request that waited."""
    try:
        request, reply = smb.read_head(event.data), smb.read_head(message)
        is_first = not reply.is_async or smb.STATUSES.get(reply.status) == "PENDING"
        return is_first and not reply.is_notice and (request.command, request.message) == (reply.command, reply.message)
    except smb.SmbError:
        return False


def smb_told(event, place, outs):
    """The answer to a message of SMB, and the lines of what else was sent."""
    own = next((out for out in outs if out.connection == event.connection and answers(message_in(out), event)), None)
    others = [line_of(place, f"c{out.connection}", sent_in_words(message_in(out))) for out in outs if out is not own]
    try:
        return (smb.reply_in_words(message_in(own)) if own else ""), others
    except smb.SmbError:
        return "bytes 0x" + message_in(own).hex(), others


def line_of(place, where, said, answer=""):
    line = f"{place:<3} {where:<4} {said}"
    return f"{line + ' ':<{WIDTH}} {answer}" if answer else line


def told_lines(event, place, outs, files):
    """The lines of an event: what came, with its answer, and what else was sent."""
    said, call, module = event_in_words(event, files)
    if event.stores is not None:
        said += f" !{event.stores}"
    where = f"c{event.connection}" if event.what in ("open", "message", "end") else ""
    answer, others = "", []
    if event.what == "message" and event.kind == "smb":
        to_connections = [out for out in outs if out.connection is not None]
        answer, others = smb_told(event, place, to_connections)
        outs = [out for out in outs if out.connection is None]
    for out in outs:
        if out.connection is None:
            told = call_back_in_words(message_in(out), files, xdr.u64(out.call))
            others.append(line_of(place, "", f"call {out.call} to {words.word_of(out.address)}: {told}"))
        elif out.connection == event.connection and not answer:
            answer = reply_in_words(message_in(out), call, module)
        else:
            others.append(line_of(place, f"c{out.connection}", sent_in_words(message_in(out))))
    return [line_of(place, where, said, answer)] + others


def holder_in_words(text):
    """The text of an owner or party: its protocol and its parts, of which svid and an open's number are no bytes; of a lease
    its client's guid and its key."""
    protocol, _, rest = text.partition(":")
    parts = rest.split("/")
    number = {("nlm", 3): 1, ("smb", 1): 0}.get((protocol, len(parts)))
    shown = [part if place == number else name_in_words(part) for place, part in enumerate(parts)]
    if (protocol, len(parts)) == ("smb", 2):
        shown = ["client", shown[0], "lease", smb.key_word(bytes.fromhex(parts[1]))]
    return " ".join([protocol] + shown)


def name_in_words(part):
    try:
        return words.word_of(bytes.fromhex(part))
    except ValueError:
        return part


def claim_in_words(claim, files):
    number = int(claim[0])
    file = files.names[number - 1] if number <= len(files.names) else f"file {number}"
    holder = holder_in_words(claim[2])
    if claim[1] == "share":
        return f"held: {file}, a share of access {claim[3]} that denies {claim[4]}, by {holder}"
    if claim[1] == "cache":
        return f"held: {file}, a cache {' '.join(claim[3:])}, by {holder}"
    mode = "exclusive" if claim[5] == "x" else "shared"
    if claim[4] == "-":
        return f"held: {file}, no byte at {claim[3]}, {mode}, by {holder}"
    last = int(claim[4])
    held = words.bytes_in_words(int(claim[3]), None if last == 2**64 - 1 else last)
    return f"held: {file}, {held}, {mode}, by {holder}"


def in_words(capture_text, transcript_text):
    """The lines in words of a capture and the transcript of its replay."""
    capture = Capture.read(capture_text)
    outs, claims = transcripts.read(transcript_text)
    by_place = {}
    for out in outs:
        by_place.setdefault(out.place, []).append(out)
    lines = []
    for place, event in enumerate(capture.events):
        lines += told_lines(event, place, by_place.pop(place, []), capture.files)
    if by_place:
        raise TranscriptError(f"place {min(by_place)} is past the capture's events: these two don't belong together")
    return lines + [claim_in_words(claim, capture.files) for claim in claims]


def main():
    form = argparse.RawDescriptionHelpFormatter
    parser = argparse.ArgumentParser(description=__doc__, formatter_class=form)
    parser.add_argument("capture", metavar="CAPTURE", help="the capture that was replayed")
    parser.add_argument("transcript", nargs="?", metavar="TRANSCRIPT", help="its transcript; standard input without it")
    given = parser.parse_args()
    try:
        with open(given.capture) as capture, open(given.transcript) if given.transcript else sys.stdin as transcript:
            for line in in_words(capture.read(), transcript.read()):
                print(line)
    except (CaptureError, TranscriptError, OSError) as error:
        sys.exit(f"transcript_in_words: {error}")


if __name__ == "__main__":
    main()
