"""Transcripts (docs/CAPTURE.md): their lines."""
from dataclasses import dataclass


class TranscriptError(Exception):
    """A line that is no line of a transcript."""


@dataclass(frozen=True)
class Out:
    """What was sent."""

    place: int
    """Of the event that caused it."""
    connection: int | None
    """Where it went, or None for a call back."""
    call: int | None
    """The number of a call back."""
    address: bytes
    data: bytes
    """With its frame where it went to a connection, without one of a call back."""


def _bytes(word):
    return b"" if word == "-" else bytes.fromhex(word)


def _out(words):
    number = int(words[1][1:])
    if words[1][0] == "c" and len(words) == 3:
        return Out(int(words[0]), number, None, b"", _bytes(words[2]))
    if words[1][0] == "b" and len(words) == 4:
        return Out(int(words[0]), None, number, _bytes(words[2]), _bytes(words[3]))
    raise ValueError


def read(text):
    """The outs of a transcript, and the words of its claim lines."""
    outs, claims = [], []
    for place, line in enumerate(text.splitlines(), 1):
        words = line.split(" ")
        try:
            if len(words) > 1 and words[1] in ("share", "range", "cache"):
                claims.append(words)
            else:
                outs.append(_out(words))
        except (ValueError, IndexError):
            raise TranscriptError(f"line {place} is no line of a transcript") from None
    return outs, claims
