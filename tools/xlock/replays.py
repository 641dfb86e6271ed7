"""Replays by the built program, and what it answered in them."""
import subprocess

from xlock import rpc, smb, transcripts

# A number that stands where ours brought none: no client, stateid, session, tree connect or open has it.
NOBODY = 2**32 - 1


class ReplayError(Exception):
    """A replay that came to no transcript."""


def replayed(program, capture):
    """The transcript of a capture's replay."""
    try:
        ran = subprocess.run([program, "replay"], input=capture, capture_output=True, text=True)
    except OSError as error:
        raise ReplayError(f"{program} can't be run: {error.strerror}") from None
    if ran.returncode != 0:
        raise ReplayError(f"{program} ended with {ran.returncode}: {ran.stderr.strip()}")
    return ran.stdout


def unframed(out):
    return b"".join(rpc.RecordCutter().feed(out.data))


class Ours:
    """What our server answered: of each call the reply, of each request of SMB the replies, with their places; its calls."""

    def __init__(self, transcript):
        outs, _ = transcripts.read(transcript)
        self.replies, self.smb, self.notices, self.calls = {}, {}, [], []
        for out in outs:
            if out.connection is None:
                self.calls.append(out)
            elif out.data[:1] == b"\0":
                self._take_smb(out)
            else:
                self.replies.setdefault((out.connection, out.place), unframed(out))

    def _take_smb(self, out):
        for message in smb.FrameCutter().feed(out.data):
            try:
                head = smb.read_head(message)
            except smb.SmbError:
                continue
            if head.is_notice:
                self.notices.append((out.place, out.connection, message))
            else:
                self.smb.setdefault((out.connection, head.message), []).append((out.place, message))


class Ids:
    """The recording's ids, with the request whose reply brought each, and ours in their place: those of the last replay as far
    as the capture is the one that was replayed, and from there on those that come if ours answers as the other server did.
    Ours are numbers, counted from 1 in the order in which they are drawn."""

    def __init__(self, ours=None):
        self.ours = ours
        self.is_replayed = ours is not None
        """Whether the capture up to here is that which was replayed."""
        self.place = 0
        """Of the next event."""
        self.next = 1
        self.sources = {}

    def draw(self):
        """The next number, if ours answers as the other server."""
        self.next += 1
        return self.next - 1

    def bring(self, key, take, is_new=True, guess=None):
        """A reply of the recording brought an id; `take` reads ours from what ours answered, up to a place. `guess` is ours where
        it was drawn before."""
        known = take(self.ours, self.place) if self.is_replayed else None
        if known is not None:
            guess, self.next = known, max(self.next, known + 1)
        elif not is_new and key in self.sources:
            guess = self.sources[key][1]
        self.sources[key] = take, self.draw() if guess is None else guess

    def get(self, key):
        """Our number in the place of an id; None where no reply of the recording brought it."""
        if key not in self.sources:
            return None
        take, guess = self.sources[key]
        if not self.is_replayed:
            return guess
        number = take(self.ours, self.place)
        return NOBODY if number is None else number
