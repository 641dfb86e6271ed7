"""Captures (docs/CAPTURE.md): their lines, and the events that the lines come to."""
from dataclasses import dataclass

from xlock.rpc import RecordCutter
from xlock.smb import FrameCutter
from xlock.words import Files

MOST_OPEN = 64
# The lines, by how many words stand behind the first.
LINES = {
    "F": (1,), "H": (2,), "L": (3,), "K": (1,), "N": (2, 3),
    "O": (1,), "B": (2,), "E": (1,), "C": (1, 2), "T": (1,), "R": (0,),
}  # fmt: skip
HEADERS = ("F", "H", "L", "K", "N")
MOST_STORES = 9999
# Whose clients the record names, and how many bytes their marks have.
RECORDED = {"nfs": 8, "nlm": 4}
CUTTERS = {"rpc": RecordCutter, "smb": FrameCutter}


class CaptureError(Exception):
    """A line that is no line of a capture."""


@dataclass(frozen=True)
class Event:
    """What an entry of the journal begins with; its place is its number in `Capture.events`."""

    what: str
    """open, message, end, called, tick or restart."""
    connection: int = 0
    """Of open, message and end. An opening's is its own place."""
    data: bytes = b""
    """Of a message without its frame, and of a reply to a call."""
    number: int = 0
    """Of a call that is over; the moment of a tick."""
    kind: str = "rpc"
    answered: bool = True
    """Of a call that is over: whether a reply came."""
    stores: int | None = None
    """How many stores of the record succeed in it, where its line says so."""


class Capture:
    """What the lines of a capture say, line by line."""

    def __init__(self):
        self.files = Files()
        self.addresses = {}
        self.events = []
        self.stores = None
        """What the line says of stores."""
        self.cutters = {}
        """The cutter of each open connection."""

    @staticmethod
    def read(text):
        """The capture that a text is. CaptureError names its first line that isn't in the grammar."""
        capture = Capture()
        for place, line in enumerate(text.split("\n"), 1):
            try:
                capture.add(line)
            except (CaptureError, ValueError) as error:
                raise CaptureError(f"line {place}: {error}") from None
        return capture

    def add(self, line):
        """One line more."""
        if not line or line.startswith("#"):
            return
        words = line.split()
        if words[0] not in HEADERS:
            self.stores = _stores(words.pop()) if words[-1].startswith("!") else None
        if not words or words[0] not in LINES:
            raise CaptureError(f"{words[0] if words else line} begins no line")
        if len(words) - 1 not in LINES[words[0]]:
            raise CaptureError(f"{words[0]} has another number of words")
        getattr(self, "_line_" + words[0].lower())(*words[1:])

    def _enter(self, what, **said):
        self.events.append(Event(what, stores=self.stores, **said))

    def _line_f(self, name):
        self.files.names.append(name)

    def _line_h(self, name, address):
        self.addresses[_hex(name)] = address

    def _line_l(self, lease, grace, break_time):
        pass

    def _line_k(self, epoch):
        if int(epoch) >= 2**32:
            raise CaptureError("an epoch is below 2^32")

    def _line_n(self, protocol, name, mark=None):
        if protocol not in RECORDED:
            raise CaptureError(f"no client of {protocol} is recorded")
        _hex(name)
        if mark is not None and len(_hex(mark)) != RECORDED[protocol]:
            raise CaptureError(f"a mark of {protocol} has {RECORDED[protocol]} bytes")

    def _line_o(self, kind):
        place = len(self.events)
        if kind not in CUTTERS:
            raise CaptureError(f"{kind} is no kind of connection")
        if len(self.cutters) < MOST_OPEN:
            self.cutters[place] = CUTTERS[kind]()
        self._enter("open", connection=place, kind=kind)

    def _line_b(self, connection, data):
        number, cutter = int(connection), self.cutters.get(int(connection))
        data = _hex(data)
        if cutter is None:
            return
        for message in cutter.feed(data):
            self._enter("message", connection=number, data=message, kind=cutter.KIND)
        if cutter.is_bad:
            self._end(number)

    def _line_e(self, connection):
        if int(connection) in self.cutters:
            self._end(int(connection))

    def _end(self, number):
        del self.cutters[number]
        self._enter("end", connection=number)

    def _line_c(self, number, reply=None):
        data = b"" if reply is None else _hex(reply)
        self._enter("called", number=int(number), data=data, answered=reply is not None)

    def _line_t(self, moment):
        self._enter("tick", number=int(moment))

    def _line_r(self):
        self.cutters = {}
        self._enter("restart")


def _stores(word):
    """The number that a word `!n` says."""
    if int(word[1:]) > MOST_STORES:
        raise CaptureError(f"a line says at most {MOST_STORES} stores")
    return int(word[1:])


def _hex(word):
    return b"" if word == "-" else bytes.fromhex(word)


def hex_word(data):
    return data.hex() or "-"


class Writer:
    """Writes a capture, header lines first, and counts its events as the server will."""

    def __init__(self):
        self.capture = Capture()
        self.notes, self.header, self.lines = [], [], []
        self.stores = None
        """How many stores succeed in each of the lines that follow."""

    @property
    def files(self):
        return self.capture.files

    @property
    def place(self):
        """The place of the next event."""
        return len(self.capture.events)

    def line(self, line):
        """An event line without what it says of stores, or a header line."""
        if line[:1] not in HEADERS and self.stores is not None:
            line += f" !{self.stores}"
        self.capture.add(line)
        if line[:1] not in HEADERS:
            self.lines.append(line)
        elif line[:1] != "F":  # files are written from the list that all lines share
            self.header.append(line)

    def comment(self, text):
        self.lines.append("# " + text)

    def note(self, text):
        """A comment above the header lines."""
        self.notes.append("# " + text)

    def open(self, kind="rpc"):
        """The number of a connection that is opened."""
        self.line("O " + kind)
        return self.place - 1

    def bytes(self, connection, data):
        self.line(f"B {connection} {hex_word(data)}")

    def end(self, connection):
        self.line(f"E {connection}")

    def called(self, number, reply=None):
        self.line(f"C {number}" + ("" if reply is None else " " + hex_word(reply)))

    def restart(self):
        self.line("R")

    def epoch(self, epoch):
        """The epoch of the record before the start."""
        self.line(f"K {epoch}")

    def recorded(self, protocol, name, mark=b""):
        """A client that the record before the start names, and its mark if it has one."""
        self.line(f"N {protocol} {hex_word(name)} {mark.hex()}".rstrip())

    def address(self, caller, address):
        if caller not in self.capture.addresses:
            self.line(f"H {hex_word(caller)} {address}")

    def text(self):
        files = ["F " + name for name in self.files.names]
        return "".join(line + "\n" for line in self.notes + files + self.header + self.lines)
