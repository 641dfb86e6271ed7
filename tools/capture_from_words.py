#!/usr/bin/env python3
"""Makes a capture of words: one line of words, one event.

    python3 tools/capture_from_words.py WORDS >CAPTURE

reads the file WORDS, or standard input if none is named, and writes a capture (docs/CAPTURE.md) that
`xlockd replay` reads. A line is

{usages}
    file NAME                     exports a file; one that a call names is exported anyway, in order of appearance
    address CALLER ADDRESS        where the caller is called back
    epoch N                       the epoch of the record before the start, which else is 0
    recorded nfs|nlm NAME [MARK]  a client that this record names, and its verifier or its host's state
    open [NAME] [smb]             opens a connection, by which all goes that follows; a call before any opens one
    use NAME                      goes on by that connection
    end [NAME]                    ends the connection, or the one of that name
    smb REQUEST [WORD ..]         a request of SMB 2.1 by the connection, which an `open smb` opened
    call PROGRAM VERSION PROCEDURE [BYTES]   any call, with these arguments
    bytes BYTES                   bytes of the connection's stream as they stand
    xid N                         the xid of all calls that follow, which else are numbered from 1
    message N                     the number of all requests of SMB that follow, which else are numbered from 0
    answer CALL STATUS            the caller answers the server's call of that number: granted, denied, ..
    answer CALL BYTES             it answers these bytes
    no_answer CALL                it doesn't
    restart                       the server starts again from its record; no connection is open behind it
    F .. H .. L .. K .. N .. O .. B .. E .. C .. T .. R   a line of the capture, as it stands

FILE is an exported file's name, `/` the root, `0x..` any other handle. LENGTH is a number of bytes or `end`. x is an
exclusive lock, s a shared one. ACCESS and DENY are r, w, rw or -. A name (CALLER, oh, cookie) is a word, `0x..` its bytes
in hex, `-` no byte. OP is an operation of NFSv4.0:

{operations}

CLIENTID is its epoch and its number, as 1.5, and STATEID is that and its seqid, as 1.5.1; VERIFIER and CONFIRM are a number
or eight bytes, `0x..`; the first SEQID of first_lock is the open owner's; `op` is any operation, with these bytes behind its
number. REQUEST is one of SMB 2.1:

{requests}

ELEMENT is {element}, ACCESS and SHARED are letters of rwd, LEVEL is
{levels}. KEY is that of a lease, a name of 16 bytes at most, with zeros behind them, and
STATE its state: letters of rwh, of which h is the handle, or -. OPEN, and ID below, is an epoch and a number, as 1.3. Each
request also takes session=ID and tree=N, which those that follow on the connection keep, and message=N.

Each call also takes xid=N, fragments=N (its record in fragments of N bytes) and pieces=N (its bytes in lines of N). A line
that makes an event may end with !N: only the first N stores of the record succeed in it.
Empty lines and the words from one on that begins with `#` are passed over. In the capture a comment above
each line has its words.

    lock a 7 a.txt 0 10 x         caller a, process 7, locks the bytes 0 to 9 of a.txt
    lock b 7 a.txt 0 10 x block   caller b waits for them
    unlock a 7 a.txt 0 10         b has them, and is called back
"""
import argparse
import contextlib
import itertools
import sys

from xlock import nfs, nlm, protocols, rpc, smb, words
from xlock.captures import MOST_STORES, RECORDED, CaptureError, Writer
from xlock.words import Usage, WordError

CALL_OPTIONS = ("xid", "fragments", "pieces")
# The words that make no event.
QUIET = ("file", "address", "epoch", "recorded", "use", "xid", "message")


def usages():
    modules = protocols.word_modules()
    return "\n".join(f"    {name} {modules[name].USAGES[name]}".rstrip() for name in modules)


def listed(usages):
    return "\n".join(f"    {name} {usage}".rstrip() for name, (_, usage) in usages.items())


class Maker:
    """Makes the lines of a capture of lines of words."""

    def __init__(self):
        self.out = Writer()
        self.names = {}
        """The connections, by name."""
        self.senders = {}
        """What makes the requests of each connection of SMB."""
        self.current = None
        self.xid = 0
        self.same_xid = self.same_message = None
        """The xid of all calls and the number of all requests, where words say them."""
        self.modules = protocols.word_modules()

    def add(self, line):
        given = list(itertools.takewhile(lambda word: not word.startswith("#"), line.split()))
        if not given:
            return
        if given[0][:1].isupper():
            self.out.line(" ".join(given))
            if given[0] == "R":
                self.forget()
            return
        act = getattr(self, "do_" + given[0], None)
        if act is None and given[0] not in self.modules:
            raise WordError(f"{given[0]} is no word; --help has them all")
        if act is None or given[0] in ("call", "bytes"):
            self.connection()
        if given[0] not in QUIET:
            self.out.comment(" ".join(given))
        with self.allowed(given):
            if act is None:
                self.call(given[0], given[1:])
            else:
                act(given[1:])

    @contextlib.contextmanager
    def allowed(self, given):
        """While the lines of these words are written, which may end with how many stores succeed."""
        if given[0] not in QUIET and given[-1].startswith("!"):
            self.out.stores = words.number_of(given.pop()[1:], MOST_STORES)
        yield
        self.out.stores = None

    def connection(self):
        if self.current is None:
            self.current = self.out.open()
        return self.current

    def send(self, record, options):
        """A record by the current connection, in fragments and pieces where these are asked for."""
        fragments = words.number_of(options["fragments"], 65536, 1) if "fragments" in options else None
        data = rpc.framed(record, fragments)
        pieces = words.number_of(options["pieces"], 65540, 1) if "pieces" in options else len(data)
        connection = self.connection()
        for at in range(0, len(data), pieces):
            self.out.bytes(connection, data[at : at + pieces])

    def own_options(self, given):
        """The options that every call has, and the other words."""
        pairs = [word.partition("=") for word in given]
        options = {key: value for key, mark, value in pairs if mark and key in CALL_OPTIONS}
        return options, [word for word, (key, mark, _) in zip(given, pairs) if not (mark and key in CALL_OPTIONS)]

    def next_xid(self, options):
        if "xid" in options:
            self.xid = words.number_of(options["xid"], 2**32 - 1)
        elif self.same_xid is None:
            self.xid = (self.xid + 1) % 2**32
        else:
            self.xid = self.same_xid
        return self.xid

    def do_xid(self, given):
        self.same_xid = words.number_of(Usage("xid", "N").read(given)[0][0], 2**32 - 1)

    def do_message(self, given):
        self.same_message = words.number_of(Usage("message", "N").read(given)[0][0])

    def call(self, name, given):
        module = self.modules[name]
        options, given = self.own_options(given)
        procedure, arguments = module.make(name, given, self.out.files)
        call = rpc.Call(self.next_xid(options), module.PROGRAM, module.VERSION, procedure, arguments)
        self.send(rpc.call_bytes(call), options)

    def do_smb(self, given):
        if self.current not in self.senders:
            raise WordError("no connection of SMB is open: `open smb` opens one")
        if self.same_message is not None and not any(word.startswith("message=") for word in given):
            given = [*given, f"message={self.same_message}"]
        self.out.bytes(self.current, smb.framed(self.senders[self.current].request(given)))

    def do_call(self, given):
        options, given = self.own_options(given)
        positions, _, _ = Usage("call", "PROGRAM VERSION PROCEDURE [BYTES]").read(given)
        program, version, procedure = (words.number_of(word, 2**32 - 1) for word in positions[:3])
        arguments = words.bytes_of(positions[3]) if len(positions) > 3 else b""
        call = rpc.Call(self.next_xid(options), program, version, procedure, arguments)
        self.send(rpc.call_bytes(call), options)

    def do_epoch(self, given):
        self.out.epoch(words.number_of(Usage("epoch", "N").read(given)[0][0], 2**32 - 1))

    def do_recorded(self, given):
        protocol, name, *marks = Usage("recorded", "nfs|nlm NAME [MARK]").read(given)[0]
        if protocol not in RECORDED:
            raise WordError(f"{protocol} is none of {', '.join(RECORDED)}")
        self.out.recorded(protocol, words.bytes_of(name), *(words.fixed_of(mark, RECORDED[protocol]) for mark in marks))

    def do_restart(self, given):
        Usage("restart", "").read(given)
        self.out.restart()
        self.forget()

    def forget(self):
        """No connection is open any more."""
        self.current = None
        self.names, self.senders = {}, {}

    def do_file(self, given):
        self.out.files.number(Usage("file", "NAME").read(given)[0][0])

    def do_address(self, given):
        caller, address = Usage("address", "CALLER ADDRESS").read(given)[0]
        if not 1 <= len(address) <= 64 or not all("!" <= letter <= "~" for letter in address):
            raise WordError("an address has 1 to 64 graphic letters of ASCII")
        self.out.address(words.bytes_of(caller), address)

    def do_open(self, given):
        positions, flags, _ = Usage("open", "[NAME] [smb]").read(given)
        kind = "smb" if flags else "rpc"
        self.current = self.out.open(kind)
        if kind == "smb":
            self.senders[self.current] = smb.Sender()
        if positions:
            self.names[positions[0]] = self.current

    def named(self, name):
        if name not in self.names:
            raise WordError(f"no connection is called {name}")
        return self.names[name]

    def do_use(self, given):
        self.current = self.named(Usage("use", "NAME").read(given)[0][0])

    def do_end(self, given):
        positions, _, _ = Usage("end", "[NAME]").read(given)
        number = self.named(positions[0]) if positions else self.connection()
        self.out.end(number)
        if number == self.current:
            self.current = None

    def do_bytes(self, given):
        data = Usage("bytes", "BYTES").read(given)[0][0]
        self.out.bytes(self.connection(), bytes.fromhex(data.removeprefix("0x")))

    def do_answer(self, given):
        number, said = Usage("answer", "CALL STATUS").read(given)[0]
        number = words.number_of(number)
        if said.startswith("0x") or said == "-":
            reply = words.bytes_of(said)
        else:
            reply = rpc.success_bytes(number % 2**32, nlm.granted_answer(number, said))
        self.out.called(number, reply)

    def do_no_answer(self, given):
        self.out.called(words.number_of(Usage("no_answer", "CALL").read(given)[0][0]))


def capture_of(text):
    """The capture of a text of words. WordError names its first line that says nothing known."""
    maker = Maker()
    for place, line in enumerate(text.split("\n"), 1):
        try:
            maker.add(line)
        except (WordError, CaptureError, ValueError) as error:
            raise WordError(f"line {place}: {error}") from None
    return maker.out.text()


def main():
    form = argparse.RawDescriptionHelpFormatter
    told = {"usages": usages(), "operations": listed(nfs.OPS), "requests": listed(smb.USAGES)}
    told |= {"element": smb.ELEMENT, "levels": ", ".join(smb.LEVELS)}
    parser = argparse.ArgumentParser(description=__doc__.format(**told), formatter_class=form)
    parser.add_argument("words", nargs="?", metavar="WORDS", help="the file with the words; standard input without it")
    given = parser.parse_args()
    try:
        with open(given.words) if given.words else sys.stdin as text:
            sys.stdout.write(capture_of(text.read()))
    except (WordError, OSError) as error:
        sys.exit(f"capture_from_words: {error}")


if __name__ == "__main__":
    main()
