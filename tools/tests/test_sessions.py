"""Captures of recorded sessions, and what differs from the other server's answers."""
import unittest

from compare_with_pcap import compare
from tests import by_hand
from tests.by_hand import granted, lock, marked, reply, unlock
from xlock.captures import Capture
from xlock.foreign import ForeignError, Recording, Session, server_of
from xlock.replays import Ours

A, B, SERVER = ("10.0.0.1", 801), ("10.0.0.2", 802), ("10.0.0.9", 4045)
CALLBACK_FROM, B_LISTENS = ("10.0.0.9", 900), ("10.0.0.2", 40000)


def two_callers():
    """A locks, B waits, A unlocks and leaves, B is called back: with lost, repeated and reordered segments."""
    talk = by_hand.Talk()
    talk.connect(A, SERVER)
    talk.connect(B, SERVER)
    first = marked(lock(1))
    talk.say(A, SERVER, first[:50])
    talk.segment(A, SERVER, 1001, data=first[:50])
    talk.segment(A, SERVER, 1001 + 70, data=first[70:])
    second = marked(lock(1, "62", block=1))
    talk.say(B, SERVER, second[:3])
    talk.segment(A, SERVER, 1001 + 40, data=first[40:75])
    talk.sequences[A, SERVER] = 1001 + len(first)
    talk.say(SERVER, A, marked(reply(1, 0)))
    talk.say(B, SERVER, second[3:])
    talk.say(SERVER, B, marked(reply(1, 3)))
    talk.say(A, SERVER, marked(unlock(2)) + marked(lock(3, handle="eeeeeeee")))
    talk.say(SERVER, A, marked(reply(2, 0)) + marked(reply(3, 0)))
    talk.close(A, SERVER)
    talk.connect(CALLBACK_FROM, B_LISTENS)
    talk.say(CALLBACK_FROM, B_LISTENS, marked(granted(77, "62")))
    talk.say(B_LISTENS, CALLBACK_FROM, marked(reply(77, 1, "0000002a")))
    return talk


def ours(record):
    """A call with our handle, by the number of its file."""
    for handle, number in (("00000004aabbccdd", 1), ("00000004eeeeeeee", 2)):
        record = record.replace(bytes.fromhex(handle), bytes.fromhex(f"00000008584c4b31{number:08x}"))
    return marked(record).hex()


LINES = [
    "F f1", "F f2", "H 61 10.0.0.1.0.0", "H 62 10.0.0.2.156.64",
    "O rpc", f"B 0 {ours(lock(1))}", "O rpc", f"B 2 {ours(lock(1, '62', block=1))}",
    f"B 0 {ours(unlock(2))}", f"B 0 {ours(lock(3, handle='eeeeeeee'))}", "E 0",
]  # fmt: skip
TRANSCRIPT = f"""\
1 c0 {marked(reply(1, 0)).hex()}
3 c2 {marked(reply(1, 3)).hex()}
4 c0 {marked(reply(2, 0)).hex()}
4 b2 7a {granted(2, '62', cookie='0000002b').hex().replace('00000004aabbccdd', '00000008584c4b3100000001')}
5 c0 {marked(reply(3, 0)).hex()}
1 range nlm:62/7/- 0 9 x
"""


def session(talk, link=1, servers=(), **how):
    return Session(Recording(by_hand.pcap(talk.packets, link), servers), **how)


def lines_of(found):
    return [line for line in found.writer.text().splitlines() if not line.startswith("#")]


class Sessions(unittest.TestCase):
    def test_two_callers(self):
        found = session(two_callers())
        self.assertEqual(lines_of(found), LINES)
        self.assertEqual(found.things.table(), ["f1 is the handle aabbccdd", "f2 is the handle eeeeeeee"])
        self.assertEqual(found.notes, [])
        self.assertEqual(list(found.refused()), ["a client answered DENIED to the call granted b 7 f1 0 10 x; this isn't in the capture"])
        Capture.read(found.writer.text())

    def test_times(self):
        # A tick is an event, so that the connections that are opened behind one have other numbers.
        lines = lines_of(session(two_callers(), times=True))
        self.assertEqual([line.split()[0] for line in lines], "F F H H O B T O B T B B T E".split())
        self.assertEqual([line for line in lines if line[0] in "TO"], ["O rpc", "T 2", "O rpc", "T 4", "T 6"])

    def test_midst(self):
        # The beginning of the connection, and the end of a call, weren't captured.
        talk = by_hand.Talk()
        talk.sequences[A, SERVER] = 5
        talk.say(A, SERVER, b"the end of a call")
        talk.say(A, SERVER, marked(lock(1)))
        self.assertEqual(lines_of(session(talk))[2:], ["O rpc", f"B 0 {ours(lock(1))}"])

    def test_missing(self):
        talk = by_hand.Talk()
        talk.connect(A, SERVER)
        talk.say(A, SERVER, marked(lock(1)))
        talk.sequences[A, SERVER] += 4
        talk.say(A, SERVER, marked(lock(2)))
        found = session(talk)
        self.assertEqual(lines_of(found)[2:], ["O rpc", f"B 0 {ours(lock(1))}"])
        self.assertIn("4 bytes from 10.0.0.1 weren't captured", found.notes[0])

    def test_reset(self):
        # A connection that is reset, and another of the same ends, which sends a mark that none is.
        talk = by_hand.Talk()
        talk.connect(A, SERVER)
        talk.say(A, SERVER, marked(lock(1)))
        talk.segment(SERVER, A, 0, by_hand.RST)
        talk.connect(A, SERVER, first=77)
        talk.say(A, SERVER, marked(lock(2)) + bytes(4))
        wanted = ["O rpc", f"B 0 {ours(lock(1))}", "E 0", "O rpc", f"B 3 {ours(lock(2))}", "B 3 00000000"]
        self.assertEqual(lines_of(session(talk))[2:], wanted)

    def test_others(self):
        # Calls of another program, and arguments that can't be read, stay as they are; replies aren't calls.
        talk = by_hand.Talk()
        talk.connect(A, SERVER)
        other = bytes.fromhex(by_hand.CALL.format(xid=9, procedure=0)).replace(b"\0\x01\x86\xb5", b"\0\x01\x86\xa3")
        for record in lock(1), other, lock(2) + b"\0", reply(5, 0):
            talk.say(A, SERVER, marked(record))
        records = [bytes.fromhex(ours(lock(1))[8:]), other, lock(2) + b"\0", reply(5, 0)]
        self.assertEqual(lines_of(session(talk))[2:], ["O rpc"] + [f"B 0 {marked(record).hex()}" for record in records])

    def test_datagrams(self):
        talk = by_hand.Talk()
        for data in lock(1), lock(1), unlock(2):
            talk.datagram(A, SERVER, data)
        talk.datagram(SERVER, A, reply(1, 0))
        found = session(talk)
        self.assertEqual(lines_of(found)[2:], ["O rpc", f"B 0 {ours(lock(1))}", f"B 0 {ours(unlock(2))}"])
        self.assertEqual(len(found.notes), 1)

    def test_servers(self):
        talk = two_callers()
        other = ("10.0.0.8", 4045)
        talk.connect(B, other)
        talk.say(B, other, marked(lock(5, "62")))
        self.assertIn("--server", session(talk).notes[0])
        for word in "10.0.0.9", "10.0.0.9:4045":
            self.assertEqual(lines_of(session(talk, servers=[server_of(word)])), LINES)
        with self.assertRaises(ForeignError):
            session(talk, servers=[server_of("10.0.0.9:1")])

    def test_stale(self):
        # A handle of no file, as the other server says, stays as it is, which is none of ours either.
        talk = by_hand.Talk()
        talk.connect(A, SERVER)
        talk.say(A, SERVER, marked(lock(1)))
        talk.say(SERVER, A, marked(reply(1, 7)))
        self.assertEqual(lines_of(session(talk))[1:], ["O rpc", f"B 0 {marked(lock(1)).hex()}"])

    def test_many_files(self):
        talk = by_hand.Talk()
        for number in range(1025):
            talk.datagram(A, SERVER, lock(number, handle=f"{number:08x}"))
        with self.assertRaises(ForeignError):
            session(talk)


class Comparisons(unittest.TestCase):
    def test_nothing_differs(self):
        self.assertEqual(compare(session(two_callers()), Ours(TRANSCRIPT)), (4, []))

    def test_differences(self):
        for changed, wanted in [
            ("3 c2 " + marked(reply(1, 0)).hex(), ["3 c2  lock b 7 f1 0 10 x block", "    theirs  BLOCKED", "    ours    GRANTED"]),
            ("3 c2 80000018" + "00000001 00000001 00000000 00000000 00000000 00000004".replace(" ", ""), ["3 c2  lock b 7 f1 0 10 x block", "    theirs  BLOCKED", "    ours    GARBAGE_ARGS"]),
            ("", ["3 c2  lock b 7 f1 0 10 x block", "    theirs  BLOCKED", "    ours    no answer"]),
        ]:  # fmt: skip
            lines = [changed if line.startswith("3 c2") else line for line in TRANSCRIPT.splitlines()]
            text = "\n".join(line for line in lines if line)
            self.assertEqual(compare(session(two_callers()), Ours(text)), (4, wanted))

    def test_calls_back(self):
        told = [line for line in TRANSCRIPT.splitlines() if " b2 " in line][0]
        others = TRANSCRIPT.replace(told + "\n", "")
        wanted = ["only they called back, 1 times: granted b 7 f1 0 10 x"]
        self.assertEqual(compare(session(two_callers()), Ours(others))[1], wanted)
        wanted = ["only we called back, 1 times: granted b 7 f1 0 10 x"]
        self.assertEqual(compare(session(two_callers()), Ours(TRANSCRIPT + told + "\n"))[1], wanted)


if __name__ == "__main__":
    unittest.main()
