"""Recorded sessions of NFSv4.0 and SMB 2: of stock clients with stock servers, and of our own examples.

What is in `recorded` was recorded by tcpdump on a loopback interface, of packets that begin or end a connection or carry data.
The clients of `nfs4_` are libnfs 4.0.0 (locks by its `nfs_lockf` and `nfs_fcntl`, files by nfs-cat and nfs-cp), their server is
nfs-ganesha 4.3; those of `smb2_` are impacket 0.10.0 (locks, caches) and smbclient 4.17 (files), limited to dialect 2.1, their
server is smbd 4.17.
"""
import struct
import unittest
from pathlib import Path
from unittest import mock

from compare_with_pcap import compare, of_transcript
from tests import by_hand
from xlock import nfs_ops, rpc, smb, transcripts
from xlock.captures import Capture
from xlock.foreign import Recording, Session, learned
from xlock.replays import Ids, Ours
from xlock.things import Things
from xlock.xdr import opaque, u32

RECORDED = Path(__file__).parent / "recorded"
EXAMPLES = Path(__file__).resolve().parents[2] / "examples"
SERVER = "10.0.0.9"


def session_of(name, **how):
    return Session(Recording((RECORDED / f"{name}.pcap").read_bytes()), **how)


def in_words(session):
    """What ours is asked, in words."""
    return [asked.request.protocol.call_in_words(session, asked) for asked in session.asked]


# Of each recording the files, what is left out and how often, and some of what ours is asked, by the place among the messages.
FOUND = {
    "nfs4_locks": (["a.txt"], {"LOOKUP of a directory": 2, "GETATTR": 5, "ACCESS": 3}, {
        2: "compound confirm 1.1 2",
        3: "compound put_root_fh then get_fh",
        8: "compound put_fh / then open 0 1.1 host-a a.txt rw then get_fh",
        9: "compound put_fh a.txt then open_confirm 1.5.1 1",
        12: "compound put_fh a.txt then first_lock 0 10 x 1.5.2 2 1.1 host-a 0",
        15: "compound put_fh a.txt then lock 100 10 s 1.7.1 1",
        17: "compound put_fh a.txt then unlock 0 10 x 1.7.3 3",
        21: "compound put_fh / then open 2 1.1 host-a nope.txt r then get_fh",
    }),
    "nfs4_files": (["d.txt", "new.txt"], {
        "LOOKUP of a directory": 4, "GETATTR": 8, "ACCESS": 3, "READ": 2, "that an OPEN creates": 1, "SETATTR": 1, "WRITE": 1,
        "COMMIT": 1,
    }, {
        4: "compound put_fh / then open 0 1.1 0x4c69626e6673207069643a393133312031373936303039363935 d.txt r then get_fh",
        13: "compound put_fh / then open 0 1.4 0x4c69626e6673207069643a393133362031373936303039363935 new.txt w then get_fh",
        15: "compound put_fh new.txt",
    }),
    "smb2_locks": (["a.txt", "b.txt"], {}, {
        2: r"smb session_setup session=1.1",
        3: r"smb tree_connect \\127.0.0.1\xl session=1.1",
        10: "smb create A.TXT rw rw session=1.3 tree=4",
        11: "smb lock 1.6 5 10 x session=1.3 tree=4",
        16: "smb lock 1.5 0 20 x wait session=1.1 tree=2",
        17: "smb lock 1.6 5 10 unlock then 100 10 unlock session=1.3 tree=4",
        20: "smb create nope.txt rw session=1.1 tree=2",
    }),
    "smb2_caches": (["a.txt", "b.txt", "c.txt"], {"that a CREATE makes or empties a file": 1}, {
        8: "smb create a.txt rw oplock=batch session=1.1 tree=2",
        10: "smb break 1.5 level2 session=1.1 tree=2",
        14: "smb create b.txt rw lease=kkkkkkkkkkkkkkkk state=rwh session=1.1 tree=2",
        17: "smb close 1.8 session=1.3 tree=4",
        19: "smb create c.txt rw - session=1.1 tree=2",
    }),
    "smb2_files": (["a.txt", "c.txt"], {
        "TREE_CONNECT of a share without files": 1, "IOCTL": 1, "TREE_DISCONNECT in a share without files": 1, "QUERY_INFO": 1,
        "READ": 1, "that a CREATE makes or empties a file": 1, "WRITE": 1, "CREATE of a directory": 1, "QUERY_DIRECTORY": 2,
        "CLOSE of a directory": 1,
    }, {
        5: "smb close 1.3 session=1.1 tree=2",
        8: "smb create c.txt d session=1.1 tree=2",
        11: "smb tree_disconnect session=1.1 tree=2",
    }),
}  # fmt: skip


class Stock(unittest.TestCase):
    def test_found(self):
        for name, (files, left_out, words) in FOUND.items():
            session = session_of(name)
            self.assertEqual((session.things.files.names, dict(session.left_out)), (files, left_out), name)
            asked = in_words(session)
            self.assertEqual({place: asked[place] for place in words}, words, name)
            Capture.read(session.writer.text())

    def test_by_other_ids(self):
        # Where ours answers another clientid than is counted, it stands in what follows; where it answers none, nobody's does.
        session = session_of("nfs4_locks")
        first, second = session.asked[1], session.asked[2]
        answer = u32(0) + u32(0) + u32(1) + u32(35) + u32(0) + struct.pack(">2IQ", 1, 77, 78)
        for results, wanted in (answer, "compound confirm 1.77 78"), (answer[:12] + u32(35) + u32(10018), "compound confirm 1.4294967295 4294967295"):
            reply = rpc.framed(rpc.success_bytes(rpc.read_call(first.message).xid, results)).hex()
            learned = session_of("nfs4_locks", ours=Ours(f"{first.place} c0 {reply}\n"), lines=session.writer.lines)
            self.assertEqual(in_words(learned)[second.place - 1], wanted)

    def test_options(self):
        words = in_words(session_of("nfs4_files", times=True))
        self.assertIn("compound put_fh d.txt then renew 1.1", words)
        lines = session_of("nfs4_files", times=True).writer.text().splitlines()
        self.assertTrue(any(line.startswith("T ") for line in lines))
        ones = [asked.message for asked in session_of("nfs4_locks", without_delegations=True).asked]
        programs = [op.said["program"] for one in ones for op in foreign_ops(one) if op.number == 35]
        self.assertEqual(programs, [0, 0])


def foreign_ops(message):
    call = rpc.read_call(message)
    return nfs_ops.read_ops(call.arguments)[2] if call.procedure == 1 else []


def packets_of(capture, transcript):
    """A recording of our own server: what came in by a capture's lines, and what was sent by its transcript."""
    talk, ends, calls, outs = by_hand.Talk(step=0), {}, {}, {}
    for out in transcripts.read(transcript)[0]:
        outs.setdefault(out.place, []).append(out)
    for place, event in enumerate(Capture.read(capture).events):
        if event.what == "open":
            ends[place] = (("10.0.0.1", 10000 + place), (SERVER, smb.PORT if event.kind == "smb" else 2049))
            talk.connect(*ends[place])
        elif event.what == "message":
            talk.say(*ends[event.connection], (smb if event.kind == "smb" else rpc).framed(event.data))
        elif event.what == "end":
            talk.close(*ends[event.connection])
        elif event.what == "tick":
            talk.time = 10**18 + event.number * 10**6
        elif event.what == "called" and event.answered:
            talk.say(*calls[event.number][::-1], rpc.framed(event.data))
        for out in outs.get(place, []):
            if out.connection is not None:
                talk.say(*ends[out.connection][::-1], out.data)
            else:
                calls[out.call] = ((SERVER, 900 + out.call), ("10.0.0.1", 40000))
                talk.connect(*calls[out.call])
                talk.say(*calls[out.call], rpc.framed(out.data))
    return by_hand.pcap(talk.packets)


def events_of(text):
    return [line for line in text.splitlines() if line[:1] in set("OBECT")]


class Ourselves(unittest.TestCase):
    """A recording of our own server comes to the same events again, and nothing differs: of locks that wait and calls back, of
    leases by the clock, of delegations, oplocks, leases of SMB, and files that all three protocols name."""

    def recorded(self, name):
        capture, transcript = ((EXAMPLES / f"{name}.{kind}").read_text() for kind in ("capture", "transcript"))
        recording = Recording(packets_of(capture, transcript), one_tree=True)
        return capture, transcript, *of_transcript(recording, transcript, times="\nT " in capture)

    def test_examples(self):
        for name, count in ("shares", 12), ("blocked", 4), ("clients", 9), ("caches", 14), ("three_protocols", 14):
            capture, _, session, ours = self.recorded(name)
            self.assertEqual(events_of(session.writer.text()), events_of(capture), name)
            self.assertEqual(compare(session, ours), (count, []), name)

    def test_learned(self):
        # A replay tells what ours answers up to the first event that the capture doesn't have yet: a client's answer to a call.
        name = "caches"
        capture, transcript, *_ = self.recorded(name)
        replays = []

        def replayed(program, text):
            replays.append(text)
            pairs = zip(events_of(text), events_of(capture))
            right = next((place for place, (mine, due) in enumerate(pairs) if mine != due), len(events_of(capture)))
            return "".join(line for line in transcript.splitlines(keepends=True) if int(line.split()[0]) < right)

        recording = Recording(packets_of(capture, transcript), one_tree=True)
        with mock.patch("xlock.foreign.replayed", replayed):
            session, _ = learned(recording, "xlockd")
        self.assertEqual(events_of(session.writer.text()), events_of(capture))
        self.assertEqual(len(replays), 2)
        self.assertNotIn("\nC ", replays[0])

    def test_differences(self):
        # What ours answered is changed, and the difference is told in words.
        _, transcript, session, _ = self.recorded("caches")
        create = "smb create A.TXT r lease=k state=rwh session=1.5 tree=6"
        for begin, old, new, said in [
            ("9 c5", "0000000000000500", "00000000430000c00500"[4:], (f"9 c5  {create}", "SUCCESS lease state=rh", "SHARING_VIOLATION")),
            ("9 c5", "6b" + "00" * 15 + "03", "6b" + "00" * 15 + "01", (f"9 c5  {create}", "SUCCESS lease state=rh", "SUCCESS lease state=r")),
            ("15 c0", "00000000\n", "00000001\n", ("15 c0  unlock n 7 a.txt 0 10", "GRANTED", "DENIED")),
            ("11 c0", "0800000000\n", "0800002729\n", ("11 c0  compound put_fh a.txt then return_delegation 1.4.1", "OK", "BAD_STATEID at DELEGRETURN")),
        ]:  # fmt: skip
            lines = transcript.splitlines(keepends=True)
            text = "".join(line.replace(old, new) if line.startswith(begin) else line for line in lines)
            asked, their, our = said
            self.assertEqual(compare(session, Ours(text))[1], [asked, f"    theirs  {their}", f"    ours    {our}"])

    def test_calls_back(self):
        _, transcript, session, _ = self.recorded("caches")
        fewer = "\n".join(line for line in transcript.splitlines() if " b" not in line and not line.startswith("10 c5"))
        recall = "only they called back, 1 times: recall a.txt program=1073741824 ident=0"
        granted = "only they called back, 1 times: granted n 7 a.txt 0 10 x"
        notice = "only they sent, 1 times: notice: the lease k breaks from rh to -"
        self.assertEqual(compare(session, Ours(fewer))[1], [recall, granted, notice])


class Compounds(unittest.TestCase):
    """A COMPOUND that goes through directories, saves a handle, and has what ours doesn't serve in its midst."""

    LOOK = u32(15) + opaque(b"sub")
    OPEN = u32(18) + u32(7) + u32(1) + u32(0) + bytes(8) + opaque(b"o") + u32(0) + u32(0) + opaque(b"B.txt")

    def asked(self, ops, results, status=0):
        """What ours is asked in the place of these operations, in words, and what is left out."""
        talk, client, server = by_hand.Talk(), ("10.0.0.1", 900), (SERVER, 2049)
        talk.connect(client, server)
        call = rpc.Call(5, 100003, 4, 1, opaque(b"tag") + u32(0) + u32(len(ops)) + b"".join(ops))
        talk.say(client, server, rpc.framed(rpc.call_bytes(call)))
        talk.say(server, client, rpc.framed(rpc.success_bytes(5, u32(status) + opaque(b"tag") + u32(len(results)) + b"".join(results))))
        session = Session(Recording(by_hand.pcap(talk.packets)))
        return in_words(session), dict(session.left_out)

    def test_handles(self):
        done = [u32(number) + u32(0) for number in (24, 32, 15)]
        opened = u32(18) + u32(0) + bytes(16) + bytes(20) + u32(0) + u32(0) + u32(0)
        got = u32(10) + u32(0) + opaque(b"h")
        ops = [u32(24), u32(32), self.LOOK, self.OPEN, u32(10), u32(31), self.LOOK, u32(16), u32(10)]
        results = done + [opened, got, u32(31) + u32(0), u32(15) + u32(0), u32(16) + u32(0), u32(10) + u32(0) + opaque(b"r")]
        words = "compound put_root_fh then open 7 0.0 o f1 r then get_fh then put_fh / then get_fh"
        left = {"SAVEFH": 1, "LOOKUP of a directory": 2, "RESTOREFH": 1, "LOOKUPP": 1}
        self.assertEqual(self.asked(ops, results), ([words], left))

    def test_failed(self):
        # What follows an operation that is left out, and failed there, was never done.
        ops = [u32(24), u32(3) + u32(1), self.OPEN, u32(10)]
        results = [u32(24) + u32(0), u32(3) + u32(13)]
        left = {"ACCESS": 1, "OPEN, behind one that failed": 1, "GETFH, behind one that failed": 1}
        self.assertEqual(self.asked(ops, results, 13), (["compound put_root_fh"], left))
        # Where only that is asked nothing is left to ask.
        ops, results = [u32(38) + bytes(28) + opaque(b"data")], [u32(38) + u32(10025)]
        self.assertEqual(self.asked(ops, results, 10025)[0], [])


def of_smb(command, number, body, flags=0, session=9, tree=4, following=0, status=0):
    """A message of SMB as another server's clients and it may send it."""
    ids = (tree % 2**32) << 32
    return smb.HEADER.pack(smb.MAGIC, 64, 0, status, command, 1, flags, following, number, ids, session % 2**64, bytes(16)) + body


def with_name(fixed, name):
    return fixed + name.encode("utf-16-le")


class Frames(unittest.TestCase):
    """A CREATE, a READ and a CLOSE in one frame, of the session 9 and the tree connect 4; another share's tree connect is 5."""

    FILE = bytes(range(16))

    def talk(self):
        talk, client, server = by_hand.Talk(), ("10.0.0.1", 900), (SERVER, smb.PORT)
        talk.connect(client, server)
        create = with_name(struct.pack("<HBBIQQ5IHHII", 57, 0, 0, 0, 0, 0, 3, 0, 7, 5, 0, 120, 18, 0, 0), "sub\\A.Txt").ljust(80, b"\0")
        read = struct.pack("<HBBIQ", 49, 0, 0, 9, 0) + b"\xff" * 16 + bytes(17)
        read = read.ljust(56, b"\0")
        close = struct.pack("<HHI", 24, 0, 0) + b"\xff" * 16
        made = (bytes(64) + self.FILE).ljust(88, b"\0")
        frame = of_smb(5, 4, create, following=144) + of_smb(8, 5, read, 4, -1, -1, 120) + of_smb(6, 6, close, 4, -1, -1)
        done = of_smb(5, 4, made, 1, following=152) + of_smb(8, 5, bytes(16), 5, following=80) + of_smb(6, 6, bytes(60), 5)
        for asked, answered in [
            (b"\xffSMB" + bytes(40), of_smb(0, 0, bytes(64), 1, 0, 0)),
            (of_smb(0, 0, struct.pack("<HHHHI16sQH", 36, 1, 1, 0, 0, bytes(16), 0, 0x0202), 0, 0, 0), of_smb(0, 0, bytes(64), 1, 0, 0)),
            (of_smb(1, 1, bytes(24), 0, 0, 0), of_smb(1, 1, bytes(8), 1, 9, 0)),
            (of_smb(3, 2, with_name(struct.pack("<4H", 9, 0, 72, 14), "\\\\s\\two"), 0, 9, 0), of_smb(3, 2, b"\x10\0\x01" + bytes(13), 1)),
            (of_smb(3, 3, with_name(struct.pack("<4H", 9, 0, 72, 16), "\\\\s\\IPC$"), 0, 9, 0), of_smb(3, 3, b"\x10\0\x02" + bytes(13), 1, tree=5)),
            (frame, done),
            (of_smb(5, 7, create, tree=5), of_smb(5, 7, bytes(9), 1, tree=5, status=0xC0000034)),
        ]:  # fmt: skip
            talk.say(client, server, smb.framed(asked))
            talk.say(server, client, smb.framed(answered))
        return by_hand.pcap(talk.packets)

    def test_one_by_one(self):
        session = Session(Recording(self.talk()))
        ids = "session=1.1 tree=2"
        wanted = ["smb negotiate 0x" + "00" * 16, "smb session_setup", r"smb tree_connect \\s\xl session=1.1", f"smb create A.Txt rw {ids}", f"smb close 1.3 {ids}"]
        self.assertEqual(in_words(session), wanted)
        self.assertEqual(session.asked[0].message[-2:], b"\x10\x02")
        self.assertEqual(dict(session.left_out), {
            "a message of SMB 1": 1, "that a NEGOTIATE offers other dialects than 2.1": 1, "that requests came in one frame": 2,
            "TREE_CONNECT of a share without files": 1, "that a CREATE makes or empties a file": 1, "READ": 1,
            "CREATE in a share without files": 1,
        })  # fmt: skip


class Parts(unittest.TestCase):
    def test_things(self):
        # A file is named, then handed by its handle, then turns out to be the one that another handle named.
        things = Things()
        named = things.child(things.root, "a.txt")
        handed = things.of_handle(b"h")
        handed.exists = True
        things.has_handle(named, b"h")
        self.assertIs(things.find(handed), things.find(named))
        other = things.child(things.child(things.root, "sub"), "a.txt")
        other.exists = True
        things.child(things.root, "sub").is_directory = True
        things.child(things.root, "A b").exists = True
        self.assertTrue(things.export())
        self.assertEqual(things.files.names, ["a.txt", "f2", "f3"])
        self.assertEqual(things.handle_of(things.find(handed)), b"XLK1" + u32(1))
        self.assertEqual(things.name_of(things.child(things.root, "f2")), "f2-")

    def test_ids(self):
        ids = Ids()
        ids.bring("a", None)
        ids.bring("b", None)
        ids.bring("a", None, is_new=False)
        self.assertEqual([ids.get(key) for key in "abc"], [1, 2, None])

    def test_all_operations(self):
        # Each operation's arguments end where the next begins.
        texts = [opaque(b"name") if number in (15, 28, 33, 11) else b"" for number in nfs_ops.NAMES]
        simple = [number for number, said in zip(nfs_ops.NAMES, texts) if said or number in (10, 16, 23, 24, 27, 31, 32)]
        ops = b"".join(u32(number) + said for number, said in zip(nfs_ops.NAMES, texts) if number in simple)
        ops += u32(9) + u32(2) + bytes(8) + u32(38) + bytes(16 + 12) + opaque(b"data") + u32(26) + bytes(24) + u32(0)
        ops += u32(6) + u32(5) + opaque(b"to") + opaque(b"link") + u32(0) + opaque(b"") + u32(29) + opaque(b"x") * 2
        _, _, found = nfs_ops.read_ops(u32(0) + u32(0) + u32(len(simple) + 5) + ops)
        self.assertEqual([op.number for op in found], simple + [9, 38, 26, 6, 29])


if __name__ == "__main__":
    unittest.main()
