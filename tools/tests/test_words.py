"""Captures of words, and the words again."""
import unittest

from capture_from_words import capture_of
from transcript_in_words import in_words
from xlock import nfs, smb
from xlock.captures import Capture
from xlock.rpc import RecordCutter
from xlock.words import WordError

# A LOCK and an UNLOCK of the bytes 0 to 9 of file 1, laid out by XNFS C702 chapter 14 and RFC 5531.
LOCK = (
    "80000068 00000001 00000000 00000002 000186b5 00000004 00000002 00000000 00000000 00000000 00000000"
    "00000000 00000000 00000001 00000001 61000000 00000008 584c4b31 00000001 00000000 00000007"
    "00000000 00000000 00000000 0000000a 00000000 00000000"
).replace(" ", "")
UNLOCK = (
    "80000058 00000002 00000000 00000002 000186b5 00000004 00000004 00000000 00000000 00000000 00000000"
    "00000000 00000001 61000000 00000008 584c4b31 00000001 00000000 00000007 00000000 00000000 00000000 0000000a"
).replace(" ", "")
# PUTROOTFH, LOOKUP of a.txt and GETFH, laid out by RFC 7531, and SETCLIENTID of the client c, called back at tcp 1.2 under
# the program 9 with the ident 3, with its confirmation and RENEW.
LOOKUP = (
    "8000004c 00000001 00000000 00000002 000186a3 00000004 00000001 00000000 00000000 00000000 00000000"
    "00000000 00000000 00000003 00000018 0000000f 00000005 612e7478 74000000 0000000a"
).replace(" ", "")
COMES = (
    "80000084 00000001 00000000 00000002 000186a3 00000004 00000001 00000000 00000000 00000000 00000000"
    "00000001 74000000 00000000 00000003 00000023 00000000 00000007 00000001 63000000 00000009 00000003 74637000"
    "00000003 312e3200 00000003 00000024 00000001 00000005 00000000 00000006 0000001e 00000001 00000005"
).replace(" ", "")
# PUTROOTFH, and OPEN for reading of a.txt, which denies writing, by the owner o of the client 1.5, with the seqid 7.
OPENS = (
    "8000006c 00000001 00000000 00000002 000186a3 00000004 00000001 00000000 00000000 00000000 00000000"
    "00000000 00000000 00000002 00000018 00000012 00000007 00000001 00000002 00000001 00000005 00000001 6f000000"
    "00000000 00000000 00000005 612e7478 74000000"
).replace(" ", "")
# LOCK of the bytes 0 to 9, exclusive, by the new owner l under the open 1.5.2, and LOCKU of byte 4 to the end.
LOCKS = (
    "800000a8 00000001 00000000 00000002 000186a3 00000004 00000001 00000000 00000000 00000000 00000000"
    "00000000 00000000 00000002 0000000c 00000002 00000000 00000000 00000000 00000000 0000000a 00000001"
    "00000003 00000002 00000001 00000000 00000005 00000009 00000001 00000001 00000001 6c000000"
    "0000000e 00000001 0000000a 00000001 00000001 00000000 00000006 00000000 00000004 ffffffff ffffffff"
).replace(" ", "")
# NEGOTIATE of dialect 2.1 by the guid of sixteen bytes 11, laid out by MS-SMB2 2.2.1 and 2.2.3.
NEGOTIATES = (
    "00000066 fe534d42 4000 0000 00000000 0000 0100" + "00" * 48 + "2400 0100 0100 0000 00000000" + "11" * 16 + "00" * 8 + "1002"
).replace(" ", "")
# LOCK (2.2.26) of the open 1.3 as the second message, in the session 1.1 and the tree 2: one element, bytes 0 to 9, exclusive.
SMB_LOCKS = (
    "00000070 fe534d42 4000 0000 00000000 0a00 0100 00000000 00000000 0100000000000000 00000000 02000000"
    "0100000001000000" + "00" * 16 + "3000 0100 00000000 0300000001000000 0300000001000000"
    "0000000000000000 0a00000000000000 12000000 00000000"
).replace(" ", "")
# CREATE (2.2.13) of a.txt for reading, which shares all, in the session 1.1 and the tree 2, with the context of a lease
# (2.2.13.2.8) for reads and the handle, of the key `k` and zeros; and the acknowledgement of its break (2.2.24.2) down to reads.
SMB_LEASES = (
    "000000c0 fe534d42 4000 0000 00000000 0500 0100 00000000 00000000 0000000000000000 00000000 02000000"
    "0100000001000000" + "00" * 16 + "3900 00 ff 02000000" + "00" * 16 + "01000000 00000000 07000000 01000000 00000000"
    "7800 0a00 88000000 38000000 6100 2e00 7400 7800 7400" + "00" * 6 + "00000000 1000 0400 0000 1800 20000000 52714c73 00000000"
    "6b" + "00" * 15 + "03000000 00000000" + "00" * 8
).replace(" ", "")
SMB_KEEPS = (
    "00000064 fe534d42 4000 0000 00000000 1200 0100 00000000 00000000 0100000000000000 00000000 02000000"
    "0100000001000000" + "00" * 16 + "2400 0000 00000000 6b" + "00" * 15 + "01000000" + "00" * 8
).replace(" ", "")

# What a text of words comes to, comments aside.
CAPTURES = [
    ("lock a 7 a.txt 0 10 x\nunlock a 7 a.txt 0 10\n", ["F a.txt", "O rpc", f"B 0 {LOCK}", f"B 0 {UNLOCK}"]),
    ("lock a 7 a.txt 0 10 x pieces=60", ["F a.txt", "O rpc", f"B 0 {LOCK[:120]}", f"B 0 {LOCK[120:]}"]),
    ("lock a 7 a.txt 0 10 x fragments=100", ["F a.txt", "O rpc", f"B 0 00000064{LOCK[8:208]}80000004{LOCK[208:]}"]),
    ("file b.txt\nlock a 7 a.txt 0 10 x  # the second", ["F b.txt", "F a.txt", "O rpc", "B 0 " + LOCK.replace("584c4b3100000001", "584c4b3100000002")]),
    ("address b 1.2\nopen\nopen two\nuse two\nend\nopen", ["H 62 1.2", "O rpc", "O rpc", "E 1", "O rpc"]),
    ("open a\nbytes 80000001\nend a", ["O rpc", "B 0 80000001", "E 0"]),
    ("answer 2 denied\nanswer 3 0x00\nno_answer 4", ["C 2 00000002000000010000000000000000000000000000000000000008000000000000000200000001", "C 3 00", "C 4"]),
    ("compound put_root_fh then lookup a.txt then get_fh", ["O rpc", f"B 0 {LOOKUP}"]),
    (
        "compound set_client_id c 7 program=9 netid=tcp address=1.2 ident=3 then confirm 1.5 6 then renew 1.5 tag=t",
        ["O rpc", f"B 0 {COMES}"],
    ),
    ("compound put_root_fh then open 7 1.5 o a.txt r w", ["O rpc", f"B 0 {OPENS}"]),
    ("compound first_lock 0 10 x 1.5.2 3 1.1 l 9 then unlock 4 end s 1.6.1 10", ["O rpc", f"B 0 {LOCKS}"]),
    (
        "open smb\nsmb negotiate\nsmb lock 1.3 0 10 x session=1.1 tree=2",
        ["O smb", f"B 0 {NEGOTIATES}", f"B 0 {SMB_LOCKS}"],
    ),
    (
        "open smb\nsmb create a.txt r lease=k state=rh session=1.1 tree=2\nsmb break_lease k r",
        ["O smb", f"B 0 {SMB_LEASES}", f"B 0 {SMB_KEEPS}"],
    ),
    ("xid 1\nmessage 0\nlock a 7 a.txt 0 10 x\nlock a 7 a.txt 0 10 x\n", ["F a.txt", "O rpc", f"B 0 {LOCK}", f"B 0 {LOCK}"]),
    ("xid 5\nlock a 7 a.txt 0 10 x xid=1", ["F a.txt", "O rpc", f"B 0 {LOCK}"]),
    ("message 0\nopen smb\nsmb negotiate\nsmb negotiate", ["O smb", f"B 0 {NEGOTIATES}", f"B 0 {NEGOTIATES}"]),
    ("open\nO rpc\nB 1 00\n", ["O rpc", "O rpc", "B 1 00"]),
    ("open smb\nB 0 00\n", ["O smb", "B 0 00"]),
    ("recorded nlm 0x00ff\nopen\nepoch 7\nrecorded nfs -", ["N nlm 00ff", "K 7", "N nfs -", "O rpc"]),
    ("recorded nlm a 3\nrecorded nfs c 7\nrecorded nlm b 0xffff0000", ["N nlm 61 00000003", "N nfs 63 0000000000000007", "N nlm 62 ffff0000"]),
    ("K 4294967295\nN nfs 63\nT 5 !0", ["K 4294967295", "N nfs 63", "T 5 !0"]),
    ("N nlm 61 00000003\nN nfs - 0000000000000007", ["N nlm 61 00000003", "N nfs - 0000000000000007"]),
    ("open a\nopen b\nrestart\nopen b\nend b", ["O rpc", "O rpc", "R", "O rpc", "E 3"]),
    ("open\nR !0\ncall 100003 4 0 xid=1", ["O rpc", "R !0", "O rpc", "B 2 80000028" + "00000001 00000000 00000002 000186a3 00000004 00000000".replace(" ", "") + "0" * 32]),
    ("open\nend\nopen !0\nrestart !9999\nR !1", ["O rpc", "E 0", "O rpc !0", "R !9999", "R !1"]),
    ("lock a 7 a.txt 0 10 x pieces=60 !1", ["F a.txt", "O rpc", f"B 0 {LOCK[:120]} !1", f"B 0 {LOCK[120:]} !1"]),
    ("open smb\nsmb negotiate !0\nno_answer 4 !2", ["O smb", f"B 0 {NEGOTIATES} !0", "C 4 !2"]),
    ("call 100003 4 0", ["O rpc", "B 0 80000028" + "00000001 00000000 00000002 000186a3 00000004 00000000".replace(" ", "") + "0" * 32]),
]

REFUSED = [
    "fly", "lock a 7 a.txt 0 10", "lock a 7 a.txt 0 10 y", "lock a 7 A.txt 0 10 x", "lock a 7 a.txt 0 -1 x", "use b",
    "share a a.txt d -", "answer 1 perhaps", "unlock a 7 a.txt 0 10 block", "Q", "B 0 0",
    "compound renew", "compound renew 1", "compound confirm 1.5 0x00", "compound open a.txt", "compound get_fh then", "nfs_null 1",
    "compound lock 0 10 y 1.5.1 2", "compound close 2 1.5.x", "smb echo", "open smb\nsmb break_lease k rx",
    "open smb\nsmb create a.txt r lease=a_key_of_17_bytes", "xid", "xid 4294967296", "message x",
    "compound open_previous 1 1.1 o r delegation=none", "restart now", "restart\nuse b", "epoch", "epoch 4294967296", "recorded smb k", "recorded nfs", "address a 1.2 !0", "epoch 1 !0",
    "open !x", "null !10000", "R !10000", "T 1 !", "K 4294967296", "N smb 61", "N nfs 6", "F a !0", "!0",
    "recorded nlm a 4294967296", "recorded nfs c 0x00000003", "recorded nlm a 3 4", "N nlm 61 0000000000000003", "N nfs 63 00000003", "N nlm 61 -",
]  # fmt: skip

# Each call is said again as it was written.
CALLS = """\
null
test a -7 a.txt 0 end s
lock 0x00ff 2147483647 0xabcd 18446744073709551615 1 x block reclaim oh=me state=-1 cookie=0x0102
nm_lock a 1 / 5 5 s
cancel a 1 a.txt 5 5 x block oh=-o
unlock - 1 b.txt 5 5
granted a 1 a.txt 0 1 x
share a b.txt rw -
share a b.txt r rw reclaim oh=0x00
unshare a b.txt - w reclaim
free_all a state=3
call 100000 2 3 0x01020304
nfs_null
compound
compound put_fh a.txt then put_fh / then put_fh 0x00 then get_fh
compound put_root_fh then lookup - then lookup A#.txt tag=0x00
compound set_client_id c 7 program=9 netid=tcp address=1.2 ident=3 then confirm 1.5 6 then renew 4294967295.0 tag=t
compound set_client_id 0x00ff
compound open 1 1.1 o a.txt rw then open 2 1.1 o a.txt r w then open_previous 3 1.1 o w delegation=write then open_confirm 1.3.1 4
compound open_previous 4 1.1 o r rw then open_previous 5 1.1 o r delegation=read
compound open_downgrade 1.3.2 5 r then close 6 1.3.3 then return_delegation 1.4.1 then release_lock_owner 1.1 l
compound first_lock 0 end x 1.3.2 3 1.1 l 9 wait reclaim then lock 5 6 s 1.5.1 10 then lock_test 0 1 x 1.1 l wait
compound unlock 0 10 x 1.5.2 11 !0
call 100003 4 1 0x000000000000000100000000
free_all 0x2130 !3
T 90000
T 90001 !9999
"""

# The same of requests of SMB.
REQUESTS = """\
smb negotiate
smb negotiate 0x22222222222222222222222222222222
smb session_setup
smb tree_connect \\\\x\\xl session=1.1
smb create a.txt rwd session=1.1 tree=2
smb create a.txt r rd oplock=batch disposition=3 session=1.1 tree=2
smb create a.txt rw lease=k state=rwh session=1.1 tree=2
smb create long.name.txt r rd lease=0xff0102030405060708090a0b0c0d0e0f state=- disposition=3 session=1.1 tree=2
smb lock 1.3 0 10 x wait session=1.1 tree=2
smb lock 1.3 0 10 unlock then 20 0 unlock session=1.1 tree=2
smb cancel async=5 session=1.1
smb cancel message=5 session=1.1 tree=2
smb break 1.3 level2 session=1.1 tree=2
smb break_lease k rh session=1.1 tree=2
smb break_lease - - session=1.1 tree=2
smb close 1.3 session=1.1 tree=2
smb tree_disconnect session=1.1 tree=2
smb logoff session=1.1
smb echo
"""

# Results of COMPOUNDs by RFC 7531, and what is said of them.
RESULTS = [
    ("00000000 00000000 00000003 00000018 00000000 0000000f 00000000 0000000a 00000000 00000008 584c4b31 00000001", "OK handle=0x584c4b3100000001"),
    ("00000000 00000000 00000002 00000023 00000000 00000001 00000005 00000000 00000006 00000024 00000000", "OK clientid=1.5 confirm=6"),
    ("00002726 00000000 00000002 00000018 00000000 0000001e 00002726", "STALE_CLIENTID at renew"),
    ("0000273c 00000000 00000001 0000273c 0000273c", "OP_ILLEGAL at op"),
    ("00002714 00000000 00000001 00000007 00002714", "NOTSUPP at op 7"),
    (
        "00000000 00000000 00000001 00000012 00000000 00000001 00000001 00000000 00000003 00000001 00000000 00000001"
        "00000000 00000000 00000002 00000000 00000000",
        "OK stateid=1.3.1 to_confirm",
    ),
    (
        "0000271a 00000000 00000001 0000000c 0000271a 00000000 00000000 00000000 0000000a 00000002 00000001 00000005 00000001 6c000000",
        "DENIED at lock by x bytes 0 to 9 of l of client 1.5",
    ),
    (
        "0000271a 00000000 00000001 0000000d 0000271a 00000000 00000000 ffffffff ffffffff 00000001 00000000 00000000 00000003 6e6c6d00",
        "DENIED at lock_test by s bytes 0 to the end of nlm",
    ),
    ("00000000 00000000 00000001 0000000e 00000000 00000002 00000001 00000000 00000006", "OK stateid=1.6.2"),
    ("00002734 00000000 00000001 00000018 00000000", "BADXDR behind put_root_fh"),
    ("00002722 00000001 74000000 00000000", "RESOURCE tag=t"),
    ("00002725 00000000 00000000", "MINOR_VERS_MISMATCH"),
]  # fmt: skip

# Messages of SMB to a client (2.2.14, 2.2.23.2, 2.2.24.2, 2.2.25.2) in words: the reply to a CREATE under a lease whose break
# runs, notices of breaks that need an answer and don't, and the reply to an acknowledgement.
LEASE_CONTEXT = "00000000 1000 0400 0000 1800 20000000 52714c73 00000000 6b" + "00" * 15
SMB_HEAD = "fe534d42 4000 0000 00000000 {} 0100 01000000 00000000 0000000000000000 00000000 02000000 0100000001000000" + "00" * 16
NOTICE_HEAD = "fe534d42 4000 0000 00000000 1200 0000 01000000 00000000 ffffffffffffffff" + "00" * 32
TO_CLIENTS = [
    (
        SMB_HEAD.format("0500") + "5900 ff 00 01000000" + "00" * 48 + "80000000 00000000" + "0300000001000000" * 2
        + "98000000 38000000" + LEASE_CONTEXT + "05000000 02000000" + "00" * 8,
        "SUCCESS open=1.3 lease=k state=rw breaking",
    ),
    (NOTICE_HEAD + "2c00 0000 01000000 6b" + "00" * 15 + "07000000 03000000" + "00" * 12, "notice: the lease k breaks from rwh to rh"),
    (
        NOTICE_HEAD + "2c00 0000 00000000 6b" + "00" * 15 + "01000000 00000000" + "00" * 12,
        "notice: the lease k breaks from r to -, without an answer",
    ),
    (SMB_HEAD.format("1200") + "2400 0000 00000000 6b" + "00" * 15 + "01000000" + "00" * 8, "SUCCESS lease=k state=r"),
]  # fmt: skip

# The call that recalls the delegation 1.7.1 of file 1, of the program 9 with the ident 3, laid out by RFC 7531 (CB_COMPOUND).
RECALLS = (
    "00000005 00000000 00000002 00000009 00000001 00000001 00000000 00000000 00000000 00000000 00000000 00000000 00000003"
    "00000001 00000004 00000001 00000001 00000000 00000007 00000000 00000008 584c4b31 00000001"
).replace(" ", "")


def lines_of(text):
    return [line for line in text.splitlines() if not line.startswith("#")]


class Words(unittest.TestCase):
    def test_captures(self):
        for words, wanted in CAPTURES:
            self.assertEqual(lines_of(capture_of(words)), wanted, words)

    def test_refused(self):
        for words in REFUSED:
            with self.assertRaises(WordError, msg=words):
                capture_of("null\n" + words)

    def test_said_again(self):
        said = in_words(capture_of(CALLS), "")
        self.assertEqual([line[9:] for line in said[1:]], CALLS.splitlines())

    def test_requests_said_again(self):
        named = [line.split() for line in REQUESTS.splitlines()]
        whole = [line + ["session=0.0"] * ("session" not in " ".join(line)) + ["tree=0"] * ("tree=" not in " ".join(line)) for line in named]
        said = in_words(capture_of("open smb\n" + "\n".join(map(" ".join, whole))), "")
        self.assertEqual([line[9:] for line in said[1:]], REQUESTS.splitlines())

    def test_results(self):
        for results, wanted in RESULTS:
            self.assertEqual(nfs.results_in_words(nfs.COMPOUND, bytes.fromhex(results)), wanted)

    def test_places(self):
        # The fragments of a record are one event, two records in one line are two, and a bad mark ends the connection.
        text = f"O rpc\nB 0 {LOCK[:40]}\nB 0 {LOCK[40:]}{UNLOCK} !1\nB 0 00000000\nB 0 {LOCK}\nO rpc\nE 0\nE 4\nC 1\n"
        said = [event.what for event in Capture.read(text).events]
        self.assertEqual(said, ["open", "message", "message", "end", "open", "end", "called"])
        # Each event of a line has its stores; a restart ends the connections.
        text += f"O smb\nR !0\nE 7\nB 7 00\nO rpc\nB 9 {LOCK}\n"
        said = [(event.what, event.stores) for event in Capture.read(text).events]
        self.assertEqual(said[1:3] + said[7:], [("message", 1)] * 2 + [("open", None), ("restart", 0), ("open", None), ("message", None)])

    def test_bad_marks(self):
        for stream, is_bad in [
            ("80010000", False), ("80010001", True), ("00000000", True), ("80000000", False), ("0000", False),
            ("00000001aa" * 63 + "80000000", False), ("00000001aa" * 64 + "80000000", True),
        ]:  # fmt: skip
            cutter = RecordCutter()
            cutter.feed(bytes.fromhex(stream))
            self.assertEqual(cutter.is_bad, is_bad, stream[:20])


class Transcripts(unittest.TestCase):
    def test_to_clients(self):
        for message, wanted in TO_CLIENTS:
            self.assertEqual(smb.reply_in_words(bytes.fromhex(message)), wanted)

    def test_recalls(self):
        said = in_words("F a.txt\nT 1\n", f"0 b5 312e32 {RECALLS}\n")
        self.assertEqual(said[1].split(": ", 1)[1], "recall 1.7.1 a.txt program=9 ident=3")
        self.assertIn("call 9 1 1 0x", in_words("F a.txt\nT 1\n", f"0 b5 312e32 {RECALLS[:-8]}\n")[1])

    def test_restarts(self):
        said = in_words("K 5\nN nlm 61\nO rpc\nR\nT 5 !0\nR !2\n", "")
        self.assertEqual(said, ["0   c0   open", "1        restart", "2        T 5 !0", "3        restart !2"])

    def test_in_words(self):
        capture = capture_of("lock a 7 a.txt 0 10 x\ntest b 1 a.txt 0 end s\nend\nanswer 2 denied\nno_answer 3\n")
        transcript = """\
1 c0 800000200000000100000001000000000000000000000000000000000000000000000000
2 c0 8000003c00000002000000010000000000000000000000000000000000000000000000010000000100000007000000000000000000000000000000000000000a
2 b2 7a 000000020000000000000002000186b500000004000000050000000000000000000000000000000000000008000000000000000200000001000000016200000000000008584c4b310000000100000000000000070000000000000000000000000000000a
1 share nlm:61/- rw -
1 range nlm:61/7/6f68 0 9 x
1 range nfs:63/6f 0 18446744073709551615 s
1 range smb:12 5 - x
2 cache smb:11111111111111111111111111111111/6b700000000000000000000000000000 RH
2 cache smb:3 RWH > none 35000
"""
        self.assertEqual(
            in_words(capture, transcript),
            [
                "0   c0   open",
                "1   c0   lock a 7 a.txt 0 10 x                   GRANTED",
                "2   c0   test b 1 a.txt 0 end s                  DENIED held: bytes 0 to 9, exclusive, svid 7, oh -",
                "2        call 2 to z: granted b 7 a.txt 0 10 x",
                "3   c0   end",
                "4        answer 2 denied",
                "5        no_answer 3",
                "held: a.txt, a share of access rw that denies -, by nlm a -",
                "held: a.txt, bytes 0 to 9, exclusive, by nlm a 7 oh",
                "held: a.txt, bytes 0 to the end, shared, by nfs c o",
                "held: a.txt, no byte at 5, exclusive, by smb 12",
                "held: file 2, a cache RH, by smb client 0x11111111111111111111111111111111 lease kp",
                "held: file 2, a cache RWH > none 35000, by smb 3",
            ],
        )


if __name__ == "__main__":
    unittest.main()
