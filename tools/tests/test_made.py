"""Captures of random sessions."""
import itertools
import tempfile
import unittest
from pathlib import Path
from unittest import mock

import make_capture
from make_capture import write_capture
from xlock.captures import MOST_OPEN, Capture
from xlock.world import Ranges


def made(seed, count, hostile, expects=False, restarts=0):
    lines = []
    world = write_capture(seed, count, hostile, lines.append, expects, restarts)
    return "".join(lines), world


class Made(unittest.TestCase):
    def test_same(self):
        one, other = made("7", 500, 5)[0], made("8", 500, 5)[0]
        self.assertEqual(one, made("7", 500, 5)[0])
        self.assertNotEqual(one, other)

    def test_events(self):
        # As many events as are wanted, as the server counts them, of all kinds; each connection has the number of its place.
        for hostile in 0, 5, 50:
            text, world = made("3", 3000, hostile, expects=True)
            capture = Capture.read(text)
            self.assertEqual(len(capture.events), 3000, hostile)
            kinds = {event.what for event in capture.events}
            self.assertEqual(kinds, {"open", "message", "end", "called", "tick"})
            changes = [{"open": 1, "end": -1}.get(event.what, 0) for event in capture.events]
            self.assertLessEqual(max(itertools.accumulate(changes)), MOST_OPEN)
            messages = sum(event.what == "message" for event in capture.events)
            known = len(world.expected)
            self.assertTrue(known > messages * (98 - hostile) * 0.009, (hostile, known, messages))
            opened = [event.connection for event in capture.events if event.what == "open"]
            self.assertTrue(all(capture.events[number].what == "open" for number in opened))

    def test_restarts(self):
        # The server starts again, in another epoch, of whose clients and sessions requests are known.
        text, world = made("3", 3000, 5, expects=True, restarts=500)
        capture = Capture.read(text)
        places = [place for place, event in enumerate(capture.events) if event.what == "restart"]
        self.assertEqual((len(capture.events), len(places), world.epoch), (3000, 5, 6))
        behind = [known for place, known in world.expected.items() if place > places[-1]]
        self.assertEqual({known[0] for known in behind}, {"nlm", "nfs", "smb"})
        self.assertEqual([known[3] for known in behind[:6]], [4, 0, 1, 4, 0, 4])

    def test_few(self):
        for count in 0, 1, 2, 40:
            text, world = made("1", count, 0)
            self.assertEqual((len(Capture.read(text).events), world.place), (count, count))

    def test_cut(self):
        with tempfile.TemporaryDirectory() as folder:
            words = ["make_capture.py", "4", "250", "--each", "100", "--into", folder + "/run"]
            with mock.patch("sys.argv", words), mock.patch("sys.stderr"):
                make_capture.main()
            files = sorted(Path(folder).iterdir())
            self.assertEqual([file.name for file in files], ["run1.capture", "run2.capture", "run3.capture"])
            self.assertEqual([len(Capture.read(file.read_text()).events) for file in files], [100, 100, 50])

    def test_ranges(self):
        ranges = Ranges()
        self.assertTrue(ranges.lock("a", 0, 4, True))
        self.assertTrue(ranges.lock("a", 2, 1, False))
        for first, count, exclusive, is_free in (0, 1, False, False), (2, 1, False, True), (2, 1, True, False), (4, 2, True, True):
            self.assertEqual(ranges.is_free("b", first, count, exclusive), is_free)
        self.assertTrue(ranges.add(9, 4, 2, True))
        self.assertTrue(ranges.add(9, 4, 2, False))  # a shared element of its own doesn't stand against an exclusive one
        self.assertFalse(ranges.add(9, 5, 1, True))
        self.assertTrue(ranges.remove(9, 4, 2))
        self.assertFalse(ranges.lock("a", 4, 1, True))
        self.assertTrue(ranges.lock("a", 4, 1, False))
        self.assertTrue(ranges.remove(9, 4, 2))
        self.assertFalse(ranges.remove(9, 4, 2))


if __name__ == "__main__":
    unittest.main()
