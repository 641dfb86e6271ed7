"""The summary of calls that a number gives."""
import unittest

from make_summary import LOCK, SHARED, UNLOCK, calls, runs, summary

# The numbers were worked out by hand: the draws are 0, 21468, 9988, 22117, and 3498, 16927, 16045, 19741.
FIRST = [(LOCK, SHARED, 5, 0, range(50, 60)), (UNLOCK, SHARED, 8, 1, range(130, 140))]

SUMMARIES = [
    (0, 0, "entries 1\ngranted 0\ndenied 0\nclaims 0\n"),
    (0, 1, "entries 2\ngranted 1\ndenied 0\nclaims 1\n"),
    (0, 2, "entries 3\ngranted 2\ndenied 0\nclaims 1\n"),
    (7, 20000, "entries 20001\ngranted 12527\ndenied 7473\nclaims 164\n"),
]


class Summaries(unittest.TestCase):
    def test_calls(self):
        self.assertEqual(list(calls(0, 2)), FIRST)

    def test_runs(self):
        self.assertEqual(runs([None, "a", "a", "b", None, "b"]), 3)

    def test_summaries(self):
        for seed, count, text in SUMMARIES:
            with self.subTest(seed=seed, count=count):
                self.assertEqual(summary(seed, count), text)
