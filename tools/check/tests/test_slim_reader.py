#!/usr/bin/env python3
"""Tests of the reader of slim cores: that it takes the slim core of a core's pieces, and none that differs in one thing."""

import sys
import unittest
from pathlib import Path

sys.path.insert(0, str(Path(__file__).resolve().parent))

import rooms  # (first: it makes the other rooms known)
from child_cores import Failure
from made import Segment, core_file, status_record
from slim_reader import check_slim, notes_in, slim_file

START = 0x10000
DATA = bytes(range(200))
CORE = core_file([Segment(START, DATA, 6)], [status_record(6, 1)])
NOTES = notes_in(CORE)


def pieces(*spans):
    """Pieces of the core's memory: where each begins and ends in it."""
    return [(START + first, DATA[first:end]) for first, end in spans]


class Readers(unittest.TestCase):
    """What is taken, and what is not."""

    def test_right(self):
        for spans in ((), ((0, 8),), ((0, 8), (9, 40), (100, 200))):
            self.assertEqual(check_slim(CORE, slim_file(62, pieces(*spans), NOTES)), len(spans))

    def test_wrong(self):
        good = pieces((0, 8), (16, 40))
        other = [(START, DATA[:8]), (START + 16, bytes(24))]
        for what, slim in (
            ("pieces that meet", slim_file(62, pieces((0, 8), (8, 40)), NOTES)),
            ("pieces that descend", slim_file(62, good[::-1], NOTES)),
            ("other bytes", slim_file(62, other, NOTES)),
            ("another machine", slim_file(183, good, NOTES)),
            ("no notes", slim_file(62, good, b"")),
            ("bytes behind", slim_file(62, good, NOTES) + b"x"),
            ("a flag", slim_file(62, good, NOTES).replace(b"\1\0\0\0\6\0\0\0", b"\1\0\0\0\4\0\0\0", 1)),
        ):
            with self.assertRaises(Failure, msg=what):
                check_slim(CORE, slim)


if __name__ == "__main__":
    unittest.main()
