#!/usr/bin/env python3
"""The gate's summary: what it says of checks that passed, failed and skipped, and of the verdict of `rt ci`."""

import contextlib
import io
import unittest

import rooms  # (first: it makes the other rooms known)
import gate
from gate import Check, Ended

VERDICT = "rt: one proved\nrt: ok; handles allowed: none; all kept\n150 passed, 0 failed\n"


class Summary(unittest.TestCase):
    def test_passed(self):
        lines = gate.summary([Ended("rows", 0, 1.25), Ended("pages", 0, 2, ["pages: skipped: there is no Chromium"])], VERDICT)
        self.assertEqual(lines[0], "checks: 2 passed, 0 failed, 3 s")
        self.assertEqual(lines[1:4], ["    rows                 1.2 s", "    pages                2.0 s", "    pages: skipped: there is no Chromium"])
        self.assertEqual(lines[4:], ["rt ci: rt: ok; handles allowed: none; all kept", "rt ci: 150 passed, 0 failed", "152 passed, 0 failed"])

    def test_failed(self):
        lines = gate.summary([Ended("rows", 1, 1)], "rt: FAILED: elf64_core\n149 passed, 1 failed\n")
        self.assertIn("FAILED, with status 1", lines[1])
        self.assertEqual(lines[-1], "149 passed, 2 failed")

    def test_no_verdict(self):
        """A run of `rt ci` that was ended says nothing, which is no pass."""
        self.assertEqual(gate.summary([Ended("rows", 0, 1)], "rt: one proved\n")[-2:], ["rt ci: no verdict", "1 passed, 1 failed"])
        self.assertEqual(gate.summary([Ended("rows", 0, 1)], "")[-1], "1 passed, 0 failed")

    def test_skipped(self):
        self.assertTrue(gate.is_skipped("OK (skipped=2)"))
        self.assertFalse(gate.is_skipped("rows: 3 of 3 of pystacks come out as they say"))

    def test_each_check_is_there(self):
        """Each check has its file, and each test of the tools is a check."""
        names = [it.name for it in gate.CHECKS]
        self.assertEqual(len(set(names)), len(names))
        for it in gate.CHECKS:
            self.assertTrue((gate.CHECK / f"{it.place}.py").is_file(), it.place)
        self.assertEqual({it.stem for it in gate.CHECK.glob("tests/test_*.py")} - set(names), set())

    def test_run(self):
        """A check's status and what it printed come through."""
        with contextlib.redirect_stdout(io.StringIO()) as out:
            ended = gate.ran(Check("rows/rows", ("--help",)), False)
            self.assertNotEqual(gate.ran(Check("rows/rows", ("--no-such-word",)), False).status, 0)
        self.assertEqual(ended.status, 0)
        self.assertIn("usage: rows.py", out.getvalue())


if __name__ == "__main__":
    unittest.main(verbosity=0)
