#!/usr/bin/env python3
"""Tests how the tool shows what threads wait for: at each thread, of several together, and rings."""

import unittest

import rooms  # noqa: F401
from pystacks_tool.ask.waits import with_all_waits
from pystacks_tool.model import Frame, Interpreter, Report, Thread, stacks_of
from pystacks_tool.show.page import report_page
from pystacks_tool.show.text import Style, report_lines, title_of, titles_of

FRAME = (Frame("take", "/srv/app.py", 3),)


def report(*threads, address=0x10):
    """A report of some threads of one interpreter."""
    return Report((Interpreter(tuple(threads), address),), "3.11.7", 6, is_salvaged=True, core="core")


def thread(number, name=None):
    """A thread."""
    return Thread(number, FRAME, 100 + number, name)


def told(*rows, address=0x10):
    """What is told of an interpreter's threads."""
    return [{"interpreter": hex(address), "threads": [{"thread_id": number, "for": wait} for number, wait in rows]}]


def rlock(address, owner):
    """A reentrant lock."""
    return {"kind": "rlock", "address": hex(address), "owner": owner}


class Shown(unittest.TestCase):
    """What stands at threads."""

    def test_each_kind(self):
        rows = ((1, {"kind": "gil"}), (2, {"kind": "lock", "address": "0x20"}), (3, rlock(0x30, 1)), (4, {"kind": "queue", "address": "0x40"}), (5, None),
                (6, rlock(0x30, None)), (7, rlock(0x30, 99)))
        found = with_all_waits(report(thread(1, "Main"), *(thread(it) for it in range(2, 8))), told(*rows))
        self.assertEqual([title_of(it) for it in found.threads], [
            'Thread 101: "Main" (waits for the GIL)', "Thread 102 (waits for Lock 0x20)", 'Thread 103 (waits for RLock 0x30 of thread 101 "Main")',
            "Thread 104 (waits for SimpleQueue 0x40)", "Thread 105", "Thread 106 (waits for RLock 0x30)", "Thread 107 (waits for RLock 0x30 of thread 0x63)"])
        self.assertEqual(found.deadlocks, ())

    def test_not_asked(self):
        self.assertEqual(with_all_waits(report(thread(1)), None), report(thread(1)))

    def test_several(self):
        """Threads of one stack stand together where they wait for a thing of one kind that the same one holds."""
        locks = with_all_waits(report(thread(1), thread(2)), told((1, {"kind": "lock", "address": "0x20"}), (2, {"kind": "lock", "address": "0x28"})))
        self.assertEqual([titles_of(it) for it in stacks_of(locks.threads)], ["2 threads: 101, 102 (each waits for a Lock)"])
        gil = with_all_waits(report(thread(1), thread(2)), told((1, {"kind": "gil"}), (2, {"kind": "gil"})))
        self.assertEqual([titles_of(it) for it in stacks_of(gil.threads)], ["2 threads: 101, 102 (each waits for the GIL)"])
        apart = with_all_waits(report(thread(1), thread(2)), told((1, {"kind": "gil"}), (2, None)))
        self.assertEqual(len(stacks_of(apart.threads)), 2)

    def test_names_are_escaped(self):
        found = with_all_waits(report(thread(1, "a\nDeadlock: b"), thread(2)), told((2, rlock(0x30, 1))))
        self.assertEqual(title_of(found.threads[1]), 'Thread 102 (waits for RLock 0x30 of thread 101 "a\\u{a}Deadlock: b")')


class Rings(unittest.TestCase):
    """Threads that wait for each other."""

    def lines(self, rows, count):
        """The lines of the rings of some threads."""
        return with_all_waits(report(*(thread(it) for it in range(1, count + 1))), told(*rows)).deadlocks

    def test_ring(self):
        self.assertEqual(self.lines(((1, rlock(0x30, 2)), (2, rlock(0x40, 3)), (3, rlock(0x50, 1)), (4, rlock(0x30, 2))), 4), (
            "Deadlock: thread 101 waits for RLock 0x30 of thread 102, which waits for RLock 0x40 of thread 103, "
            "which waits for RLock 0x50 of thread 101",))

    def test_led_into(self):
        """A thread that waits for one of a ring is none of it."""
        self.assertEqual(self.lines(((1, rlock(0x30, 2)), (2, rlock(0x40, 3)), (3, rlock(0x40, 2))), 3), (
            "Deadlock: thread 102 waits for RLock 0x40 of thread 103, which waits for RLock 0x40 of thread 102",))

    def test_two_rings(self):
        self.assertEqual(len(self.lines(((1, rlock(0x30, 2)), (2, rlock(0x40, 1)), (3, rlock(0x50, 4)), (4, rlock(0x60, 3))), 4)), 2)

    def test_none(self):
        self.assertEqual(self.lines(((1, rlock(0x30, 2)), (2, {"kind": "lock", "address": "0x40"})), 2), ())

    def test_stands_first(self):
        found = with_all_waits(report(thread(1), thread(2)), told((1, rlock(0x30, 2)), (2, rlock(0x40, 1))))
        lines = list(report_lines(found, Style()))
        self.assertEqual(lines[1][:10], "Deadlock: ")
        page = report_page(found, Style())
        self.assertIn("<dt>Deadlock</dt>", page)
        self.assertIn('<a href="#s1">its stack</a>', page)


if __name__ == "__main__":
    unittest.main()
