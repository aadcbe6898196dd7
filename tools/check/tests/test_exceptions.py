#!/usr/bin/env python3
"""Tests how the tool shows exceptions: their order, each once, and the line that stands first."""

import unittest

import rooms  # noqa: F401
from pystacks_tool.ask.exceptions import all_with, head_of, last_lines_of, lines_of, summary_lines
from pystacks_tool.model import Frame, Interpreter, Report, Thread


def entry(address, name, message, frames=(), **more):
    """An exception."""
    rows = [{"name": it[0], "filename": it[1], "line": it[2]} for it in frames]
    none = {"left_out": 0, "values": []}
    return {"address": address, "kind": "exception", "type": name, "message": message, "message_by": "BaseException", "args": none, "cause": None,
            "context": None, "suppress_context": False, "members": None, "frames": rows, "frames_left_out": 0, "end": None, "notes": none, **more}


def item(address, running=None):
    """What is handled."""
    return {"address": address, "running": running, "fault": None}


def thread(items, exceptions, raised=None):
    """A thread."""
    return {"thread_id": 0x7F00, "raised": raised, "end": None, "handled": items, "exceptions": exceptions}


OUTER = entry("0x1", "KeyError", "'outer'", [("generator", "exc.py", 271)])
INNER = entry("0x2", "IndexError", "list index out of range", [("gen", "exc.py", 262)], context="0x1")
BOTH = thread([item("0x2", "0x9"), item("0x1")], [INNER, OUTER])


class Lines(unittest.TestCase):
    """What stands below a thread's frames."""

    def test_context_stands_before(self):
        self.assertEqual("\n".join(lines_of(BOTH)), """\
    Handling, in the generator or coroutine at 0x9:
        KeyError: 'outer'
            generator (exc.py:271)
        During handling of the above exception, another exception occurred:
        IndexError: list index out of range
            gen (exc.py:262)
    Handling:
        ... KeyError at 0x1 again""")

    def test_suppressed(self):
        tree = thread([item("0x2")], [{**INNER, "suppress_context": True}])
        self.assertEqual(lines_of(tree), ("    Handling:", "        IndexError: list index out of range", "            gen (exc.py:262)"))

    def test_cycle_ends(self):
        tree = thread([item("0x1")], [{**OUTER, "context": "0x2"}, INNER])
        self.assertEqual(sum("again" in it for it in lines_of(tree)), 1)

    def test_long_chain(self):
        chain = [entry(hex(at), "ValueError", str(at), cause=hex(at + 1)) for at in range(1, 1024)]
        self.assertEqual(len(lines_of(thread([item("0x1")], [*chain, entry(hex(1024), "ValueError", "")]))), 2001)  # (the first 2,000, and how many more)

    def test_members_stand_deeper(self):
        group = entry("0x5", "ExceptionGroup", "g (1 sub-exception)", members={"left_out": 0, "values": ["0x1"]})
        self.assertEqual(lines_of(thread([item("0x5")], [group, OUTER]))[2], " " * 16 + "KeyError: 'outer'")

    def test_nothing_is_forged(self):
        name = "During handling of the above exception, another exception occurred:"
        lines = lines_of(thread([item("0x6")], [entry("0x6", name, "one\n    gen (exc.py:262)")]))
        self.assertEqual(len(lines), 2)
        self.assertTrue(lines[1].startswith(f'        "{name}": one'))

    def test_no_exception(self):
        self.assertEqual(lines_of(thread([item(None)], [])), ())


class Last(unittest.TestCase):
    """The last exception that no code handled."""

    def test_lines(self):
        tree = {"address": "0x2", "kind": "exception", "name": "last_exc", "exceptions": [INNER, OUTER]}
        self.assertEqual("\n".join(last_lines_of(tree)), """\
Last exception that no code handled (sys.last_exc):
        KeyError: 'outer'
            generator (exc.py:271)
        During handling of the above exception, another exception occurred:
        IndexError: list index out of range
            gen (exc.py:262)""")

    def test_unreadable(self):
        tree = {"kind": "unreadable", "name": "last_value"}
        self.assertEqual(last_lines_of(tree), ("Last exception that no code handled: sys.last_value can't be read",))

    def test_none(self):
        self.assertEqual(last_lines_of(None), ())

    def test_summary(self):
        last = {"address": "0x1", "kind": "exception", "name": "last_exc", "exceptions": [OUTER]}
        one = Interpreter((Thread(0x7F00, (Frame("f", "a.py", 3),)),), 0x10)
        found = all_with((one,), [{"interpreter": "0x10", "kind": "read", "last": last, "threads": []}])
        self.assertEqual(list(summary_lines(Report(found, "3.12.1"))), ["KeyError: 'outer', the last that no code handled (sys.last_exc)"])


class Heads(unittest.TestCase):
    """What stands first."""

    def test_newest(self):
        self.assertEqual(head_of(BOTH), ("IndexError: list index out of range", "handled"))

    def test_summary(self):
        one = Interpreter((Thread(0x7F00, (Frame("f", "a.py", 3),), native=14449, name="MainThread"),), 0x10)
        report = Report(all_with((one,), [{"interpreter": "0x10", "kind": "read", "threads": [thread([item("0x1")], [OUTER])]}]), "3.11.7")
        self.assertEqual(list(summary_lines(report)), ["KeyError: 'outer' while 14449 \"MainThread\" handled it"])


if __name__ == "__main__":
    unittest.main()
