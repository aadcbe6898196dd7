#!/usr/bin/env python3
"""Tests how the tool shows Python's frames and native ones in one stack."""

import unittest

import rooms  # noqa: F401
from pystacks_tool.ask.native import stacks_of
from pystacks_tool.model import Frame, Interpreter, PairedItem, Report, Thread
from pystacks_tool.show.collapse import collapsed_lines, counts_of
from pystacks_tool.show.page import report_page
from pystacks_tool.show.text import Style, report_lines
from stand_ins import native_frame, native_stack, native_thread

LIBRARY = "/usr/lib/libpython3.11.so.1.0"
FRAMES = (Frame("charge", "/srv/pay.py", 41), Frame("<module>", "/srv/main.py", 9))
NATIVE = native_stack(native_frame("memcpy", "/lib/libc.so.6"), native_frame("checksum", "/srv/_native.so"), native_frame("_PyEval_EvalFrameDefault", LIBRARY),
                      native_frame("main", LIBRARY))


def python(frame):
    """A Python frame."""
    return {"frame": frame, "kind": "python"}


def native(frame, hidden=False):
    """A native frame."""
    return {"frame": frame, "hidden": hidden, "kind": "native"}


def paired(*items, pairing="address", thread="0x1000"):
    """How both stand in one stack."""
    return {"items": list(items), "pairing": pairing, "thread": thread}


def lines(tree, thread=None, style=Style(), stack=NATIVE, guessed=None):
    """The lines of the one thread of a report."""
    own = thread or Thread(7, FRAMES, 107, address="0x1000")
    stacks = stacks_of([native_thread(107, stack, 7, guessed=guessed)], [tree], {})
    report = Report((Interpreter((own,), 0x10),), "3.11.7", 6, is_salvaged=True, core="core", native=stacks, shows_native=True)
    shown = list(report_lines(report, style))
    return shown[shown.index("Thread 107"):]


MERGED = ["Thread 107", "    memcpy+0x46 (libc.so.6) [C]", "    checksum+0x46 (_native.so) [C]", "    charge (/srv/pay.py:41)", "    <module> (/srv/main.py:9)"]


class Merged(unittest.TestCase):
    """One stack of both."""

    def test_in_one(self):
        tree = paired(native(0), native(1), python(0), python(1), native(2, True), native(3, True))
        self.assertEqual(lines(tree), MERGED)

    def test_all_native(self):
        tree = paired(native(0), native(1), python(0), python(1), native(2, True), native(3, True))
        shown = lines(tree, style=Style(shows_hidden=True))
        self.assertEqual(shown, [*MERGED, "    _PyEval_EvalFrameDefault+0x46 (libpython3.11.so.1.0) [C]", "    main+0x46 (libpython3.11.so.1.0) [C]"])

    def test_not_found(self):
        tree = paired(native(0), native(1), python(0), native(2, True), native(3, True), {"kind": "not found"}, python(1))
        self.assertEqual(lines(tree), [*MERGED[:4], "    ... native frames not found for these", MERGED[4]])

    def test_apart(self):
        """Nothing stands in one stack where the program doesn't say how."""
        tree = paired(native(0), native(1), native(2), native(3), {"kind": "beside"}, python(0), python(1), pairing="apart")
        shown = lines(tree)
        self.assertEqual(shown[:4], ["Thread 107", "    charge (/srv/pay.py:41)", "    <module> (/srv/main.py:9)", "    Native, thread 107:"])
        self.assertEqual(lines(None), shown)
        self.assertEqual(lines(paired(native(0), python(0), python(1), thread="0x2000")), shown)

    def test_left_out(self):
        """Frames that aren't shown have their number, on both sides."""
        thread = Thread(7, FRAMES, 107, first=1, between=3, address="0x1000")
        stack = native_stack(native_frame("memcpy", "/lib/libc.so.6"), between=2, last=[native_frame("checksum", "/srv/_native.so")])
        tree = paired(native(0), python(0), native(1), python(1), python(2), native(2, True), python(3), native(3), python(4))
        self.assertEqual(lines(tree, thread, stack=stack), [
            "Thread 107", MERGED[1], MERGED[3], "    ... 4 more frames", MERGED[2], MERGED[4]])

    def test_guess(self):
        """What follows by a guess counts behind what is sure."""
        stack, guessed = native_stack(native_frame(None, None), end="no file", at="0x0"), native_stack(native_frame("checksum", "/srv/_native.so"))
        shown = lines(paired(native(0), native(1), python(0), python(1)), stack=stack, guessed=guessed)
        self.assertEqual(shown[2:5], ["    checksum+0x46 (_native.so) <guess> [C]", *MERGED[3:]])

    def test_crashed_of_many(self):
        """Of many threads the one that got the signal has both in one stack, and the others don't."""
        tree = paired(native(0), native(1), python(0), python(1), native(2, True), native(3, True))
        others = [paired(python(0), python(1), thread=hex(0x2000 + it)) for it in range(9)]
        threads = [Thread(7, FRAMES, 107, is_crashed=True, address="0x1000"),
                   *(Thread(10 + it, FRAMES, 200 + it, address=hex(0x2000 + it)) for it in range(9))]
        natives = [native_thread(107, NATIVE, 7, crashed=True), *(native_thread(200 + it, NATIVE, 10 + it) for it in range(9))]
        stacks = stacks_of(natives, [tree, *others], {})
        report = Report((Interpreter(tuple(threads), 0x10),), "3.11.7", 6, is_salvaged=True, core="core", native=stacks, shows_native=True)
        shown = list(report_lines(report, Style()))
        at = shown.index("Thread 107 (crashed)")
        self.assertEqual(shown[at + 1:at + 5], MERGED[1:])
        self.assertEqual(sum(it.endswith("[C]") for it in shown), 2)

    def test_other_forms(self):
        """On a page, and as flame graph tools read it."""
        stacks = stacks_of([native_thread(107, NATIVE, 7)], [paired(native(0), native(1), python(0), python(1), native(2, True), native(3, True))], {})
        own = Thread(7, FRAMES, 107, address="0x1000")
        report = Report((Interpreter((own,), 0x10),), "3.11.7", 6, is_salvaged=True, core="core", native=stacks, shows_native=True)
        self.assertEqual(list(collapsed_lines(counts_of(report.threads, report))), [
            "<module> (/srv/main.py:9);charge (/srv/pay.py:41);checksum+0x46 (_native.so) [C];memcpy+0x46 (libc.so.6) [C] 1"])
        page = report_page(report, Style())
        self.assertLess(page.index("checksum+0x46 (_native.so) [C]"), page.index("charge <i>"))

    def test_items(self):
        stacks = stacks_of([native_thread(107, NATIVE, 7), native_thread(108, NATIVE, None)], [paired(python(0), native(1, True), {"kind": "not found"}), None], {})
        self.assertEqual(stacks[0].items, (PairedItem("python", 0), PairedItem("native", 1, True), PairedItem("not found")))
        self.assertEqual((stacks[0].pairing, stacks[0].thread, stacks[1].items), ("address", "0x1000", ()))


if __name__ == "__main__":
    unittest.main()
