#!/usr/bin/env python3
"""That real_tool.py notices a tool that shows other stacks than the program told: the right tool passes, and one that drops,
adds or moves a frame, a thread or a stack doesn't.
"""

import os
import tempfile
import unittest
from pathlib import Path
from unittest import mock

from rooms import TOOLS  # (first: it makes the other rooms known)

import real_tool
import stand_ins
from child_cores import Failure
from made import core_file
from real_tool import Shown, check_brief, check_tool, stacks_in
from stand_ins import frame, local, thread
from pystacks_tool import places

LAYOUTS = Path(places.LAYOUTS)

ROWS = [local("n", "12", True), local("s", None)]

THREADS = [
    thread(1, [frame("f", "größer als \"das\".py", 5), frame("<lambda>"), frame("g", line=0, rows=ROWS),
               frame("<module>", line=3)], gil=True),
    *[thread(number, [frame("wait", "t.py", 12), frame("run", "t.py", 3)]) for number in range(2, 12)],
    thread(12), thread(13, [frame("... h", line=7)] * 6 + [frame("<module>", line=3)])]

TAMPERED = """\
import re, subprocess, sys
ran = subprocess.run([sys.executable, "-B", {tool!r}, *sys.argv[1:]], stdout=subprocess.PIPE, text=True)
page = next((it[7:] for it in sys.argv if it.startswith("--html=")), None)
text = ran.stdout
if {form!r} == "page" and page:
    text = open(page).read()
if {form!r} in ("page" if page else "", "json" if "--json" in sys.argv else "", "collapsed" if "--collapsed" in sys.argv else "",
        "values" if "-l" in sys.argv and "--json" in sys.argv else "",
        "all" if "--all" in sys.argv else "", "stacks" if "--stacks" in sys.argv else "", "text" if len([it for it in sys.argv if it.startswith("--")]) == 2 else ""):
    new = re.sub({old!r}, {new!r}, text, count=1, flags=re.DOTALL)
    assert new != text
    text = new
if {form!r} == "page" and page:
    open(page, "w").write(text)
    text = ""
sys.stdout.write(text)
sys.exit(ran.returncode)
"""
"""A tool of which one form is changed in one place."""


class Compared(unittest.TestCase):
    """The right tool and wrong ones."""

    def setUp(self):
        folder = tempfile.TemporaryDirectory(prefix="real-tool-")
        self.addCleanup(folder.cleanup)
        self.folder = Path(os.path.realpath(folder.name))
        self.core = self.folder / "core"
        self.core.write_bytes(core_file([]))
        self.program = stand_ins.program(self.folder / "pystacks", stand_ins.dump_json(THREADS), stand_ins.text_of(THREADS))

    def test_right(self):
        check_tool(self.program, self.core, LAYOUTS, [])

    def test_wrong(self):
        tool = self.folder / "tool.py"
        for form, old, new in (
            ("all", r"    <lambda> \(a.py:1\)\n", ""), ("all", r"(    g \(a.py\)\n)", r"\1\1"), ("all", r"(    f [^\n]*\n)(    <lambda>[^\n]*\n)", r"\2\1"),
            ("all", r"a.py:1\)", "a.py:2)"), ("all", r"Thread 0xC\n", ""), ("text", "10 threads", "9 threads"), ("text", r"    run \(t.py:3\)\n", ""),
            ("text", "10 of 13", "9 of 13"), ("text", "    0xC: no frames\n", ""), ("text", r"1 thread without frames: 0xC\n", ""),
            ("text", "h: 5 times", "h: 4 times"), ("stacks", "10 threads", "9 threads"), ("stacks", r"    run \(t.py:3\)\n", ""),
            ("stacks", "h: 5 times", "h: 6 times"), ("stacks", "1 thread without", "2 threads without"),
            ("json", '"name": "g"', '"name": "h"'), ("json", '"line": 12', '"line": 13'), ("collapsed", " 10\n", " 9\n"), ("collapsed", "<module> ", "module "),
            ("values", '"12"', '"13"'), ("values", '"name": "s"', '"name": "t"'),
            ("values", r'("name": "s",\s*"repr": )null', r'\1"0"'),
            ("page", r"<li>wait[^\n]*\n", ""), ("page", r"(<li>f [^\n]*\n)(<li>[^\n]*\n)", r"\2\1"),
        ):
            tool.write_text(TAMPERED.format(tool=str(TOOLS / "dump_core.py"), form=form, old=old, new=new), encoding="utf-8")
            with mock.patch.object(real_tool, "TOOL", tool), self.assertRaises(Failure, msg=(form, old)) as caught:
                check_tool(self.program, self.core, LAYOUTS, [])
            self.assertNotIn("ended with status", str(caught.exception))

    def test_stacks_in(self):
        text = "Python v3.9.0\n\nThread 1\n    a\\u{22} (b.py:1)\n        > x\n        Locals:\n            y: 1\n    ... 3 more frames\n    c (d.py)\n    Native, thread 4:\n    memset+0x46 (libc.so.6)\n2 threads: x, y\n"
        text += "    e (d.py:2)\n    f (d.py)\n    ... e, f: 2 times (lines 2, ?), 3 locals left out\n    ... 4 more frames\n... 5 more\n    g (d.py)\n"
        text += "Interpreter 0x1: 3 threads without frames: x\nTasks 3 (3 waiting)\nTask \"t\" (ready)\n    h (d.py:2)\n2 tasks (ready): \"u\", \"v\"\n"
        text += "    h (d.py:2)\n    ... awaits an object at 0x9\nNative stack of thread 1\n    memset+0x46 (libc.so.6)\n    ... 7 more frames\n"
        text += "Native thread 2\n    memset+0x46 (libc.so.6)\n"
        self.assertEqual(stacks_in(text), [
            Shown("Thread 1", 1, ['a" (b.py:1)', "c (d.py)"], 3, 1), Shown("2 threads: x, y", 2, ["e (d.py:2)", "f (d.py)"] * 3, 4, 6),
            Shown("Interpreter 0x1: 3 threads without frames: x", 3)])
        with self.assertRaises(Failure):
            stacks_in("\n\nThread 1\n    e (d.py:2)\n    ... f: 2 times (line 2)\n")

    def test_brief(self):
        # (the newest frames of a stack, how many there are below, and the threads of those that aren't shown)
        deep, other = tuple(f"f{at} (a.py)" for at in range(9)), ("g (a.py)",)
        rows = "".join(f"    {it}\n" for it in deep[:6])
        right = f"x\n\n9 threads: x\n{rows}    ... 3 more frames\n... 2 more stacks of 3 threads: --stacks shows\n"
        check_brief([deep] * 9 + [other] * 3, right)
        for old, new in (("9 threads", "8 threads"), ("f3 ", "f4 "), ("3 more frames", "2 more frames"), ("of 3 threads", "of 2 threads")):
            with self.assertRaises(Failure, msg=old):
                check_brief([deep] * 9 + [other] * 3, right.replace(old, new))


if __name__ == "__main__":
    unittest.main(verbosity=0)
