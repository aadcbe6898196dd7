#!/usr/bin/env python3
"""Stacks as flame graph tools read them: which lines they are, and that dump_core.py prints those of the program's JSON."""

import subprocess
import sys
import tempfile
import unittest
from pathlib import Path

from rooms import TOOLS  # (first: it makes the other rooms known)

import stand_ins
from pystacks_tool.ask.advice import NEXT
from pystacks_tool.model import Frame, Thread
from pystacks_tool.places import PROGRAM
from pystacks_tool.show.collapse import collapsed, label
from made import EXAMPLE, core_file
from small_core import PROGRAM as IMAGE, small


def frame(name, filename="a.py", line=0):
    """A frame."""
    return Frame(name, filename, line)


def thread(*frames, **more):
    """A thread, with its newest frame first."""
    return Thread(1, frames, **more)


class Lines(unittest.TestCase):
    """The lines of some threads."""

    def test_order_and_number(self):
        waits = thread(frame("wait", "t.py", 12), frame("<module>", "t.py", 3))
        works = thread(frame("f"), frame("<module>"))
        self.assertEqual(collapsed([waits, works, waits]), ["<module> (t.py:3);wait (t.py:12) 2", "<module> (a.py);f (a.py) 1"])

    def test_lines_tell_stacks_apart(self):
        self.assertEqual(collapsed([thread(frame("f", "a.py", 1)), thread(frame("f", "a.py", 2))]), ["f (a.py:1) 1", "f (a.py:2) 1"])

    def test_no_frames(self):
        self.assertEqual(collapsed([]), [])
        self.assertEqual(collapsed([thread(), thread(frame("f"))]), ["f (a.py) 1"])

    def test_odd_names(self):
        self.assertEqual(collapsed([thread(frame("a;b\n\\", "\u2028é\x9f.py"))]), [r"a\u{3b}b\u{a}\u{5c} (\u{2028}é\u{9f}.py) 1"])

    def test_broken_chains(self):
        cut = thread(frame("f"), frame("g"), first=1, between=7, end="unreadable at 0x10, 8 bytes")
        self.assertEqual(collapsed([cut]), ["... unreadable at 0x10, 8 bytes;g (a.py);... 7 more frames;f (a.py) 1"])
        self.assertEqual(collapsed([thread(Frame(why="a name; no text"))]), [r"? a name\u{3b} no text 1"])

    def test_a_name_forges_no_place(self):
        for why in ("unreadable at 0x70000000, 72 bytes", "a name that is no text", "... 7 more frames"):
            frames = frame("?", why), Frame(why=why), frame(f"? {why}"), frame("? ", why)
            self.assertEqual(len({label(it) for it in frames}), 4, why)


ALONE = """\
dump_core: pysalvage isn't there, so that the stacks are whole or missing, and neither the version of Python nor how the signal came about is told
dump_core: next: tools/build makes it
"""
"""What is said where `pystacks dump` is shown alone."""


class Tool(unittest.TestCase):
    """What dump_core.py prints."""

    def ran(self, *words, threads=None, status=0, said=b"", core=b"", cores=1):
        """Runs the tool over some cores, and a program that has these threads, or the built one."""
        with tempfile.TemporaryDirectory(prefix="collapse-") as name:
            folder = Path(name)
            names = [folder / f"core{number}" for number in range(cores)]
            for path in names:
                path.write_bytes(core or core_file([]))
            program = PROGRAM
            if threads is not None:
                tree, text = stand_ins.dump_json(threads), stand_ins.text_of(threads)
                program = stand_ins.program(folder / "program", tree, text, "", status, said)
            (folder / "usr/bin").mkdir(parents=True)
            (folder / "usr/bin/python3.9").write_bytes(IMAGE)
            ran = subprocess.run(
                [sys.executable, str(TOOLS / "dump_core.py"), f"--program={program}", f"--root={folder}", "--collapsed", *words,
                 *names], stdin=subprocess.DEVNULL, stdout=subprocess.PIPE, stderr=subprocess.PIPE, universal_newlines=True)
            return ran.returncode, ran.stdout, ran.stderr.replace(name, "").replace(ALONE, "")

    def test_text(self):
        threads = [stand_ins.thread(7, [stand_ins.frame("f", line=0), stand_ins.frame("<module>", line=0)])]
        self.assertEqual(self.ran(threads=threads), (0, "<module> (a.py);f (a.py) 1\n", ""))
        self.assertEqual(self.ran(threads=threads, cores=3), (0, "<module> (a.py);f (a.py) 3\n", ""))

    def test_refused(self):
        refused = {"threads": [], "status": 1, "said": b"pystacks: bad note\n"}
        self.assertEqual(self.ran(**refused), (1, "", f"pystacks: bad note\ndump_core: next: {NEXT['bad note']}\n"))
        lines = "/core0: pystacks: bad note\n/core1: pystacks: bad note\n"
        self.assertEqual(self.ran(cores=2, **refused), (1, "", lines))

    def test_words(self):
        for word in ("-l", "-j", "--group", "--plain", "--html=page"):
            self.assertEqual(self.ran(word, threads=[])[:2], (2, ""), word)

    @unittest.skipUnless(Path(PROGRAM).is_file(), "the program is not built")
    def test_built_program(self):
        core = small()
        with tempfile.NamedTemporaryFile("w", suffix=".toml") as layouts:
            layouts.write(EXAMPLE)
            layouts.flush()
            ran = self.ran(f"--layouts={layouts.name}", core=core)
        self.assertEqual(ran, (0, "<module> (a.py);f (a.py) 1\n", ""))


if __name__ == "__main__":
    unittest.main()
