#!/usr/bin/env python3
"""A core of 200 threads of which 190 are equal, made by hand: what dump_core.py shows of it, by the built program."""

import json
import os
import re
import subprocess
import sys
import tempfile
import unittest
from pathlib import Path

from rooms import TOOLS  # (first: it makes the other rooms known)

from made import EXAMPLE, core_file
from small_core import CODE, FILE, HEAP, MODULE_CODE, PROGRAM as IMAGE, bss, heap, mapped
from pystacks_tool import places

PROGRAM = Path(places.PROGRAM)

TOOL = TOOLS / "dump_core.py"

EQUAL, OTHERS = 190, 10


def wide_core() -> bytes:
    """The core: 190 threads in `f`, which `<module>` called, and ten of other functions of their own."""
    objects = heap()
    codes = []
    for number in range(OTHERS):
        name = objects.text(f"own_{number}")
        codes.append(objects.record("code", None, filename=FILE, name=name, first_line=number + 1))
    rows = []
    for number in range(EQUAL + OTHERS):
        own = [CODE] if number < EQUAL else [codes[number - EQUAL]]
        rows.append({"frame": objects.frames([*own, MODULE_CODE]), "id": 0x1000 + number})
    objects.threads(HEAP, rows)
    return core_file([objects.segment(6), mapped(), bss()])


@unittest.skipUnless(PROGRAM.is_file(), "the program isn't built")
class Wide(unittest.TestCase):
    """What is shown of it."""

    @classmethod
    def setUpClass(cls):
        cls.kept = tempfile.TemporaryDirectory(prefix="wide-")
        cls.folder = Path(os.path.realpath(cls.kept.name))
        (cls.folder / "core").write_bytes(wide_core())
        (cls.folder / "usr/bin").mkdir(parents=True)
        (cls.folder / "usr/bin/python3.9").write_bytes(IMAGE)
        (cls.folder / "layouts").write_text(EXAMPLE, encoding="utf-8")

    @classmethod
    def tearDownClass(cls):
        cls.kept.cleanup()

    def tool(self, *words):
        """What the tool prints."""
        command = [sys.executable, "-B", TOOL, "core", "--root", ".", "--layouts", "layouts", *words]
        ran = subprocess.run([str(it) for it in command], cwd=self.folder, stdin=subprocess.DEVNULL, stdout=subprocess.PIPE, stderr=subprocess.PIPE, text=True)
        self.assertEqual(ran.returncode, 0, ran.stderr)
        return ran.stdout

    def test_text(self):
        lines = self.tool("--stacks").splitlines()
        # (a made core has no types that could confirm its layout, and no modules)
        told = "layout: doubtful, 64 of 65 known answers are right"
        self.assertEqual([it for it in lines if it != told][:4], ["Python v3.9.0", "", "200 threads", "    190 of 200: f (a.py)"])
        stacks = lines[lines.index("", 3) + 1 :]
        # (threads stand in the reverse of the interpreter's order)
        own = [line for number in reversed(range(OTHERS)) for line in (f"Thread 0x{0x1000 + EQUAL + number:X}", f"    own_{number} (a.py)", "    <module> (a.py)")]
        self.assertEqual(stacks, own + ["190 threads: 0x10BD, 0x10BC and 188 more", "    f (a.py)", "    <module> (a.py)"])

    def test_short(self):
        lines = self.tool().splitlines()
        self.assertLessEqual(len(lines), 40)
        self.assertIn("    190 of 200: f (a.py)", lines)

    def test_all(self):
        self.assertEqual(len(re.findall("^Thread ", self.tool("--all"), re.MULTILINE)), EQUAL + OTHERS)

    def test_collapsed(self):
        self.assertEqual(self.tool("--collapsed").splitlines()[-1], "<module> (a.py);f (a.py) 190")

    def test_json(self):
        tree = json.loads(self.tool("--json"))
        self.assertEqual(sum(len(it["threads"]) for it in tree["interpreters"]), EQUAL + OTHERS)

    def test_page(self):
        self.tool("--html=page.html")
        page = (self.folder / "page.html").read_bytes()
        self.assertLess(len(page), 1_000_000)
        self.assertEqual((page.count(b"<tr data-f="), page.count(b"190 threads: ")), (EQUAL + OTHERS, 1))


if __name__ == "__main__":
    unittest.main(verbosity=0)
