#!/usr/bin/env python3
"""The maker of small cores: what it writes and prints, which files it never writes over, and that nothing is left behind
where it fails.
"""

import os
import shlex
import stat
import subprocess
import sys
import tempfile
import unittest
from pathlib import Path

from rooms import TOOLS  # (first: it makes the other rooms known)

from made import EXAMPLE
from small_core import PROGRAM as IMAGE, TEXT, of_locals, small
from slim_reader import check_slim, slim_file
from pystacks_tool import places

PROGRAM = Path(places.PROGRAM)

STANDS_IN = """#!{python} -IS
import sys
word = sys.argv[1]
if word == {fails!r}:
    sys.stdout.write("half")
    sys.stdout.flush()
    sys.stderr.write("pystacks: cannot write\\n")
    sys.exit(4)
sys.stdout.write({located!r} if word == "locate" else "small of " + " ".join(sys.argv[2:]))
"""
"""A program in place of the built one. One of its two commands may fail, in the midst of its text."""

LOCATED = "Python v3.9.1rc1+dev\nInterpreter 0x10000\nLock 0x0\n"


class Case(unittest.TestCase):
    """A folder with a core, its image and its layouts."""

    def setUp(self):
        folder = tempfile.TemporaryDirectory(prefix="slim-core-")
        self.addCleanup(folder.cleanup)
        self.folder = Path(os.path.realpath(folder.name))
        (self.folder / "usr/bin").mkdir(parents=True)
        (self.folder / "usr/bin/python3.9").write_bytes(IMAGE)
        (self.folder / "layouts").write_text(EXAMPLE, encoding="utf-8")
        (self.folder / "core").write_bytes(small())
        self.before = self.names()

    def names(self):
        """The files that there are."""
        return sorted(it.name for it in self.folder.iterdir())

    def program(self, located=LOCATED, fails=""):
        """Writes a program in place of the built one."""
        path = self.folder / "pystacks"
        path.write_text(STANDS_IN.format(python=sys.executable, located=located, fails=fails), encoding="utf-8")
        path.chmod(0o700)
        self.before = self.names()
        return path

    def ran(self, *words, core="core", program=PROGRAM, **more):
        """Runs the tool: its status, what it prints, and what it says."""
        command = [sys.executable, "-B", TOOLS / "slim_core.py", core, f"--program={program}", "--layouts=layouts", "--root=.", *words]
        streams = {"stdin": subprocess.DEVNULL, "stdout": subprocess.PIPE, "stderr": subprocess.PIPE, "text": True, "cwd": self.folder}
        ran = subprocess.run([str(it) for it in command], **{**streams, **more})
        return ran.returncode, ran.stdout, ran.stderr


class StandsIn(Case):
    """What doesn't depend on the program's work."""

    def test_written(self):
        program = self.program()
        self.assertEqual(self.ran(program=program), (
            0, f"{program} walk core.slim layouts 3.9.1 0x10000 0x0\n", "slim_core: core.slim has 62 bytes\n"))
        self.assertEqual((self.folder / "core.slim").read_text(), "small of core layouts 0 /usr/bin/python3.9=./usr/bin/python3.9")
        self.assertEqual(self.names(), sorted([*self.before, "core.slim"]))
        mask = os.umask(0)
        os.umask(mask)
        self.assertEqual(stat.S_IMODE((self.folder / "core.slim").stat().st_mode), 0o666 & ~mask)

    def test_rights(self):
        (self.folder / "core").chmod(0o600)
        self.assertEqual(self.ran(program=self.program())[0], 0)
        self.assertEqual(stat.S_IMODE((self.folder / "core.slim").stat().st_mode), 0o600)

    def test_level(self):
        program = self.program()
        for words, level in (((), "0"), (("-l",), "1"), (("-ll",), "2")):
            self.assertEqual(self.ran(*words, "--out", f"out{level}", program=program)[0], 0)
            self.assertEqual((self.folder / f"out{level}").read_text().split(" ")[4], level)

    def test_fails(self):
        for fails in ("locate", "slim"):
            program = self.program(fails=fails)
            self.assertEqual(self.ran(program=program), (4, "", "slim_core: pystacks: cannot write\n"), fails)
            self.assertEqual(self.names(), self.before, fails)
        self.assertEqual(self.ran(program=self.program("Python v3\n")), (
            127, "", "slim_core: the program says b'Python v3\\n' of where the interpreter is\n"))
        self.assertEqual(self.names(), self.before)

    def test_no_program(self):
        status, out, said = self.ran(program=self.folder / "none")
        self.assertEqual((status, out, said.startswith(f"slim_core: there is no program {self.folder}/none: ")), (127, "", True), said)
        self.assertEqual(self.ran(program="layouts"), (
            127, "", f"slim_core: cannot run {self.folder}/layouts: Permission denied\n"
            "slim_core: next: see that it is a program of this machine, and that it may be run\n"))
        self.assertEqual(self.names(), self.before)

    def test_program_without_a_folder(self):
        program = self.program()
        status, out, said = self.ran(program="pystacks")
        self.assertEqual((status, shlex.split(out)[0]), (0, str(program)), said)

    def test_cannot_write(self):
        program = self.program()
        self.assertEqual(self.ran("--out=none/small", program=program), (
            4, "", "slim_core: cannot write none/small: No such file or directory\n"))
        with open("/dev/full", "wb") as full:
            status, _, said = self.ran(program=program, stdout=full)
        self.assertEqual((status, said.splitlines()[1:]), (4, ["slim_core: cannot write the words: No space left on device"]))
        self.assertEqual(self.names(), sorted([*self.before, "core.slim"]))

    def test_not_written_over(self):
        program = self.program()
        (self.folder / "notes").write_text("mine")
        (self.folder / "link").symlink_to("/dev/null")
        (self.folder / "nowhere").symlink_to("none")
        os.mkfifo(self.folder / "fifo")
        self.before = self.names()
        for out in ("core", "notes", "usr", "link", "nowhere", "fifo"):
            self.assertEqual(self.ran(f"--out={out}", program=program), (
                2, "", f"slim_core: {out} is no small core, and isn't written over\nslim_core: next: name another file by --out\n"))
        self.assertEqual(((self.folder / "notes").read_text(), (self.folder / "core").read_bytes()), ("mine", small()))
        self.assertEqual(self.names(), self.before)
        (self.folder / "older").write_bytes(slim_file(62, [], b""))
        self.assertEqual(self.ran("--out=older", program=program)[0], 0)

    def test_no_core(self):
        (self.folder / "text").write_text("some text")
        status, out, said = self.ran(core="text", program=self.program())
        self.assertEqual((status, out, said.splitlines()[0]), (1, "", "slim_core: text is no ELF file, and so no core"))
        self.assertEqual(self.names(), self.before)

    def test_odd_name(self):
        program = self.program()
        (self.folder / "a core; 'x").write_bytes(small())
        status, out, _ = self.ran(core="a core; 'x", program=program)
        self.assertEqual((status, shlex.split(out)), (0, [str(program), "walk", "a core; 'x.slim", "layouts", "3.9.1", "0x10000", "0x0"]))


@unittest.skipUnless(Path(PROGRAM).is_file(), "the program is not built")
class BuiltProgram(Case):
    """Small cores by the built program, and the walks over them."""

    def walked(self, *words):
        """What the walk prints whose words the tool prints, over a folder without the core and the image."""
        status, out, said = self.ran(*words)
        self.assertEqual((status, said), (0, f"slim_core: core.slim has {(self.folder / 'core.slim').stat().st_size} bytes\n"), said)
        core, slim = ((self.folder / name).read_bytes() for name in ("core", "core.slim"))
        self.assertGreater(check_slim(core, slim), 0)
        (self.folder / "core").unlink()
        (self.folder / "usr/bin/python3.9").unlink()
        walk = subprocess.run(["sh", "-c", out], cwd=self.folder, stdout=subprocess.PIPE, stderr=subprocess.PIPE, text=True)
        return walk.returncode, walk.stdout, walk.stderr

    def test_walk(self):
        self.assertEqual(self.walked(), (0, TEXT, ""))

    def test_values(self):
        values = of_locals(lambda objects, klass, texts: [objects.number(7, klass), objects.text("value", klass=texts)], "ab", 1)
        (self.folder / "core").write_bytes(values)
        self.assertEqual(self.walked("-l"), (0, TEXT, ""))
        self.assertIn(b"value", (self.folder / "core.slim").read_bytes())

    def test_without_values(self):
        values = of_locals(lambda objects, klass, texts: [objects.number(7, klass), objects.text("value", klass=texts)], "ab", 1)
        (self.folder / "core").write_bytes(values)
        self.assertEqual(self.walked(), (0, TEXT, ""))
        self.assertNotIn(b"value", (self.folder / "core.slim").read_bytes())

    def test_refused(self):
        (self.folder / "usr/bin/python3.9").write_bytes(b"text")
        status, out, said = self.ran()
        self.assertEqual((status, out, said), (1, "", "slim_core: pystacks: bad image: /usr/bin/python3.9\n"))
        then = "slim_core: next: name the core's file; `ls -l` says who may read it\n"
        self.assertEqual(self.ran(core="none"), (3, "", f"slim_core: there is no file none\n{then}"))
        self.assertEqual(self.names(), self.before)


if __name__ == "__main__":
    unittest.main(verbosity=0)
