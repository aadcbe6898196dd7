#!/usr/bin/env python3
"""That dump_core.py hands the right words to the program: over cores made by hand, and a program that prints its words.

Where the real program is built, it is run over such a core too.
"""

import os
import resource
import signal
import subprocess
import sys
import tempfile
import unittest
from pathlib import Path
from typing import List, Optional, Tuple

from rooms import TOOLS  # (first: it makes the other rooms known)

from carry_layouts import FIRST
from pystacks_tool import places
from pystacks_tool.cores.gaps import entries_in
from pystacks_tool.cores.maps import is_library, maps_of, segments_of
from file_tables import TableError, add_file_table
from join_layouts import joined, single_files
from layout_plan import VERSIONS
from made import AARCH64, EXAMPLE, NOTE, X86_64, Segment, build_id, core_file, elf_file, file_table, note
from small_core import PROGRAM as IMAGE, TEXT, small_of

LAYOUTS = Path(places.LAYOUTS)
PROGRAM = Path(places.PROGRAM)

TOOL = TOOLS / "dump_core.py"

FAKE = """#!{python} -IS
import os, sys
sys.stdout.buffer.write(b"\\0".join(os.fsencode(it) for it in sys.argv[1:]))
sys.stdout.flush()
sys.stderr.write({line!r})
{end}
"""
"""A program that prints its words, says a line, and ends."""


def mapped(
    start: int, name: Optional[bytes] = None, flags: int = 5, data: bytes = b"", pages: int = 0, size: Optional[int] = None
) -> Segment:
    """A load segment of a core, with the file that is mapped there."""
    return Segment(start, data, flags, size, name, pages)


def program(machine: int = X86_64) -> bytes:
    """An ELF file that is no core, for a machine."""
    return elf_file(3, [], machine)


def built(number: int) -> bytes:
    """The front of a library of this build."""
    return elf_file(3, [Segment(0, build_id(bytes([number]) * 20), 4, 0, kind=NOTE)])


class Case(unittest.TestCase):
    """A folder with a fake program."""

    def setUp(self):
        folder = tempfile.TemporaryDirectory(prefix="dump-core-")
        self.addCleanup(folder.cleanup)
        self.folder = Path(os.path.realpath(folder.name))
        self.program = self.fake()

    def fake(self, line="", end="sys.exit(0)") -> Path:
        """A fake program."""
        path = self.folder / "fake"
        path.write_text(FAKE.format(python=sys.executable, line=line, end=end), encoding="utf-8")
        path.chmod(0o700)
        return path

    def put(self, name: str, data: bytes) -> bytes:
        """Writes a file below the folder, and returns its path."""
        path = self.folder / name
        path.parent.mkdir(parents=True, exist_ok=True)
        path.write_bytes(data)
        return os.fsencode(path)

    def tool(self, *words, program=None) -> Tuple[int, bytes, str]:
        """What the tool comes to: status, output, and what was said, without what to do next, which is kept."""
        command = [sys.executable, "-B", TOOL, "--program", program or self.program, *words]
        streams = {"stdin": subprocess.DEVNULL, "stdout": subprocess.PIPE, "stderr": subprocess.PIPE}
        ran = subprocess.run(command, timeout=60, **streams)
        lines = ran.stderr.decode("utf-8", "replace").splitlines(keepends=True)
        self.then = [it for it in lines if it.startswith("dump_core: next: ")]
        return ran.returncode, ran.stdout, "".join(it for it in lines if it not in self.then)

    def handed(self, core: bytes, *words) -> Tuple[List[bytes], str]:
        """The words for images that a core comes to with locals, and what was said."""
        path = self.put("core", core)
        status, out, said = self.tool(path, "--plain", "-l", *words)
        self.assertEqual(status, 0, said)
        expected = [b"dump", b"--core=" + path, b"--layouts=" + os.fsencode(LAYOUTS), b"-l"]
        self.assertEqual(out.split(b"\0")[:4], expected)
        return out.split(b"\0")[4:], said


class Words(Case):
    """Which images are handed over, and which line is said."""

    def setUp(self):
        super().setUp()
        self.python = self.put("bin/python3.9", b"p")
        self.library = self.put("lib/libpython3.9.so.1.0", b"l")
        self.other = self.put("lib/libc.so.6", program())

    def words(self, *paths):
        """The words for these images."""
        return [it + b"=" + it for it in paths]

    def test_found(self):
        maps = [mapped(0x1000, self.other, 6), mapped(0x2000, None), mapped(0x3000, self.python)]
        images, said = self.handed(core_file(maps))
        self.assertEqual((images, said), (self.words(self.python), ""))
        maps += [mapped(0x5000, self.library, 4), mapped(0x6000, self.library), mapped(0x7000, self.other)]
        images, said = self.handed(core_file(maps))
        self.assertEqual((images, said), (self.words(self.python, self.library, self.other), ""))

    def test_all(self):
        data = self.put("data", b"not of a program")
        more = [self.put(f"lib/lib{number}.so", program()) for number in range(30)]
        maps = [mapped(0x1000, self.python)]
        maps += [mapped(0x1000 * number, it, 4) for number, it in enumerate([data, *more, *more], 2)]
        maps += [mapped(0x100000, self.library), mapped(0x101000, self.python), mapped(0x102000, self.other, 7)]
        maps += [mapped(0x103000, b"/gone.so", 4), mapped(0x104000, b"/dev/zero", 4)]
        images, said = self.handed(core_file(maps))
        self.assertEqual((images, said), (self.words(self.python, *more, self.library), ""))

    def test_no_locals(self):
        # (a report without locals reads nothing of other files)
        maps = [mapped(0x1000, self.python), mapped(0x2000, self.other, 4), mapped(0x3000, self.library)]
        path = self.put("core", core_file(maps))
        _, out, said = self.tool(path, "--plain")
        self.assertEqual((out.split(b"\0")[3:], said), (self.words(self.python, self.library), ""))

    def test_many(self):
        # (a core may name any number of files that are there)
        path = os.path.dirname(self.other)
        names = [path + b"/." * number + b"/libc.so.6" for number in range(1100)]
        maps = [mapped(0x1000 * number, it, 4) for number, it in enumerate(names, 1)]
        images, said = self.handed(core_file([*maps, mapped(0x10000000, self.python)]))
        self.assertEqual((len(images), images[-1:], said), (1001, self.words(self.python), ""))

    def test_missing(self):
        gone = os.fsencode(self.folder) + b"/gone/libpython3.9.so"
        images, said = self.handed(core_file([mapped(0x1000, self.python), mapped(0x2000, gone)]))
        self.assertEqual(images, [self.python + b"=" + self.python])
        name = os.fsdecode(gone)
        self.assertEqual(said, f"dump_core: no image of {name} (needed; there is no file {name}; --root FOLDER looks below FOLDER)\n")
        self.assertEqual(self.then, [])
        images, said = self.handed(core_file([mapped(0x1000, gone[:-3]), mapped(0x2000, gone)]))
        self.assertEqual((images, said.count("\n")), ([], 1))
        self.assertIn(f"no image of {name} (needed; there is no file {name}; --root FOLDER looks below FOLDER), {name[:-3]} (not needed; ", said)
        images, said = self.handed(core_file([mapped(0x1000, gone[:-3]), mapped(0x2000, self.library)]))
        self.assertEqual(images, [self.library + b"=" + self.library])
        self.assertIn("(not needed; there is no file", said)

    def test_no_file(self):
        system = (b"/memfd:it (deleted)", b"/dev/zero", b"/proc/self/maps")
        for name in (b"", b"relative", os.fsencode(self.folder), *system):
            images, said = self.handed(core_file([mapped(0x1000, name)]))
            self.assertEqual((images, said.count("\n")), ([], 1), said)
            self.assertIn("(needed; ", said)
        for size, count in ((0, 0), (1 << 36, 1), ((1 << 36) + 1, 0)):
            try:
                os.truncate(self.python, size)
            except OSError:
                # (files here can't be so long)
                continue
            images, said = self.handed(core_file([mapped(0x1000, self.python)]))
            self.assertEqual((len(images), f"has {size} bytes" in said), (count, count == 0))

    def test_deleted(self):
        name = self.library + b" (deleted)"
        images, said = self.handed(core_file([mapped(0x1000, self.python), mapped(0x2000, name)]))
        self.assertEqual(images, [self.python + b"=" + self.python, name + b"=" + self.library])
        self.assertEqual(said, "")

    def test_root(self):
        root = self.folder / "container"
        path = self.put("container/usr/bin/python3.9", b"p")
        (root / "usr/bin/out").symlink_to(os.fsdecode(self.python))
        core = core_file([mapped(0x1000, b"/usr/bin/python3.9 (deleted)")])
        for words in (["--root", root], ["--root", f"{root}/"]):
            images, said = self.handed(core, *words)
            self.assertEqual((images, said), ([b"/usr/bin/python3.9 (deleted)=" + path], ""))
        for name in (b"/usr/bin/out", b"/../bin/python3.9"):
            images, said = self.handed(core_file([mapped(0x1000, name)]), "--root", root)
            self.assertEqual(images, [])
            self.assertIn("leads out of", said)
        images, said = self.handed(core_file([mapped(0x1000, self.python)]), "--root", root)
        self.assertEqual(images, [])
        self.assertIn("there is no file", said)

    def test_odd_names(self):
        for name, reason in ((b"a=b/python", "equals sign"), (b"\xff/python", "not UTF-8")):
            path = os.fsencode(self.folder) + b"/" + name
            os.makedirs(os.path.dirname(path))
            with open(path, "wb") as file:
                file.write(b"p")
            images, said = self.handed(core_file([mapped(0x1000, path)]))
            self.assertEqual((images, said.count("\n")), ([], 1))
            self.assertIn(reason, said)
        path = self.put("new\nline\x1b", b"p")
        images, said = self.handed(core_file([mapped(0x1000, path)]))
        self.assertEqual((images, said), ([path + b"=" + path], ""))
        images, said = self.handed(core_file([mapped(0x1000, path + b"?")]))
        self.assertEqual((images, said.count("\n"), said.count("\x1b")), ([], 1, 0))

    def test_build(self):
        self.put("lib/libpython3.9.so.1.0", built(1) + bytes(100))
        word = self.library + b"=" + self.library
        for data, images in ((b"", [word]), (built(1), [word]), (built(1)[:130], [word]), (built(2), [])):
            maps = [mapped(0x1000, self.library, 4, data), mapped(0x2000, self.library, pages=1, data=built(3))]
            maps.append(mapped(0x3000, self.other, 6, built(4)))
            found, said = self.handed(core_file(maps))
            self.assertEqual(found, images)
            self.assertEqual("is of another build" in said, not images)
        self.put("lib/libpython3.9.so.1.0", b"l")
        self.assertEqual(self.handed(core_file([mapped(0x1000, self.library, 5, built(2))])), ([word], ""))
        self.put("lib/libc.so.6", built(4))
        for data, count in ((built(4), 2), (built(5), 1)):
            maps = [mapped(0x1000, self.library), mapped(0x2000, self.other, 4, data)]
            images, said = self.handed(core_file(maps))
            self.assertEqual((len(images), said), (count, ""))

    def test_other_machine(self):
        # (over a core of aarch64 the host's own Python of the same version is no image)
        other, data = program(AARCH64), core_file([mapped(0x1000, self.python), mapped(0x2000, self.other, 4)])
        for name in ("bin/python3.9", "lib/libc.so.6"):
            self.put(name, other)
        images, said = self.handed(data)
        self.assertEqual((images, said.count("\n")), ([], 1))
        self.assertIn("(needed; ", said)
        self.assertIn("is of another machine, aarch64", said)
        self.assertIn("--root FOLDER", self.then[0])
        path = self.put("core", data[:18] + b"\xb7" + data[19:])
        status, out, said = self.tool(path, "--plain", "-l", "--layouts", LAYOUTS)
        self.assertEqual((status, said), (0, ""))
        self.assertEqual(out.split(b"\0")[4:], self.words(self.python, self.other))

    def test_tables(self):
        maps = [mapped(0x1000), mapped(0x2000)]
        first = file_table([(0x1000, 0, self.other), (0x2000, 0, self.library), (0x1000, 0, self.library)])
        notes = [note(b"CORE\0", 1, b"abc"), first, file_table([(0x1000, 0, self.python)])]
        images, _ = self.handed(core_file(maps, notes))
        self.assertEqual(images, self.words(self.python, self.library))

    def test_libraries(self):
        deleted = b"/a/libpython3.11.so.1.0 (deleted)"
        for name in (b"/libpython3.9.so", deleted, b"/libpython3.7m.so", b"/libpython2.7-so"):
            self.assertTrue(is_library(name), name)
        no_flag, no_text = b"/libpython3.9t.so", b"/libpython3.9.so\xff"
        for name in (b"libpython3.9.so", b"/libpython3.so", b"/libpython3.100.so", no_flag, no_text):
            self.assertFalse(is_library(name), name)


class Faults(Case):
    """What is no core, and what the program says."""

    def test_no_core(self):
        whole = core_file([mapped(0x1000, b"/bin/no")])
        table = whole[whole.index(b"CORE") - 12 :]
        wrong = [b"", b"text", whole[:63], whole[:100], whole[:5] + b"\2" + whole[6:], table]
        wrong += [whole[:56] + b"\xff\xff" + whole[58:], whole[:32] + b"\xff" * 8 + whole[40:]]
        for data in wrong:
            self.assertEqual(self.handed(data), ([], ""))

    def test_no_file(self):
        (self.folder / "dangling").symlink_to("elsewhere")
        for core, line in (("none", "there is no file none"), (".", ". is a folder"), (str(self.folder / "dangling"), f"{self.folder}/dangling is a link to elsewhere, which isn't there")):
            status, out, said = self.tool(core, program=self.fake("pystacks: cannot read it\n", "sys.exit(3)"))
            self.assertEqual((status, said), (3, f"dump_core: {line}\n"))
            _, out, _ = self.tool(core, "--plain")
            self.assertEqual(out.split(b"\0"), [b"dump", b"--core=" + core.encode(), b"--layouts=" + os.fsencode(LAYOUTS)])

    def test_status(self):
        core = self.put("core", core_file([mapped(0x1000, self.put("python3.14", b"p"))]))
        line = "pystacks: no layout for Python 3.14.0\n"
        status, _, said = self.tool(core, program=self.fake(line, "sys.exit(1)"))
        self.assertEqual((status, said), (1, line))
        status, _, _ = self.tool(core, program=self.fake(end="os.kill(os.getpid(), 9)"))
        self.assertEqual(status, -signal.SIGKILL)

    def test_own(self):
        core = self.put("core", core_file([]))
        cut = self.folder / "cut"
        cut.write_bytes(b"\x7fELF")
        for words, program, status, line in (
            ([core], self.folder / "none", 127, "there is no program "),
            ([core], cut, 127, "cannot run "),
            ([core, "--root", self.folder / "none"], None, 2, "there is no folder "),
            ([b"\xff"], None, 2, "a name that is not UTF-8 can't be handed over: "),
        ):
            got, out, said = self.tool(*words, program=program)
            self.assertEqual((got, out, said.count("\n")), (status, b"", 1), said)
            self.assertTrue(said.startswith("dump_core: " + line), said)
        self.assertIn("rt run", self.tool(core, program=self.folder / "none")[2])

    def test_layouts(self):
        core = self.put("core", core_file([]))
        _, out, _ = self.tool(core, "--plain", "--layouts", "my.toml")
        self.assertEqual(out.split(b"\0")[2:], [b"--layouts=my.toml"])

    def test_options(self):
        core = self.put("core", core_file([]))
        expected = [b"--layouts=" + os.fsencode(LAYOUTS)]
        for words, added in ((["-l"], ["-l"]), (["-ll", "-j"], ["-l", "-l", "-j"]), (["-j", "--locals"], ["-l", "-j"])):
            status, out, said = self.tool(core, "--plain", *words)
            self.assertEqual((status, said), (0, ""))
            self.assertEqual(out.split(b"\0")[2:], expected + [os.fsencode(it) for it in added])

    def test_machine(self):
        whole = core_file([])
        for number, layouts in ((b"\x3e", LAYOUTS), (b"\xb7", LAYOUTS.with_name("cpython-aarch64.toml"))):
            _, out, said = self.tool(self.put("core", whole[:18] + number + whole[19:]), "--plain")
            self.assertEqual((out.split(b"\0")[2:], said), ([b"--layouts=" + os.fsencode(layouts)], ""))
            self.assertTrue(layouts.is_file())
        core = self.put("core", whole[:18] + b"\x28" + whole[19:])
        status, out, said = self.tool(core)
        self.assertEqual((status, out, said.count("\n")), (2, b"", 1))
        self.assertTrue(said.startswith("dump_core: layouts/ has none of the core's machine, arm: "), said)
        self.assertEqual(self.tool(core, "--plain", "--layouts", LAYOUTS)[::2], (0, ""))


MAPS = b"""\
400000-402000 r-xp 00003000 fe:00 17                         /a b/python3.9 (deleted)
402000-403000 rw-p 00000000 00:00 0
5500001000-5500801000 rw-p 00000000 00:00 0                  [stack]
ffff00000000-ffff00001000 r--p 00000000 00:01 5              /\xff
"""
"""Such lines as /proc/PID/maps has."""


class Groups(Case):
    """Several cores, handed over with the images of all."""

    def setUp(self):
        super().setUp()
        self.python = self.put("bin/python3.9", b"p")
        self.library = self.put("lib/libpython3.9.so.1.0", built(1) + bytes(100))

    def cores(self, *data: bytes) -> List[bytes]:
        """Some cores, by their paths."""
        return [self.put(f"core{number}", it) for number, it in enumerate(data)]

    def test_images(self):
        first = core_file([mapped(0x1000, self.python)])
        second = core_file([mapped(0x1000, self.library, 4, built(1)), mapped(0x2000, self.library), mapped(0x3000, self.python)])
        cores = self.cores(first, second, b"none", first)
        status, out, said = self.tool("--group", "--plain", *cores)
        images = [it + b"=" + it for it in (self.python, self.library)]
        self.assertEqual((status, said), (0, ""))
        self.assertEqual(out.split(b"\0"), [b"triage", os.fsencode(LAYOUTS), *cores, *images])

    def test_apart(self):
        one, two = (core_file([mapped(0x1000, self.library, 5, built(number))]) for number in (1, 2))
        cores = self.cores(core_file([mapped(0x1000, self.library)]), one, two)
        status, out, said = self.tool("--group", "--by=exact", *cores)
        self.assertEqual((status, out), (2, b""))
        self.assertIn(f"{os.fsdecode(cores[1])} and {os.fsdecode(cores[2])} have different builds of", said)
        cores = self.cores(b"none", one, core_file([mapped(0x1000, self.python)], machine=AARCH64))
        status, out, said = self.tool("--group", "--by=exact", *cores)
        self.assertEqual((status, out), (2, b""))
        self.assertIn(f"{os.fsdecode(cores[1])} and {os.fsdecode(cores[2])} are of different machines", said)

    def test_many(self):
        # (more cores than files may be open)
        soft, hard = resource.getrlimit(resource.RLIMIT_NOFILE)
        cores = self.cores(*[core_file([mapped(0x1000, self.python)])] * 80)
        resource.setrlimit(resource.RLIMIT_NOFILE, (64, hard))
        try:
            status, out, said = self.tool("--group", "--plain", *cores)
        finally:
            resource.setrlimit(resource.RLIMIT_NOFILE, (soft, hard))
        self.assertEqual((status, said, len(out.split(b"\0"))), (0, "", 83))

    def test_words(self):
        core = self.put("a=b", core_file([mapped(0x1000, self.python)]))
        for words in (["--group", "--plain", core], ["--group", "-l", core], [core, core], ["--group"]):
            status, out, said = self.tool(*words)
            self.assertEqual((status, out), (2, b""), said)

    def test_prepared(self):
        # (a core that is cut is prepared, and has another name; its file table stood in what was cut off)
        data = core_file([mapped(0x1000, self.python), mapped(0x2000, data=bytes(0x2000))])
        cores = self.cores(data, data[:-0x1000], b"none")
        if os.path.isfile(PROGRAM):
            status, out, said = self.tool("--group", "--by=exact", *cores, program=PROGRAM)
            line = "    {}: bad image: " + os.fsdecode(self.python) + "\n"
            names = [os.fsdecode(it) for it in cores]
            none = f"    {names[2]}: not an ELF64 little-endian file\n"
            cut = f"    {names[1]}: no named executable map\n"
            wanted = "Refused: 3\n" + line.format(names[0]) + cut + none
            self.assertEqual((status, out.decode()), (0, wanted), said)


class Tables(Case):
    """A file table that is written into a core."""

    def test_written(self):
        segments = [mapped(0x400000, size=0x2000), mapped(0x402000, data=b"text"), mapped(0xFFFF00000000, data=b"more")]
        for more in (b"", b"odd"):
            path = Path(os.fsdecode(self.put("core", core_file(segments, [note(b"CORE\0", 1, b"abc")]) + more)))
            with open(path, "rb") as file:
                before, headers = file.read(), segments_of(file)
            add_file_table(path, list(entries_in(MAPS)))
            with open(path, "rb") as file:
                self.assertEqual(segments_of(file)[:-1], headers)
                found = [(it.segment.start, it.name, it.pages) for it in maps_of(file)]
                file.seek(64)
                self.assertEqual(file.read(len(before) - 64), before[64:])
            self.assertEqual(found, [(0x400000, b"/a b/python3.9 (deleted)", 3), (0xFFFF00000000, b"/\xff", 0)])

    def test_refused(self):
        whole = core_file([])
        for data in (b"", b"text", whole[:70], whole[:56] + b"\xfe\xff" + whole[58:]):
            with self.assertRaises(TableError):
                add_file_table(Path(os.fsdecode(self.put("core", data))), [])
            self.assertEqual((self.folder / "core").read_bytes(), data)


class Layouts(unittest.TestCase):
    """The joined layout file."""

    def test_joined(self):
        files = single_files(LAYOUTS.parent, "x86_64")
        text = LAYOUTS.read_text(encoding="utf-8")
        self.assertEqual(text, joined(files, "x86_64"), "tools/layouts/join_layouts.py -o layouts/cpython-x86_64.toml")
        self.assertNotIn(LAYOUTS, files)
        self.assertEqual([path.name for path in files], [f"cpython-{a}.{b}-x86_64.toml" for a, b in VERSIONS])

    def test_carried(self):
        # (each layout of the other machine is its own, or that of x86-64 under a head of its own)
        path = LAYOUTS.with_name("cpython-aarch64.toml")
        parts = path.read_text(encoding="utf-8").split("\n[[layout]]\n")[1:]
        versions = [it for it in VERSIONS if it >= FIRST]
        self.assertEqual(len(parts), len(versions))
        for (major, minor), part in zip(versions, parts):
            files = [path.with_name(f"cpython-{major}.{minor}-{it}.toml") for it in ("aarch64", "x86_64")]
            stored = next(it for it in files if it.is_file()).read_text(encoding="utf-8").split("\n[[layout]]\n")[1]
            self.assertEqual(part.split("\n#")[0].rstrip("\n"), stored.rstrip("\n"), (major, minor))

    def test_tables(self):
        try:
            from tomllib import loads
        except ImportError:
            self.skipTest("there is no tomllib")
        tables = [loads(path.read_text(encoding="utf-8")) for path in single_files(LAYOUTS.parent, "x86_64")]
        whole = loads(LAYOUTS.read_text(encoding="utf-8"))
        self.assertEqual(whole, {"layout": [table for it in tables for table in it["layout"]]})


@unittest.skipUnless(PROGRAM.is_file(), "the program isn't built")
class Real(Case):
    """The built program, over a small core below a folder."""

    def ran(self, name: bytes, *words) -> Tuple[int, bytes, str]:
        """What the tool comes to over the small core of this name."""
        core = self.put("core", small_of(name))
        return self.tool(core, "--root", self.folder / "container", *words, program=PROGRAM)

    def setUp(self):
        super().setUp()
        for name in ("python3.9", "python3.14"):
            self.put(f"container/usr/bin/{name}", IMAGE)
        self.layout = self.folder / "example.toml"
        self.layout.write_text(EXAMPLE, encoding="utf-8")

    def test_stack(self):
        # (`pysalvage` isn't beside it, and so the version isn't told)
        status, out, said = self.ran(b"/usr/bin/python3.9", "--layouts", self.layout)
        self.assertEqual((status, out), (0, TEXT.split("\n\n", 1)[1].encode()))
        self.assertTrue(said.startswith("dump_core: pysalvage isn't there, "), said)

    def test_missing(self):
        status, out, said = self.ran(b"/usr/bin/python3.8", "--layouts", self.layout)
        self.assertEqual((status, out), (1, b""))
        self.assertEqual(said.splitlines()[1:], ["pystacks: image not given: /usr/bin/python3.8"])

    def test_no_layout(self):
        status, out, said = self.ran(b"/usr/bin/python3.14")
        self.assertEqual((status, out, said), (1, b"", "pystacks: no layout for Python 3.14.0\n"))

    def test_no_core(self):
        for name, status, line in (("none", 3, "cannot read"), ("text", 1, "not an ELF64 little-endian file")):
            core = self.folder / name
            if name == "text":
                core.write_bytes(b"text")
            got, out, said = self.tool(core, "--plain", program=PROGRAM)
            self.assertEqual((got, out), (status, b""))
            self.assertTrue(said.startswith(f"pystacks: {line}"), said)


if __name__ == "__main__":
    unittest.main(verbosity=0)
