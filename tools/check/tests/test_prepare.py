#!/usr/bin/env python3
"""That a core which dump_core.py prepares has the same bytes at the same addresses, the same notes and the same maps.

A reader of the tests' own (core_reader.py) compares them. Where the program is built, what it prints over a prepared
core is compared with what it prints over the core itself.
"""

import base64
import bz2
import gzip
import json
import lzma
import os
import random
import re
import shutil
import subprocess
import sys
import tempfile
import unittest
from concurrent.futures import ThreadPoolExecutor
from dataclasses import replace
from pathlib import Path
from typing import Callable, List, Optional, Tuple

from rooms import TOOLS  # (first: it makes the other rooms known)

from pystacks_tool.cores import sparse
from pystacks_tool.cores.gaps import entries_in
from pystacks_tool.cores.prepare import Prepared, Unprepared, Wishes, available, prepared
from core_reader import Reader, reader
from pystacks_tool.places import PROGRAM as BUILT
from find_pythons import pythons
from made import EXAMPLE, NOTE, Segment, core_file, elf_file, file_table, note
from small_core import PROGRAM as IMAGE, TEXT, bss, heap, small, small_of
from test_dump_core import mapped

PAGE = 4096
MIB = 1 << 20
PROGRAM = Path(os.environ.get("PYSTACKS", BUILT))
"""The built program; another one can be named."""

FORCED = Wishes(is_forced=True)


class Case(unittest.TestCase):
    """A folder with cores."""

    def setUp(self):
        folder = tempfile.TemporaryDirectory(prefix="prepare-")
        self.addCleanup(folder.cleanup)
        self.folder = Path(os.path.realpath(folder.name))

    def put(self, name: str, data: bytes) -> Path:
        """Writes a file below the folder."""
        path = self.folder / name
        path.parent.mkdir(parents=True, exist_ok=True)
        path.write_bytes(data)
        return path

    def prepare(self, data: bytes, wishes: Wishes = FORCED) -> Optional[Prepared]:
        """What a core comes to."""
        with open(self.put("core", data), "rb") as file:
            new = prepared(file, wishes)
        if new:
            self.addCleanup(new.file.close)
        return new

    def new(self, data: bytes, wishes: Wishes = FORCED) -> Tuple[bytes, str]:
        """The bytes of a core that was prepared, and what is said."""
        new = self.prepare(data, wishes)
        assert new is not None
        new.file.seek(0)
        return new.file.read(), "; ".join(new.said)

    def same(self, old: bytes, new: bytes) -> Reader:
        """Fails where two cores differ; returns the reader of the second."""
        one, other = reader(old), reader(new)
        self.assertEqual(one.bytes_at(), other.bytes_at())
        self.assertEqual(one.addresses(), other.addresses())
        self.assertEqual((one.notes, one.names()), (other.notes, other.names()))
        return other

    def tool(self, *words, stdin: int = subprocess.DEVNULL) -> Tuple[int, bytes, str]:
        """What the tool comes to, which passes the program's text on: status, output, and what was said."""
        command = [sys.executable, "-B", TOOLS / "dump_core.py", "--plain", "--program", PROGRAM, *words]
        ran = subprocess.run(command, timeout=60, stdin=stdin, stdout=subprocess.PIPE, stderr=subprocess.PIPE)
        return ran.returncode, ran.stdout, ran.stderr.decode("utf-8", "replace")


def pages(*used: int) -> bytes:
    """Pages of which those have bytes whose number isn't 0."""
    return b"".join(bytes(100) + bytes([it]) + bytes(PAGE - 101) if it else bytes(PAGE) for it in used)


class Sparse(Case):
    """Cores of zero pages."""

    def test_pieces(self):
        zero = [0] * 6
        data = pages(1, *zero, 2, 0, 3, *zero) + bytes(77)
        old = core_file([mapped(0x10000, None, 6, data), mapped(0x100000, None, 6, bytes(5 * PAGE), size=9 * PAGE)])
        new, said = self.new(old)
        found = self.same(old, new)
        spans = [(it.start, len(it.data), it.memory) for it in found.loads]
        first = [(0x10000, PAGE), (0x11000, 6 * PAGE), (0x17000, 3 * PAGE), (0x1A000, 6 * PAGE + 77)]
        self.assertEqual(spans, [(at, size, size) for at, size in first] + [(0x100000, 5 * PAGE, 9 * PAGE)])
        self.assertLess(len(new), 12 * PAGE)
        self.assertEqual(said, "0.1 MB of 0.1 MB are zero pages, and left out")

    def test_names(self):
        data = pages(1) + bytes(20 * PAGE) + pages(2)
        at = [0x11000, 0x12000, 0x14000]
        shadows = [mapped(it, b"/other", 4, b"", size=1) for it in at]
        for flags, name in ((6, b"/data"), (4, b"/data"), (5, b"/bin/python3.9"), (6, None)):
            for size in (None, 30 * PAGE):
                old = core_file([*shadows, mapped(0x10000, name, flags, data, size=size), mapped(0x50000, None, 6, data)])
                found = self.same(old, self.new(old)[0])
                is_whole = name is not None and (flags == 5 or flags == 4 and size is not None)
                self.assertEqual(len([it for it in found.loads if it.start < 0x50000]) == 4, is_whole)
                self.assertFalse({it.start for it in found.loads[3:]} & set(at))

    def test_order(self):
        # (of two segments that meet the first one's bytes count)
        one, other = pages(1) + bytes(9 * PAGE), pages(*[7] * 20)
        old = core_file([mapped(0x12000, None, 6, one), mapped(0x10000, None, 4, other), mapped(0x10000, None, 6, one)])
        self.same(old, self.new(old)[0])

    def test_random(self):
        chance = random.Random(58)
        for _ in range(15):
            segments = [self.segment(chance) for _ in range(chance.randrange(1, 6))]
            old = core_file([*segments, mapped(0x900000, None, 6, bytes(5 * PAGE))], [note(b"CORE\0", 1, b"n" * 336)])
            self.same(old, self.new(old)[0])

    def segment(self, chance: random.Random) -> Segment:
        """A segment, most of it zero."""
        used = [chance.choice([0, 0, 0, 0, 0, 0, 0, 1]) * chance.randrange(256) for _ in range(chance.randrange(16))]
        data = pages(*used) + bytes(chance.choice([0, 5]))
        start, size = 0x100000 + PAGE * chance.randrange(30), len(data) + chance.choice([0, 0, 1, PAGE])
        return mapped(start, chance.choice([None, None, b"/a"]), chance.choice([4, 5, 6]), data, size=size)

    def test_shares(self):
        # (a long run has several headers, none of which begins at a named address)
        for name, value in (("ZEROS", 4 * PAGE), ("MOST_SHARES", 8)):
            self.addCleanup(setattr, sparse, name, getattr(sparse, name))
            setattr(sparse, name, value)
        data = pages(1) + bytes(30 * PAGE) + pages(2)
        shadow = mapped(0x10000 + 5 * PAGE, b"/other", 4, b"", size=1)
        old = core_file([shadow, mapped(0x10000, None, 6, data)])
        new, _ = self.new(old)
        self.same(old, new)
        self.assertLess(len(new), 8 * PAGE)

    def test_most(self):
        self.addCleanup(setattr, sparse, "MOST_HEADERS", sparse.MOST_HEADERS)
        sparse.MOST_HEADERS = sparse.MOST_SHARES + 2 + 2 * 2
        runs = [4, 9, 5, 8, 6]
        old = core_file([mapped(0x10000, None, 6, b"".join(pages(1) + bytes(it * PAGE) for it in runs))])
        found = self.same(old, self.new(old)[0])
        sizes = [len(it.data) // PAGE for it in found.loads if not any(it.data)]
        self.assertEqual(sizes, [9, 8])

    def test_rest(self):
        # (what has few zero pages, is short, or is none, is read as it is)
        for data in (b"", b"text", core_file([]), core_file([mapped(0x1000, None, 6, bytes(50 * PAGE))])):
            self.assertIsNone(self.prepare(data, Wishes()))
        self.assertIsNone(self.prepare(core_file([mapped(0x1000, None, 6, pages(1, 2, 3))])))
        whole = bytearray(core_file([mapped(0x1000, None, 6, bytes(9 * PAGE)), mapped(0x90000, None, 6, b"")]))
        whole[64 + 56 + 8 : 64 + 56 + 16], whole[64 + 56 + 32 : 64 + 56 + 40] = whole[72:80], whole[96:104]
        self.assertIsNone(self.prepare(bytes(whole)), "segments that share bytes")

    def test_room(self):
        # (what is longer than there is room for is made shorter, however little that is)
        old = core_file([mapped(0x1000, None, 6, bytes(17000 * PAGE) + pages(*[1] * 18000))])
        self.assertIsNone(self.prepare(old, Wishes(room=len(old))))
        new, said = self.new(old, Wishes(room=len(old) - 1))
        self.assertLess(len(new), len(old) - 60 * MIB)
        self.assertEqual(said, "70 MB of 143 MB are zero pages, and left out")

    def test_available(self):
        self.assertEqual(available("MemTotal: 9 kB\nMemFree: 8 kB\nMemAvailable:    7 kB\n"), 7168)
        self.assertIsNone(available("MemTotal: 9 kB\n"))

    def test_large(self):
        # (a file of holes)
        path = self.put("core", core_file([mapped(0x100000, None, 6, b"")]))
        row = bytearray(path.read_bytes())
        at, size = PAGE, 3 << 30
        row[72:80], row[96:112] = at.to_bytes(8, "little"), size.to_bytes(8, "little") * 2
        with open(path, "r+b") as file:
            file.write(row)
            file.truncate(at + size)
            for place in (0, 1 << 30, size - 1):
                os.pwrite(file.fileno(), b"x", at + place)
        with open(path, "rb") as file:
            new = prepared(file, Wishes())
        assert new is not None
        with new.file as file:
            file.seek(0)
            found = reader(file.read())
        self.assertEqual(sum(it.memory for it in found.loads), size)
        for place in (0, 1 << 30, size - 1):
            self.assertEqual(found.read(0x100000 + place, 1), b"x")
        self.assertEqual(sum(it.data.count(b"x") for it in found.loads), 3)
        self.assertLess(len({it.start for it in found.loads}), 1600)


def apport(data: bytes) -> bytes:
    """A report of apport, with this core."""
    packed = gzip.compress(data)
    parts = [packed[:10], *(packed[at : at + 1000] for at in range(10, len(packed), 1000))]
    lines = b"".join(b" " + base64.b64encode(it) + b"\n" for it in parts)
    return b"ProblemType: Crash\nArchitecture: amd64\nCoreDump: base64\n" + lines + b"Date: today\n Core: x\n"


def by_program(name: str) -> Callable[[bytes], bytes]:
    """What packs some bytes by a program."""
    return lambda data: subprocess.run([name, "-c"], input=data, stdout=subprocess.PIPE, check=True, timeout=60).stdout


PACKERS = {"gzip": gzip.compress, "xz": lzma.compress, "bzip2": bz2.compress, "apport; unpacked from gzip": apport}
PACKERS.update({name: by_program(name) for name in ("zstd", "lz4") if shutil.which(name)})


class Packed(Case):
    """Cores that are packed."""

    def test_packed(self):
        old = core_file([mapped(0x10000, b"/a", 6, pages(1, *[0] * 300, 2) + bytes(77))])
        for name, pack in PACKERS.items():
            new, said = self.new(pack(old), Wishes())
            self.assertEqual((new, said), (old, f"unpacked from {name}"))
            new, said = self.new(pack(old))
            self.assertIn(f"unpacked from {name}; ", said)
            self.same(old, new)

    def test_holes(self):
        old = core_file([mapped(0x10000, b"/a", 6, pages(1) + bytes(40 << 20))])
        new = self.prepare(gzip.compress(old, 1), Wishes())
        self.assertLess(os.fstat(new.file.fileno()).st_blocks * 512, 1 << 20)

    def test_broken(self):
        chance = random.Random(1)
        data = bytes(chance.randrange(256) for _ in range(1 << 15)) * 40
        whole = elf_file(4, [Segment(0, note(b"CORE\0", 1, b"n" * 336), 0, kind=NOTE), Segment(0x10000, data, 6)])
        for name, pack in PACKERS.items():
            packed = pack(whole)
            new, said = self.new(packed[: len(packed) * 7 // 8], Wishes())
            self.assertIn("breaks off", said)
            if new.startswith(b"\x7fELF"):
                self.assertIn("; core is cut: ", said)
                here, there = reader(whole).loads[0].data, reader(new).loads[0].data
                self.assertEqual(here[: len(there)], there)

    def test_no_program(self):
        path = os.environ["PATH"]
        self.addCleanup(os.environ.__setitem__, "PATH", path)
        os.environ["PATH"] = str(self.folder)
        for head, name in ((b"\x28\xb5\x2f\xfd", "zstd"), (b"\x04\x22\x4d\x18", "lz4")):
            with self.assertRaises(Unprepared) as caught:
                self.prepare(head + bytes(100))
            self.assertIn(f"install the program {name}", str(caught.exception))
            self.assertEqual(caught.exception.status, 127)

    def test_keep(self):
        old = core_file([mapped(0x10000, b"/a", 6, pages(1, 0, 2))])
        self.new(gzip.compress(old), Wishes(keep=str(self.folder / "kept")))
        self.assertEqual((self.folder / "kept").read_bytes(), old)


class Cut(Case):
    """Cores whose end is missing."""

    def parts(self) -> bytes:
        """A core whose notes stand in front."""
        whole = [Segment(0, note(b"CORE\0", 1, b"n" * 336) + file_table([(0x10000, 0, b"/a"), (0x20000, 0, b"/b")]), 0, kind=NOTE)]
        whole += [Segment(0x10000, pages(1, 2), 5, None), Segment(0x20000, b"", 5, PAGE), Segment(0x30000, pages(3, 4), 4)]
        return elf_file(4, [*whole, Segment(0x40000, b"end", 4, PAGE)])

    def test_cut(self):
        whole = self.parts()
        old = reader(whole)
        for gone in (1, 3, 4, PAGE, 2 * PAGE + 3, 2 * PAGE + 4, 3 * PAGE, 4 * PAGE):
            new, said = self.new(whole[:-gone], Wishes())
            found = reader(new)
            said_first = f"core is cut: {len(whole) - gone} of {len(whole)} bytes; what is there is shown"
            self.assertEqual(said, said_first)
            self.assertEqual((found.notes, found.addresses()), (old.notes, old.addresses()))
            here = dict(list(old.bytes_at().items()))
            there = found.bytes_at()
            self.assertEqual(len(here) - len(there), gone)
            self.assertTrue(there.items() <= here.items())
            for one, other in zip(old.loads, found.loads):
                self.assertEqual(other.flags, one.flags | (2 if len(other.data) < len(one.data) else 0))
                self.assertEqual((other.start, other.memory), (one.start, one.memory))

    def test_notes(self):
        first, table = note(b"CORE\0", 1, b"n" * 336), file_table([(0x10000, 0, b"/a")])
        whole = elf_file(4, [Segment(0x10000, b"x", 6), Segment(0, first + table, 0, kind=NOTE)])
        for gone in range(1, len(table) + 1):
            new, _ = self.new(whole[:-gone], Wishes())
            self.assertEqual(reader(new).notes, [first])
        new, _ = self.new(whole[: -len(table) - 1], Wishes())
        self.assertEqual(reader(new).notes, [b""])

    def test_headers(self):
        # (a core without all its headers is the program's to refuse, and so is one whose headers are nonsense)
        whole = self.parts()
        for data in (whole[:64], whole[: 64 + 56 * 5 - 1], whole[:130] + b"\xff" * 6 + whole[136:]):
            self.assertIsNone(self.prepare(data, Wishes()))

    def test_sparse(self):
        whole = elf_file(4, [Segment(0x10000, pages(1, *[0] * 20, 2, *[0] * 20), 6), Segment(0x90000, pages(3), 4)])
        for gone in (1, PAGE, PAGE + 5, 4 * PAGE + 5):
            new, said = self.new(whole[:-gone])
            old, _ = self.new(whole[:-gone], Wishes())
            self.same(old, new)
            self.assertEqual(said.count("; "), 2)


def image(*loads: Segment) -> bytes:
    """An ELF file of these load segments, each at its own place in the file."""
    head = bytearray(elf_file(3, [replace(it, data=b"") for it in loads]))
    for number, it in enumerate(loads):
        place, row = 64 + 56 * number, it.pages * PAGE + it.start % PAGE
        head[place + 8 : place + 16] = row.to_bytes(8, "little")
    return bytes(head)


class Gaps(Case):
    """Cores that leave out maps of their file table."""

    def setUp(self):
        super().setUp()
        text = [Segment(0, b"", 4, 0x900), Segment(0x1900, b"", 5, PAGE, pages=1), Segment(0x3F00, b"", 6, 3 * PAGE, pages=2)]
        self.image = os.fsencode(self.put("image", image(*text)))
        self.data = os.fsencode(self.put("data", b"data"))
        self.other = os.fsencode(self.put("other", image(Segment(0, b"", 5, 9 * PAGE, pages=7))))

    def gaps(self, entries: List[Tuple[int, int, bytes]], *maps: Segment) -> Tuple[Reader, str]:
        """A core with the maps that are added, and what is said."""
        old = core_file(list(maps), [file_table(entries)])

        def finder(_):
            return lambda name: name if os.path.isfile(name) else None

        data, said = self.new(old, Wishes(finder=finder))
        found = reader(data)
        self.assertEqual(reader(old).bytes_at(), found.bytes_at())
        self.assertEqual(reader(old).notes, found.notes)
        self.assertTrue(reader(old).addresses() < found.addresses())
        return found, said

    def test_flags(self):
        at = 0x5000000
        entries = [(at, 0, self.image), (at + PAGE, 1, self.image), (at + 3 * PAGE, 2, self.image)]
        found, said = self.gaps(entries, mapped(at - PAGE, None, 6, b"low"), mapped(at + PAGE * 9, None, 6, b"high"))
        self.assertEqual(said, "3 maps of its file table added")
        self.assertEqual(found.names(), [(at, 4, self.image), (at + PAGE, 5, self.image), (at + 3 * PAGE, 6, self.image)])
        self.assertEqual([it.start for it in found.loads], sorted(it.start for it in found.loads))
        self.assertEqual([len(it.data) for it in found.loads], [3, 0, 0, 0, 4])

    def test_files(self):
        # (a file that is gone may be the program's, a file of data is none, and another build's has no such place)
        gone, at = b"/none/such", 0x5000000
        entries = [(at, 0, gone), (at + PAGE, 0, self.data), (at + 2 * PAGE, 0, self.image), (at + 3 * PAGE, 3, self.image)]
        entries += [(at + 5 * PAGE, 0, self.other), (at + 9 * PAGE, 1, b"")]
        found, _ = self.gaps(entries, mapped(at - PAGE, None, 6, b"low"))
        flags = [(name, flags) for _, flags, name in found.names()]
        wanted = [(gone, 7), (self.data, 6), (self.image, 4), (self.image, 6), (self.other, 6)]
        self.assertEqual(flags, wanted)

    def test_covered(self):
        # (what meets a segment is covered, also by one that has no bytes)
        at = 0x5000000
        maps = [mapped(at, None, 4, b"", size=2 * PAGE), mapped(at + 5 * PAGE + 5, None, 6, b"x")]
        entries = [(at + PAGE, 0, self.image), (at + 2 * PAGE, 1, self.image), (at + 5 * PAGE, 0, self.image)]
        found, said = self.gaps(entries, *maps)
        self.assertEqual((said, [it.start for it in found.loads]), (
            "1 map of its file table added", [at, at + 2 * PAGE, at + 5 * PAGE + 5]))

    def test_whole(self):
        self.assertIsNone(self.prepare(core_file([mapped(0x10000, self.image, 5, b"x")]), Wishes()))
        bad = [file_table([]), file_table([(0, 0, b""), ((1 << 64) - 2 * PAGE, 0, b"")])]
        self.assertIsNone(self.prepare(core_file([mapped(0x10000, None, 5, b"x")], bad), Wishes()))


class Maps(Case):
    """Cores without a file table, and a copy of /proc/PID/maps."""

    def setUp(self):
        super().setUp()
        loads = [Segment(0, b"", 4, 0x900), Segment(0x1900, b"", 5, PAGE, pages=1)]
        self.image = os.fsencode(self.put("image", image(*loads)))

    def test_maps(self):
        at = 0x5000000
        text = f"{at:x}-{at + PAGE:x} r--p 00000000 08:01 12  {self.folder}/image\n"
        text += f"{at + PAGE:x}-{at + 2 * PAGE:x} r-xp 00001000 08:01 12        {self.folder}/image\n"
        text += f"{at + 2 * PAGE:x}-{at + 4 * PAGE:x} rw-p 00000000 00:00 0 \n{at:x}-{at:x} r--p 0 0:0 1 /empty\n"
        text += f"{at + 8 * PAGE:x}-{at + 9 * PAGE:x} rw-p 00000000 00:00 0 [heap]\nnonsense\n"
        text += f"{at + 9 * PAGE:x}-{at + 10 * PAGE:x} rw-s 00003000 00:00 5 /a\\012b (deleted)\n"
        maps = tuple(entries_in(text.encode()))
        wanted = [(at, at + PAGE, 0, self.image), (at + PAGE, at + 2 * PAGE, PAGE, self.image)]
        wanted.append((at + 9 * PAGE, at + 10 * PAGE, 3 * PAGE, b"/a\nb (deleted)"))
        self.assertEqual([(it.start, it.end, it.offset, it.name) for it in maps], wanted)
        old = core_file([mapped(at + PAGE, None, 5, pages(1, 2, 3)[:-9], size=3 * PAGE)], [note(b"CORE\0", 1, b"n" * 336)])
        new, said = self.new(old, Wishes(maps=maps, finder=lambda _: lambda name: name if os.path.isfile(name) else None))
        found = reader(new)
        self.assertEqual(said, "a file table of 3 maps written; 2 maps of its file table added")
        self.assertEqual(found.bytes_at(), reader(old).bytes_at())
        self.assertEqual(found.notes[:1], reader(old).notes)
        self.assertEqual([it.start for it in found.loads], [at, at + PAGE, at + 2 * PAGE, at + 9 * PAGE])
        names = [(at, 4, self.image), (at + PAGE, 5, self.image), (at + 9 * PAGE, 7, b"/a\nb (deleted)")]
        self.assertEqual(found.names(), names)
        self.assertEqual([len(it.data) for it in found.loads], [0, PAGE, 2 * PAGE - 9, 0])


def told_by(python: str, *words: str) -> Tuple[subprocess.Popen, dict]:
    """A child of a Python, and what it says."""
    child = str(Path(__file__).resolve().with_name("prepare_child.py"))
    command, environment = [python, "-E", "-S", child, *words], {**os.environ, "MALLOC_ARENA_MAX": "1"}
    process = subprocess.Popen(command, env=environment, stdout=subprocess.PIPE, stderr=subprocess.DEVNULL)
    assert process.stdout is not None
    line = process.stdout.readline()
    return process, json.loads(line) if line else {}


def printed(text: str) -> List[List[List[str]]]:
    """The frames of each thread in a report: functions and files."""
    threads = [it.splitlines()[1:] for it in re.split(r"^Thread ", text, flags=re.MULTILINE)[1:]]
    return [[list(re.fullmatch(r"    (.*?) \((.*?)(?::\d+)?\)", line).groups()) for line in its] for its in threads]


@unittest.skipUnless(PROGRAM.is_file(), "the program isn't built")
@unittest.skipUnless(shutil.which("gdb"), "there is no gdb")
class Gcore(Case):
    """Cores of gdb, of each Python that is here."""

    def gcore(self, python: str, core: Path) -> Optional[dict]:
        """What a child says of whom a core is taken, or nothing where it can't be taken."""
        process, told = told_by(python)
        try:
            plain = ["-nx", "-batch", "--readnever", "-iex", "set auto-solib-add off"]
            command = ["gdb", *plain, "-p", str(told.get("pid", 0)), "-ex", f"gcore {core}"]
            quiet = {"stdin": subprocess.DEVNULL, "stdout": subprocess.DEVNULL, "stderr": subprocess.DEVNULL}
            subprocess.run(command, timeout=60, **quiet)
        finally:
            process.kill()
            process.communicate()
        return told if told and core.is_file() else None

    def shown(self, python: str, number: int) -> Tuple[str, Optional[dict], int, str, str]:
        """What a core of a Python comes to, beside the process's own words."""
        core = self.folder / str(number)
        told = self.gcore(python, core)
        if told is None:
            return python, None, 0, "", ""
        status, out, said = self.tool(core)
        core.unlink()
        return python, told, status, out.decode("utf-8", "replace"), said

    def test_gcore(self):
        found = pythons()
        with ThreadPoolExecutor(4) as pool:
            results = list(pool.map(self.shown, found, range(len(found))))
        for python, told, status, out, said in results:
            if told is None:
                print(f"test_prepare: skipped: no core of {python} was taken", flush=True)
                continue
            self.assertEqual(status, 0, (python, said))
            self.assertIn("of its file table added", said)
            threads = printed(out)
            self.assertEqual(threads[0], [["<module>", told["file"]]], python)
            self.assertEqual(sorted(threads[1:]), sorted(told["others"]), python)


@unittest.skipUnless(PROGRAM.is_file(), "the program isn't built")
class Real(Case):
    """The built program over cores that are prepared."""

    def setUp(self):
        super().setUp()
        self.root = self.put("container/usr/bin/python3.9", IMAGE).parents[2]
        self.layout = self.put("example.toml", EXAMPLE.encode())
        self.words = ["--root", self.root, "--layouts", self.layout]

    def large(self, name: str = "core") -> Path:
        """A core of which most is zero."""
        data = small_large()
        path = self.put(name, b"")
        with open(path, "r+b") as file:
            for at in (it for it in range(0, len(data), PAGE) if data[it : it + PAGE].strip(b"\0")):
                os.pwrite(file.fileno(), data[at : at + PAGE], at)
            file.truncate(len(data))
        return path

    def test_same(self):
        core = self.large()
        status, out, said = self.tool(core, *self.words)
        line = "dump_core: 67 MB of 67 MB are zero pages, and left out\n"
        self.assertEqual((status, out.decode(), said), (0, TEXT, line))
        self.assertEqual(os.listdir(self.folder).count("core"), 1)

    def test_keep(self):
        core, keep = self.large(), self.folder / "kept"
        status, out, _ = self.tool(core, *self.words, "--keep", keep)
        self.assertEqual((status, out), (0, TEXT.encode()))
        self.assertLess(keep.stat().st_size, 9 << 20)
        self.assertEqual(self.tool(keep, *self.words), (0, TEXT.encode(), ""))
        before = core.stat()
        for name in (core, keep):
            status, out, said = self.tool(core, *self.words, "--keep", name)
            self.assertEqual((status, out, said.splitlines()[0]), (5, b"", f"dump_core: cannot write {name}: File exists"))
        self.assertEqual((core.stat().st_size, core.stat().st_mtime), (before.st_size, before.st_mtime))

    def test_no_keep(self):
        core = self.put("core", small_of(b"/usr/bin/python3.9"))
        status, out, said = self.tool(core, *self.words, "--keep", self.folder / "kept")
        self.assertEqual((status, out), (0, TEXT.encode()))
        self.assertEqual(said, f"dump_core: the core needs no preparing, and {self.folder / 'kept'} isn't written\n")
        self.assertFalse((self.folder / "kept").exists())

    def test_maps(self):
        whole = core_file([heap().segment(6), Segment(0x400000, b"", 5, 0x1000), bss()])
        core, maps = self.put("core", whole), self.put("maps", b"400000-401000 r-xp 00000000 08:01 7 /usr/bin/python3.9\n")
        status, out, said = self.tool(core, *self.words, "--maps", maps)
        self.assertEqual((status, out, said), (0, TEXT.encode(), "dump_core: a file table of 1 map written\n"))
        for name, line in (("none", "cannot read "), ("core", f"{core} has no line of a mapped file")):
            status, out, said = self.tool(core, *self.words, "--maps", self.folder / name)
            self.assertEqual((status, out), (2, b""))
            self.assertTrue(said.startswith(f"dump_core: {line}"), said)

    def test_fault(self):
        core = self.large()
        status, out, said = self.tool(core, "--root", self.root, "--layouts", self.put("no.toml", b"="))
        self.assertEqual((status, out, said.splitlines()[1:]), (6, b"", ["pystacks: layouts: not TOML"]))

    def test_cut(self):
        # (the notes stand at the end of this core, and its heap in front)
        whole = small_of(b"/usr/bin/python3.9")
        kinds = set()
        for part in (1, 30, 100, len(whole) // 10, len(whole) // 2, len(whole) * 9 // 10):
            core = self.put("core", whole[: len(whole) - part])
            status, out, said = self.tool(core, *self.words)
            kinds.add((status, out))
            self.assertIn(said.count("\n"), (1, 2, 3))
        self.assertEqual(kinds, {(1, b"")})

    def test_pipe(self):
        data = small_of(b"/usr/bin/python3.9")
        for pack, more in ((bytes, ""), (gzip.compress, "; unpacked from gzip")):
            ends = os.pipe()
            os.write(ends[1], pack(data))
            os.close(ends[1])
            status, out, said = self.tool("/dev/stdin", *self.words, stdin=ends[0])
            os.close(ends[0])
            self.assertEqual((status, out, said), (0, TEXT.encode(), f"dump_core: unpacked from a pipe{more}\n"))

    def test_closed(self):
        core = self.large()
        command = [sys.executable, "-B", TOOLS / "dump_core.py", "--plain", core, "--program", PROGRAM, *self.words]
        with open("/dev/full", "wb") as full:
            ran = subprocess.run(command, stdout=full, stderr=subprocess.PIPE, timeout=60)
        self.assertEqual((ran.returncode, ran.stderr.splitlines()[1:]), (4, [b"pystacks: cannot write"]))


def small_large() -> bytes:
    """The small core, with as many zero pages as make it worth preparing."""
    return small(more=[mapped(0x7F0000000000, None, 6, bytes((64 << 20) + 5))])


if __name__ == "__main__":
    unittest.main(verbosity=0)
