#!/usr/bin/env python3
"""That a part of a core which dump_core.py makes is one: the same notes, the same maps, and the same bytes wherever it has
bytes; and that it grows by what a program missed, for which one stands in that walks a chain of words.
"""

import io
import json
import os
import random
import sys
import tempfile
import unittest
from contextlib import redirect_stderr
from pathlib import Path
from typing import Dict, List, Optional, Sequence, Tuple

from rooms import CHECK  # (first: it makes the other rooms known)

from pystacks_tool.ask.parts import RUNS, ask_over, say_left_out
from pystacks_tool.cores.opened import OpenedCore
from pystacks_tool.cores.parts import BLOCK, FIRST, Part, alone, joined, sizes
from pystacks_tool.cores.headers import Header
from pystacks_tool.cores.maps import Use, Wanted
from pystacks_tool.cores.prepare import Prepared, Wishes, prepared
from pystacks_tool.cores.tables import Entry
from pystacks_tool.faults import Fault
from pystacks_tool.options import Options
from core_reader import Reader, reader
from made import Segment, core_file

PAGE = 4096
MIB = 1 << 20
HEAP = 0x7F00_0000_0000

CHAIN = """#!{python} -B
import json, sys
sys.path[:0] = {rooms!r}
from core_reader import reader
words = sys.argv[1:]
if words == ["--help"]:
    print("--missing")
    sys.exit(0)
core = reader(open(words[words.index("--") + 1], "rb").read())
at, met, missed = {start}, 0, []
while at:
    word = core.read(at, 8)
    if word is None:
        missed = [at >> 16, (at + 7) >> 16]
        break
    met, at = met + 1, int.from_bytes(word, "little")
with open({log!r}, "a") as log:
    log.write("%d\\n" % met)
told = {{"blocks": sorted(set(missed)), "above": 0}}
print(json.dumps({{"met": met, "missing": told if "--missing" in words else None}}))
sys.exit({status} if missed else 0)
"""
"""A program that walks a chain of words from an address on, and tells what it missed."""


def random_bytes(size: int, seed: int = 1) -> bytes:
    """Bytes of which no page is zero."""
    return random.Random(seed).getrandbits(8 * size).to_bytes(size, "little")


def with_words(data: bytes, start: int, words: Dict[int, int]) -> bytes:
    """Bytes that stand at an address, with these words at others."""
    found = bytearray(data)
    for at, word in words.items():
        found[at - start : at - start + 8] = word.to_bytes(8, "little")
    return bytes(found)


def chain(places: Sequence[int]) -> Dict[int, int]:
    """Words each of which leads to the next one, and the last to null."""
    return dict(zip(places, [*places[1:], 0]))


class Case(unittest.TestCase):
    """A folder with a core."""

    def setUp(self) -> None:
        folder = tempfile.TemporaryDirectory(prefix="parts-")
        self.addCleanup(folder.cleanup)
        self.folder = Path(os.path.realpath(folder.name))
        self.core = self.folder / "core"
        self.log = self.folder / "log"

    def begun(self, data: bytes, budget: int, first: int = BLOCK) -> Prepared:
        """The part of a core with which its reading begins."""
        self.core.write_bytes(data)
        file = open(self.core, "rb")
        self.addCleanup(file.close)
        new = prepared(file, Wishes(budget=budget, first=first))
        assert new is not None and new.part is not None
        self.addCleanup(new.file.close)
        return new

    def part(self, data: bytes, budget: int, first: int = BLOCK) -> Part:
        """The same, as it grows."""
        part = self.begun(data, budget, first).part
        assert part is not None
        return part

    def read(self, part: Part) -> Reader:
        """A part, read."""
        part.file.seek(0)
        return reader(part.file.read())

    def same(self, part: Part) -> Reader:
        """Fails where a part isn't one of the core; returns what is read of it."""
        own, whole = self.read(part), reader(self.core.read_bytes())
        self.assertEqual(own.notes, whole.notes)
        self.assertEqual([(start, name) for start, _, name in own.names()], [(start, name) for start, _, name in whole.names()])
        ends = sorted((it.start, it.start + it.memory) for it in whole.loads if it.memory)
        self.assertEqual(joined((it.start, it.start + it.memory) for it in own.loads if it.memory), joined(ends))
        for it in own.loads:
            if it.data:
                self.assertEqual(whole.read(it.start, len(it.data)), it.data)
            elif any(other.start <= it.start < other.start + len(other.data) for other in whole.loads):
                self.assertTrue(it.flags & 2, it)
        return own

    def program(self, start: int, status: int = 0) -> Path:
        """The program that walks a chain."""
        path = self.folder / "pysalvage"
        rooms = [os.fspath(CHECK)]
        path.write_text(CHAIN.format(python=sys.executable, rooms=rooms, start=start, log=str(self.log), status=status))
        path.chmod(0o700)
        return path

    def asked(self, part: Part, start: int, status: int = 0) -> Tuple[int, Optional[int], List[int], str]:
        """What comes of a core: the status, how far the last run came, how far each came, and what is said."""
        program = self.program(start, status)
        opened = OpenedCore("core", part.file, "layouts", [], part)
        said = io.StringIO()
        with redirect_stderr(said):
            answer = ask_over(Options(), opened, program)
        met = json.loads(answer.out)["met"] if answer.out else None
        return answer.status, met, [int(it) for it in self.log.read_text().split()], said.getvalue()


class Parts(Case):
    """What a part is."""

    def test_begins_with_small_segments(self) -> None:
        small, large = random_bytes(3 * PAGE), random_bytes(4 * MIB, 2)
        data = core_file([Segment(0x10000, small, 6), Segment(HEAP, large, 6)])
        part = self.part(data, MIB)
        own = self.same(part)
        self.assertEqual(own.read(0x10000, len(small)), small)
        self.assertIsNone(own.read(HEAP, 1))
        self.assertEqual(part.spent, len(small) + sum(len(it) for it in own.notes))

    def test_grows_by_what_was_missed(self) -> None:
        heap = random_bytes(12 * MIB)
        part = self.part(core_file([Segment(HEAP, heap, 6)]), 11 * MIB)
        at = HEAP + 5 * MIB
        self.assertTrue(part.grow([at >> 16], 1))
        own = self.same(part)
        self.assertEqual(own.read(at, BLOCK), heap[5 * MIB : 5 * MIB + BLOCK])
        self.assertIsNone(own.read(at + MIB, 1))
        self.assertTrue(part.grow([(at + MIB) >> 16], 3))
        self.assertIsNotNone(self.same(part).read(at + 2 * MIB, 8))
        # (what it has isn't given again, and an address that is in no segment is none of the core's)
        self.assertFalse(part.grow([at >> 16, 0x1234], 4))
        self.assertEqual(part.left_out([at >> 16, 0x1234]), 0)
        self.same(part)

    def test_no_room(self) -> None:
        heap = random_bytes(6 * MIB)
        part = self.part(core_file([Segment(HEAP, heap, 6)]), 2 * MIB)
        blocks = [(HEAP >> 16) + number for number in range(0, 96)]
        self.assertTrue(part.grow(blocks, 1))
        self.assertFalse(part.grow(blocks, 9))
        self.assertLessEqual(part.spent, 2 * MIB)
        self.assertEqual(part.left_out(blocks), 96 - part.spent // BLOCK)
        self.same(part)

    def test_less_is_given_where_there_is_no_room_for_more(self) -> None:
        heap = random_bytes(9 * MIB)
        part = self.part(core_file([Segment(HEAP, heap, 6)]), 8 * MIB)
        self.assertTrue(part.grow([(HEAP + MIB) >> 16], 9))
        self.assertLess(part.spent, 8 * MIB)
        self.assertEqual(part.left_out([(HEAP + MIB) >> 16]), 0)

    def test_bytes_that_are_holes_are_zero(self) -> None:
        data = bytearray(core_file([Segment(HEAP, b"x" * (4 * MIB), 6)]))
        part = self.part(bytes(data), 3 * MIB)
        heap = next(it for it in part.segments if it.is_cut).header
        with open(self.core, "r+b") as file:
            file.seek(heap.offset + MIB)
            file.write(bytes(MIB))
        self.assertTrue(part.grow([HEAP >> 16], 1))
        self.assertTrue(part.grow([(HEAP + MIB + BLOCK) >> 16], 1))
        self.same(part)

    def test_names_stand_where_they_stood(self) -> None:
        heap, name = random_bytes(3 * MIB), b"/usr/lib/a.so"
        table_start = HEAP + 17 * PAGE
        segments = [Segment(HEAP, heap, 6, name=name), Segment(table_start, b"", 6, 0, b"/usr/lib/b.so")]
        part = self.part(core_file(segments), 2 * MIB, 0)
        self.assertTrue(part.grow([(HEAP + BLOCK) >> 16, (HEAP + 2 * MIB) >> 16], 1))
        self.same(part)

    def test_segments_that_meet_stay_whole(self) -> None:
        one, other = random_bytes(MIB), random_bytes(MIB, 2)
        part = self.part(core_file([Segment(HEAP, one, 6), Segment(HEAP + MIB // 2, other, 6)]), MIB, 0)
        self.assertEqual([it.is_cut for it in part.segments if it.header.kind == 1], [False, False])
        self.same(part)
        headers = [Header(1, 6, 0, start, 0, end - start, end - start) for start, end in ((0, 9), (1, 2), (3, 4), (9, 12), (20, 30), (21, 22))]
        self.assertEqual(alone(headers), [False, False, False, True, False, False])

    def test_a_core_that_shrinks(self) -> None:
        part = self.part(core_file([Segment(HEAP, random_bytes(4 * MIB), 6)]), 3 * MIB)
        os.truncate(self.core, 2 * MIB)
        opened = OpenedCore("core", part.file, "layouts", [], part)
        with self.assertRaisesRegex(Fault, "the core became shorter while it was read"):
            opened.give([HEAP >> 16], 1)

    def test_half_of_what_may_be_read_is_for_what_is_missed(self) -> None:
        segments = [Segment(HEAP + number * MIB, random_bytes(MIB // 4, number), 6) for number in range(1, 17)]
        part = self.part(core_file(segments), 2 * MIB, FIRST)
        self.assertLessEqual(part.spent, MIB + BLOCK)
        self.assertGreaterEqual(part.spent, MIB)
        self.assertFalse(part.is_whole)
        self.assertTrue(part.grow([(HEAP + 16 * MIB) >> 16], 1))

    def test_sizes(self) -> None:
        self.assertEqual([sizes(run)[0] for run in (1, 2, 7)], [MIB, 2 * MIB, 64 * MIB])
        self.assertEqual(sizes(2), [2 * MIB, MIB, BLOCK])
        self.assertGreater(sizes(8)[0], 1 << 48)

    def test_short_cores_stay_as_they_are(self) -> None:
        self.core.write_bytes(core_file([Segment(HEAP, random_bytes(MIB), 6)]))
        for wishes in (Wishes(budget=2 * MIB), Wishes(budget=MIB // 2, tells=lambda: False), Wishes()):
            with open(self.core, "rb") as file:
                self.assertIsNone(prepared(file, wishes))


class Runs(Case):
    """How it is asked."""

    def scattered(self, places: Sequence[int], size: int = 24 * MIB) -> bytes:
        """A core with a chain through a heap."""
        return core_file([Segment(HEAP, with_words(random_bytes(size), HEAP, chain(places)), 6)])

    def test_until_nothing_is_missed(self) -> None:
        places = [HEAP + at * MIB + 0x123 for at in (3, 20, 7, 12)]
        status, met, each, said = self.asked(self.part(self.scattered(places), 23 * MIB), places[0])
        self.assertEqual((status, met, said), (0, 4, ""))
        self.assertEqual(each[0], 0)
        self.assertLessEqual(len(each), 6)

    def test_under_status_1(self) -> None:
        places = [HEAP + 3 * MIB, HEAP + 20 * MIB]
        status, met, each, said = self.asked(self.part(self.scattered(places), 23 * MIB), places[0], status=1)
        self.assertEqual((status, met, said), (0, 2, ""))

    def test_what_neither_has(self) -> None:
        places = [HEAP + 3 * MIB, 0x5000]
        status, met, each, said = self.asked(self.part(self.scattered(places[:1]), 23 * MIB), 0x5000)
        self.assertEqual((status, met, each, said), (0, 0, [0], ""))

    def test_what_is_left_out_is_said(self) -> None:
        places = [HEAP + at * MIB for at in range(0, 24, 2)]
        status, met, each, said = self.asked(self.part(self.scattered(places), 3 * MIB), places[0])
        self.assertEqual(status, 0)
        self.assertEqual(said, "dump_core: 1 range lies in parts that were left out for memory\n"
                               "dump_core: next: --memory MB lets more be read\n")
        self.assertLess(met or 0, len(places))

    def test_a_chain_that_leads_on_and_on(self) -> None:
        # (each word lies in another segment, so that no run gives more than one)
        starts = [HEAP + number * 4 * MIB for number in range(40)]
        words = chain(starts)
        segments = [Segment(at, with_words(random_bytes(2 * BLOCK, 9), at, {at: words[at]}), 6) for at in starts]
        part = self.part(core_file(segments), 4 * MIB, 0)
        status, met, each, said = self.asked(part, starts[0])
        self.assertEqual(len(each), RUNS)
        self.assertEqual((status, met), (0, RUNS - 1))
        self.assertIn("1 range lies in parts", said)


    def test_what_is_said(self) -> None:
        heap, within, without = random_bytes(4 * MIB), (HEAP + 3 * MIB) >> 16, 0x5
        part = self.part(core_file([Segment(HEAP, heap, 6)]), 3 * MIB)
        for is_all, blocks, above, line in (
            (False, [], 0, ""), (False, [without], 0, ""), (False, [within, without], 0, "1 range lies"), (False, [within, within + 1], 0, "2 ranges lie"),
            (False, [without], 1, "1 range may lie"), (False, [within], 2, "3 ranges may lie"), (True, [within, without], 7, ""),
        ):
            if is_all:
                data = core_file([Segment(HEAP, heap, 6)])
                part = self.part(data, len(data) - 1)
                self.assertTrue(part.grow([within], 9) and part.is_whole)
            said = io.StringIO()
            with redirect_stderr(said):
                say_left_out(OpenedCore("core", part.file, "layouts", [], part), blocks, above)
            front = f"dump_core: {line} in parts that were left out for memory\ndump_core: next: --memory MB lets more be read\n"
            self.assertEqual(said.getvalue(), front if line else "")


class Files(Case):
    """Files that had been mapped."""

    def test_files_are_handed_over_once_they_are_missed(self) -> None:
        part = self.part(core_file([Segment(HEAP, random_bytes(2 * MIB), 6)]), MIB)
        rest, entries = [], []
        for number, size in enumerate((100, 100, 2 * MIB)):
            path = self.folder / f"{number}.so"
            path.write_bytes(b"\x7fELF\2\1".ljust(size, b"\0"))
            rest.append(Wanted(os.fsencode(path), frozenset(), Use.MEMORY))
            entries.append(Entry(0x10_0000 * (number + 1), 0x10_0000 * (number + 1) + PAGE, 0, os.fsencode(path)))
        core = OpenedCore("core", part.file, "layouts", [], part, rest, entries, machine=0)
        said = io.StringIO()
        with redirect_stderr(said):
            self.assertTrue(core.give([0x10], 1))
            self.assertFalse(core.give([0x10], 2))
            self.assertFalse(core.give([0x30, 0x31], 3))
        path = os.fsencode(self.folder / "0.so")
        self.assertEqual(core.images, [path + b"=" + path])
        self.assertEqual(said.getvalue(), f"dump_core: {self.folder / '2.so'} has {2 * MIB} bytes, and is left out for memory\n"
                                          "dump_core: next: --memory MB lets more be read\n")
        self.assertEqual([it.name for it in core.rest], [os.fsencode(self.folder / "1.so")])

    def test_together_they_have_as_much_as_may_be_read(self) -> None:
        part = self.part(core_file([Segment(HEAP, random_bytes(2 * MIB), 6)]), MIB)
        paths = [self.folder / f"{number}.so" for number in range(4)]
        for path, size in zip(paths, (MIB // 4, MIB // 2, MIB // 2, MIB // 4)):
            path.write_bytes(b"\x7fELF\2\1".ljust(size, b"\0"))
        entries = [Entry(0x10_0000 * at, 0x10_0000 * at + PAGE, 0, os.fsencode(path)) for at, path in enumerate(paths, 1)]
        core = OpenedCore("core", part.file, "layouts", [], part, [Wanted(it.name, frozenset(), Use.MEMORY) for it in entries], entries, machine=0)
        said = io.StringIO()
        with redirect_stderr(said):
            self.assertTrue(core.give([0x10], 1))
            self.assertTrue(core.give([0x20, 0x30, 0x40], 2))
        self.assertEqual(core.images, [os.fsencode(f"{paths[at]}={paths[at]}") for at in (0, 1, 3)])
        self.assertEqual(said.getvalue().splitlines()[0], f"dump_core: {paths[2]} has {MIB // 2} bytes, and is left out for memory")


if __name__ == "__main__":
    unittest.main(verbosity=0)
