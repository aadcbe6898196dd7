#!/usr/bin/env python3
"""Tests how the tool shows what fills the memory: heaps by class, lists that aren't whole, and mappings."""

import io
import json
import re
import struct
import tempfile
import unittest
from pathlib import Path

import rooms  # noqa: F401
from pystacks_tool.ask.heap import earlier_heaps, growth_of, heaps_of
from pystacks_tool.cores.memory import mapped_of
from pystacks_tool.faults import Fault
from pystacks_tool.model import Growth, HeapClass, Interpreter, Mapped, Report
from pystacks_tool.show.heap import heaps_lines
from pystacks_tool.show.page import report_page
from pystacks_tool.show.text import Style
from pystacks_tool.show.treemap import HEIGHT, WIDTH, treemap_of


def one_class(name, objects, size, more=0, unknown=0, unread=0, largest=None):
    """A class, as the JSON has it, with its largest objects by address and bytes."""
    told = largest and [{"address": address, "bytes": number} for address, number in largest]
    return {"address": "0x70", "name": name, "objects": objects, "bytes": size, "largest": told, "more": more, "unknown": unknown, "unread": unread}


def lists(kind="whole"):
    """The lists of the collector, of which the oldest ends so."""
    end = {"kind": kind} if kind == "whole" else {"kind": kind, "address": "0xbad0"}
    return {key: {"objects": number, "end": end if key == "oldest" else {"kind": "whole"}} for number, key in enumerate(("youngest", "middle", "oldest", "permanent"))}


def heap(*classes, kind="whole", collecting=False, unreadable=0, interpreter="0x10"):
    """A heap, as the JSON has it."""
    return {"interpreter": interpreter, "kind": "heap", "classes": list(classes), "collecting": collecting, "lists": lists(kind), "unreadable": unreadable}


def shown(*trees, shows_all=False):
    """The lines of heaps."""
    return list(heaps_lines(Report((), "3.11.7", heaps=heaps_of(list(trees))), shows_all))


class Heaps(unittest.TestCase):
    """What heaps hold."""

    def test_lines(self):
        found = shown(heap(one_class("m.Order", 2000, 96000), one_class("dict", 1000, 64000, 104000, 3)))
        self.assertEqual(found, [
            "Heap of the interpreter at 0x10: 3,000 objects that the collector tracks, 264,000 bytes, without what isn't tracked",
            "    generation 0 0, generation 1 1, generation 2 2, the permanent generation 3",
            "         objects            bytes  class",
            "           1,000          168,000  dict (3 of unknown size)",
            "           2,000           96,000  m.Order"])

    def test_largest(self):
        """The largest objects of a class have a line below its own, and what can't be read of other blocks is said."""
        found = shown(heap(one_class("m.Order", 2, 96, largest=[("0x20", 64), ("0x10", 32)]), one_class("set", 9, 10, unknown=1, unread=2)))
        self.assertEqual(found[3:], [
            "               2               96  m.Order",
            "                                   the largest: 64 at 0x20, 32 at 0x10",
            "               9               10  set (1 of unknown size, 2 of unknown other blocks)"])
        mark = "    ... tables of sets aren't counted: no symbol names their classes"
        self.assertEqual([mark in shown({**heap(), "sets": it}) for it in (False, True)], [True, False])

    def test_older(self):
        """What an earlier version told lacks keys."""
        tree = one_class("m.Order", 2, 96)
        for it in ("largest", "unread"):
            del tree[it]
        self.assertEqual(heaps_of([heap(tree)])[0].classes, heaps_of([heap(one_class("m.Order", 2, 96))])[0].classes)

    def test_marks(self):
        found = shown(heap(kind="torn", collecting=True, unreadable=5))
        self.assertEqual(found[2:], ["    ... a collection ran", "    ... generation 2 is torn at 0xbad0", "    ... 5 objects whose class can't be read"])
        self.assertIn("    ... generation 2 has more, from 0xbad0", shown(heap(kind="cut")))
        self.assertIn("    ... 3 more classes aren't told", shown({**heap(), "more_classes": 3}))

    def test_many(self):
        """Forty classes have a line, and the others one."""
        rows = [one_class(f"m.C{it}", 1, 1000 - it) for it in range(42)]
        self.assertEqual(shown(heap(*rows))[-1], "               2            1,919  2 more classes: --all shows each")
        self.assertEqual(len(shown(heap(*rows), shows_all=True)), 45)

    def test_names(self):
        """A name that can't be read, and one that would forge a line."""
        found = shown(heap(one_class(None, 1, 1), one_class("m.a\nHeap: b", 1, 1)))
        self.assertEqual([it for it in found[3:] if "\n" in it], [])
        self.assertIn("class at 0x70", found[3])

    def test_none(self):
        self.assertEqual(shown({"interpreter": None, "kind": "no runtime"}), ["Heap: no symbol tells where the runtime is"])
        self.assertEqual([it.fault for it in heaps_of(None)], ["not described for this version of Python"])

    def test_growth(self):
        """What grew most stands first, what shrank last, and what is the same nowhere."""
        before = heaps_of([heap(one_class("m.A", 5, 500), one_class("m.B", 1, 10), one_class("m.C", 3, 30))])
        now = heaps_of([heap(one_class("m.A", 4, 400), one_class("m.B", 2, 20, 100), one_class("m.C", 3, 30), one_class("m.D", 1, 50))])
        self.assertEqual(growth_of(before, now), (Growth("m.B", 1, 110), Growth("m.D", 1, 50), Growth("m.A", -1, -100)))
        lines = list(heaps_lines(Report((), "3.11.7", growth=growth_of(before, now)), False))
        self.assertEqual(lines[:2], ["Grown since the earlier core: +1 objects, +60 bytes", "              +1             +110  m.B"])

    def test_earlier(self):
        """What `-j --heap` wrote of an earlier core is read, and nothing else."""
        with tempfile.TemporaryDirectory() as name:
            path = Path(name) / "earlier"
            path.write_text(json.dumps({"heap": [heap(one_class("m.A", 5, 500))]}), encoding="utf-8")
            self.assertEqual(earlier_heaps(str(path)), heaps_of([heap(one_class("m.A", 5, 500))]))
            for text in ("", "[]", "{}", '{"heap": null}', '{"heap": 3}', '{"heap": [{"interpreter": null, "kind": "no runtime"}]}', "[" * 100000,
                         '{"heap": []}', '{"heap": ""}', json.dumps({"heap": [heap(one_class(5, 1, 1))]}), json.dumps({"heap": [heap(one_class("m.A", None, 1))]})):
                path.write_text(text, encoding="utf-8")
                with self.assertRaisesRegex(Fault, "has no heaps"):
                    earlier_heaps(str(path))
            with self.assertRaisesRegex(Fault, "cannot read .*: No such file"):
                earlier_heaps(str(path) + "2")

    def test_page(self):
        report = Report((Interpreter((), 0x10),), "3.11.7", 6, core="core", heaps=heaps_of([heap(one_class("m.<b>", 1, 1))]), mapped=(Mapped("a<b", 1, 2, 3),))
        page = report_page(report, Style())
        self.assertIn("m.&lt;b&gt;", page)
        self.assertIn("a&lt;b (1)", page)

    def test_long_page(self):
        """A page has rows of 2,048 classes, and says how many more there are; what grew has its head."""
        rows = [one_class(f"m.C{it}", 1, 5000 - it, unknown=it == 0) for it in range(2050)]
        report = Report((Interpreter((), 0x10),), "3.11.7", 6, core="core", heaps=heaps_of([heap(*rows)]), growth=(Growth("m.<A>", 1, 2),))
        page = report_page(report, Style())
        self.assertIn("m.C0 (1 of unknown size)", page)
        self.assertIn("m.C2047<", page)
        self.assertNotIn("m.C2048<", page)
        self.assertIn("... 2 more classes", page)
        self.assertIn("Grown since the earlier core: +1 objects, +2 bytes", page)
        self.assertIn("m.&lt;A&gt;", page)


class Treemaps(unittest.TestCase):
    """The picture of the classes by their bytes."""

    def tiles(self, *sizes):
        """The tiles of classes with these bytes: name, share, bytes, and the place of each."""
        svg = treemap_of([HeapClass(f"m.C{at}", 1, it) for at, it in enumerate(sizes)])
        pattern = r'<title>(.*?): ([0-9.]+ %), ([0-9,]+) bytes</title><rect class="c\d" x="(.*?)" y="(.*?)" width="(.*?)" height="(.*?)"/>'
        return [(name, share, int(size.replace(",", "")), *map(float, place)) for name, share, size, *place in re.findall(pattern, svg)]

    def test_tiles(self):
        """Each tile has its share of the picture, the largest first; together they fill it, and none lies over another one."""
        sizes = (500, 250, 120, 60, 40, 20, 7, 3)
        found = self.tiles(*sizes)
        self.assertEqual([it[:3] for it in found][:2], [("m.C0", "50.0 %", 500), ("m.C1", "25.0 %", 250)])
        self.assertEqual(sum(it[2] for it in found), 1000)
        for name, _, size, _, _, width, height in found:
            # (a gap of one unit parts tiles)
            self.assertAlmostEqual((width + 1) * (height + 1) / (WIDTH * HEIGHT), size / 1000, places=3, msg=name)
        for at, (_, _, _, x, y, width, height) in enumerate(found):
            self.assertTrue(x >= 0 and y >= 0 and x + width <= WIDTH and y + height <= HEIGHT)
            for _, _, _, left, top, wide, high in found[at + 1:]:
                self.assertTrue(x + width <= left + 0.02 or left + wide <= x + 0.02 or y + height <= top + 0.02 or top + high <= y + 0.02)

    def test_rest(self):
        """At most forty classes have a tile, and none with less than 1 of 400; the others have one together."""
        found = self.tiles(*[10] * 50)
        self.assertEqual((len(found), sorted(it[2] for it in found)[-1]), (41, 100))
        self.assertIn(("10 other classes", "20.0 %", 100), [it[:3] for it in found])
        self.assertEqual([it[:3] for it in self.tiles(1000, 1, 0)], [("m.C0", "99.9 %", 1000), ("2 other classes", "0.1 %", 1)])
        self.assertEqual([it[:3] for it in self.tiles(1000, 1)][1:], [("1 other class", "0.1 %", 1)])

    def test_none(self):
        self.assertEqual((treemap_of([]), treemap_of([HeapClass("m.A", 1, 0)])), ("", ""))

    def test_text(self):
        """A large tile has its name, share and bytes to read; names are escaped; a page asks for no style of its own for it."""
        svg = treemap_of([HeapClass('m.<b>"', 1, 3000), HeapClass("m.\u202eB", 1, 1000)])
        for it in (">m.&lt;b&gt;&quot;<", ">75.0 %<", ">3,000 bytes<", ">25.0 %<"):
            self.assertIn(it, svg)
        self.assertEqual([it for it in ("<b>", "\u202e", "style=", "onclick") if it in svg], [])
        report = Report((Interpreter((), 0x10),), "3.11.7", 6, core="core", heaps=heaps_of([heap(one_class("m.A", 1, 8))]))
        self.assertIn('<svg class="tree"', report_page(report, Style()))


def table_of(*files):
    """A note with a file table: start, end and name of each mapping."""
    rows = b"".join(struct.pack("<3Q", start, end, 0) for start, end, _ in files)
    table = struct.pack("<2Q", len(files), 4096) + rows + b"".join(name + b"\0" for _, _, name in files)
    return struct.pack("<3I", 5, len(table), 0x46494C45) + b"CORE\0\0\0\0" + table


def core_of(*segments, kinds=()):
    """A core of segments: flags, start, size in memory, and bytes. They are load segments but where another kind is said."""
    head = bytearray(b"\x7fELF\2\1\1" + bytes(57))
    struct.pack_into("<2HI3QI6H", head, 16, 4, 62, 1, 0, 64, 0, 0, 64, 56, len(segments), 0, 0, 0)
    rows, data, at = b"", b"", 64 + 56 * len(segments)
    for number, (flags, start, size, held) in enumerate(segments):
        rows += struct.pack("<2I6Q", dict(kinds).get(number, 1), flags, at + len(data), start, 0, len(held), size, 1)
        data += held
    return io.BytesIO(bytes(head) + rows + data)


class Mappings(unittest.TestCase):
    """The memory of a process, by kinds of mappings."""

    def test_kinds(self):
        file = core_of((6, 0x1000, 0x3000, b"a" * 0x1000), (6, 0x8000, 0x1000, b"s" * 0x1000), (5, 0x9000, 0x1000, b""), (4, 0xA000, 0x1000, b""))
        self.assertEqual(mapped_of(file, [0x8800]), (
            Mapped("heap and other memory without a file", 1, 0x3000, 0x1000), Mapped("stacks of threads", 1, 0x1000, 0x1000),
            Mapped("code without a file", 1, 0x1000, 0), Mapped("memory without a file that isn't writable", 1, 0x1000, 0)))

    def test_cut(self):
        """A core that was cut at its zero pages has the mappings that it had: pieces of a file's and of a stack go on with what is before them."""
        note = table_of((0x1000, 0x4000, b"/lib/a"), (0x4000, 0x5000, b"/lib/a"))
        file = core_of((0, 0, 0, note), (6, 0x1000, 0x1000, b"a"), (6, 0x2000, 0x2000, b"b"), (6, 0x4000, 0x1000, b""), (6, 0x5000, 0x1000, b"c"),
                       (0, 0x6000, 0x1000, b""), (6, 0x7000, 0x1000, b"d"), (6, 0x8000, 0x1000, b"e"), kinds={0: 4})
        self.assertEqual(mapped_of(file, [0x8800, 0x99000]), (
            Mapped("stacks of threads", 1, 0x2000, 2), Mapped("heap and other memory without a file", 1, 0x1000, 1),
            Mapped("memory without a file that isn't writable", 1, 0x1000, 0), Mapped("/lib/a", 2, 0x4000, 2)))

    def test_none(self):
        self.assertEqual(mapped_of(io.BytesIO(b"no core"), []), ())


if __name__ == "__main__":
    unittest.main()
