"""The names of functions that a file has no symbol for."""

import lzma
import os
import struct
import tempfile
import unittest
from pathlib import Path

import rooms  # (first: it makes the other rooms known)  # noqa: F401
from made import Section, Segment, Symbol, build_id, image_file
from pystacks_tool.ask.names import add_names, missing_files, readable_names
from pystacks_tool.cores.symbols import Functions, more_functions

OWN = b"\x12\x34" + bytes(18)
NOTE = Segment(0, build_id(OWN), 4, kind=4)


def file_of(symbols=(), more=()):
    """A file with the build id."""
    return image_file([NOTE], symbols=symbols, more=more)


def frame(file, function=None, address="0x1010", exact=True):
    """A frame as `pysalvage` tells it."""
    return {"address": address, "exact": exact, "file": file, "function": function, "offset": None if function is None else 3}


def told(*frames, end=None):
    """A thread's stacks."""
    stack = {"frames": list(frames), "last": [], "end": end or {"kind": "whole", "file": None}}
    return [{"stack": stack, "guessed": None}]


class Names(unittest.TestCase):
    """Debug files, packed tables, and C++'s names."""

    def setUp(self):
        self.room = tempfile.TemporaryDirectory(prefix="symbols-")
        self.addCleanup(self.room.cleanup)
        self.root = os.fsencode(self.room.name)

    def put(self, name, data):
        """A file below the folder."""
        path = Path(self.room.name) / name
        path.parent.mkdir(parents=True, exist_ok=True)
        path.write_bytes(data)
        return os.fsencode(path)

    def test_the_nearest_function_that_covers(self):
        functions = Functions([(0x1000, 0x1100, b"f"), (0x1200, 0x1210, b"g")])
        self.assertEqual([functions.at(it) for it in (0xFFF, 0x1000, 0x10FF, 0x1100, 0x1205)], [None, ("f", 0), ("f", 255), None, ("g", 5)])

    def test_a_debug_file(self):
        path = self.put("lib/a.so", file_of())
        debug = file_of([Symbol("inner", 0x1000, 0x40, 2), Symbol("place", 0x1000, 0x40, 1)])
        self.put("usr/lib/debug/.build-id/12/34" + "00" * 18 + ".debug", debug)
        found = told(frame("/lib/a.so"), frame("/lib/a.so", address="0x1011", exact=False), frame("/lib/a.so", "f"), frame("/lib/b.so"), frame(None, address=None))
        add_names(found, [b"/lib/a.so=" + path], self.root)
        self.assertEqual([(it["function"], it["offset"]) for it in found[0]["stack"]["frames"]],
                         [("inner", 16), ("inner", 18), ("f", 3), (None, None), (None, None)])

    def test_a_debug_file_of_another_build(self):
        path = self.put("lib/a.so", file_of())
        other = image_file([Segment(0, build_id(b"\x12\x35" + bytes(18)), 4, kind=4)], symbols=[Symbol("inner", 0x1000, 0x40, 2)])
        self.put("usr/lib/debug/.build-id/12/34" + "00" * 18 + ".debug", other)
        self.assertIsNone(more_functions(path, self.root))

    def test_a_packed_table(self):
        packed = lzma.compress(image_file([], symbols=[Symbol("inner", 0x1000, 0x40, 2)]))
        path = self.put("lib/a.so", file_of(more=[Section(".gnu_debugdata", 1, 0, packed)]))
        functions = more_functions(path, self.root)
        self.assertEqual(functions and functions.at(0x1001), ("inner", 1))
        for bad in (b"", packed[:20], b"\xfd7zXZ\0" + bytes(40)):
            self.assertIsNone(more_functions(self.put("lib/b.so", file_of(more=[Section(".gnu_debugdata", 1, 0, bad)])), self.root))

    def test_files_that_are_none(self):
        for data in (b"", b"\x7fELF", bytes(200), file_of()[:100], b"\x7fELF\2\1\1".ljust(40, b"\0") + struct.pack("<Q", 2 ** 63) + bytes(10) + struct.pack("<2H", 64, 65535)):
            self.assertIsNone(more_functions(self.put("lib/a.so", data), self.root))
        self.assertIsNone(more_functions(b"/none", self.root))

    def test_readable_names(self):
        names = readable_names(told(frame("a", "_ZN3foo3barEv"), frame("a", "main"), frame("a", "_Znot a name\n_Z3fv")))
        self.assertIn(names, ({}, {"_ZN3foo3barEv": "foo::bar()"}))

    def test_missing_files(self):
        end = {"kind": "no file", "file": "/lib/x.so", "at": "0x1"}
        self.assertEqual(missing_files([*told(end=end), *told(end=end), *told(), *told(end={"kind": "no file", "file": None, "at": "0x1"})]), ["/lib/x.so"])


if __name__ == "__main__":
    unittest.main()
