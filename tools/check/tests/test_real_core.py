#!/usr/bin/env python3
"""That the tools notice what is wrong: stacks that differ, programs that cheat or never end, layouts that are missing
or were changed, and sources that don't tell a field or don't agree."""

import argparse
import json
import re
import sys
import tempfile
import unittest
from dataclasses import replace
from pathlib import Path
from unittest.mock import patch

from rooms import ROOT  # (first: it makes the other rooms known)

import arm_core
import real_core
from carry_layouts import CarryError, Compared, check, numbers_by_key
from child_cores import USUAL, Case, Core, Failure, Skip, Thread, Told, names_by
from derive_layout import Build, Derived, DeriveError, fault_of, settled, values_of
from footprints import Footprint, blotted, footprint_of, joined
from layout_plan import VERSIONS, Field, Group, Plan, plan_of
from layout_sources import Answers, Place, faults_of
from layout_swaps import numbers_in, swaps
from made import Segment, core_file, status_record
from real_core import Walk, as_stored, check_report, compare, derived_for, directions, printed, ran
from real_core import report_of, texts_over_core, try_all

BUILD = Build("/python", (3, 9, 1), "3.9.1 (main)", "/python", "x86_64", (), (), ())
WANTED = [
    Thread("0x7F00", (("f", "é.py"), ("g", "日本.py")), has_lock=True),
    Thread("0x7E00", (("<lambda>", "a.py"),)),
]
TEXT = """Python v3.9.1

Thread 0x7F00 (gil)
    f (é.py)
    g (日本.py:17)
Thread 0x7E00: "Thread-1 (run)"
    <lambda> (a.py)
"""
NEXT = Field("thread.next", "PyThreadState", "next", 8)


class Stacks(unittest.TestCase):
    """What compare and printed notice."""

    def refused(self, got, with_lock=True):
        """The message of the failure that these threads give."""
        with self.assertRaises(Failure) as caught:
            compare(WANTED, got, with_lock)
        return str(caught.exception)

    def test_same(self):
        self.assertEqual(printed(TEXT, BUILD), WANTED)
        compare(WANTED, WANTED, with_lock=True)
        compare(WANTED, [replace(it, has_lock=False) for it in WANTED], with_lock=False)

    def test_frames(self):
        first, second = WANTED
        f, g = first.frames
        self.assertIn("2 frames", self.refused([replace(first, frames=(f,)), second]))
        self.assertIn("2 frames", self.refused([replace(first, frames=(f, g, g)), second]))
        self.assertIn("frame 0", self.refused([replace(first, frames=(g, f)), second]))
        self.assertIn("frame 1", self.refused([replace(first, frames=(f, ("g", "日木.py"))), second]))
        self.assertIn("frame 1", self.refused([replace(first, frames=(f, ("h", "日本.py"))), second]))

    def test_threads(self):
        first, second = WANTED
        for got in ([], [first], [second, first], [first, second, second], [first, replace(second, label="0x7E01")]):
            self.assertIn("the threads are", self.refused(got))

    def test_lock(self):
        first, second = WANTED
        self.assertIn("without the lock", self.refused([replace(first, has_lock=False), second]))
        self.assertIn("with the lock", self.refused([first, replace(second, has_lock=True)]))
        self.assertIn("with the lock", self.refused(WANTED, with_lock=False))

    def test_texts(self):
        for text in ("", TEXT.replace("3.9.1", "3.9.2"), TEXT + "more\n", TEXT.replace("Thread 0x7F00 (gil)\n", "")):
            with self.assertRaises(Failure):
                printed(text, BUILD)

    def test_names(self):
        self.assertEqual(names_by("core", False), "core")
        self.assertEqual(names_by("core", True), "core.{pid}")
        self.assertEqual(names_by("/c/%e[%%].%p", True), "/c/*[[]%].{pid}")
        with self.assertRaises(Skip):
            names_by("/c/%e", False)


class Reports(unittest.TestCase):
    """What is noticed of a whole text."""

    TOLD = Told(
        interpreter=0,
        lock=None,
        threads=[
            Thread("0x7F00", (("f", "é.py"), ("g", "日本.py")), True, "MainThread", (3, 17)),
            Thread("0x7E00", (("<lambda>", "a.py"),), False, "Thread-1 (run)", (9,)),
        ],
        head="Process 7: /python a.py \nPython v3.9.1\n\n",
    )
    TEXT = """Signal 6: core.7
Process 7: /python a.py 
Python v3.9.1

Thread 0x7F00: "MainThread"
    f (é.py:3)
    g (日本.py:17)
Thread 0x7E00: "Thread-1 (run)"
    <lambda> (a.py:9)
"""

    def test_text(self):
        self.assertEqual(report_of(self.TOLD, "core.7", with_names=True, with_holder=False), self.TEXT)
        nameless = report_of(self.TOLD, "core.7", with_names=False, with_holder=False)
        self.assertEqual(nameless, self.TEXT.replace(': "MainThread"', "").replace(': "Thread-1 (run)"', ""))

    def test_differences(self):
        check_report(Walk(0, self.TEXT, "", 0.0, 0), self.TEXT)
        for old, new in (
            (":17)", ")"),
            (":17)", ":18)"),
            ("MainThread", "Thread-9"),
            (": \"MainThread\"", " (gil)"),
            ("Signal 6: core.7\n", ""),
            ("    <lambda> (a.py:9)\n", "    <lambda> (a.py:9)"),
            ("    <lambda> (a.py:9)\n", ""),
            ("    <lambda> (a.py:9)\n", "    <lambda> (a.py:9)\nThread 0x1\n"),
        ):
            with self.assertRaises(Failure):
                check_report(Walk(0, self.TEXT.replace(old, new), "", 0.0, 0), self.TEXT)
        with self.assertRaises(Failure):
            check_report(Walk(0, self.TEXT, "junk", 0.0, 0), self.TEXT)
        with self.assertRaises(Failure):
            check_report(Walk(1, self.TEXT, "", 0.0, 0), self.TEXT)

    def test_holder(self):
        marked = report_of(self.TOLD, "core.7", with_names=True)
        self.assertEqual(marked, self.TEXT.replace('0x7F00: "', '0x7F00 (gil): "'))
        free = replace(self.TOLD, threads=[replace(it, has_lock=False) for it in self.TOLD.threads])
        self.assertEqual(report_of(free, "core.7", with_names=True), self.TEXT)

    def test_json(self):
        derived = Derived(BUILD, "", {}, "runtime", True)
        right = real_core.json_of(self.TOLD, derived, "[]")
        tree = json.loads(right)
        self.assertEqual([it["owns_gil"] for it in tree], [False, True])
        frames = [(it["name"], it["filename"], it["line"]) for thread in tree for it in thread["frames"]]
        self.assertEqual(frames, [("<lambda>", "a.py", 9), ("f", "é.py", 3), ("g", "日本.py", 17)])
        for thread in tree:
            for it in thread["frames"]:
                it["is_entry"], it["is_shim_entry"] = True, it is thread["frames"][-1]
        whole = json.dumps(tree, indent=2, sort_keys=True, ensure_ascii=False) + "\n"
        self.assertEqual(real_core.json_of(self.TOLD, derived, whole), whole)
        self.assertIn('      {\n        "filename": "é.py",\n        "is_entry": true,\n', whole)
        newer = replace(derived, build=replace(BUILD, version=(3, 13, 0)))
        self.assertNotEqual(real_core.json_of(self.TOLD, newer, whole), whole)
        entered = whole.replace('"is_entry": true', '"is_entry": false')
        entered = entered.replace('"is_shim_entry": false', '"is_shim_entry": true')
        self.assertEqual(real_core.json_of(self.TOLD, newer, entered), entered)
        self.assertNotEqual(real_core.json_of(self.TOLD, derived, entered), entered)
        for wrong in ("", "{", "3", "[1]", '[{"frames": [{}]}]'):
            with self.assertRaises(Failure):
                real_core.json_of(self.TOLD, derived, wrong)

    def test_locals(self):
        derived = Derived(BUILD, "", {}, "runtime", True)
        without = "Thread 0x1\n    hold (hält.py:10)\n    run (a.py:1)\n"
        held = real_core.HELD.format(kind="method", held=16, table='{"k": 1, 2: None}', long="ü" * 123 + "...")
        whole = f"Thread 0x1\n{held}    run (a.py:1)\n        Locals:\n            x: <a at 0x1>\n"
        self.assertIn('        Arguments:\n            bottom: <method at 0x10>\n', whole)
        self.assertIn('            text: "größe \\"x\\"\\n"\n        Locals:\n', whole)

        def check(text):
            real_core.check_locals(Walk(0, text, "", 0.0, 0), without, 16, derived)

        check(whole)
        for old, new in (
            ("yes: True", "yes: 1"),
            ("            no: False\n", ""),
            ("        Locals:\n            yes", "            yes"),
            ("...\"\n", "\"\n"),
            ("at 0x10", "at 0x11"),
            ("    hold (hält.py:10)\n", ""),
            ("    run (a.py:1)\n", ""),
            (held, "    hold (hält.py:10)\n"),
        ):
            self.assertNotEqual(whole.replace(old, new), whole)
            with self.assertRaises(Failure, msg=old):
                check(whole.replace(old, new))

    def test_end(self):
        with patch("child_cores.SECONDS", 0.2):
            self.assertEqual(ran(["sleep", "30"]).status, -9)


FAKE = """#!{python} -IS
import json, sys, time
HOW = {how!r}
core = sys.argv[2] if sys.argv[1] == "walk" else sys.argv[3]
with open(core) as file:
    told = json.load(file)
with open(sys.argv[3] if sys.argv[1] == "walk" else sys.argv[5]) as file:
    layout = file.read() if HOW != "ignores layouts" else ""
is_wrong = "filename=16" in layout
is_walk = sys.argv[1] == "walk"
has_lock = not is_walk or sys.argv[6] != "0"
is_always_held = HOW == "looks at no lock" or "locked=0" in layout and HOW != "asks nobody"
if HOW == "never ends" or HOW == "never ends in dump" and not is_walk:
    time.sleep(60)
text = "" if is_walk else "Signal 6: " + core + "\\n" + told["head"].partition("Python")[0]
text += "Python v3.9.1\\n\\n"
for number, (label, name, holds, frames) in enumerate(told["threads"]):
    if has_lock and HOW == "marks the first":
        holds = number == 0
    elif has_lock and is_always_held and not any(it[2] for it in told["threads"]):
        holds = number == 1
    elif not has_lock or HOW == "marks nobody":
        holds = HOW == "marks without a lock" and holds
    text += "Thread " + label + (" (gil)" if holds else "") + ("" if is_walk else ': "' + name + '"') + "\\n"
    for function, file, line in frames:
        function, file = (file, function) if is_wrong else (function, file)
        line = 99 if HOW == "invents lines" else line
        text += "    " + function + " (" + file + ("" if is_walk else ":%d" % line) + ")\\n"
if HOW == "drops the last newline":
    text = text[:-1]
if HOW == "says more":
    sys.stderr.write("more\\n")
sys.stdout.write(text)
"""
"""A program that reads cores of its own, and is wrong in one way."""


class Programs(unittest.TestCase):
    """Which wrong programs are noticed, over cores that hold what a child told."""

    THREADS = [
        Thread("0x7F00", (("f", "a.py"), ("g", "b.py")), True, "MainThread", (3, 17)),
        Thread("0x7E00", (("h", "a.py"),), False, "Thread-1", (9,)),
    ]
    TEXT = "code = {filename=8, name=16}\ngil = {size=20, locked=16, holder=8}\n"

    def setUp(self):
        folder = tempfile.TemporaryDirectory(prefix="real-core-")
        self.addCleanup(folder.cleanup)
        self.folder = Path(folder.name)
        (self.folder / "layout.toml").write_text(self.TEXT, encoding="utf-8")

    def core(self, case, *has_lock):
        """A core in which these threads have the lock."""
        threads = [replace(it, has_lock=has) for it, has in zip(self.THREADS, has_lock)]
        told = Told(1, 0x1000, threads, "Process 7: a.py\nPython v3.9.1\n\n")
        path = self.folder / f"core-{case.who}-{case.holds}"
        rows = [
            [it.label, it.name, it.has_lock, [[*frame, line] for frame, line in zip(it.frames, it.lines)]]
            for it in threads
        ]
        path.write_text(json.dumps({"head": told.head, "threads": rows}), encoding="utf-8")
        return Core(path, case, told)

    def tried(self, how):
        """Tries a program on four cores, of which it writes texts alone."""
        program = self.folder / "program"
        program.write_text(FAKE.format(python=sys.executable, how=how), encoding="utf-8")
        program.chmod(0o700)
        derived = Derived(BUILD, self.TEXT, {}, "runtime", True)
        cores = [
            self.core(Case("main"), True, False),
            self.core(Case("other"), False, True),
            self.core(Case("free"), False, False),
            self.core(Case("main", USUAL), True, False),
        ]
        for core in cores:
            texts_over_core(program, derived, core, self.folder)

    def test_right(self):
        self.tried("right")

    def test_wrong(self):
        for how, said in (
            ("marks the first", "with the lock"),
            ("marks nobody", "without the lock"),
            ("looks at no lock", "with the lock"),
            ("marks without a lock", "with the lock"),
            ("ignores layouts", "isn't noticed, with filename=8"),
            ("asks nobody", "isn't noticed, with locked=16"),
            ("invents lines", "of the report is"),
            ("drops the last newline", "of the report is"),
            ("says more", "dump said"),
        ):
            with self.assertRaises(Failure, msg=how) as caught:
                self.tried(how)
            self.assertIn(said, str(caught.exception), how)

    def test_endless(self):
        for how in ("never ends", "never ends in dump"):
            with patch("child_cores.SECONDS", 0.5), self.assertRaises(Failure) as caught:
                self.tried(how)
            self.assertIn("status -9", str(caught.exception))


class Footprints(unittest.TestCase):
    """What is left of a core, and which footprints are none."""

    def test_joined(self):
        self.assertEqual(joined([(8, 12), (0, 4), (4, 6), (20, 20), (9, 10)]), ((0, 6), (8, 12)))

    def test_blotted(self):
        segments = [Segment(0x1000, b"abcdefgh"), Segment(0x1004, b"ABCDEFGH"), Segment(0x2000, b"xyz")]
        data = core_file(segments, [status_record(11, 4)])
        with tempfile.TemporaryDirectory(prefix="real-core-") as name:
            core = Path(name) / "core"
            core.write_bytes(data)
            left = blotted(core, Footprint(2, ((0x1002, 0x1006), (0x2001, 0x2002))))
        at = data.index(b"abcdefgh")
        self.assertEqual(left[at : at + 19], b"\xaa\xaacdef\xaa\xaaAB" + b"\xaa" * 6 + b"\xaay\xaa")
        self.assertEqual(left[:at] + left[at + 19 :], data[:at] + data[at + 19 :])

    def test_listing(self):
        with tempfile.TemporaryDirectory(prefix="real-core-") as name:
            listing = Path(name) / "listing"
            for said in ("", "refused", "10 8\nrefused"):
                listing.write_text(f"#!/bin/sh\nprintf '{said}'\n")
                listing.chmod(0o700)
                with self.assertRaises(Failure):
                    footprint_of(listing, Path("core"), Path("layouts"), [])
            listing.write_text("#!/bin/sh\nprintf '10 8\\na 2\\n14 8\\n'\n")
            self.assertEqual(footprint_of(listing, Path("core"), Path("layouts"), []), Footprint(3, ((10, 12), (16, 28))))


class Derivations(unittest.TestCase):
    """Which builds are passed over, and which fail."""

    ALL = [it.key for it in plan_of((3, 9)).wanted]

    def tried(self, keys, at_hand=False):
        """What comes of a build of which these fields aren't told."""
        with patch("real_core.derive", side_effect=DeriveError("why", keys)):
            with patch("real_core.is_at_hand", return_value=at_hand):
                derived_for(BUILD)

    def test_some_fields(self):
        with self.assertRaises(Failure):
            self.tried(["thread.next"])
        with self.assertRaises(Failure):
            self.tried(["dict.keys"])

    def test_nothing_told(self):
        with self.assertRaises(DeriveError):
            self.tried(self.ALL)
        with self.assertRaises(DeriveError):
            self.tried([])
        with self.assertRaises(Failure):
            self.tried(self.ALL, at_hand=True)

    def test_nothing_asked(self):
        words = argparse.Namespace(python=["/python"], program="/bin/true", listing="/none", swaps=False)
        with patch("real_core.core_names"), patch("real_core.told_of", side_effect=DeriveError("why")):
            with self.assertRaises(Failure):
                try_all(words)

    def test_plans(self):
        for version in VERSIONS:
            keys = [it.key for it in plan_of(version).wanted]
            self.assertEqual(len(keys), len(set(keys)))
            self.assertEqual("frame.entry" in keys, version >= (3, 11))
        entry = next(it for it in plan_of((3, 13)).wanted if it.key == "frame.entry")
        self.assertEqual((entry.number_of(24), entry.length), (31, 1))


class Stored(unittest.TestCase):
    """The layouts that stand in the repository."""

    BUILDS = ("2.7.18", "3.6.15", "3.7.16", "3.8.18", "3.9.18", "3.10.13", "3.11.7", "3.12.1", "3.13.0")
    """Those from which they were read, as their heads say: a head that says another isn't compared with them."""

    def test_each_version(self):
        for version, (major, minor) in zip(self.BUILDS, VERSIONS):
            name = f"cpython-{major}.{minor}-x86_64.toml"
            text = (ROOT / "layouts" / name).read_text(encoding="utf-8")
            lines = text.splitlines()
            self.assertEqual(real_core.head_of(text, name), (version, "x86_64", "shared"))
            self.assertEqual(sum(line.startswith("# tried on cores of this build: ") for line in lines), 1)
            self.assertIn(f"first_minor = {minor}", lines)
            heads = [re.sub("tools/(layouts|check/real)/|docs/", "", line) for line in lines if line.startswith("#")]
            self.assertFalse([line for line in heads if "/" in line])
        self.assertEqual(len(self.BUILDS), len(VERSIONS))

    def test_compared(self):
        name = "cpython-3.12-x86_64.toml"
        text = (ROOT / "layouts" / name).read_text(encoding="utf-8")
        build = replace(BUILD, version=(3, 12, 1), options=("shared",))
        derived = Derived(build, text, {}, "gil", True)
        with tempfile.TemporaryDirectory() as folder:
            stored = Path(folder) / name
            with self.assertRaises(Failure):
                as_stored(derived, Path(folder))
            stored.write_text(text, encoding="utf-8")
            self.assertEqual(as_stored(derived, Path(folder)), f"layouts/{name}")
            wrong = text.replace("holder=8", "holder=0")
            for changed in (
                wrong,
                # (the text of the build doesn't matter, but its version)
                wrong.replace("(main, ", "(other, "),
                text.replace("# build: 3.12.1", "# build: 3.12.2"),
                text.replace("CPython 3.12.1", "CPython 3.12.2"),
                text.replace("# build: ", "# "),
                text.replace("# options that change records: shared\n", ""),
                text.split("[[layout]]")[1],
                "",
            ):
                self.assertNotEqual(changed, text)
                stored.write_text(changed, encoding="utf-8")
                with self.assertRaises(Failure, msg=changed[:100]):
                    as_stored(derived, Path(folder))
            stored.write_text(wrong.replace("3.12.1", "3.12.2"), encoding="utf-8")
            self.assertEqual(as_stored(derived, Path(folder)), f"not layouts/{name}, which is of 3.12.2")


class Carried(unittest.TestCase):
    """When a layout of one machine stands for another."""

    PLAN = plan_of((3, 12))
    TEXT = (ROOT / "layouts" / "cpython-3.12-x86_64.toml").read_text(encoding="utf-8")

    def answers(self, **changes):
        """What headers tell that give the stored numbers, but for these; one below 0 is not told."""
        stored = {**numbers_by_key(self.TEXT), **{key.replace("_", ".", 1): it for key, it in changes.items()}}
        places = {it.key: Place(stored[it.key] - it.number_of(0), it.width) for it in self.PLAN.wanted}
        told = {key: it for key, it in places.items() if changes.get(key.replace(".", "_", 1), 0) >= 0}
        return Answers("headers", told)

    def refused(self, own, other):
        """The message by which two machines' answers are refused."""
        with self.assertRaises(CarryError) as caught:
            check(Compared(self.PLAN, own, other), self.TEXT)
        return str(caught.exception)

    def test_same(self):
        check(Compared(self.PLAN, self.answers(), self.answers()), self.TEXT)
        found = Compared(self.PLAN, self.answers(), self.answers(keys_used=-1))
        check(found, self.TEXT)
        self.assertEqual(found.left, ["keys.used"])

    def test_refused(self):
        self.assertEqual(self.refused(self.answers(), self.answers(thread_id=7)), "these numbers differ: thread.id")
        both = self.answers(thread_id=7), self.answers(thread_id=7)
        self.assertIn("other numbers than the stored layout: thread.id", self.refused(*both))
        nothing = Answers("headers").none(self.PLAN.wanted, "no compiler there")
        self.assertEqual(self.refused(self.answers(), nothing), "no compiler there")


class Emulated(unittest.TestCase):
    """Where cores of another machine can't be made."""

    def test_nothing_there(self):
        with tempfile.TemporaryDirectory(prefix="arm-core-") as name:
            for root, line in (("", "is named"), (f"{name}/none", "there is no folder"), (name, "usr/bin/python3.N")):
                words = argparse.Namespace(root=root, program=sys.executable, listing=None, salvage=None)
                with patch("shutil.which", return_value="/emulator"), self.assertRaisesRegex(Skip, line):
                    arm_core.try_root(words)
            (Path(name) / "usr" / "bin").mkdir(parents=True)
            (Path(name) / "usr" / "bin" / "python3.11").touch()
            with patch("shutil.which", return_value=None), self.assertRaisesRegex(Skip, "there is no qemu-aarch64"):
                arm_core.try_root(words)

    def test_stored(self):
        derived = arm_core.stored(replace(BUILD, version=(3, 11, 2), machine="aarch64"))
        numbers = [derived.numbers[key] for key in ("runtime.current", "thread.native_id", "frame.code")]
        self.assertEqual((numbers, derived.lock, derived.with_dicts), ([592, 160, 32], "runtime", True))
        with self.assertRaises(Skip):
            arm_core.stored(replace(BUILD, machine="aarch64"))


class Swaps(unittest.TestCase):
    """Layouts in which one number is another."""

    TEXT = "# size=1\nmajor = 3\ngil = {size=20, locked=16, holder=8}\nframe = {entry=31, code_tag_bits=0}\n"

    def test_numbers(self):
        keys = [(it.name, it.value) for it in numbers_in(self.TEXT)]
        frame = [("frame.entry", 31), ("frame.code_tag_bits", 0)]
        self.assertEqual(keys, [("gil.size", 20), ("gil.locked", 16), ("gil.holder", 8), *frame])

    def test_swaps(self):
        found = dict(swaps(self.TEXT, (3, 12)))
        self.assertEqual(len(found), 5)
        gil = "gil = {size=20, locked=16, holder=8}"
        for key, old, above, below in (
            ("gil.locked", gil, "gil = {size=24, locked=20, holder=8}", "gil = {size=20, locked=12, holder=8}"),
            ("gil.holder", gil, "gil = {size=24, locked=16, holder=16}", "gil = {size=20, locked=16, holder=0}"),
            ("gil.size", gil, "gil = {size=28, locked=16, holder=8}", "gil = {size=12, locked=16, holder=8}"),
            ("frame.entry", "entry=31", "entry=32", "entry=30"),
        ):
            self.assertEqual([side[0] for side in found[key]], [self.TEXT.replace(old, it) for it in (above, below)])
        self.assertEqual(found["frame.code_tag_bits"][1], [])

    def test_directions(self):
        with tempfile.TemporaryDirectory() as folder:
            wrong = Path(folder) / "wrong"
            sound = lambda program, core, layouts: layouts.read_text() != "unsound"
            noticed = lambda program, derived, cores, layouts: layouts.read_text() == "noticed"
            with patch("real_core.is_sound", sound), patch("real_core.is_noticed", noticed):
                for sides, seen in (
                    ([["unsound", "noticed", "not"], ["not", "noticed"]], [True, False]),
                    ([["unsound"], ["noticed"]], [True]),
                    ([[], ["unsound"]], []),
                ):
                    self.assertEqual(directions("p", "d", ["core"], sides, wrong), seen)


class Sources(unittest.TestCase):
    """What is noticed of the two that tell where fields stand."""

    def answers(self, headers=None, debug=None):
        """What two sources tell of NEXT: a place, or that they don't."""
        given = []
        for name, place in (("headers", headers), ("debug information", debug)):
            told = Answers(name, {NEXT.key: place}) if place else Answers(name).none([NEXT], "no such field")
            given.append(told)
        return given

    def test_faults(self):
        self.assertIsNone(fault_of(NEXT, self.answers(Place(8, 8))))
        self.assertIsNone(fault_of(NEXT, self.answers(Place(8, 8), Place(8, 8))))
        for given in (self.answers(), self.answers(Place(8, 8), Place(16, 8)), self.answers(None, Place(8, 4))):
            self.assertIn("thread.next (PyThreadState.next)", fault_of(NEXT, given))
            with self.assertRaises(DeriveError) as caught:
                settled(Plan((), (Group("thread", (NEXT,)),), ()), given)
            self.assertEqual(caught.exception.keys, ("thread.next",))

    def test_size(self):
        group = Group("thread", (NEXT, Field("thread.locals", "PyThreadState", "locals")))
        self.assertEqual(values_of(group, {"thread.next": 8, "thread.locals": 90})[0], ("size", 16))

    def test_compiler(self):
        said = "In file included from /i/a.h:3,\n                 from probe.c:7:\n/i/b.h:1:2: fatal error: no c.h\n"
        said += "probe.c: In function 'main':\nprobe.c:12:4: error: no member\nprobe.c:13:4: note: here\n"
        self.assertEqual(faults_of(said), {7: "no c.h", 12: "no member"})


if __name__ == "__main__":
    unittest.main(verbosity=0)
