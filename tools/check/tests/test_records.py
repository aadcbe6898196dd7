#!/usr/bin/env python3
"""The stored records, and the tools that derive, join and carry them: what they notice where sources don't agree, where
releases differ, and where the headers of two machines do."""

import itertools
import json
import re
import subprocess
import sys
import unittest
from unittest.mock import patch

import rooms  # (first: it makes the other rooms known)
import carry_records
from carry_layouts import FIRST, CarryError
from derive_layout import Build
from derive_records import SOURCES, Told, by_group, faults_of, settled, table_of, told_by, told_of_all, wrapped
from join_layouts import LAYOUTS
from join_records import Stored, groups_in, joined_records, record_files, runs_of, stored_of, tables_of
from layout_plan import VERSIONS, Field
from layout_sources import Answers, Place
from probe_memory import Found, answers_of, written
from real_records import CHILD, NAMES, NO_TYPE, differences
from records_plan import RECORDS, Bit, Held, Record, records_of, without

assert rooms

MACHINES = ("x86_64", "aarch64")
PLAIN = ("collector", "runtime_collector", "interpreter", "arenas_inside", "arenas_behind", "runtime_lock")
"""The groups of places in records as large as an interpreter's."""

BUILD = Build("/python", (3, 11, 2), "3.11.2 (main)", "/python", "x86_64", (), (), ())
USED = Field("set.used", "PySetObject", "used", 8)


def whole(machine):
    """The joined file's text, of which each table has a head of its own."""
    return (LAYOUTS / f"records-{machine}.toml").read_text(encoding="utf-8")


def tables_in(text):
    """The tables of a file: the version, the patches and the groups of each."""
    for part in text.split("[[records]]\n")[1:]:
        told = dict(re.findall(r"^(major|minor|first_patch|last_patch) = (\d+)$", part, re.MULTILINE))
        major, minor, first, last = (int(told[key]) for key in ("major", "minor", "first_patch", "last_patch"))
        yield (major, minor), (first, last), groups_in(part.split("\n#")[0])


class Shipped(unittest.TestCase):
    """The stored files."""

    def test_joined(self):
        command = "tools/layouts/join_records.py -o layouts/records-x86_64.toml"
        self.assertEqual(whole("x86_64"), joined_records(record_files(LAYOUTS, "x86_64"), "x86_64"), command)

    def test_versions(self):
        for machine, versions in (("x86_64", VERSIONS), ("aarch64", [it for it in VERSIONS if it >= FIRST])):
            self.assertEqual({version for version, _, _ in tables_in(whole(machine))}, set(versions))

    def test_carried(self):
        # (what the other machine's own builds tell stands there as it is)
        tables = list(tables_in(whole("aarch64")))
        for path in record_files(LAYOUTS, "aarch64"):
            stored = stored_of(path.read_text(encoding="utf-8"))
            found = {}
            for version, (first, last), numbers in tables:
                if version == stored.minor and first <= stored.version[2] <= last:
                    self.assertFalse(set(found) & set(numbers), path.name)
                    found.update(numbers)
            self.assertEqual(found, stored.numbers, path.name)

    def test_groups(self):
        for machine in MACHINES:
            for version, patches, numbers in tables_in(whole(machine)):
                self.assertLessEqual(*patches)
                planned = {it.name: it for it in records_of(version)}
                for name, group in numbers.items():
                    fixed = [key for key in without(version) if key.startswith(f"{name}.")]
                    keys = [key.partition(".")[2] for key in [*(it.key for it in planned[name].fields()), *fixed]]
                    self.assertEqual(list(group), keys, (version, name))
                    most = 1 << (20 if name in PLAIN else 16)
                    self.assertTrue(all(number < most for number in group.values()), (version, name))

    def test_apart(self):
        # (a record's fields lie inside it, and no two meet)
        for machine in MACHINES:
            for version, _, numbers in tables_in(whole(machine)):
                for it in records_of(version):
                    if it.size and it.name in numbers:
                        self.within(it, numbers[it.name], (machine, version))

    def within(self, record, group, where):
        """Sees that a group's fields do."""
        spans = []
        for key, _, width in record.members():
            spans.append((group[key], group[key] + width))
            self.assertLessEqual(group[key] + width, group["size"], (where, record.name, key))
        for one, other in itertools.combinations([span for span in spans if span[0] < span[1]], 2):
            self.assertTrue(one[1] <= other[0] or other[1] <= one[0], (where, record.name))

    def test_toml(self):
        try:
            from tomllib import loads
        except ImportError:
            self.skipTest("there is no tomllib")
        for machine in MACHINES:
            tables = loads(whole(machine))["records"]
            expected = [{"major": a, "minor": b, "first_patch": first, "last_patch": last, **numbers}
                        for (a, b), (first, last), numbers in tables_in(whole(machine))]
            self.assertEqual(tables, expected)


class Plans(unittest.TestCase):
    """The plan."""

    def test_once(self):
        for version in VERSIONS:
            names = [it.name for it in records_of(version)]
            self.assertEqual(len(names), len(set(names)), version)

    def test_members(self):
        record = Record("a", "A", "one two=three:4 four=five.six:-")
        self.assertEqual(list(record.members()), [("one", "one", 8), ("two", "three", 4), ("four", "five.six", 0)])
        self.assertEqual([it.key for it in record.fields()], ["a.size", "a.one", "a.two", "a.four"])
        alike = Record("a", "A", "one=gi_one", size="", alike=(("B", "cr"),))
        self.assertEqual([(key, it.struct, it.member) for key, it in alike.same()], [("a.one", "B", "cr_one")])

    def test_bits(self):
        byte, number = Bit("task.cancel", "T", "m", 1, True), Bit("task.cancel_bit", "T", "m", 1, True, is_number=True)
        self.assertEqual((byte.number_of(802), number.number_of(802)), (100, 2))


class Derived(unittest.TestCase):
    """What the three sources tell."""

    RECORDS = (Record("set", "PySetObject", "used"), Record("states", "", size="", constants=(("created", "C"),)))

    def told(self, **places):
        """What is told where each source has these places."""
        told = {name: places.get(name.split()[0], {}) for name in SOURCES}
        answers = [Answers(name, {key: Place(*place) for key, place in it.items()}) for name, it in told.items()]
        return told_of_all(self.RECORDS, *answers), answers

    def test_agree(self):
        told, answers = self.told(
            headers={"set.size": (200, 0), "set.used": (24, 8)}, live={"set.used": (24, 8), "states.created": (254, 0)})
        self.assertEqual(faults_of(self.RECORDS, told, answers), [])
        numbers, lacking = settled(self.RECORDS, told, {"set.more": 7})
        self.assertEqual(numbers, {"set": {"size": 200, "used": 24, "more": 7}, "states": {"created": 254}})
        self.assertEqual(lacking, [])
        self.assertEqual(told_by(told, {}), [
            "by the headers and the live probe, which agree: 1 numbers: set.used",
            "by the headers alone: 1 numbers: set.size", "by the live probe alone: 1 numbers: states"])

    def test_differ(self):
        told, answers = self.told(
            headers={"set.used": (24, 8)}, debug={"set.used": (32, 8)}, live={"set.used": (24, 8)})
        self.assertEqual(faults_of(self.RECORDS, told, answers), [
            "set.used (PySetObject.used): headers: 24, debug information: 32, live probe: 24"])

    def test_width(self):
        told, answers = self.told(debug={"set.used": (24, 4)})
        self.assertIn("by the debug information it is 4 wide", faults_of(self.RECORDS, told, answers)[0])

    def test_alike(self):
        alike = (("PyCoroObject", "cr"),)
        records = (Record("generator_frame", "PyGenObject", "frame=gi_frame", size="", alike=alike),)
        field = records[0].same()[0][1]
        fault = "generator_frame.frame is 16, and PyCoroObject.cr_frame 24 by the headers"
        for place, faults in ((16, []), (24, [fault])):
            headers = Answers("headers", {"generator_frame.frame": Place(16, 8), field.key: Place(place, 8)})
            told = told_of_all(records, headers, Answers(SOURCES[1]), Answers(SOURCES[2]))
            self.assertEqual(faults_of(records, told, (headers,)), faults)

    def test_lacking(self):
        told, _ = self.told(headers={"set.used": (24, 8)})
        self.assertEqual(settled(self.RECORDS, told, {}), ({}, ["set", "states"]))

    def test_texts(self):
        self.assertEqual(by_group(["a.x", "a.y", "b.x"], ["a.x", "a.y", "b.x", "b.y"]), "a, b.x")
        self.assertTrue(all(len(line) <= 120 for line in wrapped("word " * 200)))
        text = table_of((3, 11), 2, 7, {"set": {"size": 200, "used": 24}})
        self.assertEqual(groups_in(text), {"set": {"size": 200, "used": 24}})
        stored = Stored((3, 11, 2), "# a head", {"set": {"size": 200, "used": 24}})
        self.assertEqual(stored_of(f"# a head\n\n{text}"), stored)

    def test_held(self):
        self.assertEqual([type(it) for it in Record("a", "m.C", "x=_x", is_python=True).fields()], [Held, Held])
        told = Told(USED, (("headers", Place(24, 0)), ("live probe", Place(24, 8))), ())
        self.assertEqual((told.fault(), told.sources), ("", ("headers", "live probe")))


class Joined(unittest.TestCase):
    """Releases of one minor version."""

    def builds(self, *groups):
        """Builds of 3.13, the first of which is 3.13.0, with these groups."""
        return [Stored((3, 13, patch), f"# {patch}", numbers) for patch, numbers in enumerate(groups)]

    def test_runs(self):
        one, other = {"x": 1}, {"x": 2}
        for groups, runs in (
            (({"a": one}, {"a": one}, {"a": one}), [((0, 2), one)]),
            (({"a": one}, {"a": other}, {"a": one}), [((0, 0), one), ((1, 1), other), ((2, 2), one)]),
            (({"a": one}, {}, {"a": one}), [((0, 0), one), ((2, 2), one)]),
            (({}, {"a": one}, {"a": one}), [((1, 2), one)]),
        ):
            self.assertEqual(runs_of("a", self.builds(*groups)), runs)

    def test_tables(self):
        found = tables_of(self.builds({"a": {"x": 1}, "b": {"x": 1}}, {"a": {"x": 1}, "b": {"x": 2}}))
        self.assertEqual(found, [((0, 1), {"a": {"x": 1}}), ((0, 0), {"b": {"x": 1}}), ((1, 1), {"b": {"x": 2}})])


class Carried(unittest.TestCase):
    """Another machine's records."""

    SET = {"size": 200, "used": 24, "mask": 32, "table": 40, "small_table": 72}
    STORED = Stored((3, 11, 2), "# head", {"set": SET})

    def carried(self, own, other):
        """What is carried where the headers tell these places, by the two compilers."""
        answers = [Answers("headers", {key: Place(number, 8) for key, number in it.items()}) for it in (own, other)]
        with patch("carry_records.installed", return_value=BUILD), \
                patch("carry_records.by_headers", side_effect=answers), \
                patch("carry_records.version_of", return_value="cc"):
            return carry_records.carried(self.STORED, "arm", "cc-arm")

    def test_differing(self):
        found = self.carried({"set.used": 24, "set.mask": 32}, {"set.used": 24, "set.mask": 36})
        self.assertEqual(found.numbers["set"], {**self.SET, "mask": 36})
        head = " ".join(line.strip("# ") for line in found.head.splitlines())
        self.assertIn("2 numbers, which agree but for these: set.mask 36, not 32", head)
        self.assertIn("carried over, since no header tells them: 3 numbers: set.size, set.table, set.small_table", head)

    def test_refused(self):
        with self.assertRaisesRegex(CarryError, "give other numbers than the stored records: set.used"):
            self.carried({"set.used": 16}, {"set.used": 16})
        with self.assertRaisesRegex(CarryError, "nothing was told"):
            self.carried({"set.used": 24}, {})


class Probed(unittest.TestCase):
    """What a running interpreter finds: here by the one that runs this."""

    def test_only(self):
        found = Found()
        for it in (["one", "two"], ["three", "four", "five"]):
            # (there is still room for the one that goes)
            it.pop()
            found.holds("list.count", id(it), list.__basicsize__, len(it))
        self.assertEqual(found.only("list.count"), 16)
        self.assertIn("list.count 16 8", list(answers_of(found)))

    def test_more(self):
        found = Found()
        found.keep("a.b", [8, 16], 8)
        found.keep("a.c", [8], 8)
        found.keep("a.c", [16], 8)
        lines = ["a.b ! it may stand at 8, 16", "a.c ! what it must hold stands nowhere"]
        self.assertEqual(list(answers_of(found)), lines)

    def test_memory(self):
        self.assertIsNone(written(8, 8))
        self.assertEqual(written(id(written) + 8, 8), id(type(written)).to_bytes(8, "little"))


class Installed(unittest.TestCase):
    """What the check over installed Pythons notices."""

    def test_differences(self):
        stored = {"a": {"x": 1}, "b": {"x": 1, "y": 2}, "c": {"x": 1}}
        self.assertEqual(differences(stored, {"a": {"x": 1}, "b": {"x": 1, "y": 2}}, ["c"]), [])
        self.assertEqual(differences(stored, {"a": {"x": 1}, "b": {"x": 1, "y": 3}, "d": {"x": 1}}, []), [
            "b.y is stored as 2, and told as 3", "c.x is stored as 1, and told as nothing",
            "d.x is stored as nothing, and told as 1"])

    @unittest.skipIf(sys.platform != "linux", "the child is one of Linux")
    def test_child(self):
        ran = subprocess.run([sys.executable, "-I", "-W", "ignore", str(CHILD)], stdout=subprocess.PIPE, check=True)
        told = json.loads(ran.stdout)
        self.assertEqual(set(told["types"]), set(told["objects"]))
        self.assertEqual(set(told["types"]), set(told["impostors"]))
        self.assertLess({"Task", "Future", "deque", "partial"}, set(told["derived"]))
        addresses = [address for key in ("objects", "derived", "impostors") for address in told[key].values()]
        self.assertEqual(len(addresses), len(set(addresses)))
        later = {"SimpleQueue", "TaskWakeupMethWrapper"}
        self.assertLessEqual(set(NAMES.values()) - later, set(told["types"]))
        self.assertLessEqual({*NAMES, *NO_TYPE}, {it.name for it in RECORDS})


if __name__ == "__main__":
    unittest.main(verbosity=0)
