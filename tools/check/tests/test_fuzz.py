#!/usr/bin/env python3
"""Sees that what tries hostile input and faults catches programs that answer wrongly: they are shell scripts."""

import json
import stat
import tempfile
import unittest
from pathlib import Path
from random import Random
from unittest import mock

import rooms  # (first: it makes the other rooms known)
import changes
import fuzz
import growths
import salvage_text
import section_text
import told
import told_coroutines
import told_salvage
import told_tasks
from child_cores import Failure
from made import Segment, core_file
from made_tasks import Made
from row import row
from small_core import TEXT
from sample_cores import counts_text, walk_text

DUMP = ["dump", "-c", "core", "--layouts", "layouts"]
SALVAGE = ["core", "--layouts", "layouts"]

TREE = """[{"os_thread_id": null, "thread_id": 32512, "owns_gil": false, "thread_name": null, "frames": [
    {"name": "f", "filename": "a.py", "line": 0, "locals": null},
    {"name": "<module>", "filename": "a.py", "line": 0, "locals": null}]}]"""

ANSWERS = f"""case "$*" in
*-j*) cat <<'END'
{TREE}
END
;;
*) cat <<'END'
{TEXT}END
;;
esac
"""
"""A script that answers as the program does over the small core."""


class Fuzz(unittest.TestCase):
    """Answers that the fuzzer sees as faults, and one that it doesn't."""

    def fault(self, script, words=DUMP, wanted=None, command=None):
        """What the fuzzer says of a program that is this script."""
        with tempfile.TemporaryDirectory() as name:
            program = Path(name, "program")
            program.write_text("#!/bin/sh\n" + script, encoding="utf-8")
            program.chmod(program.stat().st_mode | stat.S_IXUSR)
            part = fuzz.Part(str(program), command or words[0], 1, 0, 1, "")
            return fuzz.tried(part, fuzz.Case(words, {}, wanted), name)[1]

    def test_right_answers(self):
        self.assertIsNone(self.fault(ANSWERS))
        self.assertIsNone(self.fault("echo pystacks: bad note >&2; exit 1"))
        self.assertIsNone(self.fault("echo 'pystacks: unreadable at 0x10, 8 bytes' >&2; exit 1"))
        self.assertIsNone(self.fault("printf 'Objects 2\\n    0x1\\n    0x20 ?\\n'", ["reach"]))

    def test_statuses(self):
        self.assertEqual(self.fault("exit 7"), "status 7")
        self.assertEqual(self.fault("kill -SEGV $$"), "status -11")
        self.assertIn("the line", self.fault("exit 1"))

    def test_lines(self):
        self.assertIn("the line", self.fault("echo pystacks: bad words >&2; exit 1"))
        self.assertEqual(self.fault("echo x; echo pystacks: bad note >&2; exit 1"), "a text under status 1")
        self.assertEqual(self.fault("echo x; echo y >&2"), "a line under status 0")

    def test_texts(self):
        self.assertEqual(self.fault(ANSWERS.replace("    f (a.py)\n", "")), "the text isn't that of its JSON")
        self.assertEqual(self.fault(ANSWERS.replace("32512", "32513")), "the text isn't that of its JSON")
        self.assertIn("isn't read", self.fault(ANSWERS.replace("}]}]", "}]}")))
        reversed_objects = "printf 'Objects 2\\n    0x20\\n    0x1\\n'"
        self.assertEqual(self.fault(reversed_objects, ["reach"]), "the objects aren't in order")
        self.assertEqual(self.fault("echo Thread", ["walk"]), "the text isn't one of its command")

    def test_no_end(self):
        with mock.patch.object(fuzz, "SECONDS", 0.1):
            self.assertIn("no end", self.fault("exec sleep 5"))
            self.assertIn("no end", self.fault("while :; do :; done"))

    def test_told_answers(self):
        wanted = told.Told(("walk",), {}, 1, "bad program headers")
        self.assertIsNone(self.fault("echo pystacks: bad program headers >&2; exit 1", ["walk"], wanted))
        self.assertIn("is wanted", self.fault("echo pystacks: bad note >&2; exit 1", ["walk"], wanted))
        self.assertIn("is wanted", self.fault("exit 1", ["walk"], wanted))
        wanted = told.Told(("walk",), {}, 0, out=b"a text\n")
        self.assertIsNone(self.fault("echo a text", ["walk"], wanted))
        self.assertIn("at byte 4", self.fault("echo a test", ["walk"], wanted))
        self.assertIn("is wanted", self.fault("echo a text; echo more", ["walk"], wanted))

    def test_lines_of_each_program(self):
        said = lambda line, status: f"echo '{line}' >&2; exit {status}"
        self.assertIsNone(self.fault(said("pystacks: no interpreter found", 1)))
        self.assertIn("the line", self.fault(said("pystacks: no interpreter found: 2 addresses looked at, 0 members walked", 1)))
        salvage = lambda line, status: self.fault(said(line, status), SALVAGE, command="pysalvage")
        for line, status in (
            ("no interpreter found: 2 addresses looked at, 0 members walked", 1), ("version unreadable at 0x10, 8 bytes", 1),
            ("bad words", 2), ("cannot read a\nb", 3), ("out of memory", 5), ("layouts: not TOML", 6),
        ):
            self.assertIsNone(salvage(f"pysalvage: {line}", status))
            self.assertIn("the line", salvage(f"pystacks: {line}", status))
        for line in ("no interpreter found", "unreadable at 0x10, 8 bytes", "more than 4096 threads",
                     "a frame counts 7 locals"):
            self.assertIn("the line", salvage(f"pysalvage: {line}", 1))
        self.assertEqual(salvage("pysalvage: cannot merge", 7), "status 7")


def member(name="f", **fields):
    """A frame of `pysalvage`."""
    return {"filename": "a.py", "line": 3, "locals": None, "locals_fault": None, "name": name, **fields}


def tree(frames=(), thread=(), interpreter=(), **fields):
    """The JSON of `pysalvage` of a process that was ended by a signal, with other values for some keys."""
    front = {"between": 0, "end": {"kind": "whole"}, "first": [member()], "last": [], "met": 1, **dict(frames)}
    one = {"address": "0x40", "crashed": True, "frames": front, "gil": False, "name": None, "os_thread_id": 7,
           "thread_id": 9, **dict(thread)}
    held = {"address": "0x10", "lock": {"holder": 0, "kind": "read"}, "searched": False, "threads": [one],
            "threads_end": {"kind": "whole"}, **dict(interpreter)}
    return {"interpreters": [held], "layout_check": None, "missing": None, "more": False, "names": None, "native": None,
            "process": {"arguments": 'a "b"\n', "pid": 4}, "registers": None, "search_ended": None, "signal": 11,
            "signal_info": None, "stacks": None, "exceptions": None, "tasks": None, "version": "3.9.0", "heap": None, "version_by_names": False, "waits": None, **fields}


SALVAGED = "Signal 11: core\nProcess 4: a \"b\"\\u{a}\nPython v3.9.0\n\nThread 7 (crashed)\n    f (a.py:3)\n"
"""The text of the same."""


class Salvage(unittest.TestCase):
    """What is taken of `pysalvage`, and what is not."""

    def fault(self, told_tree, text=SALVAGED, options=()):
        """What the fuzzer says of a program that prints this JSON and this text."""
        shown = told_tree if isinstance(told_tree, str) else salvage_text.json_of(told_tree)
        script = f"case \"$*\" in\n*-j*) cat <<'END'\n{shown}END\n;;\n*) cat <<'END'\n{text}END\nesac\n"
        return Fuzz().fault(script, [*SALVAGE, *options], command="pysalvage")

    def test_right(self):
        self.assertIsNone(self.fault(tree()))
        self.assertIsNone(self.fault(tree(), "no text\n", ["-j"]))
        self.assertIsNone(self.fault(tree(), options=["-ln2"]))

    def test_texts(self):
        for wrong in (
            SALVAGED.replace("3)", "4)"), SALVAGED.replace(" (crashed)", ""), SALVAGED.replace("\\u{a}", "\n"),
            SALVAGED + "Thread 8\n", SALVAGED.replace("core", "cord"), "",
        ):
            self.assertEqual(self.fault(tree(), wrong), "the text isn't that of its JSON")
        script = f"case \"$*\" in *-j*) exit 1;; esac; cat <<'END'\n{SALVAGED}END\n"
        self.assertIn("with -j", Fuzz().fault(script, SALVAGE, command="pysalvage"))

    def test_sections(self):
        info = {"address": "0x10", "code": 1, "kind": "fault", "meaning": "address not mapped", "name": "SIGSEGV", "signal": 11}
        held = dict.fromkeys(section_text.X86_64, "0x0")
        rows = [{"python": {"kind": "thread", "thread_id": 9}, "registers": held, "system_id": 7},
                {"python": {"kind": "not told"}, "registers": None, "system_id": 8}]
        cells = [f" {name:>8} {0:016x}" for name in section_text.X86_64]
        lines = ["Thread 7 (Python's 0x9)", *("   " + "".join(cells[at : at + 4]) for at in range(0, 27, 4)),
                 "Thread 8 (whose is not told): no registers"]
        told, both = tree(signal_info=info, registers=rows), ["--signal", "--registers"]
        text = SALVAGED.replace("core\n", "core\nSIGSEGV at 0x10: address not mapped\n", 1) + "\n".join(lines) + "\n"
        self.assertIsNone(self.fault(told, text, both))
        self.assertEqual(self.fault(told, text.replace("not mapped", "mapped"), both), "the text isn't that of its JSON")
        self.assertEqual(self.fault(told, text.replace("r15 0", "r15 1"), both), "the text isn't that of its JSON")
        for wrong, options in (
            (told, ["--signal"]), (tree(), both), (tree(signal_info={"kind": "none"}, registers=[]), both),
            (tree(signal_info={**info, "address": 16}, registers=[]), both), (tree(signal_info={**info, "pid": 1}, registers=[]), both),
            (tree(registers=[{**rows[0], "registers": {"rip": "0x0"}}]), ["--registers"]),
            (tree(registers=[{**rows[0], "python": {"kind": "thread"}}]), ["--registers"]),
        ):
            self.assertIn("isn't read", self.fault(wrong, options=options))

    def test_forms(self):
        right = salvage_text.json_of(tree())
        for wrong in (
            right[:-2], "[]\n", right.replace('  "more": false,\n', ""), right.replace('"more"', '"mode"'),
            json.dumps(tree()) + "\n", right.replace('"0x40"', '"0x040"'), right.replace('"met": 1', '"met": "1"'),
        ):
            self.assertIn("isn't read", self.fault(wrong, options=["-j"]))

    def test_trees(self):
        lost = {"address": "0x99", "kind": "unreadable", "length": 64}
        for wrong in (
            tree(signal=0), tree(more=True), tree(interpreters=[]), tree(process={"pid": 4}), tree(frames={"met": 0}),
            tree(frames={"between": 3}), tree(frames={"last": [member()]}), tree(frames={"end": {"kind": "cut"}}),
            tree(frames={"end": {"kind": "lost"}}), tree(frames={"end": {"kind": "unreadable"}}),
            tree(frames={"met": 2 ** 20 + 1}), tree(frames={"first": [member(locals_fault={"kind": "worse"})]}),
            tree(frames={"first": [{"address": "0x1"}]}), tree(thread={"thread_id": -1}), tree(thread={"gil": None}),
            tree(interpreter={"threads": []}), tree(interpreter={"searched": True, "threads_end": lost}),
            tree(interpreter={"threads_end": {"kind": "cut"}}), tree(thread={"gil": True}, interpreter={"lock": lost}),
            tree(interpreters=tree()["interpreters"] * 2),
        ):
            with self.assertRaises(Failure, msg=wrong):
                salvage_text.check_told(wrong, 100)
        salvage_text.check_told(tree(frames={"end": lost}, interpreter={"lock": lost, "threads_end": lost}), 100)

    def test_counts(self):
        many = {"first": [member()] * 2, "between": 5, "last": [member()] * 2, "met": 9}
        salvage_text.check_told(tree(frames=many), 2)
        for limit, wrong in ((3, many), (2, {**many, "between": 6}), (2, {**many, "last": [member()]}),
                             (1, {"first": [member()] * 3, "met": 3})):
            with self.assertRaises(Failure):
                salvage_text.check_told(tree(frames=wrong), limit)

    def test_order(self):
        plain = tree(thread={"crashed": False})["interpreters"][0]
        marked = {**tree()["interpreters"][0], "address": "0x20"}
        salvage_text.check_told(tree(interpreters=[marked, plain]), 100)
        behind = {**marked, "threads": [*plain["threads"], *marked["threads"]]}
        for wrong in ([plain, marked], [behind]):
            with self.assertRaises(Failure):
                salvage_text.check_told(tree(interpreters=wrong), 100)

    def test_words(self):
        for words, limit, core in (
            (["core"], 100, "core"), (["-n", "7", "a"], 7, "a"), (["-ljn3", "--layouts", "l", "b"], 3, "b"),
            (["--frames=12", "--layouts=l", "--", "-c"], 12, "-c"), (["-lln", "4", "c"], 4, "c"),
        ):
            self.assertEqual((fuzz.frames_asked(words), fuzz.core_named(words)), (limit, core), words)

    def test_told(self):
        standings, order = [member("a"), None, member("c")], told_salvage.around(3, 1, 8)
        frames = told_salvage.frames_of(order, standings, {"kind": "cut"}, 1)
        self.assertEqual([it["name"] for it in frames["first"] + frames["last"]], ["a", "c"])
        self.assertEqual((frames["between"], frames["met"]), (2, 8))
        one = {"address": "0x1", "lock": {}, "threads": [{"thread_id": at} for at in range(5)]}
        marked = told_salvage.with_marks(one, 2, 4)
        self.assertEqual([it["thread_id"] for it in marked["threads"]], [2, 4, 3, 1, 0])
        self.assertEqual([it["gil"] for it in marked["threads"]], [False, True, False, False, False])


class Tellers(unittest.TestCase):
    """What the rules tell."""

    def test_all(self):
        for command, tellers in fuzz.TOLD.items():
            for teller in set(tellers):
                found = [teller(Random(f"{teller.__name__} {seed}"), command) for seed in range(30)]
                self.assertGreater(len({(it.words, tuple(sorted(it.files.items()))) for it in found}), 2, teller)
                self.assertTrue(all((it.status == 0) != bool(it.line) for it in found), teller)
                for it in found if command == "pysalvage" else ():
                    if "-j" in it.words and it.out:
                        salvage_text.tree_of(it.out, fuzz.frames_asked(it.words), fuzz.sections_asked(it.words))

    def test_chains_of_tasks(self):
        memory = told_tasks.Memory(Random(1), 5)
        one, two = memory.heads[:2]
        first, last = ({"address": it, "frame": None, "kind": "coroutine"} for it in ("first", "last"))
        for second, end, members in ((told_tasks.Member(last, one), {"address": hex(one), "kind": "cycle"}, [last, first]),
                                     (told_tasks.Member(last, 0, {"kind": "created"}), {"kind": "created"}, [last, first]),
                                     (told_tasks.Member(None, 0, {"kind": "object"}), {"kind": "object"}, [first])):
            memory.members.update({one: told_tasks.Member(first, two), two: second})
            self.assertEqual(memory.chain(one, 2), {"end": end, "members": members})
        self.assertEqual(memory.chain(one, 1), {"end": {"address": hex(two), "kind": "cut"}, "members": [first]})
        chains = [(memory.form, told_tasks.task(memory, 0, 1000)[1]["chain"]) for memory in (told_tasks.Memory(Random(seed), 3) for seed in range(1000))]
        for form in told_coroutines.FORMS:
            self.assertEqual({it["end"]["kind"] for own, it in chains if type(own) is form},
                             {"future", "yield", "created", "running", "finished", "not stored", "object", "unreadable", "cycle"}, form)
        self.assertEqual({it["kind"] for _, chain in chains for it in chain["members"]}, {"coroutine", "generator", "async generator", "between"})
        waiter = {"state": "finished"}
        self.assertEqual([told_tasks.condition(*it) for it in ((7, "cycle", None), (0, "created", waiter), (0, "cycle", waiter), (0, "cycle", {"state": None}))],
                         ["done", "not started", "ready", "waiting"])

    def test_what_stands_between(self):
        types, members = {"coroutine": 0x7000, "async_generator": 0x8000}, set()
        for seed in range(300):
            form = told_coroutines.Framed(Random(seed), Made(told_coroutines.FRAMED_LAYOUT), 2 ** 40)
            between, held = told_coroutines.Between(form, Random(seed), "another size" if seed % 7 == 0 else ""), form.made.thing
            form.objects.word(held + 8, (0x7000, 0x8000)[seed % 2])
            it = between.member(held if seed % 5 else 0, types if seed % 11 else {})
            is_told = bool(seed % 7 and seed % 5 and seed % 11) and between.wants in ("any", "coroutine" if seed % 2 == 0 else "async_generator")
            self.assertEqual(it.told is not None, is_told, between.name)
            members.add((between.name, it.end["kind"] if it.end else "awaits"))
        self.assertEqual(members, {*((name, "object") for name, *_ in told_coroutines.HOLDERS), ("_asyncio.FutureIter", "future"),
                                   *((name, "awaits") for name, *_ in told_coroutines.HOLDERS[:4])})

    def test_lines(self):
        table = bytes((0, 1, 10, 1, 8, 255, 4))
        found = [told.line_of_pairs(table, at) for at in (0, 9, 10, 18, 99)]
        self.assertEqual(found, [10_001, 10_001, 10_002, 10_001, 10_001])
        table = bytes((4, 1, 2, 128, 6, 2, 9))
        found = [told.line_of_ranges(table, at) for at in (0, 3, 4, 6, 11, 12)]
        self.assertEqual(found, [10_001, 10_001, None, 10_003, 10_003, None])


class Sample(unittest.TestCase):
    """What is taken of `sample`, and what is not."""

    def test_counts(self):
        wanted = told.Told(("sample", "7"), {}, 0, out=counts_text(7).encode())
        right = f"cat <<'END'\n{counts_text(7)}END\n"
        self.assertIsNone(Fuzz().fault(right, ["sample", "7"], wanted))
        self.assertIn("is wanted", Fuzz().fault(right.replace("256", "255"), ["sample", "7"], wanted))

    def test_cores(self):
        wanted = told.Told(("sample", "7", "core"), {}, 0, out=None)
        right = f"case $1 in sample) echo a core;; *) cat <<'END'\n{walk_text(7)}END\nesac\n"
        self.assertIsNone(Fuzz().fault(right, ["sample", "7", "core"], wanted))
        self.assertIn("a walk over it", Fuzz().fault(right.replace("f7 ", "f8 "), ["sample", "7", "core"], wanted))
        self.assertIn("is wanted", Fuzz().fault("exit 5", ["sample", "7", "core"], wanted))

    def test_numbers(self):
        for text, number in (("7", 7), ("007", 7), ("0x1F", 31), ("0x" + "f" * 16, 2 ** 64 - 1), ("0" * 20, 0)):
            self.assertEqual(told.number_of(text), number)
        for text in ("", "-7", "0x", "0X1", "0x" + "0" * 17, "0" * 21, str(2 ** 64), "7 ", "1_0", "\u0667"):
            self.assertIsNone(told.number_of(text))


class Changes(unittest.TestCase):
    """What the changes that know of segments come to."""

    CORE = core_file([Segment(0x1000, bytes(64), 6), Segment(0x2000, (0x1000).to_bytes(8, "little") * 8, 6)])

    def changed(self, change):
        """The loads of the core after a change, by many seeds, and the cores themselves."""
        for seed in range(60):
            data = bytearray(self.CORE)
            change(Random(seed), data)
            yield changes.loads_in(data), bytes(data)

    def test_loads(self):
        self.assertEqual([(it.start, it.size) for it in changes.loads_in(self.CORE)], [(0x1000, 64), (0x2000, 64)])
        for data in (b"", b"text", self.CORE[:70], b"\x7fELF".ljust(64, b"\xff")):
            self.assertEqual(changes.loads_in(data), [])

    def test_overlaps(self):
        found = [loads for loads, _ in self.changed(changes.change_overlap)]
        meets = lambda one, two: one.start < two.start + two.size and two.start < one.start + one.size
        self.assertTrue(any(len(loads) == 2 and meets(*loads) for loads in found))
        self.assertTrue(any([it.start for it in loads] == [0x2000, 0x1000] for loads in found))

    def test_cycles(self):
        found = [(loads[1].offset, data) for loads, data in self.changed(changes.change_cycle)]
        self.assertEqual({changes.word(data, first + at) for first, data in found for at in range(0, 64, 8)}, {0x1000})
        linked = core_file([Segment(0x1000, b"".join(at.to_bytes(8, "little") for at in (0x1008, 0x1010, 0)), 6)])
        with mock.patch.object(Changes, "CORE", linked):
            rings = {data for _, data in self.changed(changes.change_cycle) if data != linked}
        self.assertTrue(any(changes.word(data, changes.loads_in(data)[0].offset + 8) == 0x1008 for data in rings))

    def test_headers_and_texts(self):
        self.assertGreater(len({data for _, data in self.changed(changes.change_header)}), 30)
        found = set()
        for seed in range(60):
            text = bytearray(b"size=64")
            changes.change_decimal(Random(seed), text)
            found.add(bytes(text))
        self.assertTrue({b"size=65", b"size=-1", b"size=18446744073709551616"} <= found)


class Growths(unittest.TestCase):
    """Which answers are right after a fault."""

    ROW = row("a row", "walk", {}, "text\n")

    def right(self, call, fault, status, out, said="", name="pystacks"):
        return growths.is_right(growths.Run(call, fault, 1, status, out, said), self.ROW, name)

    def test_growths(self):
        self.assertTrue(self.right("malloc", "refused", 5, "", "pystacks: out of memory\n"))
        self.assertTrue(self.right("malloc", "refused", 0, "text\n"))
        self.assertFalse(self.right("malloc", "refused", 0, "text"))
        self.assertFalse(self.right("malloc", "refused", 5, "text\n", "pystacks: out of memory\n"))
        self.assertFalse(self.right("malloc", "refused", 1, "", "pystacks: no interpreter found\n"))
        self.assertFalse(self.right("malloc", "refused", None, ""))
        self.assertTrue(self.right("malloc", "refused", 0, None))
        self.assertFalse(self.right("malloc", "refused", 5, None, "pystacks: out of memory\n"))

    def test_names(self):
        self.assertTrue(self.right("malloc", "refused", 5, "", "pysalvage: out of memory\n", "pysalvage"))
        self.assertFalse(self.right("malloc", "refused", 5, "", "pystacks: out of memory\n", "pysalvage"))
        self.assertTrue(self.right("read", "failed", 3, "", "pysalvage: cannot read core\n", "pysalvage"))
        self.assertFalse(self.right("write", "failed", 4, "te", "pystacks: cannot write\n", "pysalvage"))

    def test_rows(self):
        self.assertEqual(len(growths.rows(False)), len(growths.CHOSEN) + 1)
        self.assertEqual(len(growths.rows(True)), len(growths.OF_SALVAGE))

    def test_reads(self):
        self.assertTrue(self.right("read", "failed", 3, "", "pystacks: cannot read core\n"))
        self.assertFalse(self.right("read", "failed", 0, "text\n"))
        self.assertTrue(self.right("read", "short", 0, "text\n"))
        self.assertFalse(self.right("read", "interrupted", 3, "", "pystacks: cannot read core\n"))

    def test_writes(self):
        self.assertTrue(self.right("write", "failed", 4, "te", "pystacks: cannot write\n"))
        self.assertFalse(self.right("write", "failed", 0, "text\n"))
        self.assertTrue(self.right("write", "failed", 4, None, "pystacks: cannot write\n"))
        self.assertFalse(self.right("write", "failed", 4, "tex!", "pystacks: cannot write\n"))
        self.assertFalse(self.right("write", "short", 4, "t", "pystacks: cannot write\n"))


if __name__ == "__main__":
    unittest.main()
