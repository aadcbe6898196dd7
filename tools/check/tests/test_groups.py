#!/usr/bin/env python3
"""Tests of groups by keys: keys of reports, lines of cores and groups of such lines."""

import json
import os
import stat
import sys
import tempfile
import time
import unittest
from pathlib import Path
from typing import Dict, List, Optional, Tuple

import rooms  # (first: it makes the other rooms known)

from made import core_file
from pystacks_tool.groups.gathered import Counted, gathered, lines_from
from pystacks_tool.groups.keys import cause_key, chosen, crash_key, once, stack_places, stacks_key
from pystacks_tool.model import Frame, Interpreter, Report, Thread
from test_tool import Case
from stand_ins import frame, interpreter, salvage, thread

LIBRARY = "/root/lib/python3.11/threading.py"


def frames(*places: str) -> Tuple[Frame, ...]:
    """Frames, each as `f:3`."""
    return tuple(Frame(it.partition(":")[0], "a.py", int(it.partition(":")[2] or 0)) for it in places)


def report(*threads: Thread, signal: Optional[int] = 11) -> Report:
    """A report of these threads."""
    return Report((Interpreter(threads),), "3.11.7", signal, is_salvaged=True)


def crashed(*places: str, **more: object) -> Thread:
    """A thread that got the signal."""
    return Thread(1, frames(*places), is_crashed=True, **more)  # type: ignore[arg-type]


class Keys(unittest.TestCase):
    """What keys of reports are the same."""

    def same(self, one: Report, other: Report, is_same: bool) -> None:
        """Sees whether two crashes are."""
        self.assertEqual(crash_key(one) == crash_key(other), is_same)

    def test_once(self):
        for given, wanted in (
            ("", ""), ("a", "a"), ("aa", "a"), ("aaab", "ab"), ("abab", "ab"), ("ababa", "aba"), ("abcabcx", "abcx"), ("abcdabcd", "abcdabcd"),
            ("xaab", "xab"), ("aabb", "ab"),
        ):
            self.assertEqual("".join(str(it[0]) for it in once([(it,) for it in given])), wanted, given)

    def test_a_recursion_of_any_depth(self):
        stacks = [crashed("boom:1", *["walk:5"] * depth, "main:9") for depth in (1, 2, 3, 90)]
        self.assertEqual(len({crash_key(report(it)) for it in stacks}), 1)
        # (shown in parts, the oldest ones begin anywhere)
        pair = ["a:1", "b:2"] * 3
        whole = crashed("boom:1", *pair, "main:9")
        for lost in range(3):
            parts = crashed("boom:1", *pair, *pair[lost % 2 :], "main:9", first=7, between=1001 + lost)
            self.same(report(whole), report(parts), True)

    def test_lines_of_the_newest_alone(self):
        for depth, is_same in ((9, False), (10, True), (15, True)):
            own = [f"f{at}:{at}" for at in range(depth)]
            self.same(report(crashed(*own, "main:1")), report(crashed(*own, "main:2")), is_same)

    def test_the_library_has_no_lines(self):
        threads = []
        for version, line in (("3.11", 5), ("3.12", 7)):
            own = (*frames("boom:1"), Frame("run", LIBRARY.replace("3.11", version), line), Frame("_find", "<frozen importlib._bootstrap>", line))
            threads.append(Thread(1, own, is_crashed=True))
        self.same(report(threads[0]), report(threads[1]), True)
        package = [Thread(1, (Frame("f", f"/lib/python3.{minor}/site-packages/p/m.py", line),), is_crashed=True) for minor, line in ((1, 5), (2, 5), (2, 6))]
        self.same(report(package[0]), report(package[1]), True)
        self.same(report(package[1]), report(package[2]), False)

    def test_what_differs(self):
        one = report(crashed("boom:1", "main:9"))
        for other in (report(crashed("boom:2", "main:9")), report(crashed("boom:1")), report(crashed("boom:1", "main:9"), signal=6),
                      report(Thread(1, frames("boom:1", "main:9"), is_holder=True))):
            self.same(one, other, False)
        # (other threads are no part of it)
        self.same(one, report(crashed("boom:1", "main:9"), Thread(2, frames("wait:3"))), True)

    def test_the_thread(self):
        holder, idle = Thread(2, frames("g"), is_holder=True), Thread(3, frames("h"))
        for threads, wanted in (
            ((idle, crashed("f"), holder), (1, "crashed")), ((idle, holder), (2, "gil")), ((idle, Thread(4, frames("main"))), (4, "main")),
            ((Thread(5, (), is_crashed=True), idle), (3, "main")),
        ):
            one = chosen(report(*threads))
            self.assertEqual((one.thread.number, one.why), wanted)
        self.assertIsNone(chosen(report()))

    def test_all_stacks(self):
        pool = [Thread(number, frames("wait:3")) for number in range(2, 6)]
        one = stacks_key(report(crashed("f:1"), *pool))
        self.assertEqual(one, stacks_key(report(*pool[:1], crashed("f:1"))))
        self.assertNotEqual(one, stacks_key(report(crashed("f:2"), *pool)))
        self.assertNotEqual(one, stacks_key(report(crashed("f:1"), *pool, Thread(9, frames("wait:3"), first=1, between=7))))

    def test_unnamed_frames(self):
        lost = [Thread(1, (Frame(why=f"unreadable at {at}, 8 bytes"), *frames("f:1")), is_crashed=True) for at in ("0x10", "0x20")]
        self.same(report(lost[0]), report(lost[1]), True)
        self.assertEqual(stack_places(lost[0]), [("?",), ("f", "a.py", 1)])


def line(core: str, key: str, when: str = "", **more: object) -> Dict[str, object]:
    """A line of a core."""
    base: Dict[str, object] = {"core": core, "host": None, "time": when or None, "signal": 11, "signal_name": "SIGSEGV", "told": "", "process": "p",
                               "version": "3.11.7", "thread": None, "frames": [], "stack": ["f (a.py:1)"], "cause": None}
    return {**base, "keys": {"crash": key, "stacks": key + key}, **more}


class Lines(unittest.TestCase):
    """Groups of lines."""

    def test_groups(self):
        lines = [line("a", "1", "2026-01-02T00:00:00Z"), line("b", "2"), line("c", "1", "2026-01-01T00:00:00Z", version="3.12.1", host="h"),
                 line("d", "3", cause="bad note"), line("e", "3", cause="bad note"), line("f", "3", cause="bad note")]
        groups = gathered(lines, "crash")
        self.assertEqual([(it.count, it.cores) for it in groups], [(2, ["a", "c"]), (1, ["b"]), (3, ["d", "e", "f"])])
        self.assertEqual((groups[0].first, groups[0].last), ("2026-01-01T00:00:00Z", "2026-01-02T00:00:00Z"))
        self.assertEqual((groups[0].versions, groups[0].hosts), ({"3.11.7", "3.12.1"}, {"h"}))

    def test_bad_lines(self):
        texts = [json.dumps(line("a", "1")), "", "none", "{}", "[1]", '{"core": "x", "keys": {"crash": 1}}', json.dumps(line("b", "1")), "[" * 100_000]
        with tempfile.TemporaryDirectory() as name:
            path = Path(name) / "keys"
            path.write_text("\n".join(texts))
            counted = Counted()
            self.assertEqual([it["core"] for it in lines_from([str(path)], counted)], ["a", "b"])
        self.assertEqual((counted.bad, counted.first), (5, f"{path}:3"))

    def test_many(self):
        # (memory by groups, not by lines)
        groups = gathered((line(f"core{number}", str(number % 7), version=f"3.{number % 50}.0") for number in range(20_000)), "crash")
        self.assertEqual([it.count for it in groups], [2858, 2857, 2857, 2857, 2857, 2857, 2857])
        self.assertTrue(all(len(it.cores) == 10 and len(it.versions) == 20 for it in groups))


class Cores(Case):
    """The tool over several cores."""

    def two(self) -> List[bytes]:
        """Two cores of one crash, by programs that stand in."""
        self.programs(salvage(interpreter([thread(9, [frame("boom", "a.py", 5), frame("main", "a.py", 9)], crashed=True), thread(7, [frame("wait")])])))
        return [self.put(f"core{number}", core_file([])) for number in range(2)]

    def test_crash(self):
        cores = self.two()
        status, out, said = self.tool("--group", core=cores)
        self.assertEqual((status, said), (0, ""))
        lines = out.splitlines()
        self.assertRegex(lines[0], r"^Group 1: 2 cores, SIG\w+, Python [0-9.]+, 20[0-9: -]+( to [0-9: -]+)?$")
        self.assertEqual(lines[1:3], [f"    {os.fsdecode(it)}" for it in cores])
        self.assertEqual(lines[-2:], ["            boom (a.py:5)", "            main (a.py:9)"])

    def test_keys(self):
        cores = [*self.two(), self.put("none", b"none")]
        status, out, said = self.tool("--keys", "--host=h1", core=cores)
        self.assertEqual((status, said), (0, ""))
        first, second, none = map(json.loads, out.splitlines())
        self.assertEqual((first["keys"], first["host"], first["frames"]), (second["keys"], "h1", ["boom (a.py:5)", "main (a.py:9)"]))
        self.assertEqual((none["signal"], none["stack"], bool(none["cause"])), (None, [], True))
        keys = self.put("keys", out.encode())
        texts = [self.tool("--group", "--host=h1", f"--by={by}", core=cores)[1] for by in ("crash", "stacks")]
        self.assertEqual([self.tool("--group", f"--by={by}", "--from", keys, core=())[1] for by in ("crash", "stacks")], texts)
        tree = json.loads(self.tool("--group", "-j", "--from", keys, core=())[1])
        self.assertEqual([(it["count"], it["cause"] is None) for it in tree], [(2, True), (1, False)])

    def test_slow(self):
        cores = self.two()
        self.program.with_name("pysalvage").write_text("#!/bin/sh\nsleep 60\n")
        os.chmod(self.program.with_name("pysalvage"), stat.S_IRWXU)
        start = time.monotonic()
        status, out, _ = self.tool("--keys", "--timeout=1", "--jobs=2", core=cores)
        self.assertLess(time.monotonic() - start, 20)
        self.assertEqual((status, [json.loads(it)["cause"] for it in out.splitlines()]), (0, ["took longer than 1 s"] * 2))

    def test_clashes(self):
        cores = self.two()
        for words, core in (
            (["--group", "--keys"], cores), (["--keys", "-j"], cores), (["--group", "--by=exact", "-j"], cores), (["--group", "--plain", "--by=crash"], cores),
            (["--from=x"], ()), (["--group", "--by=exact", "--from=x"], ()), (["--group", "--from", "x", "--html=y"], ()), (["--keys", "-l"], cores),
            (["--group", "--timeout=0"], cores), (["--group", "--jobs=x"], cores), (["--group", "--by=other"], cores),
        ):
            status, out, said = self.tool(*words, core=core)
            self.assertEqual((status, out, "Traceback" in said), (2, "", False), words)
        self.assertEqual(self.tool("--group", "--from", self.folder / "none", core=())[0], 2)

    def test_page(self):
        cores, page = self.two(), self.folder / "page.html"
        self.assertEqual(self.tool("--group", f"--html={page}", core=cores)[:2], (0, ""))
        text = page.read_text(encoding="utf-8")
        self.assertEqual([text.count(it) for it in ("<h2>Group 1: 2 cores", "boom")][:1], [1])

    def test_causes(self):
        self.assertEqual(cause_key("bad note", "p"), cause_key("bad note", "p"))
        self.assertNotEqual(cause_key("bad note", "p"), cause_key("bad note", "q"))


if __name__ == "__main__":
    unittest.main(argv=[sys.argv[0], *sys.argv[1:]])
