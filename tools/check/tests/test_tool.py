#!/usr/bin/env python3
"""What dump_core.py shows and says, over cores made by hand and programs that stand in for the built ones."""

import fcntl
import json
import os
import pty
import re
import shutil
import struct
import subprocess
import sys
import tempfile
import termios
import unittest
from pathlib import Path

from rooms import ROOT, TOOLS  # (first: it makes the other rooms known)

import stand_ins
from pystacks_tool.ask.advice import NEXT, next_of
from pystacks_tool.cores.progress import Progress
from made import AARCH64, Segment, core_file, elf_file, process_record, status_record
from stand_ins import coroutine, frame, frameworks, interpreter, local, native_frame, native_stack, native_thread, salvage, task, tasks, thread
from tasks_text import task_lines

TOOL = TOOLS / "dump_core.py"

POOL = [thread(number, [frame("wait", "pool.py", 12), frame("run", "pool.py", 3)], 100 + number) for number in range(10)]
CRASHED = thread(0x7F00, [frame("boom", "a.py", 5), frame("<module>", "a.py", 9)], 99, True, True)

SLOW = b"""\
import os, time
own = os.pread

def pread(*words):
    time.sleep(0.3)
    return own(*words)

os.pread = pread
"""
"""What makes the reading of files slow."""

HEAD = "Signal 11 (SIGSEGV): {core}\nProcess 4711: python3 a.py\nPython v3.11.7\n\n"

ALONE = """\
dump_core: pysalvage isn't there, so that the stacks are whole or missing, and neither the version of Python nor how the signal came about is told
dump_core: next: tools/build makes it
"""
"""What is said where `pystacks dump` is shown alone."""


class Case(unittest.TestCase):
    """A folder with a core and programs."""

    def setUp(self):
        folder = tempfile.TemporaryDirectory(prefix="tool-")
        self.addCleanup(folder.cleanup)
        self.folder = Path(os.path.realpath(folder.name))
        self.core = self.put("core", core_file([]))
        self.program = self.folder / "pystacks"

    def put(self, name, data):
        """Writes a file, and returns its path."""
        path = self.folder / name
        path.parent.mkdir(parents=True, exist_ok=True)
        path.write_bytes(data)
        return path

    def programs(self, tree=None, threads=None, names=None, **more):
        """Puts the programs: `pysalvage`, if a tree is handed in, and `pystacks`."""
        if tree is not None:
            # (of its text the tool reads the lines of tasks alone)
            trees = tree.get("tasks") if isinstance(tree, dict) else None
            text = "".join(f"{it}\n" for it in ["Signal 11 (SIGSEGV): core", "Thread 0x7F00", "    main (a.py:1)", *task_lines(trees or [])])
            stand_ins.program(self.folder / "pysalvage", json.dumps(tree), text, **more)
            more = {}
        threads = threads if threads is not None else [it for one in (tree or {"interpreters": []})["interpreters"] for it in one["threads"]]
        stand_ins.program(self.program, stand_ins.dump_json(threads, names), stand_ins.text_of(threads, names=names), **more)

    def tool(self, *words, core=None, environment=None, stdin=subprocess.DEVNULL):
        """What the tool comes to."""
        command = [sys.executable, "-B", str(TOOL), f"--program={self.program}", *([] if core == () else core or [self.core]), *words]
        streams = {"stdin": stdin, "stdout": subprocess.PIPE, "stderr": subprocess.PIPE}
        ran = subprocess.run([str(it) for it in command], timeout=60, env=environment, **streams)
        return ran.returncode, ran.stdout.decode("utf-8"), ran.stderr.decode("utf-8")


class Kinds(Case):
    """What a file is that is no core."""

    def test_lines(self):
        whole = core_file([])
        narrow = whole[:4] + b"\1" + whole[5:18] + b"\x03\0" + whole[20:]
        big = whole[:5] + b"\2" + whole[6:16] + b"\0\4\0\x15" + whole[20:]
        for data, line, then in (
            (b"", "is empty", "ulimit -c"), (b"text", "is no ELF file, and so no core", "`file`"), (b"\x7fELF\2\1", "ends within its first 20 bytes", "anew"),
            (narrow, "is a core of a 32-bit machine, i386: only 64-bit processes are read", "gdb PROGRAM CORE"),
            (big, "is a core of a big-endian machine, ppc64: only little-endian ones are read", "gdb PROGRAM CORE"),
            (elf_file(2, []), "is a program for x86_64, and no core", "core_pattern"),
            (elf_file(3, [], AARCH64), "is a program or a library for aarch64, and no core", "core_pattern"),
            (elf_file(1, []), "is an object file for x86_64, and no core", "core_pattern"),
        ):
            self.programs(threads=[])
            path = self.put("odd", data)
            status, out, said = self.tool(core=[path])
            lines = said.splitlines()
            self.assertEqual((status, out, lines[:1], len(lines)), (1, "", [f"dump_core: {path} {line}"], 2), said)
            self.assertTrue(lines[1].startswith("dump_core: next: ") and then in lines[1], said)

    def test_other_machine(self):
        self.programs(threads=[])
        path = self.put("odd", core_file([], machine=22))
        status, _, said = self.tool(core=[path])
        line = "dump_core: layouts/ has none of the core's machine, s390x: name a file by --layouts"
        self.assertEqual((status, said.splitlines()[0]), (2, line))
        self.assertEqual(self.tool("--layouts=my.toml", core=[path])[0], 0)

    def test_slim(self):
        # (a slim core has no type)
        self.programs(threads=[])
        whole = core_file([])
        self.assertEqual(self.tool(core=[self.put("slim", whole[:16] + b"\0\0" + whole[18:])])[0], 0)

    def test_program_own(self):
        # (what --plain is asked for is the program's to refuse)
        self.programs(threads=[], status=3, said=b"pystacks: cannot read it\n")
        for core in (self.folder / "none", self.put("odd", b"text")):
            self.assertEqual(self.tool("--plain", core=[core]), (3, "", "pystacks: cannot read it\n"))

    def test_files_that_are_none(self):
        # (each has a line of its own)
        self.programs(salvage(interpreter([CRASHED])))
        (self.folder / "dangling").symlink_to("elsewhere")
        then = "dump_core: next: name the core's file; `ls -l` says who may read it\n"
        for name, line in (("none", "there is no file {0}"), ("dangling", "{0} is a link to elsewhere, which isn't there"), ("", "{0} is a folder")):
            path = os.path.normpath(self.folder / name)
            self.assertEqual(self.tool(core=[path]), (3, "", f"dump_core: {line.format(path)}\n{then}"))
        zipped, tarred = self.put("zipped", b"PK\3\4" + bytes(600)), self.put("tarred", bytes(257) + b"ustar" + bytes(300))
        for path, kind in ((zipped, "a zip"), (tarred, "a tar")):
            status, _, said = self.tool(core=[path])
            self.assertEqual((status, said.splitlines()[0]), (1, f"dump_core: {path} is {kind} archive, and no core"))

    def test_standard_input(self):
        # (- is one, from a file or a pipe)
        self.programs(salvage(interpreter([CRASHED])))
        with open(self.core, "rb") as file:
            status, out, _ = self.tool(core=["-"], stdin=file)
        self.assertEqual((status, "boom (a.py:5)" in out), (0, True))

    def test_cut_arguments(self):
        # (Linux keeps 79 bytes of them, of which the last is a blank where they are whole)
        for arguments, shown in (("x" * 79, "x" * 79 + ".."), ("x" * 78 + " ", "x" * 78 + " "), ("x" * 78, "x" * 78)):
            self.programs(salvage(interpreter([CRASHED]), arguments=arguments))
            self.assertIn(f"Process 4711: {shown}\n", self.tool()[1])


class Shown(Case):
    """What is shown of a core."""

    def test_salvaged(self):
        broken = thread(1, [frame("g")], end={"kind": "unreadable", "address": "0x20008", "length": 8}, met=1)
        self.programs(salvage(interpreter([CRASHED, broken]), interpreter([thread(2)], 0x20000, True)), names={1: "one"})
        wanted = HEAD.format(core=self.core) + (
            'Interpreter 0x10000\nThread 99 (gil) (crashed)\n    boom (a.py:5)\n    <module> (a.py:9)\nThread 0x1: "one"\n    g (a.py:1)\n'
            "    ... unreadable at 0x20008, 8 bytes\nInterpreter 0x20000 (found by search): 1 thread without frames: 0x2\n")
        self.assertEqual(self.tool(), (0, wanted, ""))

    def test_signal(self):
        front = {"code": 1, "name": "SIGSEGV", "signal": 11}
        for info, line in (
            ({"kind": "fault", "address": "0x10", "meaning": "address not mapped"}, "SIGSEGV at 0x10: address not mapped"),
            ({"kind": "fault", "address": "0x10", "meaning": None}, "SIGSEGV at 0x10: code 1"),
            ({"kind": "process", "pid": 1, "uid": 0}, "SIGSEGV by process 1, user 0"),
            ({"kind": "itself", "pid": 1, "uid": 0, "name": None}, "signal 11 by itself"),
            ({"kind": "no address"}, "SIGSEGV, no address: an address that can't be one, or a protection fault"),
            ({"kind": "system"}, "SIGSEGV by the system"), ({"kind": "code"}, "SIGSEGV with code 1"),
            ({"kind": "call", "call_address": "0x10", "call": 7}, "SIGSEGV at 0x10: a filter refused call 7"),
        ):
            self.programs(salvage(interpreter([CRASHED]), info={**front, **info}))
            self.assertEqual(self.tool()[1].splitlines()[1:3], [line, "Process 4711: python3 a.py"])
        for info in ({"kind": "no signal"}, {"kind": "no note"}, {"kind": "short note"}, {"kind": "another signal", "signal": 5}):
            self.programs(salvage(interpreter([CRASHED]), info=info))
            self.assertEqual(self.tool()[1].splitlines()[1], "Process 4711: python3 a.py")

    def test_ids(self):
        # (the system's ids are those of the status records; one that Python kept, of the process that was forked, stands behind)
        def row(number, system):
            return {"python": {"kind": "thread", "thread_id": number}, "registers": {}, "system_id": system}

        names = [thread(1, [frame("f")]), thread(2, [frame("f")], 50, crashed=True), thread(3, [frame("f")], 12), thread(4, [frame("f")])]
        self.programs(salvage(interpreter(names), registers=[row(2, 11), row(1, 10), row(3, 12)]))
        out = self.tool("--all")[1]
        self.assertEqual([it for it in out.splitlines() if it.startswith("Thread ")], ["Thread 11 (50 by Python) (crashed)", "Thread 10", "Thread 12", "Thread 0x4"])
        self.assertNotIn("Registers", out)
        self.assertIsNone(json.loads(self.tool("--json")[1])["registers"])

    def test_another_thread(self):
        rows = [{"python": {"kind": "none"}, "registers": {}, "system_id": 77}, {"python": {"kind": "thread", "thread_id": 1}, "registers": {}, "system_id": 10}]
        self.programs(salvage(interpreter([thread(1, [frame("f")])]), registers=rows))
        self.assertIn("\nNo Python thread got the signal: thread 77 of the process did\n", self.tool()[1])
        self.programs(salvage(interpreter([thread(1, [frame("f")])])))
        self.assertIn("\nNo Python thread got the signal: another thread of the process did, or its record is lost\n", self.tool()[1])

    def test_registers(self):
        values = {"cs": "0x33", "r8": "0x8", "rbp": "0x3", "rip": "0x401000", "rsp": "0x7fff0000"}
        rows = [{"python": {"kind": "thread", "thread_id": 0x7F00}, "registers": values, "system_id": 99},
                {"python": {"kind": "none"}, "registers": None, "system_id": 7}]
        self.programs(salvage(interpreter([CRASHED]), registers=rows), names={0x7F00: "Main"})
        self.assertEqual(self.tool("--registers")[1].splitlines()[-4:], [
            'Registers of thread 99 (0x7F00 "Main")',
            "         rip 0000000000401000       rsp 000000007fff0000       rbp 0000000000000003        cs 0000000000000033",
            "          r8 0000000000000008", "Registers of thread 7: none"])

    def test_ends(self):
        read = {"kind": "unreadable", "address": "0x10200", "length": 48}
        members = [{"address": "0x1", "why": read}, {"address": "0x1", "why": {"kind": "no text"}},
                   {"address": "0x1", "why": {"kind": "too long", "length": -3}}]
        members += [frame("f", fault=it) for it in ({"kind": "bad"}, {"kind": "too many", "count": 70000}, read)]
        cut = thread(1, members, last=[frame("h")], between=3, end={"kind": "cut"}, met=16384)
        stray = thread(2, [], end={"kind": "stray", "interpreter": "0x30000"}, met=0)
        lock, end = {**read, "length": 8}, {"kind": "stray", "interpreter": "0x30000"}
        self.programs(salvage(interpreter([cut, stray], lock=lock, end=end), more=True, signal=None, arguments=None), threads=[])
        self.assertEqual(self.tool()[1].splitlines(), [
            "Python v3.11.7", "", "... lock unreadable at 0x10200, 8 bytes", "... threads of the interpreter at 0x30000", "Thread 0x1",
            "    ? unreadable at 0x10200, 48 bytes", "    ? a name that is no text", "    ? a name that is too long",
            "    f (a.py:1)", "        ... locals with a bad name or count", "    f (a.py:1)", "        ... locals more than 65535",
            "    f (a.py:1)", "        ... locals unreadable at 0x10200, 48 bytes", "    ... 3 more frames", "    h (a.py:1)",
            "    ... cut after 16384 members", "Thread 0x2", "    ... of the interpreter at 0x30000", "... more than 16 interpreters"])
        for end, line in ((read, "... threads unreadable at 0x10200, 48 bytes"), ({"kind": "cut"}, "... more than 4096 threads")):
            self.programs(salvage(interpreter([], end=end)), threads=[])
            self.assertIn(line, self.tool()[1].splitlines())

    def test_by_dump(self):
        # (it is asked once, by its JSON: the signal and the process are those of the core's notes)
        self.programs(threads=[CRASHED, *POOL[:2]], names={0x7F00: "Main"})
        wanted = "".join(f"Thread {it['os_thread_id']}\n    wait (pool.py:12)\n    run (pool.py:3)\n" for it in POOL[:2])
        core = self.put("noted", core_file([], [status_record(11, 99), process_record(4711, b"x", b"x\nPython v9.9\n\nThread 0x1 (gil)")]))
        head = f"Signal 11 (SIGSEGV): {core}\nProcess 4711: x\\u{{a}}Python v9.9\\u{{a}}\\u{{a}}Thread 0x1 (gil)\n\n"
        status, out, said = self.tool(core=[core])
        self.assertEqual((status, said), (0, ALONE))
        self.assertEqual(out, head + 'Thread 99 (gil): "Main"\n    boom (a.py:5)\n    <module> (a.py:9)\n' + wanted)

    def test_nobody_holds_the_lock(self):
        # (`dump` marks a thread of the id 0 then)
        nobody, other = (thread(number, [frame("f")]) for number in (0, 7))
        self.programs(threads=[{**nobody, "gil": True}, other])
        self.assertEqual(self.tool()[1], "Thread 0x0\n    f (a.py:1)\nThread 0x7\n    f (a.py:1)\n")
        self.assertEqual(self.tool("--json")[1].count('"gil": false'), 2)

    def test_plain(self):
        self.programs(salvage(interpreter([CRASHED])))
        self.assertEqual(self.tool("--plain"), (0, stand_ins.text_of([CRASHED]), ""))
        self.assertEqual(self.tool("--plain", "-j"), (0, stand_ins.dump_json([CRASHED]), ""))

    def test_refused(self):
        self.programs(salvage(), status=1, said=b"pysalvage: no interpreter found: 7 addresses looked at, 0 members walked\n")
        status, out, said = self.tool()
        self.assertEqual((status, out, said.count("\n")), (1, "", 2))
        wanted = f"pysalvage: no interpreter found: 7 addresses looked at, 0 members walked\ndump_core: next: {ROOT}/docs/MESSAGES.md has"
        self.assertTrue(said.startswith(wanted), said)
        self.assertEqual(self.tool("--collapsed"), (status, out, said))

    def test_next(self):
        # (each step has a line of either program, and the rest of it, as a path, chooses none)
        for front, then in NEXT.items():
            for name in ("pystacks", "pysalvage"):
                self.assertEqual(next_of(f"{name}: {front} of\n"), then)
        for line in ("", "image not given: /a", "x: bad note", "pystacks: image not given: bad note", "pystacks: x"):
            self.assertEqual(next_of(f"{line}\n"), "")

    def test_a_path_forges_no_line(self):
        self.programs(threads=[], status=1, said=b"pystacks: image not given: /a\nThread 1\x1b[2J\xff\n")
        self.assertEqual(self.tool(), (1, "", "pystacks: image not given: /a\\u{a}Thread 1\\u{1b}[2J\\xff\n"))

    def test_no_names(self):
        # (where `dump` refuses a broken process there are no names)
        stand_ins.program(self.folder / "pysalvage", json.dumps(salvage(interpreter([CRASHED]))))
        stand_ins.program(self.program, status=1, said=b"pystacks: no interpreter found\n")
        status, out, said = self.tool()
        self.assertEqual((status, said, "Thread 99 (gil) (crashed)\n" in out), (0, "", True))

    def test_other_json(self):
        for tree in ({}, {"interpreters": [{}]}, [], salvage(interpreter([thread(1, end={"kind": "new"})]))):
            self.programs(tree, threads=[])
            status, out, said = self.tool()
            self.assertEqual((status, out, said.count("\n")), (127, "", 2), said)
            self.assertTrue(said.startswith("dump_core: the program wrote what isn't read here: "), said)

    def test_locals(self):
        rows = [local("n", "float 0x3ff8000000000000", True), local("s", '"a\u2028"')]
        self.programs(salvage(interpreter([thread(1, [frame("f", rows=rows)])])))
        wanted = '        Arguments:\n            n: 1.5 (float 0x3ff8000000000000)\n        Locals:\n            s: "a\\u{2028}"\n'
        self.assertTrue(self.tool("-l")[1].endswith(wanted))

    def test_values_of_dump(self):
        # (`pysalvage` tells no values: they are those that `dump` has of the same names and addresses)
        told = thread(1, [frame("f", rows=[local("n", "12", True), local("s", '"a"'), local("gone", None)])])
        elsewhere = {**local("n", None), "address": "0x2000"}
        rows = [local("n", None, True), local("s", '"own"'), local("gone", None), elsewhere]
        bare = thread(1, [frame("f", rows=rows)])
        stand_ins.program(self.folder / "pysalvage", json.dumps(salvage(interpreter([bare]))))
        for status, value in ((0, "12"), (1, None)):
            stand_ins.program(self.program, stand_ins.dump_json([told]), status=status)
            lines = [f"    n: {value or '?'}", "Locals:", '    s: "own"', "    gone: ?", "    n: ?"]
            self.assertEqual([it[8:] for it in self.tool("-l")[1].splitlines()[-5:]], lines)
            tree = json.loads(self.tool("-l", "--json")[1])["interpreters"][0]["threads"][0]
            rows = tree["frames"]["first"][0]["locals"]
            self.assertEqual([it["repr"] for it in rows], [value, '"own"', None, None])

    def test_sources(self):
        path = self.put("srv/a.py", b"one\n  two\n")
        os.utime(path, (0, 0))
        self.programs(salvage(interpreter([thread(1, [frame("f", str(path), 2), frame("g", "/srv/a.py", 1)])])))
        self.assertNotIn("> two", self.tool()[1])
        self.assertIn(f"    f ({path}:2)\n        > two\n    g (/srv/a.py:1)\n", self.tool("--source")[1])
        self.assertIn("    g (/srv/a.py:1)\n        > one\n", self.tool("--source", "--root", self.folder)[1])
        self.assertIn("    g (/srv/a.py:1)\n        > one\n", self.tool("--source", self.folder)[1])

    def test_json(self):
        self.programs(salvage(interpreter([CRASHED])), names={0x7F00: "ä\n\""})
        tree = json.loads(self.tool("--json")[1])
        self.assertEqual(tree["interpreters"][0]["threads"][0].pop("thread_name"), "ä\n\"")
        self.assertEqual(tree, salvage(interpreter([CRASHED])))

    def test_json_by_dump(self):
        self.programs(threads=[CRASHED, POOL[0]], names={0x7F00: "Main"})
        tree = json.loads(self.tool("--json")[1])
        wanted = salvage(interpreter([CRASHED, POOL[0]]))
        self.assertEqual(set(tree), set(wanted))
        rows = tree["interpreters"][0]["threads"]
        self.assertEqual([it["thread_name"] for it in rows], ["Main", None])
        self.assertEqual([it["frames"]["first"] for it in rows], [it["frames"]["first"] for it in (CRASHED, POOL[0])])
        self.assertEqual((tree["signal"], tree["process"], tree["version"]), (None, None, None))

    def test_many(self):
        self.programs(salvage(interpreter([CRASHED, *POOL])), names={it["thread_id"]: f"pool-{it['thread_id']}" for it in POOL})
        out = self.tool()[1]
        front = "Thread 99 (gil) (crashed)\n    boom (a.py:5)\n    <module> (a.py:9)\n\n10 other threads\n    10 of 11: wait (pool.py:12)\n\n"
        self.assertIn(f"Python v3.11.7\n\n{front}", out)
        self.assertIn("10 threads: pool-0, pool-1 and 8 more\n    wait (pool.py:12)\n", out)
        self.assertEqual(self.tool("--all")[1].count("Thread 10"), 10)
        self.assertIn('10 other threads\n    100 "pool-0": wait (pool.py:12)\n    101 "pool-1"', self.tool("--all")[1])

    def test_stacks(self):
        # (what there is no room for is counted, and shown where it is asked for)
        own = [thread(20 + at, [frame(f"f{at}_{depth}", "a.py", 1) for depth in range(9)]) for at in range(9)]
        self.programs(salvage(interpreter([CRASHED, *POOL, *own])))
        lines = self.tool()[1].splitlines()
        self.assertLessEqual(len(lines), 40 + 3)
        self.assertEqual(lines[-1], "... 7 more stacks of 7 threads: --stacks shows each stack, --all each thread")
        self.assertIn("    ... 3 more frames", lines)
        whole = self.tool("--stacks")[1]
        self.assertEqual((whole.count("_8 (a.py:1)"), whole.count("more"), whole.count("\nThread ")), (9, 1, 10))
        self.assertEqual(self.tool("-l")[1].count("_8 (a.py:1)"), 9)

    def test_frames(self):
        noted = self.folder / "pysalvage.said/words"
        self.programs(salvage(interpreter([CRASHED])))
        for words, handed in (((), []), (("--frames=3",), ["--frames=3"]), (("--frames", "all"), ["--frames=4096"])):
            self.assertEqual(self.tool(*words)[0], 0)
            self.assertEqual([it for it in noted.read_text().split("\n") if "frames" in it], handed)
        for word in ("0", "4097", "-1", "x", "", "1.5", "٣"):
            status, out, said = self.tool(f"--frames={word}")
            self.assertEqual((status, out), (2, ""))
            self.assertIn("argument --frames: ", said)
            self.assertIn("is neither a number of frames from 1 to 4096 nor `all`", said)
        self.assertIn("--plain takes no --frames", self.tool("--plain", "--frames=3")[2])

    def test_frames_by_dump(self):
        # (`pystacks dump` tells whole stacks, and so the tool takes their ends)
        deep = thread(7, [*[frame("d", line=4)] * 9, frame("begin")])
        self.programs(threads=[deep])
        head = "Thread 0x7\n    d (a.py:4)\n"
        for words, wanted in (
            ((), f"{head}    ... d: 8 times (line 4)\n    begin (a.py:1)\n"), (("--frames=2",), f"{head}    d (a.py:4)\n    ... 6 more frames\n    d (a.py:4)\n    begin (a.py:1)\n"),
            (("--frames=5",), f"{head}    ... d: 8 times (line 4)\n    begin (a.py:1)\n"), (("--frames=all",), "Thread 0x7\n" + "    d (a.py:4)\n" * 9 + "    begin (a.py:1)\n"),
        ):
            self.assertEqual(self.tool(*words)[1], wanted, words)
        frames = json.loads(self.tool("--json", "--frames=2")[1])["interpreters"][0]["threads"][0]["frames"]
        self.assertEqual((len(frames["first"]), frames["between"], len(frames["last"])), (2, 6, 2))

    def test_direction(self):
        self.programs(salvage(interpreter([thread(1, [frame("a\u202eb", "c\u2066.py", 1)])])), names={1: "\u200fx"})
        self.assertIn('Thread 0x1: "\\u{200f}x"\n    a\\u{202e}b (c\\u{2066}.py:1)\n', self.tool()[1])

    def test_collapsed(self):
        self.programs(salvage(interpreter([CRASHED, *POOL])))
        lines = "<module> (a.py:9);boom (a.py:5) 1\nrun (pool.py:3);wait (pool.py:12) 10\n"
        self.assertEqual(self.tool("--collapsed"), (0, lines, ""))

    def test_page(self):
        self.programs(salvage(interpreter([CRASHED, *POOL])), names={0x7F00: "<script>"})
        page = self.folder / "page.html"
        for _ in range(2):
            # (an earlier page is written over)
            self.assertEqual(self.tool(f"--html={page}"), (0, "", f"dump_core: the page is in {page}\n"))
        text = page.read_text(encoding="utf-8")
        self.assertEqual((text.count("<script>"), text.count("&lt;script&gt;") > 1, text.count("10 threads: ")), (1, True, 1))
        before = self.core.read_bytes()
        status, out, said = self.tool(f"--html={self.core}")
        self.assertEqual((status, out, said.splitlines()[0]), (2, "", f"dump_core: {self.core} is no page, and isn't written over"))
        self.assertEqual(self.core.read_bytes(), before)
        status, out, said = self.tool(f"--html={self.folder}/none/page.html")
        self.assertEqual((status, out, said.splitlines()[0]), (4, "", f"dump_core: cannot write {self.folder}/none/page.html: No such file or directory"))

    def test_closed_pipe(self):
        self.programs(salvage(interpreter([thread(1, [frame("f" * 1000)] * 1000)])))
        command = f"{sys.executable} -B {TOOL} --program={self.program} {self.core} | true; exit ${{PIPESTATUS[0]}}"
        ran = subprocess.run(["bash", "-c", command], stdin=subprocess.DEVNULL, stdout=subprocess.PIPE, stderr=subprocess.PIPE)
        # (quietly: who reads has what it wanted)
        self.assertEqual((ran.returncode, ran.stderr), (4, b""))


KNOWN = "pysalvage --names --tasks --native [--strict] [--crashed]"
"""The help of a program that tells these sections."""

LIBC, OWN, PYTHON = "/lib/libc.so.6", "/srv/fast.so", "/usr/lib/libpython3.11.so.1.0"

CALLED = native_stack(native_frame("memset", LIBC), native_frame(None, "/lib/libffi.so.8.1.2"), native_frame("fill", OWN, 3), native_frame("call", PYTHON))
"""What dies in the C library, called by a library of the program's own, which ctypes called."""


class Tasks(Case):
    """The tasks of asyncio."""

    def shown(self, *all_of, words=()):
        """The lines of tasks."""
        self.programs(salvage(interpreter([CRASHED]), tasks=list(all_of)), help_text=KNOWN)
        status, out, said = self.tool(*words)
        self.assertEqual((status, said), (0, ""))
        return out.split("    <module> (a.py:9)\n", 1)[1].splitlines()

    def test_equal_ones_once(self):
        pool = [task(f"worker-{at}", [coroutine("get", 7, "queues.py"), coroutine("work", 3)], number=at) for at in (10, 2, 1)]
        others = [task("late", [coroutine("quick", 2)], "not started", None, {"kind": "created"}), task("next", [coroutine("quick", 2)], "ready", None),
                  task("main", [coroutine("main", 9)], "running", None, {"kind": "running"}), task("gone", [], "done", None, {"kind": "finished"})]
        front = ["Tasks 6 (1 running, 1 ready, 1 not started, 3 waiting; 1 finished isn't shown)",
                 'Task "main" (running in thread 0x7F00)', "    main (a.py:9)"]
        frames = ["    get (queues.py:7)", "    work (a.py:3)"]
        rest = ['Task "late" (not started)', "    quick (a.py:2)", 'Task "next" (ready)', "    quick (a.py:2)"]
        self.assertEqual(self.shown(tasks(*others, *pool)), [
            *front, '3 tasks (waits for _asyncio.Future): "worker-1", "worker-2" and 1 more', *frames, *rest])
        each = [line for name in ("worker-10", "worker-2", "worker-1") for line in (f'Task "{name}" (waits for _asyncio.Future)', *frames)]
        self.assertEqual(self.shown(tasks(*others, *pool), words=["--all"]), [*front, *rest, *each])
        self.assertEqual(self.shown(tasks(*others, *pool), words=["--no-tasks"])[:1], front[:1])
        self.assertNotIn("--tasks", (self.folder / "pysalvage.said" / "words").read_text().split("\n"))

    def test_others(self):
        lost = {"address": "0x5000", "fault": {"address": "0x8", "kind": "unreadable", "length": 8}, "kind": "lost"}
        other = {"address": "0x6000", "kind": "other", "type": "Task"}
        nameless = task(None, [coroutine("f")], "ready", must_cancel=True, waiter=None, end={"address": "0x99", "kind": "cycle"})
        broken = task("broken", [{"filename": None, "line": 0, "name": None}, None], end={"kind": "not stored"})
        self.assertEqual(self.shown(tasks(nameless, broken, lost, other)), [
            "Tasks 2 (1 ready, 1 waiting)", "Task 0x5000 (ready, to be cancelled)", "    ... awaits the one at 0x99 again", "    f (a.py:1)",
            'Task "broken" (waits for _asyncio.Future)', "    ... what it awaits is not stored", "    ? a name that can't be read",
            "    ? a coroutine without a frame", "Task 0x5000 is not told: unreadable at 0x8, 8 bytes", "Registered, and no task: <Task at 0x6000>"])

    def test_faults(self):
        for told, line in (({"kind": "not described"}, "not described for this version"), ({"kind": "too many"}, "there are more than are looked at"),
                           ({"kind": "another size", "size": 168}, "they have 168 bytes, which is not described"),
                           ({"kind": "malformed"}, "something on the way is not what it has to be"),
                           ({"address": "0x8", "kind": "unreadable", "length": 24}, "unreadable at 0x8, 24 bytes")):
            self.assertEqual(self.shown({"frameworks": frameworks(), "interpreter": "0x10000", "tasks": told}), [f"Tasks are not told: {line}"])
        self.assertEqual(self.shown({"frameworks": None, "interpreter": "0x10000", "tasks": None}), [])
        self.assertEqual(self.shown(tasks(), tasks(task("a", [coroutine("f")]), address=0x20000)), [
            "Interpreter 0x10000: Tasks 0 (none that isn't done)", "Interpreter 0x20000: Tasks 1 (1 waiting)",
            'Task "a" (waits for _asyncio.Future)', "    f (a.py:1)"])

    def test_a_name_forges_no_line(self):
        name = "a\"\n    forged (a.py:1)\nTask \u202e"
        lines = self.shown(tasks(task(name, [coroutine("...\n5 more frames")], waiter="\nTask \"x\" (ready)", end={"address": "0x9", "kind": "object"})))
        self.assertEqual(lines, [
            "Tasks 1 (1 waiting)", 'Task "a\\u{22}\\u{a}    forged (a.py:1)\\u{a}Task \\u{202e}" (waits for \\u{a}Task "x" (ready))',
            "    ... awaits an object at 0x9", "    \\u{2e}..\\u{a}5 more frames (a.py:1)"])

    def test_running(self):
        stack = [frame("leaf", "a.py", 1), frame("main", "a.py", 9), frame("main", "a.py", 9), frame("run", "events.py", 80)]
        others = [thread(0x7F01, [frame("other", "a.py", 2), frame("main", "a.py", 9)], 100)]
        runs = task("main", [coroutine("main", 9)], "running", None, {"kind": "running"})

        def shown(*all_of, cut=0):
            first = stack[:2] if cut else stack
            tree = salvage(interpreter([thread(0x7F00, first, 99, True, True, last=stack[2:] if cut else (), between=cut), *others]), tasks=[tasks(*all_of)])
            self.programs(tree, help_text=KNOWN)
            status, out, said = self.tool("--all")
            self.assertEqual((status, said), (0, ""))
            lines = out.splitlines()
            at = next(at for at, it in enumerate(lines) if it.startswith("Tasks "))
            return lines[at + 1 :]

        head = 'Task "main" (running in thread 0x7F00)'
        # (its own thread's frames, down to the oldest that is its coroutine's)
        self.assertEqual(shown(runs), [head, "    leaf (a.py:1)", "    main (a.py:9)", "    main (a.py:9)"])
        # (which are whose isn't known where two run at one place, and where frames aren't shown)
        self.assertEqual(shown(runs, dict(runs, address="0x77")), [head, "    main (a.py:9)"] * 2)
        self.assertEqual(shown(runs, cut=3), [head, "    main (a.py:9)"])

    def test_frameworks(self):
        lines = ["Greenlets are not read", "Tasks of trio are not read"]
        own = dict(tasks(), frameworks=frameworks("trio", "greenlet"))
        self.assertEqual(self.shown(own), ["Tasks 0 (none that isn't done)", *lines])
        self.assertEqual(self.shown(dict(own, tasks=None)), lines)
        self.assertEqual(self.shown(dict(own, tasks=None), tasks(address=0x20000)), [
            *(f"Interpreter 0x10000: {it}" for it in lines), "Interpreter 0x20000: Tasks 0 (none that isn't done)"])
        self.assertEqual(self.shown(own)[1:], lines)
        page = self.folder / "page.html"
        self.assertEqual(self.tool(f"--html={page}")[0], 0)
        self.assertEqual([it for it in lines if it not in page.read_text(encoding="utf-8")], [])
        self.assertEqual(json.loads(self.tool("--json")[1])["tasks"], [own])

    def test_many(self):
        # (a screen has so many lines: those of most tasks are shown, and the others counted)
        rows = [task(f"{place} {at}", [coroutine(f"f{place}")], number=100 * place + at) for place in range(40) for at in range(1 + place % 7)]
        lines = self.shown(tasks(*rows))
        self.assertEqual((lines[1], len(lines)), ('7 tasks (waits for _asyncio.Future): "6 0", "6 1" and 5 more', 42))
        self.assertEqual(lines[-1], "... 44 more tasks at 20 other places: --all shows each")
        self.assertEqual(len(self.shown(tasks(*rows), words=["--stacks"])), 81)


    def test_files(self):
        # (the names of asyncio's types may stand in its module alone; for native stacks each file is handed over)
        paths = [os.fsencode(self.put(name, elf_file(3, []))) for name in ("bin/python3.11", "lib/_asyncio.cpython-311-x86_64-linux-gnu.so", "lib/_json.so")]
        self.core = self.put("core", core_file([Segment(0x1000 * (1 + at), b"", 4 if at else 5, None, path) for at, path in enumerate(paths)]))
        words = [os.fsdecode(it + b"=" + it) for it in paths]
        for help_text, more, count in ((KNOWN[:KNOWN.index(" --native")], (), 2), (KNOWN[:KNOWN.index(" --native")], ("--no-tasks",), 1), (KNOWN, ("--native",), 3)):
            self.programs(salvage(interpreter([CRASHED]), native=[]), help_text=help_text)
            self.assertEqual(self.tool(*more)[0], 0)
            said = (self.folder / "pysalvage.said" / "words").read_text().split("\n")
            self.assertEqual([it for it in words if it in said], words[:count])


class Native(Case):
    """Native stacks, and where a process died."""

    def shown(self, *stacks, words=(), help_text=KNOWN, missing="", **more):
        """The lines of a report, beside the one that names a file that wasn't at hand."""
        names = [{"fault": None, "interpreter": "0x10000", "threads": [{"name": "Main", "thread_id": 0x7F00}]}]
        self.programs(salvage(interpreter([CRASHED]), native=list(stacks), names=names, **more), help_text=help_text)
        status, out, said = self.tool(*words)
        self.assertEqual((status, said.splitlines()[:1]), (0, [f"dump_core: native stacks end early, as what was mapped isn't at hand: {missing}"] if missing else []))
        return out.splitlines()

    def where(self, stack, **more):
        """The line that says where it died, if there is one."""
        lines = self.shown(native_thread(99, stack, 0x7F00, True, more.pop("guessed", None)), **more)
        return lines[3:lines.index("")]

    def test_where(self):
        line = "In memset+0x46 (libc.so.6), called by fill+0x3 (fast.so)"
        self.assertEqual(self.where(CALLED), [line])
        self.assertEqual(self.where(CALLED, signal=6), [line])
        self.assertEqual(self.where(native_stack(native_frame(None, OWN, address=0x77), native_frame("call", PYTHON))), ["In 0x77 (fast.so)"])
        guessed = native_stack(native_frame("fill", OWN, 3))
        nowhere = native_stack(native_frame(None, None), end="no file", at="0x0")
        self.assertEqual(self.where(nowhere, guessed=guessed), ["In 0x7f1000 (in no file), called by fill+0x3 (fast.so) <guess>"])
        guessed = native_stack(native_frame("call", PYTHON))
        self.assertEqual(self.where(nowhere, guessed=guessed), ["In 0x7f1000 (in no file), called by call+0x46 (libpython3.11.so.1.0) <guess>"])
        self.assertEqual(self.where(nowhere), ["In 0x7f1000 (in no file)"])
        handler = native_stack(native_frame(None, LIBC, signal=True), *CALLED["frames"])
        self.assertEqual(self.where(handler), [line])

    def test_where_asks(self):
        # (no other native stack is told than that of the thread that got the signal; an earlier program tells all)
        for words, help_text, wanted in (
            ([], KNOWN, ["--native", "--crashed"]), (["--strict"], KNOWN, ["--native", "--strict", "--crashed"]), (["--native"], KNOWN, ["--native"]),
            (["--all-native"], KNOWN, ["--native"]), (["--no-where"], KNOWN, []), ([], KNOWN.replace(" [--crashed]", ""), ["--native"]),
        ):
            self.shown(native_thread(99, CALLED, 0x7F00, True), words=words, help_text=help_text)
            said = (self.folder / "pysalvage.said" / "words").read_text().split("\n")
            self.assertEqual([it for it in said if it in ("--native", "--strict", "--crashed")], wanted)

    def test_where_python_died(self):
        for stack in (native_stack(native_frame("f", PYTHON), native_frame("fill", OWN)), native_stack(native_frame("abort", LIBC), native_frame("os_abort", PYTHON)),
                      native_stack(native_frame("abort", LIBC), native_frame("main", "/usr/bin/python3.11"), native_frame("fill", OWN)),
                      native_stack(native_frame("abort", LIBC)), native_stack(), None):
            self.assertEqual(self.where(stack), [])
        self.assertEqual(self.where(CALLED, signal=15), [])
        self.assertEqual(self.where(CALLED, words=["--no-where"]), [])
        self.assertEqual(self.where(CALLED, help_text="pysalvage --names"), [])
        self.assertEqual(self.shown(native_thread(98, CALLED))[3], "")

    def test_stacks(self):
        deep = native_stack(native_frame("read", LIBC), native_frame(None, LIBC, signal=True), last=[native_frame("main", PYTHON)], between=7,
                            end="no file", at="0x99", file="/opt/lib(x).so")
        guess = {**native_stack({**native_frame("f", OWN), "mark": "frame pointer"}, end="unreadable", at="0x8"), "guess": "frame pointer"}
        stacks = [native_thread(7, deep), native_thread(8, None), native_thread(99, CALLED, 0x7F00, True, guess)]
        lines = self.shown(*stacks, words=["--native"], missing="/opt/lib(x).so")
        self.assertEqual(lines[lines.index("    <module> (a.py:9)") + 1:], [
            "    Native, thread 99:", "    memset+0x46 (libc.so.6)", "    0x1000 (libffi.so.8.1.2)", "    fill+0x3 (fast.so)",
            "    call+0x46 (libpython3.11.so.1.0)", "    ... guess: frame pointer", "    f+0x46 (fast.so) <frame pointer> <guess>",
            "    ... unreadable at 0x8", "Native thread 7",
            "    read+0x46 (libc.so.6)", "    0x1000 (libc.so.6) <signal>", "    ... 7 more frames", "    main+0x46 (libpython3.11.so.1.0)",
            "    ... 0x99 is in a file that isn't at hand (lib(x).so)", "Native thread 8: no registers"])
        self.assertNotIn("Native thread 7", self.shown(*stacks))
        self.shown(*stacks, words=["--native", "--strict"], missing="/opt/lib(x).so")
        self.assertIn("--strict", (self.folder / "pysalvage.said" / "words").read_text().split("\n"))

    def test_json(self):
        stacks = [native_thread(99, CALLED, 0x7F00, True)]
        tree = json.loads("\n".join(self.shown(*stacks, words=["-j", "--native"])))
        self.assertEqual((tree["native"], sorted(tree)), (stacks, sorted(salvage())))

    def test_a_name_forges_no_line(self):
        odd = native_stack(native_frame("...\nThread 1\"", "/lib/a\nb.so"), end="no file", at="0x9", file="/x/\nThread 1")
        lines = self.shown(native_thread(99, odd, 0x7F00, True), words=["--native"], missing="/x/\\u{a}Thread 1")
        self.assertEqual(lines[3], "In \\u{2e}..\\u{a}Thread 1\\u{22}+0x46 (a\\u{a}b.so)")
        self.assertEqual(lines[-2:], ["    \\u{2e}..\\u{a}Thread 1\\u{22}+0x46 (a\\u{a}b.so)",
                                      "    ... 0x9 is in a file that isn't at hand (\\u{a}Thread 1)"])

    def test_not_had(self):
        # (where native stacks can't be had what is told without them stays)
        self.assertEqual(self.shown({"odd": 1})[:3], self.shown()[:3])
        self.programs(salvage(interpreter([CRASHED]), native=[{"odd": 1}]), help_text=KNOWN)
        self.assertEqual(self.tool("--native")[0], 127)

    def test_page(self):
        stacks = [native_thread(99, CALLED, 0x7F00, True)]
        self.programs(salvage(interpreter([CRASHED]), native=stacks, tasks=[tasks(task("<b>", [coroutine("f")]))]), help_text=KNOWN)
        page = self.folder / "page.html"
        self.assertEqual(self.tool(f"--html={page}", "--native")[0], 0)
        text = page.read_text(encoding="utf-8")
        for it in ("<dd>In memset+0x46 (libc.so.6), called by fill+0x3 (fast.so)</dd>", "<h2>Native stacks</h2>", "<h2>Tasks</h2>", "&lt;b&gt;"):
            self.assertIn(it, text)
        self.assertEqual(self.tool(f"--html={page}", "--no-tasks")[0], 0)
        self.assertNotIn("<h2>Native stacks</h2>", page.read_text(encoding="utf-8"))


class Groups(Case):
    """Several cores in groups."""

    def test_stacks(self):
        more = [self.put(f"core{number}", core_file([])) for number in range(2)]
        text = f"Group 1: 2\n    {self.core}\n    {more[0]}\nRefused: 1\n    {more[1]}: bad note\n"
        self.programs(salvage(interpreter([CRASHED, *POOL])), triage=text)
        stand_ins.program(self.program, stand_ins.dump_json([CRASHED, *POOL]), stand_ins.text_of([CRASHED, *POOL]), text)
        stacks = "Thread 99 (gil) (crashed)\n    boom (a.py:5)\n    <module> (a.py:9)\n\n10 other threads\n    10 of 11: wait (pool.py:12)\n\n"
        stacks += "10 threads: 100, 101 and 8 more\n    wait (pool.py:12)\n    run (pool.py:3)\n"
        head, rest = text.split("Refused")
        shown = head + "".join(f"        {line}\n" if line else "\n" for line in stacks.splitlines()) + "Refused" + rest
        self.assertEqual(self.tool("--group", "--by=exact", core=[self.core, *more]), (0, shown, ""))
        self.assertEqual(self.tool("--group", "--plain", core=[self.core, *more]), (0, text, ""))

    def test_page(self):
        text = f"Group 1: 1\n    {self.core}\nRefused: 1\n    {self.program}: <script>\n"
        self.programs(salvage(interpreter([CRASHED, *POOL])))
        stand_ins.program(self.program, stand_ins.dump_json([CRASHED, *POOL]), stand_ins.text_of([CRASHED, *POOL]), text)
        page = self.folder / "page.html"
        self.assertEqual(self.tool("--group", "--by=exact", f"--html={page}", core=[self.core, self.program])[:2], (0, ""))
        shown = page.read_text(encoding="utf-8")
        self.assertEqual([shown.count(it) for it in ("<h2>Group 1: 1</h2>", "10 threads: ", "Refused: 1", "<script>")], [1, 1, 1, 1])

    def test_refused(self):
        self.programs(threads=[], status=5, said=b"pystacks: out of memory\n")
        status, out, said = self.tool("--group", "--by=exact")
        self.assertEqual((status, out, said.count("\n")), (5, "", 2))
        self.assertTrue(said.startswith("pystacks: out of memory\ndump_core: next: read it where"), said)
        self.assertEqual(self.tool("--group", "--plain"), (5, "", "pystacks: out of memory\n"))

    def test_a_cause_forges_no_group(self):
        one, two = self.put("one", core_file([])), self.put("two", core_file([]))
        causes = f"    {one}: bad image: /x\nGroup 2: 7\n    /none\x1b[2J\n    {two}: bad note\n"
        self.programs(threads=[CRASHED])
        for front in ("", f"Group 1: 1\n    {self.core}\n"):
            text = f"{front}Refused: 2\n{causes}"
            stand_ins.program(self.program, stand_ins.dump_json([CRASHED]), stand_ins.text_of([CRASHED]), text)
            status, out, said = self.tool("--group", "--by=exact", core=[self.core, one, two])
            self.assertEqual((status, said.replace(ALONE, "")), (0, ""))
            wanted = ["Refused: 2", f"    {one}: bad image: /x\\u{{a}}Group 2: 7\\u{{a}}    /none\\u{{1b}}[2J", f"    {two}: bad note"]
            self.assertEqual(out.splitlines()[-3:], wanted)
            self.assertEqual(out.count("Group 1: 1\n"), bool(front))

    def test_names(self):
        self.programs(threads=[])
        status, out, said = self.tool("--group", "--by=exact", core=[self.put("a\nb", core_file([]))])
        self.assertEqual((status, out, said.count("\n")), (2, "", 2))


class Words(Case):
    """The words, the help and the version."""

    def test_help(self):
        status, out, _ = self.tool("--help", core=())
        self.assertEqual((status, out.count("tools/dump_core.py core")), (0, 3), out)
        self.assertIn("pysalvage", out)

    def test_version(self):
        status, out, said = self.tool("--version", core=())
        self.assertEqual((status, said), (0, ""))
        lines = out.splitlines()
        self.assertTrue(re.fullmatch(r"pystacks [0-9.]+( \([0-9a-f]{12}\))?", lines[0]), lines)
        self.assertIn("layouts for x86_64: CPython 2.7, 3.6, 3.7, 3.8, 3.9, 3.10, 3.11, 3.12, 3.13", lines)
        self.assertIn("layouts for aarch64: CPython 3.7, 3.8, 3.9, 3.10, 3.11, 3.12, 3.13", lines)
        self.assertTrue(any(it.startswith("pystacks: ") for it in lines) and any(it.startswith("pysalvage: ") for it in lines))

    def test_clashes(self):
        self.programs(threads=[])
        for words, core in (
            (["--json", "--html=x"], None), (["--plain", "--collapsed"], None), (["-l", "--collapsed"], None), ([], [self.core, self.core]),
            ([], ()), (["--group", "-l"], None), (["--group", "--maps=x"], None), (["--none"], None), (["--collapsed", "--keep=x"], [self.core, self.core]),
        ):
            status, out, said = self.tool(*words, core=core)
            self.assertEqual((status, out, "Traceback" in said), (2, "", False), words)
        self.assertIn("so name it behind the core", self.tool("--source", self.core, core=())[2])

    def test_no_salvage(self):
        self.programs(threads=[])
        status, out, said = self.tool("--salvage", self.folder / "none")
        self.assertEqual((status, out, said.splitlines()[0]), (127, "", f"dump_core: there is no program {self.folder / 'none'}"))

    def test_records(self):
        self.programs(salvage(interpreter([CRASHED])))
        noted = self.folder / "pysalvage.said/words"
        for words, handed in (((), f"{ROOT}/layouts/records-x86_64.toml"), (("--records", "own.toml"), "own.toml")):
            self.assertEqual(self.tool(*words)[0], 0)
            self.assertEqual([it for it in noted.read_text().split("\n") if "records" in it], [f"--records={handed}"])
            self.assertNotIn("records", (self.folder / "pystacks.said/words").read_text())
        # (of a machine without any none are handed over)
        odd = self.put("odd", core_file([], machine=22))
        self.assertEqual(self.tool("--layouts=my.toml", core=[odd])[0], 0)
        self.assertNotIn("records", noted.read_text())
        text = f"Group 1: 1\n    {self.core}\n"
        stand_ins.program(self.program, stand_ins.dump_json([CRASHED]), stand_ins.text_of([CRASHED]), text)
        self.assertEqual(self.tool("--group", "--by=exact", "--records=own.toml")[0], 0)
        self.assertIn("--records=own.toml", noted.read_text())

    def test_folders(self):
        self.programs(threads=[])
        for option in ("--root", "--source"):
            status, out, said = self.tool(option, self.folder / "none")
            self.assertEqual((status, out, said.splitlines()[0]), (2, "", f"dump_core: there is no folder {self.folder / 'none'}"))

    def test_by_package(self):
        self.programs(salvage(interpreter([CRASHED])))
        command = [sys.executable, "-B", "-m", "pystacks_tool", "--program", self.folder / "pystacks", self.core]
        ran = subprocess.run(command, cwd=TOOLS, stdin=subprocess.DEVNULL, stdout=subprocess.PIPE, stderr=subprocess.PIPE, text=True)
        self.assertEqual((ran.returncode, ran.stdout, ran.stderr), self.tool())

    def test_alone(self):
        # (the tool without a module says which one is missing)
        alone = self.folder / "alone" / "dump_core.py"
        alone.parent.mkdir()
        shutil.copy(TOOL, alone)
        ran = subprocess.run([sys.executable, "-B", alone, "core"], stdin=subprocess.DEVNULL, stdout=subprocess.PIPE, stderr=subprocess.PIPE, text=True)
        lines = ran.stderr.splitlines()
        self.assertEqual((ran.returncode, ran.stdout, len(lines)), (127, "", 2), ran.stderr)
        self.assertEqual(lines[0], "dump_core: pystacks_tool isn't beside dump_core.py: it needs the other files of its folder")
        shutil.copytree(TOOLS / "pystacks_tool", alone.parent / "pystacks_tool", ignore=shutil.ignore_patterns("maps.py", "__pycache__"))
        ran = subprocess.run([sys.executable, "-B", alone, "core"], stdin=subprocess.DEVNULL, stdout=subprocess.PIPE, stderr=subprocess.PIPE, text=True)
        self.assertIn("pystacks_tool/cores/maps.py isn't beside", ran.stderr)
        self.assertNotIn("Traceback", ran.stderr)


class Terminal(Case):
    """What a terminal gets."""

    def on_terminal(self, *words, environment=None, size=None, columns=0):
        """What the tool writes on a terminal of so many columns; of none where it doesn't tell."""
        if size is not None:
            os.truncate(self.core, size)
        command = [sys.executable, "-B", str(TOOL), f"--program={self.program}", str(self.core), *words]
        end, own = pty.openpty()
        fcntl.ioctl(own, termios.TIOCSWINSZ, struct.pack("<4H", 24, columns, 0, 0))
        environment = {"PATH": os.environ["PATH"], "TERM": "xterm", **(environment or {})}
        process = subprocess.Popen(command, stdin=subprocess.DEVNULL, stdout=own, stderr=own, env=environment)
        os.close(own)
        parts = []
        while True:
            try:
                data = os.read(end, 1 << 16)
            except OSError:
                data = b""
            if not data:
                break
            parts.append(data)
        os.close(end)
        process.wait()
        return b"".join(parts).decode("utf-8").replace("\r\n", "\n")

    def test_colours(self):
        self.programs(salvage(interpreter([CRASHED])))
        self.assertIn("\x1b[1;31m(crashed)\x1b[0m", self.on_terminal())
        for environment in ({"NO_COLOR": "1"}, {"TERM": "dumb"}):
            self.assertNotIn("\x1b", self.on_terminal(environment=environment))
        self.assertIn("\x1b", self.on_terminal(environment={"NO_COLOR": ""}))
        self.assertNotIn("\x1b", self.tool()[1])

    def test_widths(self):
        # (long paths are shortened on a terminal alone)
        path = "/srv/application/lib/python3.11/site-packages/framework/handlers/requests/views.py"
        self.programs(salvage(interpreter([thread(1, [frame("handle", path, 7), frame("f")])])))
        plain = {"TERM": "dumb"}
        line = "    handle (/srv/application/lib/...ages/framework/handlers/requests/views.py:7)"
        self.assertEqual((len(line) <= 80, self.on_terminal(environment=plain, columns=80).splitlines()[-2:]), (True, [line, "    f (a.py:1)"]))
        for shown in (self.on_terminal(environment=plain), self.on_terminal(environment=plain, columns=200), self.tool()[1]):
            self.assertIn(f"    handle ({path}:7)\n", shown)
        self.assertIn("\x1b[1mhandle\x1b[0m (/srv/application/lib/...", self.on_terminal(columns=80))

    def test_progress(self):
        self.programs(salvage(interpreter([CRASHED])))
        self.assertNotIn("preparing", self.on_terminal())
        for size, parts, lines in (
            (500_000_000, (1_500_000, 1), ["preparing: 2 MB read"]), (499_999_999, (1_500_000, 1), []),
            (1_000_000, (499_000_000, 1_000_000, 1), ["preparing: 500 MB read"]),
        ):
            said = []
            shown = Progress(size)
            shown.write, shown.last = said.append, 0.0
            for part in parts:
                shown.add(part)
            self.assertEqual(said, lines)

    def test_progress_of_a_large_core(self):
        # (a core of 600 MB, of which all but the front are holes, and a gzip of it on top would take long: the line is shown
        # where bytes are read for longer than a moment)
        self.programs(salvage(interpreter([CRASHED])))
        data = core_file([Segment(0x100000, b"x" * (1 << 20), 6)])
        self.core.write_bytes(data)
        slow = self.put("slow/sitecustomize.py", SLOW).parent
        self.assertIn("dump_core: preparing: ", self.on_terminal(environment={"PYTHONPATH": str(slow)}, size=600_000_000))


if __name__ == "__main__":
    unittest.main(verbosity=0)
