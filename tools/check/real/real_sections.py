#!/usr/bin/env python3
"""Asks cores of real Pythons for the sections of `pysalvage`, and compares what is told with what the processes said.

    tools/check/real/real_sections.py --salvage crates/pysalvage/out/pysalvage [--all] [PYTHON..]

For each Python of 3.8 to 3.13 that is installed: processes of four threads die in the ways of sections_child.py (with
--all in each of them, else in some), and say beforehand what is to be told of the signal, and which of the system's
threads is which of Python's. Each register is compared with the core's own bytes, read here once more. The status is 0
exactly where nothing that was tried failed.
"""

import argparse
import json
import os
import struct
import subprocess
import sys
import tempfile
from pathlib import Path
from typing import Dict, Sequence

from rooms import ROOT  # (first: it makes the other rooms known)

from child_cores import Failure, Skip, core_names, ended
from core_reader import notes_in, reader
from derive_layout import DeriveError, build_of
from each_python import tell_each
from find_pythons import pythons
from pystacks_tool.cores.opened import maps_in
from pystacks_tool.cores.prepare import Wishes, prepared
from real_core import derived_for, images_of, ran

CHILD = Path(__file__).with_name("sections_child.py")
WAYS = ("null", "readonly", "noncanonical", "bus", "divided", "illegal", "trapped", "aborted", "killed", "queued")
GATE_WAYS = ("null", "noncanonical", "divided", "killed")
"""Those that are tried in the gate."""

NAMES = (
    "r15 r14 r13 r12 rbp rbx r11 r10 r9 r8 rax rcx rdx rsi rdi orig_rax rip cs eflags rsp ss fs_base gs_base ds es fs gs"
).split()
"""The registers of a status record on x86-64, in its order."""

STATUS, FRONT = 1, 112
"""The type of a status record, and where its registers begin."""

Tree = Dict[str, object]


def told(program: Path, core: Path, layouts: Path, *words: str) -> Tree:
    """What is told of a core, as JSON."""
    run = ran([program, core, "--layouts", layouts, "-j", *words, *images_of(core)])
    if run.status != 0:
        raise Failure(f"status {run.status}: {run.err}")
    return json.loads(run.out)


def registers_in(core: Path) -> Dict[int, Dict[str, str]]:
    """The registers of each thread by the system's id, by the core's own bytes."""
    found = {}
    for kind, record in (it for segment in reader(core.read_bytes()).notes for it in notes_in(segment)):
        if kind == STATUS:
            numbers = struct.unpack_from(f"<{len(NAMES)}Q", record, FRONT)
            found[struct.unpack_from("<i", record, 32)[0]] = {name: hex(it) for name, it in zip(NAMES, numbers)}
    return found


def check_signal(tree: Tree, said: Tree) -> None:
    """What is told of the signal is what the process said, and where it lies is the thread's own place, where it is one of
    an instruction."""
    got = tree["signal_info"]
    assert isinstance(got, dict) and isinstance(said["signal"], dict)
    wanted = dict(said["signal"])
    if any(got.get(key) != (hex(value) if key == "address" else value) for key, value in wanted.items()):
        raise Failure(f"the signal is told as {got}, and not as {wanted}")
    if wanted["kind"] == "fault" and "address" not in wanted:
        rip = next(it["registers"]["rip"] for it in tree["registers"] if it["system_id"] == said["dies"])
        if got["address"] != rip:
            raise Failure(f"the address of {got} isn't the thread's own, {rip}")


def check_registers(tree: Tree, said: Tree, core: Path) -> int:
    """Each thread is there, with its registers, and with Python's id of it; how many there are."""
    own = registers_in(core)
    rows = tree["registers"]
    assert isinstance(rows, list) and isinstance(said["threads"], list)
    if [it["system_id"] for it in rows] != list(own):
        raise Failure("the threads aren't those of the status records")
    for it in rows:
        if it["registers"] != own[it["system_id"]]:
            raise Failure(f"thread {it['system_id']} has other registers than its record")
    wanted = {system: number for system, number in said["threads"]}
    got = {it["system_id"]: it["python"]["thread_id"] for it in rows if it["python"]["kind"] == "thread"}
    if got != wanted:
        raise Failure(f"the threads of Python are told as {got}, and not as {wanted}")
    return len(rows)


def check_without(program: Path, core: Path, layouts: Path) -> None:
    """Without its flag a section is null, and the text has none of its lines."""
    tree = told(program, core, layouts)
    if tree["signal_info"] is not None or tree["registers"] is not None:
        raise Failure("a section is told that isn't asked for")


def check_text(program: Path, core: Path, layouts: Path, tree: Tree) -> None:
    """The text with the sections is the one without them, with their lines more, in order."""
    texts = []
    for words in ((), ("--signal", "--registers")):
        run = ran([program, core, "--layouts", layouts, *words, *images_of(core)])
        if run.status != 0:
            raise Failure(f"status {run.status}: {run.err}")
        texts.append(run.out.splitlines())
    rest = iter(texts[1])
    if not all(line in rest for line in texts[0]):
        raise Failure("the text with the sections lacks lines of the one without")
    more = "\n".join(texts[1])
    rows = tree["registers"]
    assert isinstance(rows, list)
    if any(str(it["system_id"]) not in more or f"{int(it['registers']['rip'], 16):016x}" not in more for it in rows):
        raise Failure("the text lacks a thread's registers")


def tried_way(program: Path, python: str, names: str, room: Path, layouts: Path, way: str) -> int:
    """How many threads are told of where a process dies in one way."""
    room.mkdir()
    (room / "child.py").write_text(CHILD.read_text())
    child = ended([python, "child.py", way], room)
    if child.status >= 0:
        raise Skip(f"a child doesn't die by {way}")
    core, said = child.core(names), json.loads(child.out)
    tree = told(program, core, layouts, "--signal", "--registers")
    check_signal(tree, said)
    count = check_registers(tree, said, core)
    check_without(program, core, layouts)
    check_text(program, core, layouts, tree)
    core.unlink()
    return count


def check_stopped(program: Path, python: str, room: Path, layouts: Path) -> str:
    """A process that lives on, by gdb's gcore, whose core gets its maps from a copy: no signal is told."""
    room.mkdir()
    code = "import time; open('/proc/self/coredump_filter', 'w').write('0x3f'); print(1, flush=True); time.sleep(60)"
    with subprocess.Popen([python, "-c", code], stdout=subprocess.PIPE) as child:
        try:
            assert child.stdout is not None
            child.stdout.readline()
            (room / "maps").write_text(Path(f"/proc/{child.pid}/maps").read_text())
            done = subprocess.run(["gcore", "-o", str(room / "core"), str(child.pid)], capture_output=True, stdin=subprocess.DEVNULL)
        except FileNotFoundError:
            return "gcore not tried (it isn't there)"
        finally:
            child.kill()
    if done.returncode != 0:
        return "gcore not tried (it ended badly)"
    with open(room / f"core.{child.pid}", "rb") as file:
        new = prepared(file, Wishes(keep=str(room / "kept"), maps=maps_in(str(room / "maps"))))
    if new is not None:
        new.file.close()
    tree = told(program, room / "kept", layouts, "--signal")
    if tree["signal_info"] != {"kind": "no signal"}:
        raise Failure(f"gcore's signal is told as {tree['signal_info']}")
    for name in ("kept", f"core.{child.pid}"):
        (room / name).unlink()
    return "gcore"


def tried(program: Path, python: str, names: str, ways: Sequence[str]) -> str:
    """What comes of one Python."""
    build = build_of(python)
    if not (3, 8) <= build.minor <= (3, 13):
        raise Skip(f"version {build.dotted}")
    derived = derived_for(build)
    with tempfile.TemporaryDirectory(prefix="real-sections-") as name:
        room = Path(name)
        layouts = room / "layout.toml"
        layouts.write_text(derived.text, encoding="utf-8")
        count = sum(tried_way(program, python, names, room / way, layouts, way) for way in ways)
        stopped = check_stopped(program, python, room / "gcore", layouts) if len(ways) == len(WAYS) else "gcore by --all"
    return f"{build.dotted}: {len(ways)} signals, {count} threads with their registers, {stopped}"


def main() -> int:
    """The command."""
    parser = argparse.ArgumentParser(description=__doc__.splitlines()[0])
    parser.add_argument("python", nargs="*", help="the interpreters (default: all that are found)")
    parser.add_argument("--salvage", default=str(ROOT / "crates" / "pysalvage" / "out" / "pysalvage"), help="the built `pysalvage`")
    parser.add_argument("--all", action="store_true", help="each way to die")
    words = parser.parse_args()
    program = Path(words.salvage).resolve()
    if not os.path.isfile(program):
        print(f"real_sections: skipped: there is no {program}")
        return 0
    if os.uname().machine != "x86_64":
        print("real_sections: skipped: the registers are those of x86-64 here")
        return 0
    try:
        names = core_names()
    except Skip as reason:
        print(f"real_sections: skipped: {reason}")
        return 0
    ways = WAYS if words.all else GATE_WAYS
    found = words.python or pythons()
    return 1 if tell_each("real_sections", lambda it: tried(program, it, names, ways), found, (Skip, DeriveError)) else 0


if __name__ == "__main__":
    sys.exit(main())
