#!/usr/bin/env python3
"""Compares the native stacks of cores of real Pythons with gdb's.

    tools/check/real/real_native.py --salvage crates/pysalvage/out/pysalvage [--all] [PYTHON..]

For each Python that is installed: processes die in C, built by gcc -O2, in the ways of native_child.py (with --all in
each of them, else in some), while ten threads stand in system calls, in ctypes, re, json and sorted. Of each thread the
address of each frame, and whether it is a signal's, is to be as in gdb's backtrace, frames that stand on no stack (inline
and tail calls) aside; each stack is to be whole, and no frame is to be a guess but where a thread jumped to no code. Where
no table covers a frame's code gdb tells nothing that could be compared: of these the thread that died is held against what
the child is written to do (the functions round the frame that has the mark). The status is 0 exactly where nothing that was
tried failed.
"""

import argparse
import json
import shutil
import struct
import subprocess
import sys
import tempfile
from pathlib import Path
from typing import Callable, Dict, List, Sequence, Tuple

from rooms import ROOT  # (first: it makes the other rooms known)

from child_cores import SECONDS, Failure, Skip, core_names, ended
from core_reader import notes_in, reader
from derive_layout import DeriveError, build_of
from each_python import tell_each
from find_pythons import pythons
from real_core import ran

HERE = Path(__file__).parent
MARKS = {"through": ("epilogue", "ends", "through"), "in_plain_handler": ("signal trampoline", "handle", ""),
         "plain": ("frame pointer", "plain_inner", "plain_middle")}
"""Ways to die below code that no table covers: the mark, and the functions of the frames before it and behind it."""

WAYS = ("crash", "call_null", "call_wild", "in_handler", "aborted", "callback", "overflow", *MARKS)
GATE_WAYS = ("call_null", "in_handler", "callback", *MARKS)
"""Those that are tried in the gate."""

BUILDS = {"native_child": ("-O2",), "plain_child": ("-O1", "-fno-omit-frame-pointer", "-fno-asynchronous-unwind-tables")}
"""The children's libraries, and the words by which gcc builds them."""

JUMPS = ("call_null", "call_wild")
FILES = 0x46494C45
"""The type of a file table."""

FOUND = """
import gdb, json
gdb.execute('set backtrace past-main on')
gdb.execute('set backtrace past-entry on')
found = {}
for thread in gdb.selected_inferior().threads():
    thread.switch()
    frame, own = gdb.newest_frame(), []
    while frame is not None:
        if frame.type() not in (gdb.INLINE_FRAME, gdb.TAILCALL_FRAME):
            own.append([frame.pc(), frame.type() == gdb.SIGTRAMP_FRAME])
        frame = frame.older()
    found[thread.ptid[1]] = own
print('FOUND ' + json.dumps(found))
"""

Frames = List[Tuple[int, bool]]


def gdb_frames(python: str, core: Path, room: Path) -> Dict[int, Frames]:
    """The frames of each thread as gdb has them, by the system's id."""
    script = room / "found.py"
    script.write_text(FOUND)
    words = ["gdb", "-batch", "-nx", "-x", str(script), python, str(core)]
    run = subprocess.run(words, stdin=subprocess.DEVNULL, stdout=subprocess.PIPE, stderr=subprocess.DEVNULL, timeout=SECONDS)
    for line in run.stdout.decode("utf-8", "replace").splitlines():
        if line.startswith("FOUND "):
            return {int(key): [(pc, mark) for pc, mark in own] for key, own in json.loads(line[6:]).items()}
    raise Skip("gdb tells no frames")


def files_in(core: Path) -> List[str]:
    """The paths in the core's file tables, once each."""
    paths: Dict[str, None] = {}
    for kind, table in (it for segment in reader(core.read_bytes()).notes for it in notes_in(segment)):
        if kind == FILES:
            count = struct.unpack_from("<Q", table)[0]
            for name in table[16 + 24 * count:].split(b"\0")[:count]:
                paths[name.decode("utf-8", "surrogateescape")] = None
    return list(paths)


def image_words(core: Path) -> List[str]:
    """The words for the files that the core's process had mapped, as far as they are there."""
    return [f"{it}={it}" for it in files_in(core) if Path(it).is_file() and Path(it).stat().st_size < 1 << 28]


def frames_of(stack: Dict[str, object]) -> Frames:
    """The frames of a stack that is told whole."""
    if stack["between"] != 0:
        raise Failure(f"{stack['between']} frames are left out")
    shown = [*stack["frames"], *stack["last"]]  # type: ignore[misc]
    return [(int(it["pc"], 16), it["signal"]) for it in shown]


def checked(thread: Dict[str, object], right: Frames, way: str) -> int:
    """How many frames of a thread are gdb's; all have to be."""
    stack, guessed = thread["stack"], thread["guessed"]
    assert isinstance(stack, dict)
    last = guessed if isinstance(guessed, dict) else stack
    own = frames_of(stack) + (frames_of(guessed) if isinstance(guessed, dict) else [])
    if guessed is not None and not (way in JUMPS and thread["crashed"]):
        raise Failure(f"thread {thread['system_id']}: a guess that isn't wanted")
    for place, (mine, other) in enumerate(zip(own, right)):
        if mine != other:
            raise Failure(f"thread {thread['system_id']}, frame {place}: {mine[0]:#x} in place of {other[0]:#x}")
    if len(own) != len(right) or last["end"]["kind"] != "whole":
        raise Failure(f"thread {thread['system_id']}: {len(own)} frames of {len(right)}, end {last['end']}")
    return len(own)


def check_marked(thread: Dict[str, object], way: str) -> int:
    """How many frames the stack of a thread has that died below code which no table covers; its mark has to be there once, where the
    child's functions say, and what follows is whole."""
    mark, before, behind = MARKS[way]
    stack, guessed = thread["stack"], thread["guessed"]
    parts = [it for it in (stack, guessed) if isinstance(it, dict)]
    frames = [frame for part in parts for frame in (*part["frames"], *part["last"])]
    found = [place for place, it in enumerate(frames) if it["mark"] in ("epilogue", "signal trampoline")]
    names = [it["function"] for it in frames]
    if way == "plain":
        if len(parts) != 2 or parts[1]["guess"] != mark or names[:3] != ["plain_inner", "plain_middle", "plain"]:
            raise Failure(f"{way}: {names[:4]}, guess {parts[-1]['guess']}")
    elif len(parts) != 1 or len(found) != 1 or frames[found[0]]["mark"] != mark or frames[found[0]]["function"] is not None:
        raise Failure(f"{way}: {len(found)} frames have a mark, or a guess follows")
    elif names[found[0] - 1] != before or behind and names[found[0] + 1] != behind or "in_plain_handler" != way and "crash" not in names:
        raise Failure(f"{way}: {names[:found[0] + 2]}")
    elif way == "in_plain_handler" and way not in names[found[0]:]:
        raise Failure(f"{way}: {names}")
    if parts[-1]["end"]["kind"] != "whole":
        raise Failure(f"{way}: end {parts[-1]['end']}")
    return len(frames)


def native_of(program: Path, core: Path, layouts: Path) -> List[Dict[str, object]]:
    """The native stacks that are told of a core."""
    run = ran([program, core, "--layouts", layouts, "-j", "--native", "-n", "4096", *image_words(core)])
    if run.status != 0:
        raise Failure(f"status {run.status}: {run.err}")
    return json.loads(run.out)["native"]


def tried_way(program: Path, python: str, names: str, room: Path, layouts: Path, libraries: Sequence[Path], way: str) -> Tuple[int, int]:
    """How many threads and frames are as gdb has them, where a process dies in one way."""
    room.mkdir()
    child = ended([python, str(HERE / "native_child.py"), way, *map(str, libraries)], room)
    if child.status >= 0:
        raise Failure(f"a child doesn't die by {way}: {child.said[-200:]}")
    core = child.core(names)
    threads = native_of(program, core, layouts)
    right = gdb_frames(python, core, room)
    if sorted(it["system_id"] for it in threads) != sorted(right):
        raise Failure("the threads aren't gdb's")
    counts = [check_marked(it, way) if it["crashed"] and way in MARKS else checked(it, right[it["system_id"]], way)  # type: ignore[index]
              for it in threads]
    if not threads[0]["crashed"] or any(it["crashed"] for it in threads[1:]):
        raise Failure("another thread than the first one got the signal")
    core.unlink()
    return len(counts), sum(counts)


def tried_with(program: Path, ways: Sequence[str], libraries: Sequence[Path]) -> Callable[[str], str]:
    """What tries one Python."""

    def tried(python: str) -> str:
        build = build_of(python)
        if build.version < (3, 6):
            raise Skip("native_child.py is none of its programs")
        names = core_names()
        with tempfile.TemporaryDirectory(prefix="real-native-") as name:
            room = Path(name)
            layouts = ROOT / "layouts" / f"cpython-{build.machine}.toml"
            counts = [tried_way(program, python, names, room / way, layouts, libraries, way) for way in ways]
        threads, frames = (sum(it) for it in zip(*counts))
        return f"{build.dotted}: {frames} frames of {threads} threads as gdb has them, in {len(ways)} ways"

    return tried


def main() -> int:
    """The check."""
    parser = argparse.ArgumentParser(description=__doc__.splitlines()[0])
    parser.add_argument("--salvage", type=Path, required=True, help="the built program `pysalvage`")
    parser.add_argument("--all", action="store_true", help="try each way to die")
    parser.add_argument("python", nargs="*", help="the interpreters (default: all that are found)")
    words = parser.parse_args()
    lacks = [it for it in ("gcc", "gdb") if shutil.which(it) is None]
    if lacks:
        print(f"real_native: skipped: there is no {' and no '.join(lacks)}")
        return 0
    with tempfile.TemporaryDirectory(prefix="native-child-") as name:
        libraries = [Path(name) / f"{it}.so" for it in BUILDS]
        for library, (child, flags) in zip(libraries, BUILDS.items()):
            built = subprocess.run(["gcc", *flags, "-shared", "-fPIC", "-o", str(library), str(HERE / f"{child}.c")])
            if built.returncode != 0:
                print(f"real_native: skipped: gcc doesn't build {child}.c")
                return 0
        ways = WAYS if words.all else GATE_WAYS
        failed = tell_each("real_native", tried_with(words.salvage, ways, libraries), words.python or pythons(), (Skip, DeriveError))
    return 1 if failed else 0


if __name__ == "__main__":
    sys.exit(main())
