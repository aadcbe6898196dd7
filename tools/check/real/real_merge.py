#!/usr/bin/env python3
"""Merges the native addresses of a thread of a real core with its Python frames, and compares both with what gdb finds.

    tools/check/real/real_merge.py --program PROGRAM [PYTHON..]

A child calls `qsort` of the C library by ctypes, which calls back a Python function that aborts. Its main thread's
addresses are gdb's (`tools/native_addresses.py`). What is printed must have each Python frame, in order; a native frame
for each address outside of Python's own files, in order, less those of a process's begin; and between them the C
functions through which Python called Python. Where gdb names a function by the file's symbols, so must `merge`, by this
name or another of the same place. Without gdb, or with a Python before 3.8, nothing is tried, with a line.
"""

import argparse
import json
import os
import re
import shutil
import subprocess
import sys
import tempfile
from pathlib import Path
from typing import Dict, List, Sequence, Tuple

import rooms  # (first: it makes the other rooms known)
from child_cores import Failure, Skip, core_names, ended
from pystacks_tool.cores.maps import EXECUTABLE, maps_of
from each_python import tell_each
from find_pythons import pythons
from native_addresses import Fault, addresses_of

CHILD = """
import ctypes, os, threading
CALLED = ctypes.CFUNCTYPE(ctypes.c_int, ctypes.POINTER(ctypes.c_int), ctypes.POINTER(ctypes.c_int))
def compare(one, other):
    os.abort()
def sort():
    ctypes.CDLL(None).qsort((ctypes.c_int * 3)(3, 1, 2), 3, 4, CALLED(compare))
print(threading.get_ident(), flush=True)
sort()
"""
FRAMES = [("compare", 5), ("sort", 7), ("<module>", 9)]
LINE = re.compile(r"    (.*) \(([^()]*?)(?::(\d+))?\)")
BEGINS = {"_start", "__libc_start_main", "__libc_start_main@@GLIBC_2.34"}
OWN = re.compile(r"/(python[23][^/]*|libpython[^/]*)$")


def left_by(python: str, names: str, room: Path) -> Tuple[Path, int, int]:
    """A core of the child, its process, and its main thread's id."""
    (room / "child.py").write_text(CHILD)
    child = ended([python, "child.py"], room)
    if not child.out.strip():
        raise Skip("the child has no ctypes")
    return child.core(names), child.pid, int(child.out)


def mapped(core: Path) -> List[Tuple[int, int, str]]:
    """The executable maps of files that are there: start, size, name."""
    with open(core, "rb") as file:
        maps = [(it.segment, it.name.decode("utf-8", "surrogateescape")) for it in maps_of(file)]
    sizes: Dict[int, int] = {}
    for line in subprocess.run(["readelf", "-lW", core], stdout=subprocess.PIPE, check=True, text=True).stdout.split("\n"):
        parts = line.split()
        if parts[:1] == ["LOAD"]:
            sizes[int(parts[2], 16)] = int(parts[5], 16)
    return [(it.start, sizes[it.start], name) for it, name in maps if it.flags & EXECUTABLE and os.path.isfile(name)]


def gdb_names(core: Path, python: str, addresses: Sequence[str]) -> List[str]:
    """The function of each address by the symbols of its file, as gdb has it; empty where it has none."""
    words = [part for addr in addresses for part in ("-ex", f"info symbol {addr}")]
    done = subprocess.run(["gdb", "-batch", "-nx", "-q", python, str(core), *words], stdout=subprocess.PIPE, stderr=subprocess.DEVNULL, check=False, text=True)
    lines = [line for line in done.stdout.split("\n") if re.search(r" in section |^No symbol matches ", line)]
    if len(lines) != len(addresses):
        raise Failure(f"gdb tells of {len(lines)} of {len(addresses)} addresses")
    return ["" if line.startswith("No symbol") else line.split()[0] for line in lines]


def compared(shown: List[Tuple[str, str, str]], outside: List[Tuple[str, str, str]]) -> Tuple[int, int]:
    """How many native frames there are, and how many of them have gdb's name."""
    if len(shown) != len(outside):
        raise Failure(f"{len(shown)} native frames where {len(outside)} addresses lie outside of Python")
    same = 0
    for (name, file, _), (addr, symbol, path) in zip(shown, outside):
        if file != path:
            raise Failure(f"{addr} is shown in {file}, and lies in {path}")
        # (gdb also reads the symbols of a file with debug information, which the process hadn't mapped)
        same += name in (symbol, symbol.split("@")[0])
    return len(shown), same


def ran(program: Path, images: Sequence[str], *words: object) -> "subprocess.CompletedProcess[str]":
    """A run of the program with these images."""
    return subprocess.run([program, *map(str, words), *images], stdout=subprocess.PIPE, stderr=subprocess.PIPE, check=False, text=True)


def tried(program: Path, python: str, names: str) -> str:
    """What comes of one Python."""
    with tempfile.TemporaryDirectory() as folder:
        core, pid, ident = left_by(python, names, Path(folder))
        maps = mapped(core)
        addresses = addresses_of(str(core), pid, os.path.realpath(python), "/")
        images = sorted({f"{name}={name}" for _, _, name in maps})
        layouts = rooms.ROOT / "layouts" / "cpython-x86_64.toml"
        report = ran(program, images, "dump", "-j", "-c", core, "--layouts", layouts)
        if report.returncode:
            raise Skip(report.stderr.strip())
        index = [it["thread_id"] for it in json.loads(report.stdout)].index(ident)
        (Path(folder) / "addresses").write_text("".join(f"{it}\n" for it in addresses))
        done = ran(program, images, "merge", core, layouts, str(index), Path(folder) / "addresses")
        if done.returncode:
            raise Failure(f"status {done.returncode}: {done.stderr.strip()}")
        shown = [LINE.fullmatch(line).groups() for line in done.stdout.splitlines()]
        frames = [(name, int(line)) for name, _, line in shown if line]
        if frames != FRAMES:
            raise Failure(f"the Python frames are {frames}")
        where = [next((name for start, size, name in maps if start <= int(it, 16) < start + size), "?") for it in addresses]
        symbols = gdb_names(core, os.path.realpath(python), addresses)
        outside = [it for it in zip(addresses, symbols, where) if not OWN.search(it[2]) and it[1] not in BEGINS]
        count, same = compared([it for it in shown if not it[2] and not OWN.search(it[1])], outside)
        between = [name for name, _, line in shown[: [it[0] for it in shown].index("sort")] if not line]
        if "ffi_call" not in between:
            raise Failure("there is no ffi_call between the two Python functions")
    own = sum(1 for _, file, line in shown if not line and OWN.search(file))
    return f"{len(frames)} Python frames, {count} native ones ({same} with gdb's name), {own} of Python's own"


def main() -> int:
    """The command."""
    parser = argparse.ArgumentParser(description=__doc__.splitlines()[0])
    parser.add_argument("python", nargs="*", help="the interpreters (default: all that are found)")
    parser.add_argument("--program", required=True, help="the built program")
    words = parser.parse_args()
    try:
        if not shutil.which("gdb") or not shutil.which("readelf"):
            raise Skip("there is no gdb or no readelf")
        names = core_names()
    except Skip as reason:
        print(f"real_merge: skipped: {reason}")
        return 0
    program = Path(words.program).resolve()
    failed = tell_each("real_merge", lambda it: tried(program, it, names), words.python or pythons(), (Skip, Fault),
                       "{name}: {python}: ")
    return 1 if failed else 0


if __name__ == "__main__":
    sys.exit(main())
