#!/usr/bin/env python3
"""Asks what fills the memory of real Pythons, and compares it with what the processes said.

    tools/check/real/real_heap.py --program crates/pystacks/out/pystacks --salvage crates/pysalvage/out/pysalvage [PYTHON..]

For each Python that is installed: thousands of objects with slots, tuples, lists, dicts, sets, instances and cycles, in a process that aborts as it
is, behind `gc.freeze`, with cycles that nothing refers to, and in a collection. How many objects there are of each class is as `gc.get_objects`
had it, and the bytes of those with slots, tuples, lists, dicts, sets and types as `sys.getsizeof` had them; the three largest objects of these classes are
those that `sys.getsizeof` and `id` had, where they are told; of all objects at most 300 are others, which came or
went behind the count. A copy whose list is torn at an object says so there, and counts what stands before. 3.6 and before are told as not
described. The status is 0 exactly where nothing that was tried failed.
"""

import argparse
import json
import struct
import subprocess
import sys
import tempfile
from pathlib import Path
from typing import Any, Dict, List, Optional

from rooms import ROOT, TOOLS  # (first: it makes the other rooms known)

from child_cores import SECONDS, Failure, Skip, aborted, core_names
from derive_layout import DeriveError, build_of
from each_python import tell_each
from find_pythons import pythons
from pystacks_tool.ask.run import knows
from pystacks_tool.cores.headers import headers_of
from pystacks_tool.cores.maps import LOAD
from real_core import derived_for
from real_salvage import Tree, left

CHILD = Path(__file__).resolve().with_name("heap_child.py")

RECORDS = ROOT / "layouts" / "records-x86_64.toml"

TOOL = TOOLS / "dump_core.py"

KINDS = ("plain", "frozen", "garbage", "collecting")

SETS = ("Names", "Fewer", "Fixed")
"""Classes of sets and of frozensets, small and large ones."""

SIZED = ("Slotted", "Pair", "Rows", "Table", "Kind", *SETS)
"""The classes whose objects have no other blocks than their own, their items', their keys' and their tables; `Kind` is one of types, whose keys the
dicts of their objects share."""

COUNTED = (*SIZED, "Plain", "Ring")

MOST_OTHERS = 300


def heap_in(tree: Tree) -> Tree:
    """The one heap of a process."""
    heaps = tree["heap"]
    if len(heaps) != 1 or heaps[0]["kind"] != "heap":
        raise Failure(f"heaps {[it['kind'] for it in heaps]} are told")
    return heaps[0]


def rows_in(heap: Tree) -> Dict[str, Tree]:
    """The classes by their names: those of the program's own module without it."""
    return {it["name"]: it for it in heap["classes"] if it["name"] is not None}


def check_ends(heap: Tree, kind: str) -> None:
    """Fails where a list isn't whole."""
    for name, it in heap["lists"].items():
        if it["end"]["kind"] != "whole":
            raise Failure(f"{kind}: the list {name} ends {it['end']}")
    if heap["collecting"] is not (kind == "collecting"):
        raise Failure(f"{kind}: collecting is {heap['collecting']}")
    if (heap["lists"]["permanent"]["objects"] > 3000) != (kind == "frozen"):
        raise Failure(f"{kind}: {heap['lists']['permanent']['objects']} objects are in the permanent generation")


def check_largest(rows: Dict[str, Tree], wanted: Tree, kind: str) -> None:
    """Fails where the largest objects of a class are others, or are told of none of the classes. (They are told of the first ten.)"""
    told = 0
    for name, largest in wanted["largest"].items():
        found = (rows.get(name) or {"largest": None})["largest"]
        if found is None:
            continue
        told += 1
        if [[int(it["address"], 16), it["bytes"]] for it in found] != largest:
            raise Failure(f"{kind}: the largest objects of {name} are {found}, and the process had {largest}")
    if told < 4:
        raise Failure(f"{kind}: the largest objects of {told} classes are told")


def check_counts(heap: Tree, wanted: Tree, kind: str) -> int:
    """Fails where what is counted of a class is something else. How many objects there are."""
    rows = rows_in(heap)
    for name in COUNTED:
        count, size = wanted["classes"][name]
        row = rows.get(name) or {"objects": 0, "bytes": 0, "more": 0, "unknown": 0, "unread": 0, "largest": None}
        if row["objects"] != count or row["unknown"] or row["unread"]:
            raise Failure(f"{kind}: {row['objects']} objects of {name}, {row['unknown']} of unknown size, {row['unread']} of unknown other blocks, "
                          f"and the process had {count}")
        if name in SIZED and row["bytes"] + row["more"] != size:
            raise Failure(f"{kind}: {row['bytes']} and {row['more']} bytes of {name}, and the process had {size}")
    if not heap["sets"]:
        raise Failure(f"{kind}: the tables of sets are not counted")
    check_largest(rows, wanted, kind)
    total = sum(it["objects"] for it in heap["classes"]) + heap["unreadable"]
    listed = sum(it["objects"] for it in heap["lists"].values())
    if total != listed:
        raise Failure(f"{kind}: {listed} objects in lists, and {total} counted")
    known = listed - (heap["lists"]["permanent"]["objects"] if kind != "frozen" else wanted["frozen"])
    if abs(known - wanted["all"]) > MOST_OTHERS:
        raise Failure(f"{kind}: {known} objects are tracked, and the process had {wanted['all']}")
    return listed


def torn_copy(core: Path, folder: Path, place: int) -> Path:
    """A copy of a core in which the word at an address is another one."""
    copy = folder / "torn"
    copy.write_bytes(core.read_bytes())
    with copy.open("r+b") as file:
        for it in headers_of(file) or []:
            if it.kind == LOAD and it.start <= place < it.start + it.size:
                file.seek(it.offset + place - it.start)
                file.write(struct.pack("<Q", 0x10))
                return copy
    raise Failure(f"no byte at {place:#x} is in the core")


def check_torn(salvage: Path, core: Path, layouts: Path, wanted: Tree, minor: int, folder: Path) -> None:
    """Fails where a list that is torn at an object doesn't say so there."""
    head = wanted["middle"] - (32 if minor == 7 else 16)
    copy = torn_copy(core, folder, head + 8)
    ends = [it["end"] for it in heap_in(left(salvage, copy, layouts, "--heap", f"--records={RECORDS}"))["lists"].values()]
    copy.unlink()
    if {"kind": "torn", "address": f"0x{head:x}"} not in ends:
        raise Failure(f"a list is torn at {head:#x}, and {ends} are told")


def shown(program: str, salvage: Path, core: Path, layouts: Path) -> str:
    """The tool's text."""
    command = [sys.executable, str(TOOL), str(core), "--heap", "--program", program, "--salvage", str(salvage), "--layouts", str(layouts)]
    run = subprocess.run(command, capture_output=True, text=True, timeout=SECONDS, check=False)
    if run.returncode != 0:
        raise Failure(f"the tool ended with status {run.returncode}: {run.stderr[:200]}")
    return run.stdout


def check_tool(text: str, wanted: Tree) -> None:
    """Fails where the tool's text lacks a class, or the memory of the process."""
    for name in ("Slotted", "Pair", "Plain"):
        count = f"{wanted['classes'][name][0]:,} "
        if not any(it.rstrip().endswith(f"  {name}") and it.strip().startswith(count) for it in text.splitlines()):
            raise Failure(f"the tool's text lacks {count}{name}")
    if not any(it.startswith("Memory: ") for it in text.splitlines()):
        raise Failure("the tool's text lacks the memory of the process")


def tried_kind(words: argparse.Namespace, salvage: Path, build: Any, layouts: Path, kind: str, names: str) -> int:
    """What comes of one way to die: how many objects are told."""
    folder = layouts.parent / kind
    folder.mkdir()
    child = aborted([build.executable, *build.alone, str(CHILD), kind], folder)
    core = child.core(names)
    wanted = json.loads(child.out.strip().splitlines()[-1])
    heap = heap_in(left(salvage, core, layouts, "--heap", f"--records={RECORDS}"))
    check_ends(heap, kind)
    count = check_counts(heap, wanted, kind)
    if kind == "plain":
        check_torn(salvage, core, layouts, wanted, build.minor[1], folder)
        check_tool(shown(words.program, salvage, core, layouts), wanted)
    core.unlink()
    return count


def tried_old(salvage: Path, build: Any, layouts: Path, names: str) -> str:
    """Fails where a version that isn't described has a heap."""
    child = aborted([build.executable, *build.alone, "-c", "import os; os.abort()"], layouts.parent)
    tree = left(salvage, child.core(names), layouts, "--heap", f"--records={RECORDS}")
    if tree["heap"] is not None:
        raise Failure(f"a heap is told: {tree['heap']}")
    return f"{build.dotted}: not described"


def tried(words: argparse.Namespace, salvage: Path, python: str, names: str) -> str:
    """What comes of one Python."""
    build = build_of(python)
    derived = derived_for(build)
    counts: List[str] = []
    with tempfile.TemporaryDirectory(prefix="real-heap-") as name:
        layouts = Path(name) / "layout.toml"
        layouts.write_text(derived.text, encoding="utf-8")
        if build.minor < (3, 7):
            return tried_old(salvage, build, layouts, names)
        for kind in KINDS:
            counts.append(f"{tried_kind(words, salvage, build, layouts, kind, names)} {kind}")
    return f"{build.dotted}: objects {', '.join(counts)}"


def main() -> int:
    """The command."""
    parser = argparse.ArgumentParser(description=__doc__.splitlines()[0])
    parser.add_argument("python", nargs="*", help="the interpreters (default: those that are found)")
    parser.add_argument("--program", default=str(ROOT / "crates" / "pystacks" / "out" / "pystacks"), help="the built `pystacks`")
    parser.add_argument("--salvage", default=str(ROOT / "crates" / "pysalvage" / "out" / "pysalvage"), help="the built `pysalvage`")
    words = parser.parse_args()
    salvage = Path(words.salvage).resolve()
    if not salvage.is_file() or not knows(str(salvage), "--heap"):
        print(f"real_heap: skipped: there is no {salvage} that tells heaps")
        return 0
    try:
        names: Optional[str] = core_names()
    except Skip as reason:
        print(f"real_heap: skipped: {reason}")
        return 0
    return 1 if tell_each("real_heap", lambda it: tried(words, salvage, it, names or ""), words.python or pythons(), (Skip, DeriveError)) else 0


if __name__ == "__main__":
    sys.exit(main())
