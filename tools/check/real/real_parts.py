#!/usr/bin/env python3
"""Asks `pysalvage` over parts of cores, which grow by what it misses, and compares what it tells with what it tells of the whole
core.

    tools/check/real/real_parts.py --program crates/pystacks/out/pystacks --salvage crates/pysalvage/out/pysalvage [--all] [PYTHON..]

Of each Python of 3.8 to 3.13 that is installed, or of the oldest and the newest of them without --all: a core of many threads,
one with locals of what was written in files alone, one with sub-interpreters, and one whose records lie scattered in a heap of 60 MB,
of which 40 may be read (with --all 2 GB, and 512). What is told is equal, but for what was missed, nothing is said, and what the tool
shows is the same. Of cores that are made: a chain that leads from segment to segment, a sub-interpreter in what is given last, a
chain that is broken, a core that becomes shorter while it is read. With --all what the tool takes for a core of 8 GB is told too.
The status is 0 exactly where nothing that was tried failed.
"""

import argparse
import io
import json
import os
import sys
import tempfile
from contextlib import redirect_stderr
from dataclasses import dataclass
from pathlib import Path
from random import Random
from typing import Any, Callable, Dict, List, Optional, Sequence, Tuple

from rooms import ROOT, TOOLS  # (first: it makes the other rooms known)

import large_cores
from child_cores import USUAL, Case, Failure, Skip, core_names, leave_core
from derive_layout import DeriveError, build_of
from each_python import tell_each
from find_pythons import pythons
from made import EXAMPLE, Objects, Segment, layout_of
from pystacks_tool.ask.parts import RUNS, ask_over
from pystacks_tool.ask.run import tells_missed
from pystacks_tool.ask.salvage import NamesAndValues, report_by_salvage
from pystacks_tool.cores.headers import headers_of
from pystacks_tool.cores.opened import OpenedCore
from pystacks_tool.cores.parts import BLOCK
from pystacks_tool.cores.prepare import Wishes, prepared
from pystacks_tool.options import Options
from pystacks_tool.show.text import Style, report_lines
from real_core import derived_for, images_of, ran
from real_salvage import SUBS, check_subs, left, left_by
from rows_salvage import named
from small_core import CALLER, CODE, FRAME, HEAP, heap

FIRST = 1_000_000
"""How many bytes are given at first."""

WORDS = ("-l", "--signal", "--registers", "--check-layout", "--names", "--exceptions", "--waits")
"""What is asked for."""

Tree = Dict[str, Any]


class Watched(OpenedCore):
    """A core of which it is known what it gave last."""

    last = 0
    """Where that begins in the part's file."""

    def give(self, blocks: List[int], run: int) -> bool:
        """Gives what a run missed."""
        assert self.part is not None
        before = self.part.end
        grew = super().give(blocks, run)
        self.last = before if self.part.end > before else self.last
        return grew

    def is_last(self, address: int) -> bool:
        """Whether an address lies in what was given last."""
        assert self.part is not None
        spans = [(it.header.start + given.start, it.header.start + given.end) for it in self.part.segments for given in it.given
                 if given.place >= self.last]
        return any(start <= address < end for start, end in spans)


@dataclass(frozen=True)
class Over:
    """What came of a core over a part of it."""

    core: Watched
    tree: Tree
    said: str

    @property
    def line(self) -> str:
        """How much was read of how much, and how often."""
        assert self.core.part is not None
        part = self.core.part
        return f"{part.runs} runs, {part.spent / 1e6:.1f} of {part.length / 1e6:.1f} MB"


def asked_over(salvage: Path, core: Path, layouts: Path, images: Sequence[str], budget: int, first: int) -> Over:
    """What is told of a core over a part that has so many bytes at most, and begins with so many."""
    with open(core, "rb") as file:
        new = prepared(file, Wishes(budget=budget, first=first, is_forced=True))
        if new is None or new.part is None:
            raise Failure("no part was made")
        said = io.StringIO()
        with new.file, redirect_stderr(said):
            opened = Watched(os.fspath(core), new.file, os.fspath(layouts), [os.fsencode(it) for it in images], new.part)
            answer = ask_over(Options(locals=1, registers=True, tasks=False), opened, salvage)
    if answer.status != 0:
        raise Failure(f"over a part: status {answer.status}: {answer.said!r}")
    return Over(opened, json.loads(answer.out), said.getvalue())


def text_of(tree: Tree) -> List[str]:
    """What the tool shows of a report."""
    _, report = report_by_salvage(json.dumps(tree), "core", lambda told: NamesAndValues())
    return list(report_lines(report, Style(False, True, None)))


def first_other(one: object, other: object, path: str = "") -> str:
    """Where two trees differ first, and how: for whoever reads that a check failed."""
    if isinstance(one, dict) and isinstance(other, dict) and one.keys() == other.keys():
        return next((found for key in one for found in [first_other(one[key], other[key], f"{path}.{key}")] if found), "")
    if isinstance(one, list) and isinstance(other, list) and len(one) == len(other):
        rows = enumerate(zip(one, other))
        return next((found for at, (a, b) in rows for found in [first_other(a, b, f"{path}[{at}]")] if found), "")
    return "" if one == other else f"{path}: {str(one)[:300]} and of the whole core {str(other)[:300]}"


def check_same(over: Over, whole: Tree) -> None:
    """Fails where over a part something else is told than of the whole core, or something is said."""
    tree = {**over.tree, "missing": whole["missing"]}
    if tree != whole:
        missed = over.tree["missing"]
        raise Failure(f"over a part, after {over.line}, another report: {first_other(tree, whole)} (missed: {missed}, said: {over.said!r})")
    if text_of(tree) != text_of(whole):
        raise Failure("over a part another text")
    if over.said:
        raise Failure(f"where nothing was left out is said {over.said!r}")


def over_part(salvage: Path, core: Path, layouts: Path, budget: Optional[int] = None, first: int = FIRST) -> str:
    """What is told of a real core over a part of it is what is told of it whole. How often it was asked, and how long the part was."""
    over = asked_over(salvage, core, layouts, images_of(core), budget or core.stat().st_size - 1, first)
    check_same(over, left(salvage, core, layouts, *WORDS))
    return over.line


# ---- records in a large heap

HEAPED = """
import ctypes, os, sys
ctypes.CDLL(None).mallopt(-4, 0)
BLOCK, HELD = os.urandom(1000000), []
def grown():
    HELD.extend([b"%08d" % len(HELD) + BLOCK for _ in range(int(sys.argv[2]) // 7)])
    return True
""" + SUBS.replace("made = [subs", "made = [grown() and subs").replace('[number] == "t":', '[number] == "t" and grown():')
"""A process with sub-interpreters, of which each, and each thread of one, was made behind a seventh of so many MB of random bytes in the
same heap. (-4 is M_MMAP_MAX of the C library: of none of its blocks a mapping is made.)"""

def records_in(tree: Tree) -> List[int]:
    """The addresses of the records of interpreters and threads."""
    return [int(it["address"], 16) for one in tree["interpreters"] for it in (one, *one["threads"])]


def heap_line(core: Path, tree: Tree, is_old: bool) -> str:
    """How many records lie in the longest segment, and how far apart: up to 3.10 all that aren't in the program's own memory."""
    with open(core, "rb") as file:
        longest = max((it for it in headers_of(file) or ()), key=lambda it: it.size)
    records = records_in(tree)
    inside = [it for it in records if longest.start <= it < longest.end]
    if len(inside) < (len(records) if is_old else 3):
        raise Failure(f"of {len(records)} records {len(inside)} lie in the heap")
    return f"{len(inside)} of {len(records)} records {(max(inside) - min(inside)) / 1e6:.0f} MB apart"


def over_heap(salvage: Path, python: str, names: str, room: Path, layouts: Path, size: int, budget: int) -> str:
    """The same of a core whose records lie in a heap of so many MB, of which so many may be read."""
    core, told = left_by(python, names, room, HEAPED, "ittt", str(size))
    whole = left(salvage, core, layouts, *WORDS)
    line = heap_line(core, whole, build_of(python).minor <= (3, 10))
    over = asked_over(salvage, core, layouts, images_of(core), budget * 1_000_000, FIRST if budget < 100 else 32 << 20)
    check_same(over, whole)
    check_subs(salvage, core, layouts, told)
    core.unlink()
    return f"{line}: {over.line}"


# ---- cores that are made

FAR, STEP = 0x7F00_0000_0000, 16 << 20
"""Where segments stand that are far from the others, and how far apart."""


def noise(size: int, seed: int = 1) -> bytes:
    """Bytes of which no page is zero."""
    return Random(seed).getrandbits(8 * size).to_bytes(size, "little")


def far_frames(count: int, last: int) -> List[Segment]:
    """A chain of frames, each in a segment of its own, the last of which leads to a frame."""
    starts = [FAR + STEP * number for number in range(count)]
    found = []
    for at, after in zip(starts, [*starts[1:], last]):
        objects = Objects(layout_of(EXAMPLE), at)
        objects.frame(at=at, code=CODE, back=after)
        found.append(Segment(at, bytes(objects.data) + noise(2 * BLOCK - len(objects.data)), 6))
    return found


def long_chain(count: int, last: int = CALLER) -> Dict[str, bytes]:
    """The files of a core of such a chain."""
    objects = heap()
    objects.frame(at=FRAME, code=CODE, back=FAR)
    return named(objects, more=far_frames(count, last))


SUB = FAR + (5 << 20) + 0x40
"""Where a sub-interpreter stands in the longest segment."""


def far_sub() -> Dict[str, bytes]:
    """The files of a core whose second interpreter lies in the longest segment, behind some shorter ones."""
    objects, other = heap(), Objects(layout_of(EXAMPLE), FAR)
    other.data = bytearray(noise(6 << 20))
    objects.word(HEAP, SUB)
    other.record("interpreter", SUB)
    thread = other.record("thread", SUB + 0x100, interp=SUB, id=2, frame=SUB + 0x200)
    other.word(SUB + 8, thread)
    other.frame(at=SUB + 0x200, code=CODE)
    shorter = [Segment(FAR + STEP * number, noise(BLOCK * 4 * number, number), 6) for number in range(1, 9)]
    return named(objects, more=[*shorter, other.segment()])


def written(room: Path, files: Dict[str, bytes]) -> Tuple[Path, Path, List[str]]:
    """The files of a core that was made: the core, its layouts, and the words for its image."""
    for name, data in files.items():
        (room / name).write_bytes(data)
    return room / "core", room / "layouts", [f"/usr/bin/python3.9={room / 'image'}"]


def whole_of(salvage: Path, core: Path, layouts: Path, images: Sequence[str]) -> Tree:
    """What is told of such a core whole."""
    run = ran([salvage, core, "--layouts", layouts, "-j", *WORDS, *images])
    if run.status != 0:
        raise Failure(f"status {run.status}: {run.err}")
    whole: Tree = json.loads(run.out)
    return whole


def on_and_on(salvage: Path, _: Path, room: Path) -> str:
    """A chain that leads from segment to segment, more than once a run can be followed: it ends after so many runs, which is said, at
    the frame whose record was left out."""
    core, layouts, images = written(room, long_chain(2 * RUNS))
    over = asked_over(salvage, core, layouts, images, 2 * RUNS * BLOCK * 2, 0)
    frames = over.tree["interpreters"][0]["threads"][0]["frames"]
    assert over.core.part is not None
    if over.core.part.runs != RUNS or frames["end"]["kind"] != "unreadable":
        raise Failure(f"{over.line}, and a chain that ends so: {frames['end']}")
    if over.said != "dump_core: 1 range lies in parts that were left out for memory\ndump_core: next: --memory MB lets more be read\n":
        raise Failure(f"of a chain that was left is said {over.said!r}")
    return f"a chain on and on: {over.line}, {frames['met']} frames"


def in_last_piece(salvage: Path, _: Path, room: Path) -> str:
    """A sub-interpreter whose record lies in what is given last."""
    core, layouts, images = written(room, far_sub())
    over = asked_over(salvage, core, layouts, images, core.stat().st_size - 1, FIRST)
    check_same(over, whole_of(salvage, core, layouts, images))
    if [int(it["address"], 16) for it in over.tree["interpreters"]] != [HEAP, SUB]:
        raise Failure("the sub-interpreter isn't shown")
    if not over.core.is_last(SUB):
        raise Failure("the sub-interpreter's record isn't in what was given last")
    return f"a sub-interpreter in the last piece: {over.line}"


def nowhere(salvage: Path, _: Path, room: Path) -> str:
    """A chain that ends where neither the core nor the part has a byte: nothing is said."""
    core, layouts, images = written(room, long_chain(5, 0x70000000))
    over = asked_over(salvage, core, layouts, images, core.stat().st_size - 1, 0)
    check_same(over, whole_of(salvage, core, layouts, images))
    return f"a broken chain: {over.line}"


SHRINKS = """#!{python} -IS
import os, sys
if "--help" not in sys.argv:
    os.truncate({core!r}, {size})
os.execv({program!r}, [{program!r}, *sys.argv[1:]])
"""
"""A program that makes the core shorter, and then is the other one."""


def shrinks(salvage: Path, program: Path, room: Path) -> str:
    """A core that becomes shorter while it is read: the tool ends with a line."""
    core, layouts, _ = written(room, long_chain(60))
    image, other = room / "root" / "usr" / "bin" / "python3.9", room / "pysalvage"
    image.parent.mkdir(parents=True)
    (room / "image").rename(image)
    other.write_text(SHRINKS.format(python=sys.executable, core=os.fspath(core), size=core.stat().st_size // 4, program=os.fspath(salvage)))
    other.chmod(0o700)
    words = ["--root", room / "root", "--layouts", layouts, "--program", program, "--salvage", other, "--memory", "6"]
    run = ran([sys.executable, "-B", TOOLS / "dump_core.py", core, *words])
    wanted = "dump_core: the core became shorter while it was read\ndump_core: next: copy it first, once nothing writes it"
    if run.status != 1 or run.err != wanted or run.out:
        raise Failure(f"of a core that becomes shorter: status {run.status}, {run.err!r}")
    return "one that becomes shorter"


MADE: Tuple[Callable[[Path, Path, Path], str], ...] = (on_and_on, in_last_piece, nowhere, shrinks)
"""What is tried over cores that are made, each in a folder of its own."""


def try_made(salvage: Path, program: Path) -> int:
    """Tries the cores that are made, and returns how many failed."""
    failed = 0
    for check in MADE:
        with tempfile.TemporaryDirectory(prefix="real-parts-") as name:
            try:
                print(f"real_parts: {check(salvage, program, Path(name))}", flush=True)
            except Failure as reason:
                failed += 1
                print(f"real_parts: FAILED: {check.__name__}: {reason}", flush=True)
    return failed


# ---- the whole


def tried(salvage: Path, python: str, names: str, sizes: Tuple[int, int]) -> str:
    """What comes of one Python."""
    build = build_of(python)
    if not (3, 8) <= build.minor <= (3, 13):
        raise Skip(f"version {build.dotted}")
    derived = derived_for(build)
    done: List[str] = []
    with tempfile.TemporaryDirectory(prefix="real-parts-") as name:
        room = Path(name)
        layouts = room / "layout.toml"
        layouts.write_text(derived.text, encoding="utf-8")
        for number, case in enumerate((Case("many"), Case("main", USUAL))):
            core = leave_core(derived, names, room / str(number), case).path
            done.append(over_part(salvage, core, layouts))
            core.unlink()
        try:
            core, _ = left_by(python, names, room / "subs", SUBS, "ittt")
            done.append(f"sub-interpreters: {over_part(salvage, core, layouts)}")
            core.unlink()
            done.append(f"a heap of {sizes[0]} MB, {over_heap(salvage, python, names, room / 'heap', layouts, *sizes)}")
        except Skip as reason:
            done.append(f"sub-interpreters not tried ({reason})")
    return f"{build.dotted}: {'; '.join(done)}"


def some(found: Sequence[str], is_all: bool) -> Sequence[str]:
    """The Pythons that are tried."""
    new = [it for it in found if build_of(it).minor >= (3, 8)]
    return new if is_all or len(new) < 3 else [new[0], new[-1]]


def try_large(program: Path, salvage: Path, python: str, names: str) -> int:
    """Tells what the tool takes for a core of 8 GB, and returns whether that failed."""
    try:
        print(f"real_parts: {large_cores.tried(['--program', program, '--salvage', salvage], python, names, 8000)}", flush=True)
    except Failure as reason:
        print(f"real_parts: FAILED: 8 GB: {reason}", flush=True)
        return 1
    return 0


def main() -> int:
    """The command."""
    parser = argparse.ArgumentParser(description=__doc__.splitlines()[0])
    parser.add_argument("python", nargs="*", help="the interpreters (default: some of those that are found)")
    parser.add_argument("--program", default=str(ROOT / "crates" / "pystacks" / "out" / "pystacks"), help="the built `pystacks`")
    parser.add_argument("--salvage", default=str(ROOT / "crates" / "pysalvage" / "out" / "pysalvage"), help="the built `pysalvage`")
    parser.add_argument("--all", action="store_true", help="each Python that is found, and at any length")
    words = parser.parse_args()
    program, salvage = Path(words.program).resolve(), Path(words.salvage).resolve()
    if not salvage.is_file() or not program.is_file() or not tells_missed(salvage):
        missing = next((it for it in (salvage, program) if not it.is_file()), None)
        print(f"real_parts: skipped: {f'there is no {missing}' if missing else 'it tells nothing of what it missed'}")
        return 0
    failed = try_made(salvage, program)
    try:
        names = core_names()
        found = words.python or some(pythons(), words.all)
        sizes = (2000, 512) if words.all else (60, 40)
        failed += tell_each("real_parts", lambda it: tried(salvage, it, names, sizes), found, (Skip, DeriveError))
        failed += try_large(program, salvage, found[-1], names) if words.all else 0
    except Skip as reason:
        print(f"real_parts: skipped: {reason}")
    return 1 if failed else 0


if __name__ == "__main__":
    sys.exit(main())
