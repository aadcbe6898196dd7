#!/usr/bin/env python3
"""Cuts cores of real Pythons, and tells how many of the parts still give stacks.

    tools/check/real/real_cuts.py --salvage crates/pysalvage/out/pysalvage [--write] [PYTHON..]

For each Python of 3.8 to 3.13 that is installed: a process of four threads, whose core is cut at 30, 60, 90 and 98.9 % of its bytes.
Each frame that is shown is one of the process's own, in its place of the stack of the thread of that id, and each thread that is
shown is one of its; what can't be prepared, or has no interpreter, has its line. With --write the table in tools/check/README.md
has what came of each. The status is 0 exactly where nothing that was tried failed.
"""

import argparse
import json
import os
import re
import sys
import tempfile
from pathlib import Path
from typing import Dict, List, Sequence, Tuple

from rooms import ROOT  # (first: it makes the other rooms known)

from child_cores import Failure, Skip, core_names
from derive_layout import DeriveError, build_of
from each_python import each_python
from find_pythons import pythons
from pystacks_tool.cores.prepare import Unprepared, Wishes, prepared
from real_core import derived_for, images_of, ran
from real_salvage import frames_of, is_front, left_by, threads

PERMILLE = (300, 600, 900, 989)
"""Of a core that is cut, how many thousandths of its bytes stay."""

PAGE = ROOT / "tools" / "check" / "README.md"

SOURCE = """
import json, os, sys, threading
gate = threading.Lock()
gate.acquire()
ready = threading.Semaphore(0)
def waits():
    ready.release()
    gate.acquire()
def descend(left):
    return descend(left - 1) if left else waits()
def names_from(frame):
    return [] if frame is None else [frame.f_code.co_name] + names_from(frame.f_back)
for depth in (0, 5, 40):
    threading.Thread(target=descend, args=(depth,), daemon=True).start()
    ready.acquire()
def die():
    print(json.dumps({str(number): names_from(frame) for number, frame in sys._current_frames().items()}), flush=True)
    os.abort()
die()
"""
"""A process of four threads, three of which wait below a recursion. It tells the stacks, the newest frame first, by the ids."""

Stacks = Dict[str, List[str]]


def shown_in(tree: Dict[str, object], said: Stacks) -> Tuple[int, int, int]:
    """How many interpreters, threads and frames are shown; fails where one of them is none of the process's."""
    frames = 0
    found = [it for it in threads(tree)]
    for thread in found:
        names = [name if file else None for name, file in frames_of(thread)]
        whole = said.get(str(thread["thread_id"]))
        if whole is None and any(names):
            raise Failure(f"a thread {thread['thread_id']} with frames {names} is none of the process")
        # (the thread that told has gone on from its call since: its own frames are fewer)
        if whole is not None and not is_front(names, whole, 3):
            raise Failure(f"the frames {names} are not those of {whole}")
        frames += sum(name is not None for name in names)
    return len(tree["interpreters"]), len(found), frames


def left_of(salvage: Path, cut: Path, kept: Path, layouts: Path, words: Sequence[object], said: Stacks) -> str:
    """What is left of a part of a core: its interpreters, threads and frames, or why there are none."""
    with open(cut, "rb") as file:
        try:
            new = prepared(file, Wishes(keep=str(kept)))
        except Unprepared as reason:
            return f"not prepared: {getattr(reason, 'brief', reason)}"
    if new is not None:
        new.file.close()
    run = ran([salvage, kept if kept.exists() else cut, "--layouts", layouts, "-j", "-n", "4096", *words])
    if kept.exists():
        kept.unlink()
    if run.status not in (0, 1):
        raise Failure(f"status {run.status}: {run.err}")
    if run.status == 1:
        return run.err.strip().split("pysalvage: ")[-1]
    interpreters, count, frames = shown_in(json.loads(run.out), said)
    return f"{count} threads, {frames} frames" + ("" if interpreters == 1 else f", {interpreters} interpreters")


def tried(salvage: Path, python: str, names: str) -> Tuple[str, List[str]]:
    """The version, and what is left of each part of its core."""
    build = build_of(python)
    if not (3, 8) <= build.minor <= (3, 13):
        raise Skip(f"version {build.dotted}")
    derived = derived_for(build)
    with tempfile.TemporaryDirectory(prefix="real-cuts-") as name:
        room = Path(name)
        layouts = room / "layout.toml"
        layouts.write_text(derived.text, encoding="utf-8")
        core, told = left_by(python, names, room / "core", SOURCE)
        said: Stacks = json.loads(told)
        words = images_of(core)
        size, done = core.stat().st_size, []
        for part in sorted(PERMILLE, reverse=True):
            os.truncate(core, size * part // 1000)
            done.append(left_of(salvage, core, room / "kept", layouts, words, said))
        core.unlink()
    return build.dotted, done[::-1]


def has_stacks(what: str) -> bool:
    """Whether a part gave a frame."""
    return re.match(r"\d+ threads, [1-9]", what) is not None


def table(rows: Sequence[Tuple[str, List[str]]]) -> str:
    """The table of all parts, and the line of how many gave stacks."""
    lines = ["| | " + " | ".join(f"{it / 10:g} %" for it in PERMILLE) + " |", "|---|" + "---|" * len(PERMILLE)]
    lines += [f"| {version} | " + " | ".join(done) + " |" for version, done in rows]
    parts = [it for _, done in rows for it in done]
    return "\n".join(lines) + f"\n\n{sum(map(has_stacks, parts))} of {len(parts)} parts give stacks.\n"


def written(text: str) -> None:
    """Puts the table into the page, between its marks."""
    page = PAGE.read_text(encoding="utf-8")
    begin, end = "<!-- cuts -->\n", "<!-- /cuts -->\n"
    before, rest = page.split(begin)
    PAGE.write_text(before + begin + "\n" + text + "\n" + end + rest.split(end)[1], encoding="utf-8")


def main() -> int:
    """The command."""
    parser = argparse.ArgumentParser(description=__doc__.splitlines()[0])
    parser.add_argument("python", nargs="*", help="the interpreters (default: those that are found)")
    parser.add_argument("--salvage", default=str(ROOT / "crates" / "pysalvage" / "out" / "pysalvage"), help="the built `pysalvage`")
    parser.add_argument("--write", action="store_true", help="write the table into tools/check/README.md")
    words = parser.parse_args()
    salvage = Path(words.salvage).resolve()
    if not salvage.is_file():
        print(f"real_cuts: skipped: there is no {salvage}")
        return 0
    try:
        names = core_names()
    except Skip as reason:
        print(f"real_cuts: skipped: {reason}")
        return 0
    failed, rows = 0, []
    kept: Dict[str, Tuple[str, List[str]]] = {}

    def of_python(python: str) -> str:
        kept[python] = tried(salvage, python, names)
        return python

    for python, told in each_python(of_python, words.python or pythons()):
        try:
            version, done = kept[told()]
        except (Skip, DeriveError) as reason:
            print(f"real_cuts: skipped: {python}: {getattr(reason, 'brief', reason)}", flush=True)
            continue
        except Failure as reason:
            failed += 1
            print(f"real_cuts: FAILED: {python}: {reason}", flush=True)
            continue
        rows.append((version, done))
        print(f"real_cuts: {version}: " + "; ".join(f"{it / 10:g} %: {what}" for it, what in zip(PERMILLE, done)), flush=True)
    parts = [it for _, done in rows for it in done]
    print(f"real_cuts: {sum(map(has_stacks, parts))} of {len(parts)} parts give stacks")
    if words.write and rows:
        written(table(rows))
    return 1 if failed else 0


if __name__ == "__main__":
    sys.exit(main())
