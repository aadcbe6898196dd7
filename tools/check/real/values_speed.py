#!/usr/bin/env python3
"""What the values of locals cost, over a core of a real Python with many threads, many frames and a heap of objects.

    tools/check/real/values_speed.py --salvage crates/pysalvage/out/pysalvage [MB]

The newest Python of 3.8 to 3.13 dies with 61 threads of 38 frames, of which each has five locals of its own, beside some 100 MB of
dicts, lists and texts that the locals lead to. `pysalvage` is run over its core without `-l`, with `-l` and with `-ll`, as text, five
times each: the least processor time of each is told, how many times that is of the run without `-l`, and how many values are shown a
second of what is more. How many values are shown is counted in the JSON. It isn't part of the gate: a busy machine tells nothing.
"""

import argparse
import json
import os
import subprocess
import sys
import tempfile
from pathlib import Path
from typing import Any, Dict, List, Sequence

from rooms import ROOT  # (first: it makes the other rooms known)

from child_cores import Failure, Skip, core_names, ended
from derive_layout import Build, build_of
from find_pythons import pythons
from real_core import images_of
from real_tasks import words_of
from real_values import frames_in, within

RUNS = 5
"""How often each is run."""

CHILD = """
import os, resource, sys, threading
resource.setrlimit(resource.RLIMIT_CORE, (resource.getrlimit(resource.RLIMIT_CORE)[1],) * 2)
with open("/proc/self/coredump_filter", "w") as file:
    file.write("0x33")
def row(number):
    return {"id": number, "name": "order %d" % number, "items": [number, number + 0.5, None, True], "text": "x" * (number % 200)}
held = [[row(number) for number in range(first, first + 50)] for first in range(0, int(sys.argv[1]) * 1600, 50)]
ready, gate = threading.Semaphore(0), threading.Lock()
gate.acquire()
def descend(left, own):
    number, rows, text, pair = left * 1000003, held[(own * 37 + left) % len(held)], "frame %d" % left, (left, own)
    if left:
        return descend(left - 1, own)
    ready.release()
    gate.acquire()
for own in range(60):
    threading.Thread(target=descend, args=(34, own), daemon=True).start()
for own in range(60):
    ready.acquire()
def die(left):
    number, rows, text, pair = left * 1000003, held[left % len(held)], "frame %d" % left, (left, left)
    if left:
        return die(left - 1)
    os.abort()
die(34)
"""
"""A process of 61 threads, of which each has some 38 frames, and so many MB of objects."""


def processor_seconds(command: Sequence[object]) -> float:
    """How long a command kept processors busy. It has to pass."""
    with tempfile.TemporaryFile() as out:
        process = subprocess.Popen([str(it) for it in command], stdin=subprocess.DEVNULL, stdout=out, stderr=subprocess.DEVNULL)
        _, status, used = os.wait4(process.pid, 0)
        process.returncode = os.WEXITSTATUS(status) if os.WIFEXITED(status) else -os.WTERMSIG(status)
    if process.returncode != 0:
        raise Failure(f"status {process.returncode}")
    return used.ru_utime + used.ru_stime


def least(command: Sequence[object]) -> float:
    """The least of some runs."""
    return min(processor_seconds(command) for _ in range(RUNS))


def nodes_in(tree: Dict[str, Any]) -> int:
    """How many values a value is."""
    return 1 + sum(nodes_in(it) for it in within(tree))


def told_of(command: Sequence[object]) -> List[Dict[str, Any]]:
    """The frames that are shown."""
    run = subprocess.run([str(it) for it in command], stdin=subprocess.DEVNULL, stdout=subprocess.PIPE, check=True)
    return list(frames_in(json.loads(run.stdout)))


def measured(salvage: Path, build: Build, core: Path) -> List[str]:
    """What each run takes, in lines."""
    base = [salvage, core, *words_of(build.machine), *images_of(core)]
    without = least(base)
    size = core.stat().st_size / 1_000_000
    lines = [f"{build.dotted}, {size:.0f} MB: without -l {without:.3f} s"]
    for words in ("-l", "-ll"):
        frames = told_of([*base, words, "-j"])
        rows = {it["address"]: it["value"] for frame in frames for it in frame["locals"] or () if it["value"] is not None}
        values, seconds = sum(map(nodes_in, rows.values())), least([*base, words])
        more = max(seconds - without, 1e-6)
        lines.append(f"{words} {seconds:.3f} s, {seconds / without:.2f} times that; {len(frames)} frames, {len(rows)} values of locals, "
                     f"{values} with those within them, {values / more:,.0f} a second")
    return lines


def main() -> int:
    """The command."""
    parser = argparse.ArgumentParser(description=__doc__.splitlines()[0])
    parser.add_argument("size", nargs="?", type=int, default=100, help="how many MB of objects, about (default: 100)")
    parser.add_argument("--salvage", default=str(ROOT / "crates" / "pysalvage" / "out" / "pysalvage"), help="the built `pysalvage`")
    words = parser.parse_args()
    newest = [it for it in pythons() if (3, 8) <= build_of(it).minor <= (3, 13)][-1]
    try:
        with tempfile.TemporaryDirectory(prefix="values-speed-") as name:
            room = Path(name) / "room"
            room.mkdir()
            (room / "child.py").write_text(CHILD)
            child = ended([newest, "child.py", str(words.size)], room)
            if child.status >= 0:
                raise Failure(f"the child ended with status {child.status}")
            for line in measured(Path(words.salvage).resolve(), build_of(newest), child.core(core_names())):
                print(f"values_speed: {line}", flush=True)
    except Skip as reason:
        print(f"values_speed: skipped: {reason}")
    except Failure as reason:
        print(f"values_speed: FAILED: {reason}")
        return 1
    return 0


if __name__ == "__main__":
    sys.exit(main())
