#!/usr/bin/env python3
"""Runs a command of rt, as `rt ci`, and says how many processor minutes each crate took: its proof, its tests, its edits.

    tools/check/gate_minutes.py rt ci [NAME..]

The minutes are those of the prover's processes below the command, which name their crate: a build is the crate's proof,
or that of its tests, and a check tries an edit. They are read once a second from /proc, so that what takes less isn't
seen. What the command writes is written on. The status is the command's.
"""

import os
import subprocess
import sys
import threading
from collections import defaultdict
from pathlib import Path
from typing import DefaultDict, Dict, List, Optional, Tuple

TICKS = os.sysconf("SC_CLK_TCK")
KINDS = ("proof", "tests", "edits")

Part = Tuple[str, str]
"""A crate and a kind."""


def words_of(process: Path) -> List[str]:
    """The words of a process."""
    return process.joinpath("cmdline").read_bytes().decode("utf-8", "replace").split("\0")


def part_of(words: List[str]) -> Optional[Part]:
    """The part of the gate that a process works at, if it is the prover's."""
    if "--crate-name" not in words or not words[0].endswith("/rattle"):
        return None
    name = words[words.index("--crate-name") + 1]
    return name, "edits" if words[1] == "check" else "tests" if "--test" in words else "proof"


def parents() -> Dict[int, Tuple[int, int]]:
    """Each process with its parent and its ticks so far, those of its ended children included."""
    found = {}
    for process in Path("/proc").iterdir():
        if process.name.isdigit():
            try:
                fields = process.joinpath("stat").read_text().rsplit(")", 1)[1].split()
            except OSError:
                continue
            found[int(process.name)] = int(fields[1]), sum(map(int, fields[11:15]))
    return found


def is_below(number: int, top: int, tree: Dict[int, Tuple[int, int]]) -> bool:
    """Whether a process stands below another one."""
    while number in tree and number != top:
        number = tree[number][0]
    return number == top


def watch(top: int, ended: threading.Event, minutes: DefaultDict[Part, Dict[int, int]]) -> None:
    """Notes the ticks of the prover's processes below one, until it has ended."""
    while not ended.wait(1):
        tree = parents()
        for number, (_, ticks) in tree.items():
            try:
                part = part_of(words_of(Path(f"/proc/{number}"))) if is_below(number, top, tree) else None
            except OSError:
                continue
            if part:
                minutes[part][number] = ticks


def table(minutes: DefaultDict[Part, Dict[int, int]]) -> str:
    """The rows, the dearest crate first."""
    total = {part: sum(ticks.values()) / TICKS / 60 for part, ticks in minutes.items()}
    crates = sorted({crate for crate, _ in total}, key=lambda it: -sum(total.get((it, kind), 0) for kind in KINDS))
    lines = ["| crate | proof | tests | edits | all |", "|---|---|---|---|---|"]
    sums = [0.0] * 4
    for crate in crates:
        row = [total.get((crate, kind), 0) for kind in KINDS]
        row.append(sum(row))
        sums = [one + other for one, other in zip(sums, row)]
        lines.append(f"| {crate} | " + " | ".join(f"{number:.1f}" for number in row) + " |")
    return "\n".join([*lines, "| all | " + " | ".join(f"{number:.1f}" for number in sums) + " |"])


def main() -> int:
    if len(sys.argv) < 2:
        print(__doc__)
        return 2
    minutes: DefaultDict[Part, Dict[int, int]] = defaultdict(dict)
    command = subprocess.Popen(sys.argv[1:])
    ended = threading.Event()
    watcher = threading.Thread(target=watch, args=(command.pid, ended, minutes))
    watcher.start()
    status = command.wait()
    ended.set()
    watcher.join()
    print(table(minutes))
    return status


if __name__ == "__main__":
    sys.exit(main())
