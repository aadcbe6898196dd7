#!/usr/bin/env python3
"""Groups real cores of a service that dies by twelve bugs, by several Pythons, with other workers and requests each time.

    tools/check/real/real_fleet.py --program crates/pystacks/out/pystacks --salvage crates/pysalvage/out/pysalvage [--all] [--fleet] [PYTHON..]

The groups by `crash` have to be the bugs, by each version; the lines that --keys writes have to give the same groups, byte by
byte. With --all there are some 200 cores, else each bug twice by one Python. With --fleet the same cores are looked at by GNU
parallel and by two workers of dask.distributed too, where these are there: docs/CORES.md has the commands. The status is 0
exactly where nothing that was tried failed.
"""

import argparse
import json
import os
import subprocess
import sys
import tempfile
import time
from concurrent.futures import ThreadPoolExecutor
from dataclasses import dataclass
from pathlib import Path
from typing import Dict, List, Sequence, Set, Tuple

from rooms import ROOT  # (first: it makes the other rooms known)

from child_cores import Failure, Skip, core_names, ended
from derive_layout import DeriveError, build_of
from find_pythons import pythons

CHILD = Path(__file__).with_name("fleet_child.py")
TOOL = ROOT / "tools" / "dump_core.py"
BUGS = ("receipt", "receipt-late", "recursion", "parser", "price", "mapped", "ordered", "json", "callback", "finally", "watch", "exit")
LEAST, LAST = 8, 13
"""The minor versions that are tried."""


@dataclass(frozen=True)
class Programs:
    """The programs that the tool runs."""

    pystacks: Path
    pysalvage: Path

    @property
    def words(self) -> List[str]:
        """The tool's words for them."""
        return [f"--program={self.pystacks}", f"--salvage={self.pysalvage}"]


def core_of(python: str, names: str, service: Path, room: Path, bug: str, seed: int) -> Path:
    """The core of one death, by a service that stands in one place."""
    room.mkdir(parents=True)
    child = ended([python, "-B", str(service), bug, str(seed)], room)
    if child.status >= 0:
        raise Failure(f"{python}: no death by {bug}, but status {child.status}: {child.said.strip()[-300:]}")
    kept = room / f"core.{bug}.{seed}"
    child.core(names).rename(kept)
    return kept


def ran_tool(program: Programs, *words: str, given: str = "") -> str:
    """What the tool prints."""
    command = [sys.executable, "-B", str(TOOL), *program.words, *words]
    done = subprocess.run(command, input=given, capture_output=True, text=True, check=False)
    if done.returncode != 0:
        raise Failure(f"the tool ended with status {done.returncode}: {done.stderr.strip()[:300]}")
    return done.stdout


def bug_of(name: str) -> str:
    """The bug by which a core's process died."""
    return os.path.basename(name).split(".")[1]


def check_groups(lines: Sequence[Dict[str, object]]) -> int:
    """The groups by `crash` are the bugs, whatever the version of Python; how many there are."""
    by_key: Dict[str, Set[str]] = {}
    by_bug: Dict[str, Dict[str, str]] = {}
    for line in lines:
        name, keys = str(line["core"]), line["keys"]
        if line["cause"] is not None:
            raise Failure(f"{name}: no stacks: {line['cause']}")
        assert isinstance(keys, dict)
        by_key.setdefault(keys["crash"], set()).add(bug_of(name))
        by_bug.setdefault(bug_of(name), {})[keys["crash"]] = f"{line['version']}: {line['stack']}"
    for bugs in by_key.values():
        if len(bugs) > 1:
            raise Failure(f"one group has the bugs {sorted(bugs)}")
    for bug, stacks in by_bug.items():
        if len(stacks) > 1:
            raise Failure(f"the bug {bug} is in {len(stacks)} groups: {list(stacks.values())[:2]}")
    return len(by_key)


def check_broken(program: Programs, core: Path, room: Path) -> None:
    """A core that is cut to its front, one that is none and one that isn't there cost themselves alone."""
    cut, none = room / "core.cut.0", room / "core.none.0"
    cut.write_bytes(core.read_bytes()[:5000])
    none.write_bytes(b"none")
    lines = [json.loads(it) for it in ran_tool(program, "--keys", str(cut), str(core), str(none), str(room / "nothing")).splitlines()]
    causes = [it["cause"] is not None for it in lines]
    if causes != [True, False, True, True]:
        raise Failure(f"of four cores, one of which is whole, the causes are {[it['cause'] for it in lines]}")


def check_from(program: Programs, text: str, cores: Sequence[Path], room: Path) -> None:
    """Lines that were written give the groups that the cores give."""
    file = room / "keys"
    file.write_text(text)
    names = [str(it) for it in cores]
    for by in ("crash", "stacks"):
        whole = ran_tool(program, "--group", f"--by={by}", *names)
        if ran_tool(program, "--group", f"--by={by}", "--from", str(file)) != whole:
            raise Failure(f"the lines give other groups by {by} than the cores")
        if ran_tool(program, "--group", f"--by={by}", "--from", "-", given=text) != whole:
            raise Failure(f"the lines of the standard input give other groups by {by} than the cores")


def fleet_answers(program: Programs, cores: Sequence[Path], room: Path) -> List[Tuple[str, str, float]]:
    """The lines by GNU parallel and by dask.distributed, where these are there, each with its seconds."""
    names = room / "names"
    names.write_text("".join(f"{it}\n" for it in cores))
    tool = f"{sys.executable} -B {TOOL} {' '.join(program.words)} --keys"
    found = []
    for what, command in (
        ("parallel", ["parallel", "--keep-order", "--retries", "2", "--joblog", str(room / "log"), "-n", "20", "-a", str(names), tool]),
        ("dask", ["/usr/bin/python3", "-B", str(ROOT / "tools" / "core_fleet.py"), "--local", "2", *program.words, "--names", str(names)]),
    ):
        start = time.monotonic()
        try:
            done = subprocess.run(command, capture_output=True, text=True, check=False, stdin=subprocess.DEVNULL)
        except FileNotFoundError:
            print(f"real_fleet: skipped: {what}: it isn't there", flush=True)
            continue
        if done.returncode == 127:
            print(f"real_fleet: skipped: {what}: {done.stderr.strip().splitlines()[-1:]}", flush=True)
            continue
        if done.returncode != 0:
            raise Failure(f"{what} ended with status {done.returncode}: {done.stderr.strip()[-300:]}")
        found.append((what, done.stdout, time.monotonic() - start))
    return found


def check_fleet(program: Programs, text: str, cores: Sequence[Path], room: Path) -> None:
    """Each engine's lines give the groups of one machine, byte by byte."""
    wanted = ran_tool(program, "--group", "--from", "-", given=text)
    for what, lines, seconds in fleet_answers(program, cores, room):
        if ran_tool(program, "--group", "--from", "-", given=lines) != wanted:
            raise Failure(f"{what} has other groups than one machine")
        print(f"real_fleet: {what}: {len(cores)} cores in {seconds:.1f} s, the same groups", flush=True)


def chosen_pythons(named: Sequence[str], is_all: bool) -> List[str]:
    """The Pythons that are tried: without --all the last one that there is."""
    found = []
    for python in named or pythons():
        try:
            build = build_of(python)
        except DeriveError:
            continue
        if (3, LEAST) <= build.minor <= (3, LAST):
            found.append((build.minor, python))
    unique = dict(sorted(found, reverse=True))
    ordered = [unique[minor] for minor in sorted(unique)]
    return ordered if is_all else ordered[-1:]


def tried(program: Programs, found: Sequence[str], room: Path, times: int, is_fleet: bool) -> str:
    """What comes of all of it."""
    names = core_names()
    service = room / "srv" / "service.py"
    service.parent.mkdir()
    service.write_text(CHILD.read_text())
    wanted = [(python, bug, seed, place * 1000 + seed) for place, python in enumerate(found) for bug in BUGS for seed in range(times)]
    with ThreadPoolExecutor(os.cpu_count() or 1) as pool:
        cores = list(pool.map(lambda it: core_of(it[0], names, service, room / f"{it[1]}-{it[3]}", it[1], it[3]), wanted))
    start = time.monotonic()
    text = ran_tool(program, "--keys", *map(str, cores))
    seconds = time.monotonic() - start
    groups = check_groups([json.loads(it) for it in text.splitlines()])
    check_broken(program, cores[0], room)
    check_from(program, text, cores, room)
    if is_fleet:
        check_fleet(program, text, cores, room)
    return f"{len(cores)} cores of {len(BUGS)} bugs by {len(found)} Pythons: {groups} groups, each a bug's; keys in {seconds:.1f} s"


def main() -> int:
    parser = argparse.ArgumentParser(description=__doc__.split("\n")[0])
    parser.add_argument("--program", required=True, type=Path)
    parser.add_argument("--salvage", required=True, type=Path)
    parser.add_argument("--all", action="store_true")
    parser.add_argument("--fleet", action="store_true")
    parser.add_argument("python", nargs="*")
    words = parser.parse_args()
    found = chosen_pythons(words.python, words.all)
    if not words.salvage.is_file():
        print("real_fleet: skipped: pysalvage isn't built, which knows which thread got the signal")
        return 0
    if not found:
        print(f"real_fleet: skipped: there is no Python from 3.{LEAST} to 3.{LAST}")
        return 0
    with tempfile.TemporaryDirectory(prefix="real-fleet-") as name:
        try:
            print("real_fleet: " + tried(Programs(words.program.resolve(), words.salvage.resolve()), found, Path(name), 3 if words.all else 2, words.fleet))
        except Skip as reason:
            print(f"real_fleet: skipped: {reason}")
        except Failure as reason:
            print(f"real_fleet: FAILED: {reason}")
            return 1
    return 0


if __name__ == "__main__":
    sys.exit(main())
