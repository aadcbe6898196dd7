#!/usr/bin/env python3
"""Cores of many bytes, and what the tool takes for them: processor time, memory, and how often the program is run.

    tools/check/real/large_cores.py --program crates/pystacks/out/pystacks --salvage crates/pysalvage/out/pysalvage [MB..]

For each number a core of the newest Python of 3.8 to 3.13 with 41 threads and that many MB of random bytes (1500 unless it is said):
up to 2000 MB they are the process's own, and what is more is put behind its core in the file, in segments of their own. What the tool
shows is what the process told. The folder for temporary files has to have room for it.
"""

import argparse
import json
import os
import struct
import subprocess
import sys
import tempfile
from dataclasses import dataclass
from pathlib import Path
from typing import Any, Dict, List, Sequence, Tuple

from rooms import ROOT, TOOLS  # (first: it makes the other rooms known)

from child_cores import Failure, Skip, core_names, ended
from derive_layout import build_of
from find_pythons import pythons
from pystacks_tool.cores.headers import ROW, headers_of

OWN = 2000
"""How many MB of random bytes the process itself has at most."""

MEGABYTE = 1_000_000

FAR, APART = 0x1000_0000_0000, 1 << 30
"""Where the segments begin that are put behind a core, and how far they stand apart. (Nothing of a process on x86-64 or aarch64 lies
there under Linux.)"""

WIDE = """
import json, os, sys, threading
block = os.urandom(1000000)
held = [b"%08d" % number + block for number in range(int(sys.argv[1]))]
ready, gate = threading.Semaphore(0), threading.Lock()
gate.acquire()
def descend(left):
    if left:
        return descend(left - 1)
    ready.release()
    gate.acquire()
for _ in range(40):
    threading.Thread(target=descend, args=(7,), daemon=True).start()
for _ in range(40):
    ready.acquire()
def names_from(frame):
    return [] if frame is None else [frame.f_code.co_name] + names_from(frame.f_back)
def die():
    print(json.dumps({number: names_from(frame) for number, frame in sys._current_frames().items()}), flush=True)
    os.abort()
die()
"""
"""A process that has so many MB of random bytes, and 40 threads of eleven frames beside its main one."""

MEASURED = """
import json, os, resource, subprocess, sys
sys.path.insert(0, sys.argv[1])
call, runs = subprocess.call, []
def counted(command, *rest, **more):
    runs.append(os.path.basename(os.fsdecode(command[0])))
    return call(command, *rest, **more)
subprocess.call = counted
from pystacks_tool.cli import main
status = main("dump_core", sys.argv[2:])
sys.stdout.flush()
own, other = (resource.getrusage(it) for it in (resource.RUSAGE_SELF, resource.RUSAGE_CHILDREN))
seconds = sum(it.ru_utime + it.ru_stime for it in (own, other))
told = {"status": status, "seconds": seconds, "own": own.ru_maxrss, "other": other.ru_maxrss, "runs": runs}
sys.stderr.write("\\n" + json.dumps(told) + "\\n")
"""
"""Runs the tool by its words, and tells what it took, in the last line of the standard error."""


@dataclass(frozen=True)
class Cost:
    """What the tool showed of a core, and what that took."""

    out: str
    said: str
    seconds: float
    """Of processors: the tool's, and those of the programs that it ran."""
    megabytes: float
    """The most memory of the tool, and of that one of the programs that had most, added up."""
    runs: int
    """How often `pysalvage` was run."""

    @property
    def line(self) -> str:
        """What it took, in a line."""
        return f"{self.runs} run{'s' * (self.runs != 1)}, {self.seconds:.2f} s of processors, {self.megabytes:.0f} MB"


def cost_of(*words: object) -> Cost:
    """What the tool takes for these words. It has to pass."""
    command = [sys.executable, "-B", "-c", MEASURED, os.fspath(TOOLS), *(str(it) for it in words)]
    run = subprocess.run(command, stdin=subprocess.DEVNULL, stdout=subprocess.PIPE, stderr=subprocess.PIPE, check=False)
    said, _, last = run.stderr.decode("utf-8", "replace").rstrip("\n").rpartition("\n")
    try:
        told: Dict[str, Any] = json.loads(last)
    except ValueError:
        raise Failure(f"the tool ended with status {run.returncode}: {last[-300:]}") from None
    if told["status"] != 0:
        raise Failure(f"the tool ended with status {told['status']}: {said[-300:]}")
    memory = (told["own"] + told["other"]) * 1024 / MEGABYTE
    return Cost(run.stdout.decode("utf-8"), said, told["seconds"], memory, told["runs"].count("pysalvage"))


def lengthened(core: Path, size: int) -> None:
    """Puts so many MB of random bytes behind a core, in segments of a GB at most, and its program headers behind these."""
    with open(core, "r+b") as file:
        headers = headers_of(file)
        if headers is None:
            raise Failure("the core has no program headers")
        rows = [struct.pack(ROW, it.kind, it.flags, it.offset, it.start, it.physical, it.size, it.memory, it.align) for it in headers]
        block, at = os.urandom(16 * MEGABYTE), file.seek(0, 2)
        for number in range(-(-size // 1000)):
            length = min(1000, size - 1000 * number) * MEGABYTE
            for first in range(0, length, len(block)):
                file.write(block[: length - first])
            rows.append(struct.pack(ROW, 1, 6, at, FAR + number * APART, 0, length, length, 4096))
            at += length
        file.write(b"".join(rows))
        file.seek(32)
        file.write(struct.pack("<Q", at))
        file.seek(56)
        file.write(struct.pack("<H", len(rows)))


def wide_core(python: str, names: str, room: Path, size: int) -> Tuple[Path, Dict[str, List[str]]]:
    """A core with so many MB of random bytes, and the stacks of its threads by the process's own word."""
    room.mkdir()
    (room / "child.py").write_text(WIDE)
    child = ended([python, "child.py", str(min(size, OWN))], room)
    if child.status >= 0:
        raise Skip("the child can't do it")
    core = child.core(names)
    if size > OWN:
        lengthened(core, size - OWN)
    return core, json.loads(child.out)


def check_told(out: str, told: Dict[str, List[str]]) -> None:
    """Fails where the tool's JSON hasn't the threads that the process told, with the names of their frames."""
    shown = {}
    for thread in (thread for it in json.loads(out)["interpreters"] for thread in it["threads"]):
        shown[str(thread["thread_id"])] = [it.get("name") for it in thread["frames"]["first"] + thread["frames"]["last"]]
    if shown != told:
        raise Failure(f"{len(shown)} threads are shown, of which {sum(told.get(it) == shown[it] for it in shown)} are those of {len(told)} that were told")


def tried(programs: Sequence[object], python: str, names: str, size: int) -> str:
    """What comes of a core with so many MB of random bytes."""
    with tempfile.TemporaryDirectory(prefix="large-cores-") as name:
        core, told = wide_core(python, names, Path(name) / "room", size)
        cost = cost_of(core, *programs, "--json")
        check_told(cost.out, told)
        if cost.said:
            raise Failure(f"of a whole process is said {cost.said!r}")
        with_locals = cost_of(core, *programs, "--json", "-l")
        check_told(with_locals.out, told)
        used = core.stat().st_size / MEGABYTE
    return f"{build_of(python).dotted}, {used:.0f} MB, {len(told)} threads: {cost.line}; with -l {with_locals.line}"


def main() -> int:
    """The command."""
    parser = argparse.ArgumentParser(description=__doc__.splitlines()[0])
    parser.add_argument("size", nargs="*", type=int, default=[1500], help="how many MB of random bytes (default: 1500)")
    parser.add_argument("--program", default=str(ROOT / "crates" / "pystacks" / "out" / "pystacks"), help="the built `pystacks`")
    parser.add_argument("--salvage", default=str(ROOT / "crates" / "pysalvage" / "out" / "pysalvage"), help="the built `pysalvage`")
    words = parser.parse_args()
    programs = ["--program", Path(words.program).resolve(), "--salvage", Path(words.salvage).resolve()]
    new = [it for it in pythons() if (3, 8) <= build_of(it).minor <= (3, 13)]
    failed = 0
    for size in words.size:
        try:
            print(f"large_cores: {tried(programs, new[-1], core_names(), size)}", flush=True)
        except Skip as reason:
            print(f"large_cores: skipped: {reason}", flush=True)
        except Failure as reason:
            failed += 1
            print(f"large_cores: FAILED: {size} MB: {reason}", flush=True)
    return 1 if failed else 0


if __name__ == "__main__":
    sys.exit(main())
