"""Cores of real_core_child.py, and what the child told of its stacks before it died."""

import glob
import json
import os
import re
import resource
import signal
import subprocess
import time
from dataclasses import dataclass
from pathlib import Path
from typing import List, Optional, Sequence, Tuple

import rooms  # (first: it makes the other rooms known)
from derive_layout import Derived

SECONDS = 60
"""How long the child, and any run of the program, may take."""

ALL_PRIVATE, USUAL = "0x3f", "0x33"
"""What a core holds, as the system's coredump_filter has it: all private mappings, or those of files only where they
were written, as is usual."""


class Skip(Exception):
    """Why something can't be tried here."""


class Failure(Exception):
    """What went wrong in what was tried."""


@dataclass(frozen=True)
class Case:
    """A core that the child is to leave."""

    who: str
    """Which thread aborts, as the child has it."""
    holds: str = ALL_PRIVATE
    folder: str = "core"
    """The folder in which it dies."""

    @property
    def is_usual(self) -> bool:
        """Whether the core lacks what is still as in the files that were mapped."""
        return self.holds == USUAL


CASES = (
    Case("main"),
    Case("other", folder="ein Ordner für 日本"),
    Case("many"),
    Case("free"),
    Case("main", USUAL),
    Case("many", USUAL),
)
"""Each situation in a process of its own, and some as cores are usually written."""

GATE_CASES = (Case("many", folder="ein Ordner für 日本"), Case("free", USUAL))
"""One process, whose threads are in all the situations, and one that lacks what is still as in the files, with the
lock let go."""


@dataclass(frozen=True)
class Thread:
    """A thread's stack, the newest frame first: (function, file)."""

    label: str
    frames: Tuple[Tuple[str, str], ...]
    has_lock: bool = False
    name: str = ""
    lines: Tuple[int, ...] = ()
    """Of each frame; empty where they aren't known."""
    number: int = 0
    """Its id."""
    native: Optional[int] = None
    """The system's number for it, where the layout has that."""


@dataclass(frozen=True)
class Told:
    """What the child told before it died."""

    interpreter: int
    lock: Optional[int]
    """The address that names the lock's holder, where it is known."""
    threads: List[Thread]
    """In the order in which they are printed."""
    head: str
    """The lines of a report between that of the signal and the threads."""
    held: Optional[int] = None
    """The address of what was handed to the function `hold`, where a thread is in it."""
    maps: str = ""
    """What /proc/self/maps had shortly before."""
    led: Optional[Tuple[int, List[int]]] = None
    """The place of that thread in the interpreter's chain, and the addresses of what its locals lead to."""


@dataclass(frozen=True)
class Core:
    """A core, and what is to be read in it."""

    path: Path
    case: Case
    told: Told


def core_names() -> str:
    """The glob for names of cores, where {pid} stands for the process, once it is known that cores are written to
    files, and to such as can be told from those of other processes."""
    path = Path("/proc/sys/kernel/core_pattern")
    if not path.is_file():
        raise Skip(f"this system has no {path}")
    pattern = path.read_text().strip()
    if pattern.startswith(("|", "@")):
        raise Skip(f"the kernel hands cores to a program, by the pattern {pattern}")
    if not pattern:
        raise Skip("the kernel writes no cores, since its pattern is empty")
    if resource.getrlimit(resource.RLIMIT_CORE)[1] == 0:
        raise Skip("the hard limit on the size of cores is 0")
    return names_by(pattern, Path("/proc/sys/kernel/core_uses_pid").read_text().strip() != "0")


def names_by(pattern: str, uses_pid: bool) -> str:
    """The glob for a kernel's pattern: its %p is known, and its other words may be anything."""
    words = {"%%": "%", "%p": "{pid}"}
    parts = re.split(r"(%.?)", pattern)
    name = "".join(words.get(it, "*") if it.startswith("%") else glob.escape(it) for it in parts)
    if uses_pid and "%p" not in pattern:
        name += ".{pid}"
    if os.path.isabs(name) and "*" in name and "{pid}" not in name:
        raise Skip(f"by the kernel's pattern {pattern} a core can't be told from others")
    return name


def find_core(names: str, pid: int, folder: Path, since: float) -> Path:
    """The core that a process left, which ran in this folder, empty before."""
    found = [Path(it) for it in glob.glob(os.path.join(glob.escape(str(folder)), names.replace("{pid}", str(pid))))]
    # (a clock of files may be coarse)
    new = [it for it in found if it.is_file() and it.stat().st_mtime >= since - 2]
    if not new:
        raise Skip(f"the kernel left no core named {names}")
    return max(new, key=lambda it: it.stat().st_mtime)


def raise_core_limit() -> None:
    """Gives a process all of the core's size that it may have."""
    hard = resource.getrlimit(resource.RLIMIT_CORE)[1]
    resource.setrlimit(resource.RLIMIT_CORE, (hard, hard))


def lock_told(told: dict, derived: Derived) -> Optional[int]:
    """The address that names the lock's holder, by the layout's kind of lock."""
    if derived.lock == "symbol":
        return told["current"]
    if derived.lock == "runtime":
        current = derived.numbers.get("runtime.current")
        return told["runtime"] + current if told["runtime"] and current is not None else None
    return told["gil"]


def told_from(line: str, derived: Derived) -> Told:
    """What the child's line tells; threads are labelled as the layout has it."""
    told = json.loads(line)
    has_native = "thread.native_id" in derived.numbers
    threads = []
    for it in told["threads"]:
        native = it["native"] if has_native else None
        label = str(native) if has_native else f"0x{it['id']:X}"
        frames = tuple((name, file) for name, file, _ in it["frames"])
        lines = tuple(line for _, _, line in it["frames"])
        has_lock = it["id"] == told["holder"]
        threads.append(Thread(label, frames, has_lock, it["name"], lines, it["id"], native))
    # (the child lists threads from the first of the chain on, and they are printed from the last)
    pid, arguments = told["process"]
    head = f"Process {pid}: {arguments}\nPython v{told['version']}\n\n"
    return Told(told["interpreter"], lock_told(told, derived), threads[::-1], head, told["held"], told["maps"], told["led"])


@dataclass(frozen=True)
class Ended:
    """A child that has ended in a folder of its own."""

    pid: int
    status: int
    out: str
    said: str
    folder: Path
    since: float
    """When it was started."""

    def core(self, names: str) -> Path:
        """The core that it left."""
        return find_core(names, self.pid, self.folder, self.since)


def ended(command: Sequence[str], folder: Path) -> Ended:
    """Runs a child in this folder, with all of the core's size that it may have, until it has ended."""
    how = {"stdin": subprocess.DEVNULL, "stdout": subprocess.PIPE, "stderr": subprocess.PIPE}
    text = {"text": True, "encoding": "utf-8", "errors": "replace"}
    since = time.time()
    process = subprocess.Popen(list(command), cwd=folder, preexec_fn=raise_core_limit, **how, **text)
    try:
        out, said = process.communicate(timeout=SECONDS)
    except subprocess.TimeoutExpired:
        process.kill()
        process.communicate()
        raise Failure(f"the child had not ended after {SECONDS} seconds") from None
    return Ended(process.pid, process.returncode, out, said, folder, since)


def aborted(command: Sequence[str], folder: Path) -> Ended:
    """Runs the child in this folder until it has aborted."""
    child = ended(command, folder)
    last = (child.said.strip().splitlines() or ["it said nothing"])[-1]
    if "No module named '_ctypes'" in child.said or "No module named _ctypes" in child.said:
        raise Skip("it has no ctypes")
    if child.status != -signal.SIGABRT:
        raise Failure(f"the child ended with status {child.status}, and not by an abort: {last}")
    return child


def leave_core(derived: Derived, names: str, room: Path, case: Case) -> Core:
    """Runs the child in a folder below this one until it has left a core."""
    folder = room / case.folder
    folder.mkdir(parents=True)
    script = Path(__file__).resolve().with_name("real_core_child.py")
    lock = str(derived.numbers.get("interpreter.gil", -1))
    build = derived.build
    child = aborted([build.executable, *build.alone, str(script), lock, case.who, case.holds], folder)
    core = child.core(names)
    hard = resource.getrlimit(resource.RLIMIT_CORE)[1]
    if hard != resource.RLIM_INFINITY and core.stat().st_size >= hard:
        raise Skip(f"the hard limit on the size of cores, {hard} bytes, cuts its core")
    return Core(core, case, told_from(child.out, derived))
