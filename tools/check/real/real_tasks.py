#!/usr/bin/env python3
"""Asks for the tasks of asyncio in cores of real Pythons, and compares them with what the processes said.

    tools/check/real/real_tasks.py --salvage crates/pysalvage/out/pysalvage [PYTHON..]

For each Python of 3.7 to 3.13 that is installed: processes die in a running task, and in a callback, with tasks of two loops in
two threads that wait in all kinds of ways, are done, ready, or never ran (tasks_child.py), and say before of each its name,
its state, what it waits for, and the chain of its coroutines with functions, files and lines. Exactly that is to be told, of
exactly these tasks; and of a core as cores are usually written the tool is to tell the same. So it is where sub-interpreters have loops, and over
uvloop where that is installed. A loop that a signal from outside cuts at full speed has each of its workers, and no chain that the
program can't have; a process without asyncio has no tasks, and where gdb is there the reads are counted that this costs. Of some Pythons one with 20,000 tasks is told too, within 20 seconds. Copies of a core whose memory is broken at many places by chance are to end, within 20 seconds too, with tasks in the form
that docs/USAGE.md has, or with a status and a line. The layouts and the records are the stored ones. The status is 0 exactly where nothing that was tried failed.
"""

import argparse
import itertools
import json
import random
import signal
import struct
import subprocess
import sys
import tempfile
import time
from pathlib import Path
from typing import Any, Callable, Dict, List

from rooms import ROOT, TOOLS  # (first: it makes the other rooms known)

from child_cores import ALL_PRIVATE, USUAL, Failure, Skip, aborted, core_names, find_core, raise_core_limit
from counted_reads import reads_of
from derive_layout import Build, DeriveError, build_of
from each_python import tell_each
from find_pythons import pythons
from real_core import images_of, ran
from salvage_text import tree_of
from tasks_text import task_lines

CHILD, IMPORTS = (Path(__file__).with_name(it) for it in ("tasks_child.py", "imports_child.py"))
WAYS = {"running": ALL_PRIVATE, "callback": USUAL}
"""How processes die, and what their cores hold."""

MANY, MANY_IN, MOST_SECONDS = 20000, ((3, 9), (3, 13)), 20
"""How many tasks one process has, of which Pythons, and how long it may take to tell them."""

MOST_READS = 2000
"""How many more reads a process without asyncio may cost: the name of each module is read by the search for asyncio, and by that for others.
(Fewer than 2 of a module are none that were counted.)"""

WORKERS, TURNS = 10, 4
"""How many workers run at full speed, and how often a process of these is killed."""

SHARES = (0.0001, 0.001, 0.02)
"""Of how many words of a core's written memory others are put in their places."""

LOAD, WRITTEN = 1, 2
"""The type of a segment of memory, and its flag where it may be written."""

Tree = Dict[str, Any]


def words_of(machine: object) -> List[str]:
    """The files by which cores of a machine are read."""
    return [f"--{name}={ROOT / 'layouts' / file}-{machine}.toml" for name, file in (("layouts", "cpython"), ("records", "records"))]


def tree_in(salvage: Path, core: Path, build: Build) -> Tree:
    """All that is told of a core."""
    run = ran([salvage, core, *words_of(build.machine), "-j", "-n", "4096", "--tasks", *images_of(core)])
    if run.status != 0:
        raise Failure(f"status {run.status}: {run.err}")
    return json.loads(run.out)


def all_entries(tree: Tree) -> List[List[Tree]]:
    """The tasks of each interpreter that has some."""
    found = [it["tasks"] for it in tree["tasks"] if it["tasks"] is not None]
    if any(it["kind"] != "read" for it in found):
        raise Failure(f"the tasks are {[it['kind'] for it in found]}")
    if any(any((it["frameworks"] or {"trio": True}).values()) for it in tree["tasks"]):
        raise Failure(f"other frameworks are told: {[it['frameworks'] for it in tree['tasks']]}")
    return [it["entries"] for it in found]


def entries_in(salvage: Path, core: Path, build: Build) -> List[Tree]:
    """What is told of a core's tasks."""
    found = all_entries(tree_in(salvage, core, build))
    if len(found) != 1:
        raise Failure(f"{len(found)} interpreters have tasks")
    return found[0]


def first_other(told: Any, wanted: Any, path: str = "") -> str:
    """Where something is told that isn't wanted, and what stands there."""
    if isinstance(told, dict) and isinstance(wanted, dict) and told.keys() == wanted.keys():
        return next((line for line in (first_other(told[key], wanted[key], f"{path}.{key}") for key in wanted) if line), "")
    if isinstance(told, list) and isinstance(wanted, list) and len(told) == len(wanted):
        return next((line for line in (first_other(*its, f"{path}[{at}]") for at, its in enumerate(zip(told, wanted))) if line), "")
    return "" if told == wanted else f"{path[1:]} is {told!r} in place of {wanted!r}"


def check_tasks(told: List[Tree], wanted: List[Tree]) -> None:
    """Fails where a task is told that isn't there, or one isn't that is, or something of one is another than the process said."""
    by_address, left = ({it["address"]: it for it in its} for its in (told, wanted))
    if len(by_address) != len(told):
        raise Failure("a task is told twice")
    for address, task in left.items():
        if address not in by_address:
            raise Failure(f"the task {task.get('name')!r} is not told")
        line = first_other(by_address[address], task)
        if line:
            raise Failure(f"of the task {task.get('name')!r} {line}")
    more = [it for address, it in by_address.items() if address not in left]
    if more:
        raise Failure(f"told is what isn't there: {more[0]}")


def tool_text(salvage: Path, core: Path, *more: str) -> str:
    """What the tool tells, which picks the files that it hands over."""
    run = ran([sys.executable, "-B", TOOLS / "dump_core.py", core, f"--salvage={salvage}", f"--program={salvage}", *more])
    if run.status != 0:
        raise Failure(f"the tool: status {run.status}: {run.err}")
    return run.out


def check_text(salvage: Path, build: Build, core: Path, tree: Tree) -> None:
    """Fails where the text isn't that of the JSON."""
    run = ran([salvage, core, *words_of(build.machine), "-n", "4096", "--tasks", *images_of(core)])
    wanted = "".join(f"{it}\n" for it in task_lines(tree["tasks"]))
    if run.status != 0 or not run.out.endswith("\n" + wanted):
        raise Failure(f"the text is another than the JSON says: status {run.status}: {run.err}")


def check_running(salvage: Path, core: Path, wanted: List[str]) -> None:
    """Fails where the tool shows a task that runs with other frames than it has: those of its thread down to its coroutine."""
    lines = tool_text(salvage, core, "--all").split("\n")
    at = next((at for at, it in enumerate(lines) if it.startswith("Task ") and " (running in thread " in it), len(lines))
    shown = [it.split(" (")[0].strip() for it in itertools.takewhile(lambda it: it.startswith("    "), lines[at + 1 :])]
    if shown != wanted:
        raise Failure(f"the tool shows the task that runs at {shown}, and it stood at {wanted}")


def check_tool(salvage: Path, core: Path, told: List[Tree]) -> None:
    """Fails where the tool tells other tasks."""
    text = tool_text(salvage, core, "-j")
    line = first_other([it["tasks"]["entries"] for it in json.loads(text)["tasks"] if it["tasks"] is not None], [told])
    if line:
        raise Failure(f"by the tool {line}")


def places_in(core: bytes) -> List[range]:
    """Where the words of a core's written memory stand in it."""
    (at,), (size, count) = struct.unpack_from("<Q", core, 32), struct.unpack_from("<HH", core, 54)
    rows = (struct.unpack_from("<IIQQQQQQ", core, at + size * number) for number in range(count))
    return [range(start, start + length, 8) for kind, flags, start, _, _, length, _, _ in rows if kind == LOAD and flags & WRITTEN and length]


def broken(core: bytes, share: float, seed: int) -> bytes:
    """A copy in which words stand that don't belong there: zero, one that is near, one from elsewhere, or any."""
    chance, data, places = random.Random(seed), bytearray(core), places_in(core)
    weights = [len(it) for it in places]
    for place in chance.choices(places, weights, k=int(sum(weights) * share)):
        to, elsewhere = chance.choice(place), chance.choice(chance.choice(places))
        near = (struct.unpack_from("<Q", core, to)[0] + chance.choice((-16, -8, -1, 1, 8, 16))) % 2 ** 64
        word = chance.choice((0, near, struct.unpack_from("<Q", core, elsewhere)[0], chance.getrandbits(64)))
        struct.pack_into("<Q", data, to, word)
    return bytes(data)


def with_broken(salvage: Path, build: Build, core: Path) -> int:
    """How many of some broken copies still tell tasks."""
    whole, copy, told = core.read_bytes(), core.with_name("broken"), 0
    images = images_of(core)
    for seed, share in enumerate(SHARES):
        copy.write_bytes(broken(whole, share, seed))
        run = ran([salvage, copy, *words_of(build.machine), "-j", "-n", "4096", "--tasks", *images])
        if run.seconds > MOST_SECONDS or run.status not in (0, 1):
            raise Failure(f"broken by {share}: status {run.status} after {run.seconds:.1f} s: {run.err}")
        if run.status == 0:
            told += tree_of(run.out.encode(), 4096, ["--tasks"])["tasks"] is not None
    copy.unlink()
    return told


def in_way(salvage: Path, build: Build, names: str, room: Path, way: str) -> str:
    """All kinds of tasks, of a process that dies in one way."""
    room.mkdir()
    child = aborted(command(build, way, WAYS[way]), room)
    core, said = child.core(names), json.loads(child.out)
    wanted, tree = said["tasks"], tree_in(salvage, core, build)
    told, = all_entries(tree)
    check_tasks(told, wanted)
    check_text(salvage, build, core, tree)
    if said["stack"]:
        check_running(salvage, core, said["stack"])
    if WAYS[way] == USUAL:
        check_tool(salvage, core, told)
    else:
        way += f", {with_broken(salvage, build, core)} of {len(SHARES)} broken ones told"
    core.unlink()
    return f"{len(wanted)} tasks with {sum(len(it['chain']['members']) for it in wanted if it['kind'] == 'task')} members ({way})"


def with_many(salvage: Path, build: Build, names: str, room: Path) -> str:
    """A process of many tasks, by their names, and how long it takes to tell them."""
    room.mkdir()
    child = aborted(command(build, "many", count=MANY), room)
    core, wanted = child.core(names), json.loads(child.out)["names"]
    begun = time.monotonic()
    told = entries_in(salvage, core, build)
    seconds = time.monotonic() - begun
    core.unlink()
    if sorted(it["name"] for it in told) != wanted:
        raise Failure(f"{len(told)} tasks are told in place of {len(wanted)}, or others")
    if seconds > MOST_SECONDS:
        raise Failure(f"it takes {seconds:.1f} s to tell {len(told)} tasks")
    return f"{len(told)} tasks in time"


def command(build: Build, way: str, holds: str = ALL_PRIVATE, count: int = 0) -> List[str]:
    """The words of the child."""
    return [build.executable, *build.alone, "-B", "-W", "ignore", str(CHILD), holds, way, str(count)]


def in_subs(salvage: Path, build: Build, names: str, room: Path) -> str:
    """Loops of sub-interpreters: up to 3.11 all interpreters have one set, and later each has its own."""
    room.mkdir()
    child = aborted(command(build, "subs", count=2), room)
    core, wanted = child.core(names), json.loads(child.out)["interpreters"]
    told = all_entries(tree_in(salvage, core, build))
    core.unlink()
    if len(told) != len(wanted):
        raise Failure(f"{len(told)} interpreters have tasks, and not {len(wanted)}")
    if build.version < (3, 12):
        wanted = [[task for its in wanted for task in its]] * len(told)
    for own in wanted:
        at = next((at for at, it in enumerate(told) if {task["address"] for task in own} & {task["address"] for task in it}), None)
        if at is None:
            raise Failure(f"the tasks of an interpreter aren't told: {[it['name'] for it in own]}")
        check_tasks(told.pop(at), own)
    return f"{len(wanted) - 1} sub-interpreters"


def killed_at_speed(build: Build, room: Path, names: str, seconds: float) -> Path:
    """The core of a process that a signal from outside killed at full speed."""
    room.mkdir()
    since = time.time()
    process = subprocess.Popen(command(build, "speed", count=WORKERS), cwd=room, preexec_fn=raise_core_limit, stdout=subprocess.PIPE,
                               stdin=subprocess.DEVNULL, stderr=subprocess.DEVNULL)
    assert process.stdout is not None
    process.stdout.readline()
    time.sleep(seconds)
    process.send_signal(signal.SIGABRT)
    process.wait(60)
    process.stdout.close()
    return find_core(names, process.pid, room, since)


def chain_at_speed(task: Tree) -> List[str]:
    """The functions of a worker's chain, its coroutine first, and how it ends."""
    members = [it for it in task["chain"]["members"] if it["kind"] != "between"]
    return [*(it["frame"]["name"] if it["frame"] else "?" for it in reversed(members)), task["chain"]["end"]["kind"]]


def may_be(number: int, chain: List[str]) -> bool:
    """Whether a worker of a number can have a chain: it rests below so many steps, or waits for its queue. One that runs, or that was cut in
    the middle of a switch, has a front of that."""
    *names, end = chain
    ways = (["works", *["steps"] * (number % 3 + 1), "rests", "sleep", "__sleep0"], ["works", "get"])
    if end in ("yield", "future"):
        return any(names == it for it in ways)
    return any(names == it[: len(names)] for it in ways) and end in ("running", "created", "finished", "not stored", "unreadable")


def at_speed(salvage: Path, build: Build, names: str, room: Path) -> str:
    """A loop that is cut at full speed: each worker is there, with no chain that the program can't have, and the one that runs stands in its
    thread's stack, unless its step begins or ends there."""
    room.mkdir()
    chance, running = random.Random(build.dotted), 0
    for turn in range(TURNS):
        core = killed_at_speed(build, room / str(turn), names, chance.uniform(0, 0.2))
        tree = tree_in(salvage, core, build)
        own = [it for its in all_entries(tree) for it in its if it["kind"] == "task"]
        chains = {it["address"]: chain_at_speed(it) for it in own}
        workers = [it for it in own if chains[it["address"]][0] == "works"]
        if len(workers) != WORKERS:
            raise Failure(f"{len(workers)} workers are told, and not {WORKERS}: {chains}")
        for it in workers:
            numbers = range(3) if it["name"] is None else [int(it["name"].split()[-1])]
            if not any(may_be(number, chains[it["address"]]) for number in numbers):
                raise Failure(f"the chain of {it['name']!r} is {chains[it['address']]}")
        if any(it["condition"] == "running" for it in workers):
            running += 1
            frames = [frame.get("name") for one in tree["interpreters"] for thread in one["threads"] for part in ("first", "last") for frame in thread["frames"][part]]
            # (a step names its task before it pushes the coroutine's frame, and after it has popped that)
            if "works" not in frames and frames[:1] != ["_run"]:
                raise Failure(f"a worker runs, and no thread has its frame: {frames}")
        core.unlink()
    return f"{TURNS} cut at full speed ({running} in a task)"


def over_uvloop(salvage: Path, build: Build, names: str, room: Path) -> str:
    """Tasks over a loop that is written in Cython, where that is installed."""
    room.mkdir()
    if subprocess.run([build.executable, *build.alone, "-c", "import uvloop"], stderr=subprocess.DEVNULL, check=False).returncode:
        return "no uvloop"
    child = aborted(command(build, "uvloop", USUAL), room)
    core = child.core(names)
    check_tasks(entries_in(salvage, core, build), json.loads(child.out)["tasks"])
    core.unlink()
    return "uvloop"


def without_asyncio(salvage: Path, build: Build, names: str, room: Path) -> str:
    """A process that has many modules and not asyncio: nothing is told, and few reads are taken."""
    room.mkdir()
    child = aborted([build.executable, *build.alone, "-B", "-W", "ignore", str(IMPORTS), ALL_PRIVATE], room)
    core, modules = child.core(names), json.loads(child.out)["modules"]
    if all_entries(tree_in(salvage, core, build)):
        raise Failure("tasks are told without asyncio")
    words = [core, *words_of(build.machine), *images_of(core)]
    counts = [reads_of(salvage, [*words, *more]) for more in ([], ["--tasks"])]
    core.unlink()
    if counts[0] is None or counts[1] is None:
        return f"none with {modules} modules"
    more = counts[1] - counts[0]
    if not 2 * modules <= more <= MOST_READS:
        raise Failure(f"without asyncio {more} reads are taken for {modules} modules")
    return f"none with {modules} modules, for {more} reads"


PARTS = (in_subs, at_speed, over_uvloop, without_asyncio)


def tried_with(salvage: Path, names: str) -> Callable[[str], str]:
    """What tries one Python."""

    def tried(python: str) -> str:
        build = build_of(python)
        if build.version < (3, 7):
            raise Skip("its tasks are not described")
        with tempfile.TemporaryDirectory(prefix="real-tasks-") as name:
            done = [in_way(salvage, build, names, Path(name) / way, way) for way in WAYS]
            done += [part(salvage, build, names, Path(name) / part.__name__) for part in PARTS]
            if tuple(build.version[:2]) in MANY_IN:
                done.append(with_many(salvage, build, names, Path(name) / "many"))
        return f"{build.dotted}: {', '.join(done)}"

    return tried


def main() -> int:
    """The check."""
    parser = argparse.ArgumentParser(description=__doc__.splitlines()[0])
    parser.add_argument("--salvage", type=Path, required=True, help="the built program `pysalvage`")
    parser.add_argument("python", nargs="*", help="the interpreters (default: all that are found)")
    words = parser.parse_args()
    salvage = words.salvage.resolve()
    if not salvage.is_file():
        print(f"real_tasks: skipped: there is no {salvage}")
        return 0
    try:
        names = core_names()
    except Skip as reason:
        print(f"real_tasks: skipped: {reason}")
        return 0
    return 1 if tell_each("real_tasks", tried_with(salvage, names), words.python or pythons(), (Skip, DeriveError)) else 0


if __name__ == "__main__":
    sys.exit(main())
