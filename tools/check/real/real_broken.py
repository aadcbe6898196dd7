#!/usr/bin/env python3
"""Shows cores of processes that died in odd ways, and cores that were cut, by dump_core.py: that its text is that of
`pysalvage`, line by line, and that it says what the process told.

    tools/check/real/real_broken.py --salvage crates/pysalvage/out/pysalvage --program crates/pystacks/out/pystacks

For each installed CPython of 3.8 to 3.13: a recursion of 20,000; a fault in a thread that had released the lock; four
interpreters; a process that `gcore` leaves alive, where it is there; and the second of these cut at 1, 50, 90 and 99 % of its
length.
Where `pysalvage` isn't built one line says so. The status is 0 exactly where nothing that was tried failed.
"""

import argparse
import json
import os
import re
import shutil
import subprocess
import sys
import tempfile
from pathlib import Path
from typing import Dict, Iterator, List, Sequence, Tuple

from rooms import ROOT, TOOLS  # (first: it makes the other rooms known)

from child_cores import SECONDS, Failure, Skip, core_names, ended
from pystacks_tool import places
from pystacks_tool.cores.images import image_words, read_core
from pystacks_tool.cores.maps import Use
from each_python import tell_each
from find_pythons import pythons

LAYOUTS = Path(places.LAYOUTS)

CHILD = Path(__file__).resolve().with_name("real_broken_child.py")

PARTS = (1, 50, 90, 99)
"""Of a core that is cut, how many per cent of its bytes stay."""


def died(python: str, how: str, names: str, folder: Path) -> Tuple[Path, Dict[str, int]]:
    """A core of the child, and what it told."""
    folder.mkdir()
    child = ended([python, str(CHILD), how], folder)
    if child.status >= 0 or not child.out.startswith("{"):
        raise Skip(f"the child ended with status {child.status}: {child.said.strip()[-200:]}")
    return child.core(names), json.loads(child.out.splitlines()[0])


def left_by_gcore(python: str, folder: Path) -> Tuple[Path, Dict[str, int]]:
    """A core of the child that lives on, by `gcore`, and what it told."""
    if not shutil.which("gcore"):
        raise Skip("there is no gcore")
    folder.mkdir()
    streams = {"stdin": subprocess.DEVNULL, "stdout": subprocess.PIPE, "stderr": subprocess.DEVNULL}
    with subprocess.Popen([python, str(CHILD), "lives"], text=True, **streams) as process:
        assert process.stdout is not None
        told = json.loads(process.stdout.readline())
        subprocess.run(["gcore", "-o", str(folder / "core"), str(process.pid)], check=False, **streams)
        process.kill()
    core = folder / f"core.{process.pid}"
    if not core.is_file():
        raise Skip("gcore left no core")
    return core, told


def ran(command: Sequence[object]) -> Tuple[int, str, str]:
    """Runs a program: its status, what it prints, and what it says."""
    run = subprocess.run([str(it) for it in command], stdin=subprocess.DEVNULL, stdout=subprocess.PIPE, stderr=subprocess.PIPE, timeout=2 * SECONDS)
    return run.returncode, run.stdout.decode("utf-8", "replace"), run.stderr.decode("utf-8", "replace")


def body(text: str) -> List[str]:
    """The lines of a text behind its head and the table of threads, without names of threads, in the order of the tool: interpreters
    with frames first, and in each the threads without frames last. (These have no mark here: the tool leaves out those that a
    thread with frames of the same id has.)"""
    parts = [it for it in text.split("\n\n")[1:] if not re.match(r"\d+ (other )?threads?\n    ", it)]
    lines = [re.sub(r'^(Thread .*?): ".*"$', r"\1", line) for line in "\n".join(parts).splitlines()]
    found: List[List[List[str]]] = [[[]]]
    for line in lines:
        if line.startswith("Interpreter "):
            found.append([[]])
        elif line.startswith("Thread "):
            found[-1].append([])
        found[-1][-1].append(line)
    # (the threads that got the signal stand before the others, and the heading of an interpreter of both then twice)
    headed: Dict[str, List[List[str]]] = {}
    for blocks in found[1:]:
        headed.setdefault(blocks[0][0], [blocks[0]]).extend(blocks[1:])
    found[1:] = list(headed.values())
    for blocks in found:
        blocks[1:] = [re.sub(r"( \((gil|crashed)\))*$", "", "".join(it)) .split("\n") if len(it) == 1 else it for it in blocks[1:]]
        blocks[1:] = sorted(blocks[1:], key=lambda it: len(it) == 1)
    found[1:] = sorted(found[1:], key=lambda blocks: all(len(it) == 1 for it in blocks[1:]))
    # (the tool's ids are the system's in every version)
    return [re.sub(r"^Thread (0x[0-9A-F]+|\d+)( \(\d+ by Python\))?", "Thread", line) for blocks in found for it in blocks for line in it]


def check_same(core: Path, words: argparse.Namespace, kept: Path) -> str:
    """Fails where the tool's text isn't that of `pysalvage`, over the core as the tool prepares it. Returns the text."""
    status, out, said = ran([sys.executable, "-B", TOOLS / "dump_core.py", core, "--all", "--no-tasks", "--no-waits", "--no-exceptions", "--keep", kept,
                             "--program", words.program, "--salvage", words.salvage])
    with open(kept if kept.exists() else core, "rb") as file:
        machine, files = read_core(file)
    images = image_words([it for it in files if it.use is not Use.MEMORY], b"", machine)
    own = ran([words.salvage, kept if kept.exists() else core, "--layouts", LAYOUTS, *map(os.fsdecode, images)])
    if kept.exists():
        kept.unlink()
    if own[0] != status:
        raise Failure(f"the tool ended with status {status}, and pysalvage with {own[0]}: {said[-300:]}")
    if status != 0:
        return ""
    if body(out) != body(own[1]):
        at = next((at for at, (one, other) in enumerate(zip(body(out), body(own[1]))) if one != other), -1)
        raise Failure(f"line {at} of the tool's text is {body(out)[at]!r}, and of pysalvage's {body(own[1])[at]!r}")
    return out


def wanted(is_so: object, what: str) -> None:
    """Fails where something isn't so."""
    if not is_so:
        raise Failure(what)


def deep_told(text: str, told: Dict[str, int]) -> None:
    """That all frames of the recursion are shown, or told as left out: none of those that are left out is another's."""
    count = sum(line.startswith("    descend (") for line in text.splitlines())
    between = sum(int(it) for it in re.findall(r"^    \.\.\. (\d+) more frames$", text, re.MULTILINE))
    wanted(count + between == told["depth"] + 1, f"{count} frames of the recursion are shown, and {between} told, of {told['depth'] + 1}")


def fault_told(text: str, told: Dict[str, int]) -> None:
    """That the thread that got the signal stands first, with the mark, where it was."""
    lines = text.splitlines()
    at = next(at for at, line in enumerate(lines) if line.startswith("Thread "))
    wanted("SIGSEGV" in lines[0] and "(crashed)" in lines[at], f"no thread has the mark first: {lines[0]!r}, {lines[at]!r}")
    wanted(lines[at].startswith((f"Thread {told['native']} ", "Thread 0x")), f"the mark is on {lines[at]!r}, and not on {told['native']}")
    wanted(lines[at + 1].startswith("    reads ("), f"the thread that got the signal is shown in {lines[at + 1]!r}")


def several_told(text: str, told: Dict[str, int]) -> None:
    """That each interpreter is there, with the thread that waits in it. (Words of an interpreter's own record can pass for one
    by chance, as 3.11 shows: its threads or frames break off at once, and no frame is shown there.)"""
    lines = text.splitlines()
    found = len(set(re.findall(r"^(Interpreter 0x.*)\n(?:\.\.\. .*\n)*Thread .*\n    \S+ \(", text, re.MULTILINE)))
    waits = sum(line.startswith("    waits (") for line in lines)
    wanted((found, waits) == (told["interpreters"], told["interpreters"] - 1), f"{found} interpreters are shown, with {waits} that wait")


def lives_told(text: str, told: Dict[str, int]) -> None:
    """That no thread of a process that lived has the mark."""
    wanted("(crashed)" not in text and "got the signal" not in text, f"a process that lived has the text {text[:300]!r}")
    wanted(re.search(rf"^Thread ({told['native']}\b|0x)", text, re.MULTILINE) is not None, f"there is no thread {told['native']}")


TOLD = {"deep": deep_told, "fault": fault_told, "several": several_told, "lives": lives_told}
"""What is to be found in each text."""


def cut_cores(core: Path) -> Iterator[Path]:
    """The core, cut at some parts of its length."""
    size = core.stat().st_size
    for part in PARTS:
        cut = core.with_name(f"cut-{part}")
        shutil.copyfile(core, cut)
        os.truncate(cut, size * part // 100)
        yield cut
        cut.unlink()


def tried(python: str, words: argparse.Namespace, names: str) -> str:
    """Tries all of a Python. Returns the line that tells of it."""
    done: List[str] = []
    with tempfile.TemporaryDirectory(prefix="real-broken-") as name:
        for how in TOLD:
            folder = Path(name) / how
            try:
                core, told = left_by_gcore(python, folder) if how == "lives" else died(python, how, names, folder)
            except Skip as reason:
                done.append(f"{how} skipped ({reason})")
                continue
            TOLD[how](check_same(core, words, folder / "kept"), told)
            done.append(how)
            for cut in cut_cores(core) if how == "fault" else ():
                check_same(cut, words, folder / "kept")
                done.append(cut.name)
            core.unlink()
    return f"{python}: {', '.join(done)}"


def usual(pattern: str) -> List[str]:
    """The Pythons of these versions."""
    return [it for it in pythons() if re.search(pattern, it)]


def main() -> int:
    """The check."""
    parser = argparse.ArgumentParser(description=__doc__, formatter_class=argparse.RawDescriptionHelpFormatter)
    parser.add_argument("python", nargs="*", help="the interpreters (default: all that are found)")
    parser.add_argument("--program", default=str(ROOT / "crates" / "pystacks" / "out" / "pystacks"), help="the built program pystacks")
    parser.add_argument("--salvage", default=str(ROOT / "crates" / "pysalvage" / "out" / "pysalvage"), help="the built program pysalvage")
    words = parser.parse_args()
    if not os.path.isfile(words.salvage):
        print("real_broken: skipped: pysalvage isn't built")
        return 0
    try:
        names = core_names()
    except Skip as reason:
        print(f"real_broken: skipped: {reason}")
        return 0
    failed = tell_each("real_broken", lambda it: tried(it, words, names), words.python or usual(r"3\.(8|9|1[0-3])"))
    return 1 if failed else 0


if __name__ == "__main__":
    sys.exit(main())
