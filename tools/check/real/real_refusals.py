#!/usr/bin/env python3
"""Hands the tool cores that have no Python stack, and compares what it says of each with what is known of the process.

    tools/check/real/real_refusals.py --program crates/pystacks/out/pystacks --salvage crates/pysalvage/out/pysalvage [PYTHON..]

For each Python of 2.7 and of 3.6 on that is installed: a process that is ended once Python was taken down (`Py_Finalize`), and one that
stands before its start, by gdb where that is there. Of both the tool says that Python wasn't running; of the same Python's cores with
stacks it never would. Then a process of no Python, and the front of a core, of which it says what is missing. Before each refusal it
says what the notes tell: the signal and the process. The status is 0 exactly where nothing that was tried failed.
"""

import argparse
import os
import shutil
import subprocess
import sys
import tempfile
from pathlib import Path
from typing import List

from rooms import ROOT, TOOLS  # (first: it makes the other rooms known)

from child_cores import SECONDS, Failure, Skip, aborted, core_names, ended
from derive_layout import DeriveError, build_of
from each_python import tell_each
from find_pythons import pythons
from pystacks_tool.ask.advice import CUT, NOT_RUNNING
from pystacks_tool.cores.images import image_words, read_core
from pystacks_tool.cores.running import has_no_interpreter

TOOL = TOOLS / "dump_core.py"

AFTER = """
import ctypes
libc = ctypes.CDLL(None)
libc.__cxa_atexit(ctypes.cast(libc.abort, ctypes.c_void_p), None, None)
"""
"""A program that aborts while C's own exit runs, when Python was taken down."""

RUNNING = "import os; os.abort()"

STARTS = ("Py_Initialize", "Py_InitializeEx", "Py_InitializeFromConfig", "_Py_InitializeCore")
"""The functions before which Python hasn't started."""

def said_of(words: argparse.Namespace, core: Path) -> List[str]:
    """The lines that the tool says of a core for which it has no stack."""
    command = [sys.executable, str(TOOL), str(core), "--program", words.program, "--salvage", words.salvage]
    run = subprocess.run(command, capture_output=True, text=True, timeout=SECONDS, check=False)
    if run.returncode != 1 or run.stdout:
        raise Failure(f"the tool ended with status {run.returncode}: {run.stdout[:200]}{run.stderr[:200]}")
    return run.stderr.splitlines()


def check_said(words: argparse.Namespace, core: Path, known: str, line: str, then: str) -> None:
    """Fails where the tool doesn't say what the notes tell, such a line, and this as what to do next."""
    said = said_of(words, core)
    if not any(known in it for it in said):
        raise Failure(f"the tool doesn't say {known!r}: {said}")
    if not any(line in it for it in said):
        raise Failure(f"the tool doesn't say {line!r}: {said}")
    if not said[-1].endswith(f"next: {then}"):
        raise Failure(f"what to do next is {said[-1]!r}, and not {then!r}")


def claims_none(core: Path) -> bool:
    """Whether a core is told as one without an interpreter."""
    with open(core, "rb") as file:
        machine, files = read_core(file)
    return has_no_interpreter(str(core), image_words(files, b"", machine))


def stopped_before(python: str, room: Path) -> Path:
    """The core of a process that stands before Python's start, taken by gdb."""
    core = room / "before"
    breaks = [word for it in STARTS for word in ("-ex", f"break {it}")]
    command = ["gdb", "-batch", "-nx", "-ex", "set breakpoint pending on", *breaks, "-ex", "run", "-ex", f"gcore {core}", "--args", python, "-c", "pass"]
    subprocess.run(command, stdin=subprocess.DEVNULL, capture_output=True, timeout=SECONDS, check=False)
    if not core.is_file():
        raise Failure("gdb took no core before the start")
    return core


def tried(words: argparse.Namespace, python: str, names: str) -> str:
    """What comes of one Python."""
    build = build_of(python)
    if (3, 0) <= build.minor < (3, 6) or build.minor < (2, 7):
        raise Skip(f"version {build.dotted}")
    with tempfile.TemporaryDirectory(prefix="real-refusals-") as name:
        room = Path(name)
        child = aborted([build.executable, *build.alone, "-c", AFTER], room)
        core = child.core(names)
        if not claims_none(core):
            if not shutil.which("readelf"):
                raise Skip("without readelf it isn't known whether its symbols are there")
            raise Failure("a core after Py_Finalize is told as one with an interpreter, or its symbols are gone")
        check_said(words, core, f"signal 6 (SIGABRT), process {child.pid}", "no interpreter found", NOT_RUNNING)
        core.unlink()
        running = aborted([build.executable, *build.alone, "-c", RUNNING], room).core(names)
        if claims_none(running):
            raise Failure("a core of a running Python is told as one without an interpreter")
        running.unlink()
        if not shutil.which("gdb"):
            return f"{build.dotted}: after its end; before its start: skipped: there is no gdb"
        check_said(words, stopped_before(build.executable, room), "process ", "no interpreter found", NOT_RUNNING)
    return f"{build.dotted}: before its start and after its end"


def try_others(words: argparse.Namespace, names: str) -> None:
    """Tries a process of no Python, and the front of a core."""
    with tempfile.TemporaryDirectory(prefix="real-refusals-") as name:
        room = Path(name)
        child = ended(["sh", "-c", "kill -ABRT $$"], room)
        core = child.core(names)
        said = said_of(words, core)
        if not any(f"signal 6 (SIGABRT), process {child.pid}: sh -c" in it for it in said):
            raise Failure(f"of a shell's core the tool says {said}")
        core.unlink()
        whole = aborted([sys.executable, "-c", RUNNING], room).core(names)
        os.truncate(whole, whole.stat().st_size * 3 // 10)
        said = said_of(words, whole)
        if not said[-1].endswith(f"next: {CUT}") or not any("core is cut" in it for it in said):
            raise Failure(f"of a core that was cut the tool says {said}")


def main() -> int:
    """The command."""
    parser = argparse.ArgumentParser(description=__doc__.splitlines()[0])
    parser.add_argument("python", nargs="*", help="the interpreters (default: those that are found)")
    parser.add_argument("--program", default=str(ROOT / "crates" / "pystacks" / "out" / "pystacks"), help="the built `pystacks`")
    parser.add_argument("--salvage", default=str(ROOT / "crates" / "pysalvage" / "out" / "pysalvage"), help="the built `pysalvage`")
    words = parser.parse_args()
    if not Path(words.salvage).is_file():
        print(f"real_refusals: skipped: there is no {words.salvage}")
        return 0
    words.salvage = str(Path(words.salvage).resolve())
    try:
        names = core_names()
    except Skip as reason:
        print(f"real_refusals: skipped: {reason}")
        return 0
    failed = tell_each("real_refusals", lambda it: tried(words, it, names), words.python or pythons(), (Skip, DeriveError))
    try:
        try_others(words, names)
        print("real_refusals: a process of no Python, and a core that was cut")
    except Failure as reason:
        failed += 1
        print(f"real_refusals: FAILED: {reason}")
    return 1 if failed else 0


if __name__ == "__main__":
    sys.exit(main())
