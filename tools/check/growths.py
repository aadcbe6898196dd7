#!/usr/bin/env python3
"""Has each growth of memory, each read and each write of the built programs fail in turn, by gdb, and sees the answers.

    tools/check/growths.py --program crates/pystacks/out/pystacks [--salvage crates/pysalvage/out/pysalvage]
                           [--step N] [--most N] [--only WORD] [--workers N]

A growth that is refused gives status 5 and its line, or the whole answer where it was spare; a read that fails gives
status 3, a write that fails status 4, and one that is short or interrupted the whole answer. Nothing is printed under
another status than 0, or than 4, under which a front of the text may be. With --step each Nth growth alone is refused,
with --most at most so many of a run. The status is 0 exactly where all of that holds, or where there is no gdb.
"""

import argparse
import json
import os
import shutil
import subprocess
import sys
import tempfile
from collections import Counter
from concurrent.futures import ThreadPoolExecutor
from dataclasses import replace
from pathlib import Path
from typing import List, NamedTuple, Optional, Sequence, Tuple

from rooms import BUILT_SALVAGE  # (first: it makes the other rooms known)

import fuzz
import rows_dump
import rows_heap
import rows_merge
import rows_reach
import rows_salvage
import rows_sample
import rows_slim
import rows_tasks
import rows_triage
import rows_walk
from child_cores import Failure
from row import Row, row

CHOSEN = (
    (rows_walk.rows, "walk"), (rows_dump.rows, "dump: locals: arguments first"), (rows_dump.rows, "dump: JSON"),
    (rows_merge.rows, "merge: steps: one for each frame"), (rows_triage.rows, "triage: functions that differ"),
    (rows_reach.rows, "reach: a list"), (rows_slim.rows, "slim: where the interpreter is"),
    (rows_slim.slim_rows, "slim: with its values"), (rows_sample.rows, "sample: 7"))
OF_SALVAGE = ((rows_salvage.rows, "salvage: interpreters: two"), (rows_salvage.rows, "salvage: JSON of what is broken"),
              (rows_salvage.rows, "salvage: registers"), (rows_tasks.rows, "salvage: tasks: waiting"), (rows_tasks.rows, "salvage: tasks: JSON"),
              (rows_heap.rows, "salvage: heap: two objects of one class"), (rows_heap.rows, "salvage: heap: JSON: classes"))
"""Which rows are run: of each list the first that answers with a text, and whose name begins so."""

FAULTS = (("malloc", "refused"), ("realloc", "refused"), ("read", "failed"), ("read", "interrupted"), ("read", "short"),
          ("write", "failed"), ("write", "interrupted"), ("write", "short"))


class Run(NamedTuple):
    """A run with a fault: what call, how it answered, which one from 1 on; then the status, and the texts, of which the
    first is null where it is the whole one."""

    call: str
    fault: str
    nth: int
    status: Optional[int]
    out: Optional[str]
    said: str


def rows(salvage: bool) -> List[Row]:
    """The rows of a program that are run."""
    found = [next(it for it in listed() if it.what.startswith(name) and it.status == 0)
             for listed, name in (OF_SALVAGE if salvage else CHOSEN)]
    return found if salvage else [*found, row("sample: a core", "sample 7 core", {})]


def answered(program: str, row: Row) -> Row:
    """A row with its text: where a reader alone knows that, it is what a run without a fault prints."""
    if row.out:
        return row
    with tempfile.TemporaryDirectory(prefix="growths-") as folder:
        for name, data in row.files.items():
            Path(folder, name).write_bytes(data)
        run = fuzz.Run(row.words[0], program, row.words, folder)
        answer = run.again(*row.words)
        fault = f"status {answer.status}" if answer.status else fuzz.fault_of(run, answer)
    if fault:
        raise Failure(fault)
    return replace(row, out=answer.out)


def is_right(run: Run, row: Row, name: str = "pystacks") -> bool:
    """Whether a run of a program of this name with a fault came to what it must."""
    text = row.out.decode("latin-1")
    out = text if run.out is None else run.out
    whole = run.status == 0 and out == text and not run.said
    if run.fault in ("interrupted", "short"):
        return whole
    if run.fault == "refused":
        return whole or (run.status, out, run.said) == (5, "", f"{name}: out of memory\n")
    if run.call == "read":
        return (run.status, out) == (3, "") and run.said.startswith(f"{name}: cannot read ")
    # (what is said of the text that can't be written is itself a write, and it is the one that failed or the next)
    return text.startswith(out) and run.status == 4 and run.said in ("", f"{name}: cannot write\n")


class Step(NamedTuple):
    """Which growths are refused: each so manyth, and at most so many of a run."""

    each: int
    most: int


def runs(program: str, row: Row, step: Step) -> List[Run]:
    """The runs of a row in which one call has a fault."""
    with tempfile.TemporaryDirectory(prefix="growths-") as name:
        folder = Path(name)
        files, own = folder / "files", folder / "own"
        files.mkdir()
        own.mkdir()
        for file, data in row.files.items():
            (files / file).write_bytes(data)
        task = {"words": row.words, "folder": str(files), "faults": FAULTS, "step": step.each, "most": step.most}
        task.update({it: str(own / it) for it in ("out", "said", "answers", "whole")})
        (own / "whole").write_bytes(row.out)
        (own / "task").write_text(json.dumps(task), encoding="utf-8")
        script = Path(__file__).resolve().with_name("growths_gdb.py")
        environment = {"PATH": os.environ.get("PATH", ""), "GROWTHS": str(own / "task"), "SHELL": "/bin/sh"}
        subprocess.run(["gdb", "-nx", "-batch", "-x", str(script), program], env=environment, check=True,
                       stdin=subprocess.DEVNULL, stdout=subprocess.DEVNULL, stderr=subprocess.DEVNULL)
        return [Run(*json.loads(line)) for line in (own / "answers").read_text(encoding="utf-8").splitlines()]


def tried(program: str, name: str, row: Row, step: Step) -> Tuple[Counter, List[str]]:
    """How often each fault was tried on a row of a program, and which runs came to something else than they must."""
    try:
        row = answered(program, row)
    except Failure as reason:
        return Counter(), [f"growths: {row.what}: without a fault: {reason}"]
    found = runs(program, row, step)
    counts = Counter((it.call, it.fault) for it in found)
    wrong = [f"{it.call} {it.nth} {it.fault}: status {it.status}, {it.said!r}, {(it.out or '')[:100]!r}"
             for it in found if not is_right(it, row, name)]
    # (what reads no file has no reads)
    needed = [it for it in FAULTS if it[0] != "realloc" and (row.files or it[0] != "read")]
    wrong += [f"no {call} was {fault}" for call, fault in needed if not counts[call, fault]]
    return counts, [f"growths: {row.what}: {it}" for it in wrong]


def can_run(program: str) -> bool:
    """Whether gdb is there and can run the program, which it can't where processes may not be traced."""
    if shutil.which("gdb") is None:
        return False
    environment = {"PATH": os.environ.get("PATH", ""), "SHELL": "/bin/sh"}
    ran = subprocess.run(["gdb", "-nx", "-batch", "-ex", "run", program], env=environment, stdin=subprocess.DEVNULL,
                         stdout=subprocess.PIPE, stderr=subprocess.DEVNULL)
    return b"exited with code 02" in ran.stdout


def main(arguments: Optional[Sequence[str]] = None) -> int:
    """The command."""
    parser = argparse.ArgumentParser(description=__doc__, formatter_class=argparse.RawDescriptionHelpFormatter)
    parser.add_argument("--program", required=True, help="the built program")
    parser.add_argument("--salvage", default=str(BUILT_SALVAGE), help="the built `pysalvage`")
    parser.add_argument("--step", type=int, default=1, help="every how many growths one is refused (default: 1)")
    parser.add_argument("--most", type=int, default=10 ** 9, help="how many growths of a run are refused at most")
    parser.add_argument("--only", default="", help="the rows in whose name this stands")
    parser.add_argument("--workers", type=int, default=os.cpu_count() or 1, help="how many rows run at once")
    words = parser.parse_args(arguments)
    chosen: List[Tuple[str, str, Row]] = []
    for name, file in (("pystacks", words.program), ("pysalvage", words.salvage)):
        if os.path.isfile(file) and can_run(os.path.abspath(file)):
            chosen += [(os.path.abspath(file), name, it) for it in rows(name == "pysalvage") if words.only in it.what]
        else:
            print(f"growths: skipped: {name}: there is no {file}, or no gdb that can run it")
    failed = 0
    with ThreadPoolExecutor(words.workers) as pool:
        step = Step(words.step, words.most)
        for (_, _, one), (counts, wrong) in zip(chosen, pool.map(lambda it: tried(*it, step), chosen)):
            failed += len(wrong)
            for line in wrong:
                print(line)
            shares = ", ".join(f"{call} {fault} {count}" for (call, fault), count in counts.items())
            print(f"growths: {one.what}: {shares}", flush=True)
    return 1 if failed else 0


if __name__ == "__main__":
    sys.exit(main())
