"""How many reads of a process's memory `pysalvage` takes, counted by gdb: those that are asked of the memory of a core and its images."""

import json
import os
import re
import shutil
import subprocess
from functools import lru_cache
from pathlib import Path
from typing import Optional, Sequence, Tuple

import rooms  # noqa: F401 (first: it makes the other rooms known)
from child_cores import SECONDS, Failure

READERS = re.compile(r"([0-9a-f]+) [tT] image_memory::view::\w+::(read|copy)::<.*")
"""The functions by which such a memory is read, as `nm` has them."""


@lru_cache(maxsize=4)
def readers_of(program: Path) -> Tuple[int, ...]:
    """Where these functions stand in a program; none where not both have symbols, or `nm` or gdb isn't there."""
    if not shutil.which("nm") or not shutil.which("gdb"):
        return ()
    lines = subprocess.run(["nm", str(program)], stdout=subprocess.PIPE, stderr=subprocess.DEVNULL, text=True, check=False).stdout.splitlines()
    found = [it for it in map(READERS.fullmatch, lines) if it]
    return tuple(int(it.group(1), 16) for it in found) if {it.group(2) for it in found} == {"read", "copy"} else ()


def reads_of(program: Path, words: Sequence[object]) -> Optional[int]:
    """How many reads a run takes; none where they can't be counted here."""
    places = readers_of(program)
    if not places:
        return None
    task = {"places": places, "program": str(program), "words": [str(it) for it in words]}
    script = Path(__file__).with_name("counted_reads_gdb.py")
    ran = subprocess.run(["gdb", "-nx", "-batch", "-x", str(script), str(program)], env={**os.environ, "COUNTED_READS": json.dumps(task)},
                         stdin=subprocess.DEVNULL, stdout=subprocess.PIPE, stderr=subprocess.PIPE, text=True, timeout=SECONDS, check=False)
    told = re.search(r"^reads (\d+) status (\d+)$", ran.stdout, re.M)
    if "ptrace" in ran.stderr or "not permitted" in ran.stderr:
        return None
    if not told or told.group(2) != "0":
        raise Failure(f"the reads aren't counted: {ran.stdout[-200:]} {ran.stderr[-200:]}")
    return int(told.group(1))
