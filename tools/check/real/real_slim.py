"""Slim cores of real cores: `pystacks locate` and `pystacks slim`, and what a walk over the slim core prints."""

import subprocess
from pathlib import Path
from typing import List, Sequence, Tuple

from child_cores import Failure
from slim_reader import check_slim

LARGEST = 1 << 20
"""The most bytes that a slim core of some dozens of threads has."""


def answer(command: Sequence[object]) -> bytes:
    """What the program prints."""
    done = subprocess.run([str(it) for it in command], stdout=subprocess.PIPE, stderr=subprocess.PIPE, check=False)
    if done.returncode:
        raise Failure(f"{command[1]} ended with status {done.returncode}: {done.stderr.decode('utf-8', 'replace').strip()}")
    return done.stdout


def located(program: Path, core: Path, layouts: Path, images: Sequence[str]) -> List[str]:
    """The words of a walk behind the layouts: the version's numbers, the interpreter and the lock."""
    version, interpreter, lock = (line.split(" ")[-1] for line in answer([program, "locate", core, layouts, *images]).decode().splitlines())
    return [version.lstrip("v").split("+")[0], interpreter, lock]


def slim_walks(program: Path, core: Path, layouts: Path, images: Sequence[str], has_all: bool) -> Tuple[str, bool, int]:
    """What a walk over the slim core prints, which must be what it prints over the whole core, where that has all bytes
    itself; whether there is a lock; and how many bytes the slim core has."""
    slim = core.with_name("slim")
    slim.write_bytes(answer([program, "slim", core, layouts, "1", *images]))
    size = slim.stat().st_size
    if size > LARGEST:
        raise Failure(f"the slim core has {size} bytes")
    check_slim(core.read_bytes(), slim.read_bytes())
    words = located(program, core, layouts, images)
    text = answer([program, "walk", slim, layouts, *words])
    if has_all and text != answer([program, "walk", core, layouts, *words]):
        raise Failure("a walk over the slim core prints otherwise than one over the whole")
    slim.unlink()
    return text.decode("utf-8", "replace"), int(words[2], 16) != 0, size
