"""The bytes of a core that its stacks are read from, and cores in which nothing else is left."""

import re
import subprocess
from dataclasses import dataclass
from pathlib import Path
from typing import List, Sequence, Tuple

import rooms  # (first: it makes the other rooms known)
from child_cores import SECONDS, Failure
from pystacks_tool.cores.maps import segments_of

LOAD = 1
BLOT = 0xAA
"""What stands in place of each byte that isn't read."""


@dataclass(frozen=True)
class Footprint:
    """How many reads there are, and the addresses that they read, as ranges apart from one another."""

    reads: int
    ranges: Tuple[Tuple[int, int], ...]

    @property
    def size(self) -> int:
        """How many bytes are read, each counted once."""
        return sum(end - start for start, end in self.ranges)


def joined(ranges: Sequence[Tuple[int, int]]) -> Tuple[Tuple[int, int], ...]:
    """Ranges apart from one another that hold the same addresses."""
    apart: List[Tuple[int, int]] = []
    for start, end in sorted(it for it in ranges if it[0] < it[1]):
        if apart and start <= apart[-1][1]:
            apart[-1] = (apart[-1][0], max(apart[-1][1], end))
        else:
            apart.append((start, end))
    return tuple(apart)


def footprint_of(listing: Path, core: Path, layouts: Path, images: Sequence[str]) -> Footprint:
    """What the program `listing` says of a core."""
    words = [str(listing), "footprint", str(layouts), str(core), *images]
    told = subprocess.run(words, stdin=subprocess.DEVNULL, stdout=subprocess.PIPE, timeout=SECONDS)
    lines = told.stdout.decode("ascii", "replace").splitlines()
    if told.returncode != 0 or not lines or not all(re.fullmatch(r"[0-9a-f]+ [0-9a-f]+", it) for it in lines):
        raise Failure(f"listing tells no footprint: status {told.returncode}, {lines[:1]}")
    numbers = [(int(start, 16), int(size, 16)) for start, size in (it.split() for it in lines)]
    return Footprint(len(lines), joined([(start, start + size) for start, size in numbers]))


def blotted(core: Path, footprint: Footprint) -> bytes:
    """The bytes of a core in which no byte of memory is as it was but those that are read."""
    with open(core, "rb") as file:
        loads = [it for it in segments_of(file) if it.kind == LOAD]
    old = core.read_bytes()
    new = bytearray(old)
    for it in loads:
        new[it.offset : it.offset + it.size] = bytes([BLOT]) * len(old[it.offset : it.offset + it.size])
    for it in loads:
        for start, end in footprint.ranges:
            first, last = max(start, it.start), min(end, it.start + it.size)
            if first < last:
                place = it.offset - it.start
                new[first + place : last + place] = old[first + place : last + place]
    return bytes(new)
