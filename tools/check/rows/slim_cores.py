#!/usr/bin/env python3
"""Makes slim cores of small cores, and reads them: byte by byte by a reader of their own, and by the program.

    tools/check/rows/slim_cores.py --program crates/pystacks/out/pystacks

Over a slim core a walk from the addresses that `locate` tells must print what it prints over the whole core, where that
has all bytes itself.
"""

import argparse
import subprocess
import sys
import tempfile
from pathlib import Path
from typing import Dict, Iterator, List, Tuple

import rooms  # (first: it makes the other rooms known)
from child_cores import Failure
from made import EXAMPLE, Objects, Segment, elf_file, file_table, layout_of, process_record, status_record
from small_core import CODE, HEAP, IMAGE, PATH, bss, files_of, heap, mapped, of_locals, small
from slim_reader import check_slim

Case = Tuple[str, Dict[str, bytes], str]

FAR, THREADS, FRAMES, APART = 0x10000000, 809, 80, 128
"""A core with so many threads of so many frames from an address on, each record so many bytes behind the one before: none
touches another."""

MOST = THREADS * (FRAMES + 1) + 4
"""As many pieces as there may be: each record is one, beside those that all share: the word of the first thread, the code, and the
two texts with their characters."""


def many(more: int) -> bytes:
    """The small core with the threads, and the frames of each, in a segment of their own; the last thread has some more."""
    far = Objects(layout_of(EXAMPLE), FAR)
    for thread in range(THREADS):
        at = FAR + APART * thread * (FRAMES + 1)
        is_last = thread + 1 == THREADS
        far.record("thread", at, **{"next": 0 if is_last else at + APART * (FRAMES + 1), "interp": HEAP, "frame": at + APART, "id": thread})
        count = FRAMES + (more if is_last else 0)
        for number in range(1, count + 1):
            far.frame(at=at + APART * number, code=CODE, back=0 if number == count else at + APART * (number + 1))
    return small(lambda objects: objects.word(HEAP + objects.group("interpreter")["threads"], FAR), more=[far.segment(6)])


def two_notes() -> bytes:
    """The small core with its status in a note segment of its own, which ends without its padding."""
    table = file_table([(0x400000, 0, PATH)])
    notes = [status_record(11, 7) + process_record(7, b"python", b"python a.py"), table]
    return elf_file(4, [heap().segment(6), mapped(), bss(), *(Segment(0, it, 0, kind=4) for it in notes)])


def in_two(at: int) -> bytes:
    """The small core whose objects stand in two segments that meet at an address."""
    data = bytes(heap().data)
    first, second = Segment(HEAP, data[: at - HEAP], 6), Segment(at, data[at - HEAP :], 6)
    return elf_file(4, [first, second, mapped(), bss(), Segment(0, file_table([(0x400000, 0, PATH)]), 0, kind=4)])


def cases() -> Iterator[Case]:
    """What cases there are: each with its files and how often locals are asked for."""
    yield "the small core", files_of(small()), "0"
    yield "two note segments", files_of(two_notes()), "0"
    for at in (0x10048, 0x100A0, 0x10190):
        yield f"two segments that meet at {at:#x}", files_of(in_two(at)), "0"
    values = of_locals(lambda objects, klass, texts: [objects.number(7, klass), objects.text("größe", klass=texts)], "ab", 1)
    yield "without its values", files_of(values), "0"
    yield "with its values", files_of(values), "1"
    yield "as many pieces as there may be", files_of(many(0)), "0"
    yield "another machine", files_of(small()[:18] + (40).to_bytes(2, "little") + small()[20:]), "0"


def ran(program: Path, room: Path, *words: str) -> "subprocess.CompletedProcess[bytes]":
    """A run of the program."""
    return subprocess.run([program, *words], cwd=room, stdout=subprocess.PIPE, stderr=subprocess.PIPE, check=False, timeout=60)


def tried(program: Path, room: Path, case: Case) -> int:
    """Fails where a case isn't as it has to be. Returns how many pieces its slim core has."""
    what, files, level = case
    for name, data in files.items():
        (room / name).write_bytes(data)
    located = ran(program, room, "locate", "core", "layouts", IMAGE)
    slim = ran(program, room, "slim", "core", "layouts", level, IMAGE)
    if located.returncode or slim.returncode:
        raise Failure(f"{what}: {(located.stderr + slim.stderr).decode()}")
    pieces = check_slim(files["core"], slim.stdout)
    (room / "small").write_bytes(slim.stdout)
    version, interpreter, lock = (line.split(b" ")[-1].decode() for line in located.stdout.splitlines())
    walks = [ran(program, room, "walk", name, "layouts", version[1:], interpreter, lock) for name in ("core", "small")]
    if walks[0].returncode or walks[0].stdout != walks[1].stdout:
        raise Failure(f"{what}: the walk over the slim core says {walks[1].stderr!r} and prints {walks[1].stdout[:200]!r}")
    return pieces


def main() -> int:
    """The command."""
    parser = argparse.ArgumentParser(description=__doc__.splitlines()[0])
    parser.add_argument("--program", required=True, help="the built program")
    program = Path(parser.parse_args().program).resolve()
    failed = 0
    counts: List[int] = []
    for case in cases():
        with tempfile.TemporaryDirectory(prefix="slim-") as name:
            try:
                counts.append(tried(program, Path(name), case))
            except Failure as reason:
                failed += 1
                print(f"slim_cores: FAILED: {reason}")
    print(f"slim_cores: {len(counts)} slim cores of {min(counts, default=0)} to {max(counts, default=0)} pieces have the stacks of the whole")
    return 1 if failed else 0


if __name__ == "__main__":
    sys.exit(main())
