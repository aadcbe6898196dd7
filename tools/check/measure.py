#!/usr/bin/env python3
"""Measures seconds and memory of the program's commands over cores that it makes, beside reading their files once.

    tools/check/measure.py --program crates/pystacks/out/pystacks

The cores are laid out by the example of docs/LAYOUTS.md. Each command must answer with the stacks that the core was
made of. Measure where nothing else runs.
"""

import argparse
import os
import platform
import subprocess
import sys
import tempfile
from dataclasses import dataclass
from datetime import date
from pathlib import Path
from random import Random
from typing import List, Sequence, Tuple

import rooms  # (first: it makes the other rooms known)
from made import EXAMPLE, Objects, Segment, Symbol, core_file, image_file, layout_of
from small_core import CALLER, CODE, FRAME, HEAP as INTERPRETER, PROGRAM as IMAGE, bss, files_of, heap as usual, mapped, small
from rows_salvage import named

FILLER = 0x100000000
"""Where the segments begin that hold nothing of Python."""

MIB = 1 << 20


@dataclass(frozen=True)
class Shape:
    """What a core is made of."""

    what: str
    threads: int = 1
    frames: int = 2
    """In each thread."""
    is_shared: bool = False
    """Whether all threads have the same frames, as only a hostile core has."""
    segments: int = 3
    images: int = 0
    """How many files of IMAGE_SIZE it has mapped, of which it holds no byte, beside the program's."""


IMAGE_SIZE = 4_500_000
IMAGES = 0x200000000
"""How long those files are, and where the first one's map begins."""


SHAPES = (
    Shape("small"),
    Shape("300 threads of 10 frames", threads=300, frames=10),
    Shape("4000 threads of 10 frames", threads=4000, frames=10),
    Shape("1 thread of 4000 frames", frames=4000),
    Shape("300 threads of the same 4000 frames", threads=300, frames=4000, is_shared=True),
    Shape("1000 segments", segments=1000),
    Shape("10,000 segments", segments=10_000),
    Shape("60,000 segments", segments=60_000),
    Shape("small, with 8 images of 36 MB in all", images=8),
)


class Failure(Exception):
    """What went wrong in what was measured."""


def heap(shape: Shape) -> Segment:
    """The heap of an interpreter: threads in a chain, each with its chain of frames, all of one code."""
    objects = Objects(layout_of(EXAMPLE), INTERPRETER)
    interpreter = objects.record("interpreter")
    file, name = objects.text("a.py"), objects.text("f")
    codes = [objects.record("code", None, filename=file, name=name)] * shape.frames
    shared = objects.frames(codes)
    threads = [
        {"id": 0x7F00 + number, "frame": shared if shape.is_shared or number == 0 else objects.frames(codes)}
        for number in range(shape.threads)
    ]
    objects.threads(interpreter, threads)
    return objects.segment()


def image_name(number: int) -> bytes:
    """The path that a core has for its file of a number."""
    return b"/usr/lib/lib%d.so" % number


def core(shape: Shape) -> bytes:
    """The core of a shape, with its heap in the middle of the segments."""
    more = shape.segments - 3
    filler = [Segment(FILLER + 0x1000 * number, bytes(16), 6) for number in range(more)]
    maps = filler[: more // 2] + [heap(shape), mapped(), bss()]
    images = [Segment(IMAGES * (at + 1), b"", 4, IMAGE_SIZE, image_name(at)) for at in range(shape.images)]
    return core_file(maps + images + filler[more // 2 :])


def text_of(shape: Shape) -> bytes:
    """The text that a command has to print: threads from the last of the chain on."""
    lines = ["Python v3.9.0", ""]
    for thread in reversed(range(shape.threads)):
        lines += [f"Thread 0x{0x7F00 + thread:X}"] + ["    f (a.py)"] * shape.frames
    return "".join(f"{line}\n" for line in lines).encode()


def ran(command: Sequence[str], out: Path) -> Tuple[float, float]:
    """Runs a command, and returns its seconds and MiB. (Less than those of a bare Python, some 9, can't be told.)"""
    child = Path(__file__).resolve().with_name("measure_child.py")
    with open(out, "wb") as file:
        whole = [sys.executable, "-I", "-S", str(child), *command]
        process = subprocess.run(whole, stdin=subprocess.DEVNULL, stdout=file, stderr=subprocess.PIPE, text=True)
    numbers = process.stderr.split()
    if process.returncode != 0 or numbers[:1] != ["0"]:
        raise Failure(f"{command[0]} {command[1]}: {process.stderr.strip()}")
    return float(numbers[1]), int(numbers[2]) / 1024


def measured(program: str, shape: Shape, folder: Path, times: int) -> str:
    """The row of a shape: for each command the fastest of some runs."""
    files = {name: str(folder / name) for name in ("core", "layouts", "image", "out")}
    Path(files["core"]).write_bytes(core(shape))
    Path(files["layouts"]).write_text(EXAMPLE, encoding="utf-8")
    Path(files["image"]).write_bytes(IMAGE)
    others = [folder / f"lib{number}.so" for number in range(shape.images)]
    for path in others:
        path.write_bytes(os.urandom(IMAGE_SIZE))
    images = [f"/usr/bin/python3.9={files['image']}"]
    images += [f"{image_name(number).decode()}={path}" for number, path in enumerate(others)]
    commands = (
        ["cat", files["core"], files["layouts"], files["image"], *map(str, others)],
        [program, "walk", files["core"], files["layouts"], "3.9.0", hex(INTERPRETER), "0"],
        [program, "dump", "-c", files["core"], "--layouts", files["layouts"], *images],
    )
    cells: List[str] = [shape.what, f"{os.path.getsize(files['core']) / MIB:.2f}"]
    for command in commands:
        best = min(ran(command, Path(files["out"])) for _ in range(times))
        if command[0] == program and Path(files["out"]).read_bytes() != text_of(shape):
            raise Failure(f"{command[1]} of {shape.what} doesn't print the stacks that the core has")
        cells += [f"{best[0]:.3f}", f"{best[1]:.1f}"]
    return row(cells)


def merged(program: str, folder: Path, times: int) -> str:
    """A line on a merge: 100,000 addresses, each at random in a library of 40,000 functions of 16 bytes."""
    count, numbers = 40000, Random(1)
    functions = [Symbol(f"function_{number}", 0x78 + 16 * number, 16, 0x12) for number in range(count)]
    library = image_file([Segment(0x78, bytes(16 * count), 5)], None, functions)
    places = [numbers.randrange(16 * count) for _ in range(100000)]
    data = small(more=[Segment(0x600000, b"", 5, 16 * count + 0x1000, b"/lib/ext.so")])
    addresses = "".join(f"0x{0x600078 + place:x}\n" for place in places).encode()
    files = {**files_of(data), "ext": library, "addresses": addresses}
    for name, held in files.items():
        (folder / name).write_bytes(held)
    paths = [str(folder / name) for name in ("core", "layouts", "addresses", "image", "ext")]
    command = [program, "merge", *paths[:2], "0", paths[2], f"/usr/bin/python3.9={paths[3]}", f"/lib/ext.so={paths[4]}"]
    seconds, memory = min(ran(command, folder / "out") for _ in range(times))
    lines = [f"    function_{place // 16} (/lib/ext.so)" for place in places] + ["    f (a.py)", "    <module> (a.py)"]
    if (folder / "out").read_text().splitlines() != lines:
        raise Failure("the merge doesn't print the functions that the addresses lie in")
    return f"`merge` of {len(places)} addresses in a library of {count} functions: {seconds:.2f} s, {memory:.0f} MiB."


def deep(program: str, folder: Path, times: int) -> str:
    """A line on a recursion of 100,000 frames, of which the first 100 and the last are shown."""
    count, shown = 100000, 100
    objects, far = usual(), Objects(layout_of(EXAMPLE), FILLER)
    objects.frame(at=FRAME, code=CODE, back=far.frames([CODE] * (count - 2), CALLER))
    for name, held in named(objects, more=[far.segment()]).items():
        (folder / name).write_bytes(held)
    paths = [str(folder / name) for name in ("core", "layouts", "image")]
    command = [program, paths[0], "--layouts", paths[1], "-n", str(shown), f"/usr/bin/python3.9={paths[2]}"]
    seconds, memory = min(ran(command, folder / "out") for _ in range(times))
    frames = ["    f (a.py)"] * shown + [f"    ... {count - 2 * shown} more frames"] + ["    f (a.py)"] * (shown - 1)
    if (folder / "out").read_text().splitlines()[3:] != frames + ["    <module> (a.py)"]:
        raise Failure("the first frames and the last aren't those that the core has")
    return f"`pysalvage` over a thread of {count} frames: {seconds:.2f} s, {memory:.0f} MiB."


def row(cells: Sequence[str]) -> str:
    """A row of the table."""
    return "| " + " | ".join(cells) + " |"


def machine() -> str:
    """The kind of the machine, and the date."""
    models = [line for line in Path("/proc/cpuinfo").read_text().splitlines() if line.startswith("model name")]
    model = models[0].split(":")[1].strip() if models else platform.machine()
    return f"{os.cpu_count()} processors, {model}, {date.today().isoformat()}"


def main() -> int:
    """The command."""
    parser = argparse.ArgumentParser(description=__doc__.splitlines()[0])
    parser.add_argument("--program", required=True, help="the built program")
    parser.add_argument("--salvage", help="the built program pysalvage (default: it isn't measured)")
    parser.add_argument("--times", type=int, default=5, help="how often each command is run (default: 5)")
    words = parser.parse_args()
    print(f"{machine()}; the fastest of {words.times} runs each. `cat` reads the same files once. Less than the memory")
    print("of a bare Python, some 9 MiB, can't be told.\n")
    heads = ["core", "MiB", "cat, s", "cat, MiB", "walk, s", "walk, MiB", "dump, s", "dump, MiB"]
    print(row(heads) + "\n|" + "---|" * len(heads), flush=True)
    with tempfile.TemporaryDirectory(prefix="measure-") as folder:
        for shape in SHAPES:
            try:
                print(measured(words.program, shape, Path(folder), words.times), flush=True)
            except Failure as reason:
                print(f"measure: FAILED: {reason}", file=sys.stderr)
                return 1
        print("\n" + merged(words.program, Path(folder), words.times), flush=True)
        if words.salvage:
            print("\n" + deep(words.salvage, Path(folder), words.times), flush=True)
    return 0


if __name__ == "__main__":
    sys.exit(main())
