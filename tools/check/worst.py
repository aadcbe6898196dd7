#!/usr/bin/env python3
"""Measures what the cores that ask for most cost, within limits: seconds, memory, and the status.

    tools/check/worst.py --program crates/pystacks/out/pystacks [--salvage crates/pysalvage/out/pysalvage]
                         [--seconds 60] [--memory 2000] [--only WORD] [--judged]

The cores are laid out by the example of docs/LAYOUTS.md. docs/MEASURES.md has the table. With --judged only those are run whose
bytes are shared by many entries of the file, each under a limit of 64 MB or 16 times the files' size, whichever is more, and
within 2 s of the processor, or within a bound of its own: the status is 0 exactly where each ends within these, with the status
and the line that it has to.
"""

import argparse
import os
import resource
import subprocess
import sys
import tempfile
from dataclasses import dataclass
from pathlib import Path
from typing import Callable, Dict, Iterator, Sequence, Tuple

from rooms import BUILT_SALVAGE  # (first: it makes the other rooms known)

from made import EXAMPLE, Objects, Segment, Symbol, core_file, image_file, layout_of
from measure import Shape, core, machine, row
from small_core import BSS, FRAME, GOOD, HEAP, IMAGE, THREAD, bss, files_of, heap, mapped, of_locals, small
from made_heaps import of_long_dicts, of_members, of_woven_members
from made_tasks import of_ring, of_tasks
from rows_merge import EXTENSION, WITH_EXTENSION
from rows_native import CODE, PAGE, RESUMES, STACK, WORDS as NATIVE, files_over, status
from rows_salvage import named
from shared_files import LONG as SHARED, MANY, image_of_bss, image_of_codes, image_of_sections, image_of_symbols, layout_of_tables, of_bss
from shared_files import of_heap_words, of_hidden_frames, of_long_name, of_names, of_notes

SKIPPED = "<shim>"
"""The file name of members of a chain that are not shown."""

LONG = "f" * 4095


SALVAGE = f"core --layouts layouts {IMAGE}"
"""The words of `pysalvage`."""

HEAPS = f"{SALVAGE} --records records --heap"

TASKS = f"{SALVAGE} --records records --tasks"

Files = Dict[str, bytes]


@dataclass(frozen=True)
class Case:
    """A core that asks for much, and the words of the command over it."""

    what: str
    words: str
    files: Callable[[], Files]
    ends: str = ""
    """How it has to end where it is judged: the status, and the line's words behind it, if it has one."""
    memory: int = 0
    """The MB that it may take at most; where none are said 64, or 16 times the files' size, if that is more."""
    seconds: float = 2.0
    """The seconds of the processor that it may take at most."""

    def is_of_salvage(self) -> bool:
        """Whether it is one of `pysalvage`."""
        return self.words.startswith(SALVAGE)


def with_bss(words: int, objects: Objects) -> Files:
    """A core of some objects whose bss has so many words, each of them the interpreter at the heap's begin."""
    held = [HEAP] * words
    data = b"".join(it.to_bytes(8, "little") for it in held)
    program = image_file([Segment(0x400000, b"", 5, 0x1000)], (BSS, len(data)))
    return files_of(core_file([objects.segment(6), mapped(), Segment(BSS, data, 6)]), program=program)


def interpreter(file: str, name: str, frames: int, threads: int = 1, back: bool = False) -> Objects:
    """An interpreter whose threads have the same frames; with `back` these go on in a ring."""
    objects = Objects(layout_of(EXAMPLE), HEAP)
    place = objects.record("interpreter")
    code = objects.record("code", None, filename=objects.text(file), name=objects.text(name))
    first = objects.frames([code] * frames)
    if back:
        size = -(-objects.group("frame")["size"] // 16) * 16
        objects.word(first + size * (frames - 1) + objects.group("frame")["back"], first)
    objects.threads(place, [{"id": 0x7F00 + at, "frame": first} for at in range(threads)])
    return objects


def threads_in_a_ring() -> Objects:
    """An interpreter whose only thread leads to itself."""
    objects = heap()
    objects.word(THREAD + objects.group("thread")["next"], THREAD)
    return objects


def interpreters(count: int, threads: int) -> Files:
    """A core of so many interpreters, each of which names the next one, with so many threads of the same two frames."""
    objects = heap()
    first = objects.record("interpreter", HEAP)
    places = [first, *(objects.record("interpreter") for _ in range(count - 1))]
    for place, after in zip(places, [*places[1:], 0]):
        objects.word(place, after)
        objects.threads(place, [{"id": 0x7F00 + at, "frame": FRAME} for at in range(threads)])
    return named(objects)


def of_variables(count: int, threads: int) -> Files:
    """A core of so many threads of one frame, which leads to itself and has so many variables."""
    objects = Objects(layout_of(EXAMPLE), HEAP)
    place = objects.record("interpreter")
    names, file, name = objects.items([objects.text("v" * 4000)] * count), objects.text("a.py"), objects.text("f")
    code = objects.record("code", None, filename=file, name=name, nlocals=count, varnames=names)
    frame = objects.free()
    objects.frame([place] * count, frame, code=code, back=frame)
    objects.threads(place, [{"id": 0x7F00 + at, "frame": frame} for at in range(threads)])
    return named(objects)


def of_table(length: int, threads: int) -> Files:
    """A core of so many threads of one frame, which leads to itself and whose code has a line table of so many bytes, of entries that
    cover nothing."""
    objects = Objects(layout_of(EXAMPLE), HEAP)
    place = objects.record("interpreter")
    code = objects.record("code", None, filename=objects.text("a.py"), name=objects.text("f"), table=objects.table(bytes(length)))
    frame = objects.frames([code])
    objects.word(frame + objects.group("frame")["back"], frame)
    objects.threads(place, [{"id": 0x7F00 + at, "frame": frame} for at in range(threads)])
    return named(objects)


def nested(objects: Objects, numbers: int, texts: int) -> Sequence[int]:
    """A list within a list, 60 deep, each of which has the next one twice."""
    lists, held = objects.klass("list", 25), objects.number(7, numbers)
    for _ in range(60):
        items = objects.free()
        objects.word(items, held)
        objects.word(items + 8, held)
        held = objects.of_class(objects.record("list", None, count=2, items=items), lists)
    return [held] * 26


def cases() -> Iterator[Case]:
    """All of them."""
    yield Case("4096 threads of the same 4096 frames", GOOD, lambda: with_bss(2, interpreter("a.py", "f", 4096, 4096)))
    yield Case("the same, with texts of 4095 characters", GOOD,
               lambda: with_bss(2, interpreter(LONG, LONG, 4096, 4096)))
    yield Case("4096 threads of the same 16,384 members, none of them shown", GOOD,
               lambda: with_bss(2, interpreter(SKIPPED, "f", 16384, 4096)))
    yield Case("65,533 segments", GOOD, lambda: files_of(core(Shape("", segments=65533))))
    for words in (1000, 10_000, 100_000):
        yield Case(f"a bss of {words:,} words, each an interpreter whose frames are a ring of one", GOOD,
                   lambda words=words: with_bss(words, interpreter("a.py", "f", 1, back=True)))
    yield Case("a bss of 1,000 words, each an interpreter whose frames are a ring of members that aren't shown", GOOD,
               lambda: with_bss(1000, interpreter(SKIPPED, "f", 1, back=True)))
    yield Case("lists in lists, 26 variables, within 128 characters each", f"{GOOD} -l",
               lambda: files_of(of_locals(nested, "abcdefghijklmnopqrstuvwxyz", 0)))
    yield Case("the same, within 32,640 characters each", GOOD + " -" + "l" * 255,
               lambda: files_of(of_locals(nested, "abcdefghijklmnopqrstuvwxyz", 0)))


def cases_of_salvage() -> Iterator[Case]:
    """Those of `pysalvage`."""
    ring = lambda file, threads: lambda: with_bss(2, interpreter(file, "f", 1, threads, back=True))
    yield Case("a thread whose frames are a ring: 1,048,576 members", SALVAGE, ring("a.py", 1))
    yield Case("the same, of members that are left out", SALVAGE, ring(SKIPPED, 1))
    yield Case("4096 threads, each of such a ring: 4,194,304 members in all", SALVAGE, ring("a.py", 4096))
    yield Case("the same, with 4096 frames at each end", f"{SALVAGE} -n 4096", ring("a.py", 4096))
    yield Case("4096 threads of the same 1024 frames, all shown", f"{SALVAGE} -n 4096",
               lambda: with_bss(2, interpreter("a.py", "f", 1024, 4096)))
    yield Case("the same, with texts of 4095 characters", f"{SALVAGE} -n 4096",
               lambda: with_bss(2, interpreter(LONG, LONG, 1024, 4096)))
    for words in (1000, 10_000, 100_000):
        yield Case(f"a bss of {words:,} words, each an interpreter whose threads are a ring", SALVAGE,
                   lambda words=words: with_bss(words, threads_in_a_ring()))
    yield Case("16 interpreters of 4096 threads of two frames", SALVAGE, lambda: interpreters(16, 4096))
    calls = [0, 0, 0, CODE + 0x30]
    yield Case("`--native`: a stack of 92,000 frames", NATIVE, lambda: files_over([status(9, 11, CODE + 0x24)], calls * 92_000 + [0] * 8))
    yield Case("`--native`: 2000 threads of 20 frames", NATIVE,
               lambda: files_over([status(9 + at, 11, CODE + 0x24) for at in range(2000)], calls * 20 + [0] * 8))
    # (15 pops and a return, which leads to them again; and a handler's return to itself)
    yield Case("`--native`: 16,384 frames by their epilogues", NATIVE,
               lambda: files_over([status(9, 11, PAGE)], ([0] * 15 + [PAGE]) * 16_384, b"\x58" * 15 + b"\xc3"))
    yield Case("`--native`: handlers of signals that return to themselves", NATIVE, lambda: files_over(
        [status(9, 11, PAGE)], [*RESUMES, STACK, PAGE, 0], bytes([0x48, 0xC7, 0xC0, 15, 0, 0, 0, 0x0F, 5])))
    yield Case("`-l`: a thread whose frames are a ring of one with 65,535 variables", f"{SALVAGE} -l",
               lambda: of_variables(65535, 1))
    yield Case("the same in 4096 threads", f"{SALVAGE} -l", lambda: of_variables(65535, 4096))
    yield Case("a thread whose frames are a ring of one with a line table of 65,534 bytes", SALVAGE, lambda: of_table(65534, 1))
    yield Case("the same, of 16,777,214 bytes", SALVAGE, lambda: of_table(16777214, 1))


def of_headers(headers: int, addresses: int) -> Files:
    """Native addresses, each another one, in a library that has so many program headers without bytes before the one that has them."""
    size = -(-addresses // 0x1000) * 0x1000
    library = image_file([*[Segment(0x10000, b"", 5)] * headers, Segment(0x78, bytes(size), 5)], None, [Symbol("f", 0x78, size, 0x12)])
    text = "".join(f"0x{0x600000 + at:x}\n" for at in range(addresses))
    return {**files_of(small(more=[Segment(0x600000, b"", 5, size, EXTENSION)])), "ext": library, "addresses": text.encode()}


LEAST = 64 * 10 ** 6
"""The least limit of memory under which a case is run: that of the process, which has more than what it takes of its own."""

OVER_CORES = {
    "dump": GOOD, "pysalvage": SALVAGE, "triage": f"triage layouts core {IMAGE}", "reach": f"reach core layouts 0 {IMAGE}",
    "slim": f"slim core layouts 0 {IMAGE}", "merge": f"merge core layouts 0 addresses {IMAGE}",
}
"""The words of each command over a core."""

HEAP_ENDS = "1 no interpreter found: 16777218 addresses looked at, 1 members walked"
"""How the search of a heap ends that leads nowhere: the two words of the bss were looked at before, and the small core's interpreter
has a thread of another id."""

TEN = 10.0
"""The seconds of rows whose time grows with what they claim."""


def of_core(core: Callable[[], bytes]) -> Callable[[], Files]:
    """The files of rows over a core; no native address is merged."""
    return lambda: {**files_of(core()), "addresses": b""}


def of_image(image: Callable[[], bytes]) -> Callable[[], Files]:
    """The files of rows over the small core of a program's file."""
    return lambda: {**files_of(core_file([heap().segment(6), mapped(), bss()]), program=image()), "addresses": b""}


def judged() -> Iterator[Case]:
    """Those that have to keep within bounds: many entries of a file share some bytes of it, or claim more than is there."""
    for command, words in OVER_CORES.items():
        for mark in (b"n", b"/"):
            yield Case(f"`{command}`: 1000 load segments at one address, whose file's name has 1 MB of `{mark.decode()}`", words,
                       of_core(lambda mark=mark: of_long_name(mark)), "5 out of memory" if command == "merge" else "0")
        yield Case(f"`{command}`: 1000 note segments over the same 1 MB of notes", words, of_core(of_notes),
                   "5 out of memory" if command in ("pysalvage", "slim") else "0")
        yield Case(f"`{command}`: an image of 1000 symbols that share a name of 1 MB", words,
                   of_image(lambda: image_of_symbols(1000, 10 ** 6)), "5 out of memory")
        yield Case(f"`{command}`: an image of 40,000 symbols that share a name of 1 MB", words,
                   of_image(lambda: image_of_symbols(40_000, 10 ** 6)), "5 out of memory")
    for command in ("dump", "pysalvage", "triage", "slim", "merge"):
        yield Case(f"`{command}`: an image of 24,000 sections that share a name of 4 MB", OVER_CORES[command],
                   of_image(lambda: image_of_sections(24_000, 4 * 10 ** 6)), "0")
    yield Case("`merge`: 50,000 addresses in a library of 60,000 program headers", WITH_EXTENSION, lambda: of_headers(60_000, 50_000), "0")
    for command in ("dump", "pysalvage"):
        yield Case(f"`{command}`: 32,000 names of threads, which are one text of 4095 characters",
                   OVER_CORES[command] + (" --names" if command == "pysalvage" else ""), of_core(lambda: of_names(32_000)), "0")
    hidden = of_core(lambda: of_hidden_frames(400))
    yield Case("`dump`: 400 threads of 16,384 members that aren't shown", GOOD, hidden, "0", seconds=2 * TEN)
    unreadable = "1 version unreadable at 0x500000, 30000000 bytes"
    # (it would fill what it claims and still be within 64 MB)
    missing = of_image(lambda: image_of_bss(30 * 10 ** 6))
    # (of `pysalvage` the names of files tell the version then)
    for command, outcome in (("dump", unreadable), ("pysalvage", "0")):
        yield Case(f"`{command}`: a bss of 30 MB of which 16 bytes are there", OVER_CORES[command], missing, outcome, memory=32)


def heaps() -> Iterator[Case]:
    """Those of `pysalvage --heap`: as many members of a list as a core of 4 MB has, and names of classes that are looked for in long dicts."""
    texts = lambda what, files, **bounds: Case(f"`--heap`: {what}", HEAPS, files, "0", **bounds)
    trees = lambda what, files, **bounds: Case(f"`--heap -j`: {what}", f"{HEAPS} -j", files, "0", **bounds)
    one, other, woven = lambda: of_members(131_072, 32), lambda: of_members(262_144, 16), lambda: of_woven_members(524_288)
    yield texts("131,072 objects of one class", one)
    yield trees("131,072 objects of one class", one)
    yield texts("262,144 objects of a class each", other, memory=180)
    yield trees("262,144 objects of a class each", other, memory=180)
    yield texts("524,288 objects of a class each, 8 bytes apart", woven, memory=380)
    yield trees("524,288 objects of a class each, 8 bytes apart", woven, memory=380)
    yield texts("2048 classes that have one dict of 4096 names of a character", lambda: of_long_dicts(2048, 1))
    yield texts("2048 classes that have one dict of 4096 names of 4095 characters", lambda: of_long_dicts(2048, 4095), seconds=TEN)


def of_asyncio() -> Iterator[Case]:
    """Those of `pysalvage --tasks`."""
    tasks = lambda: of_tasks(20_000)
    yield Case("`--tasks`: 20,000 tasks, each of a chain of three coroutines", TASKS, tasks, "0", seconds=0.4)
    yield Case("`--tasks -j`: the same", f"{TASKS} -j", tasks, "0")
    for count, members in ((64, 16_384), (65_536, 16)):
        yield Case(f"`--tasks`: {count:,} tasks over one ring of {members:,} coroutines", TASKS, lambda count=count, members=members: of_ring(count, members),
                   "0", memory=400, seconds=TEN)


def apart() -> Iterator[Case]:
    """Those that have a bound of their own."""
    yield Case("4096 threads of the same 4096 frames, whose ends are shown", SALVAGE,
               lambda: with_bss(2, interpreter("a.py", "f", 4096, 4096)), "0",
               memory=100, seconds=TEN)
    yield Case("a heap of 16,777,216 words, by 200 segments over the same 1 MB, each of a record whose first thread is another's", SALVAGE,
               lambda: files_of(of_heap_words(), program=image_of_codes()), HEAP_ENDS, seconds=2 * TEN)
    yield Case("4096 threads of the same 4096 frames, all shown", GOOD, lambda: with_bss(2, interpreter("a.py", "f", 4096, 4096)), "0",
               memory=2200, seconds=2 * TEN)
    yield Case("1024 threads of the same 1024 frames", GOOD, lambda: with_bss(2, interpreter("a.py", "f", 1024, 1024)), "0",
               memory=200, seconds=TEN)
    yield Case("`slim`: 400 threads of 16,384 members that aren't shown", OVER_CORES["slim"], of_core(lambda: of_hidden_frames(400)), "0",
               memory=2600, seconds=3 * TEN)
    yield Case("a layout file of 3.6 MB of inline tables", GOOD, lambda: files_of(small(), text=layout_of_tables(300_000)),
               "6 layouts: table 0, key x", memory=800, seconds=TEN)


def shared() -> Iterator[Case]:
    """The like of these, for which no bound is kept."""
    for words in (GOOD, SALVAGE):
        yield Case("a bss of 1 GB, by 1000 segments over the same 1 MB", words,
                   lambda: files_of(of_bss(), program=image_of_bss(SHARED * MANY)))
    yield Case("`--heap`: 256 classes that have one dict of 4096 names of 4095 wide characters", HEAPS, lambda: of_long_dicts(256, 4095, True))


def limited(seconds: int, memory: int) -> None:
    """Limits the process that becomes the program."""
    resource.setrlimit(resource.RLIMIT_AS, (memory, memory))
    resource.setrlimit(resource.RLIMIT_CPU, (seconds, seconds))


@dataclass(frozen=True)
class Measured:
    """What a case took."""

    row: str
    status: int
    """How its process ended, as the system tells it."""
    faults: Tuple[str, ...]
    """Why it isn't within what it is judged by."""


def most_of(case: Case, size: int) -> int:
    """The bytes of memory that a case may take at most, by its files' size."""
    return case.memory * 10 ** 6 or max(64 * 10 ** 6, 16 * size)


def faults_of(case: Case, size: int, seconds: float, memory: float, ended: str) -> Iterator[str]:
    """Why a case isn't within the memory and the seconds that it may take, or ends in another way than it has to."""
    most = most_of(case, size)
    if memory > most:
        yield f"{memory / 1e6:.0f} MB, and not {most / 1e6:.0f}"
    if seconds > case.seconds:
        yield f"{seconds:.2f} s, and not {case.seconds:g}"
    if ended != case.ends:
        yield f"ends with {ended}, and not {case.ends}"


def measured(program: str, case: Case, folder: str, seconds: int, memory: int) -> Measured:
    """What a case takes, within limits."""
    size, all_size = 0, 0
    for name, data in case.files().items():
        Path(folder, name).write_bytes(data)
        size += len(data) if name == "core" else 0
        all_size += len(data)
    if case.ends:
        memory = max(most_of(case, all_size), LEAST)
    with open(Path(folder, "out"), "wb") as out:
        child = subprocess.Popen(
            [program, *case.words.split()], cwd=folder, stdin=subprocess.DEVNULL, stdout=out, stderr=subprocess.PIPE,
            preexec_fn=lambda: limited(seconds, memory))
        said = child.stderr.read().decode("utf-8", "replace").strip().split(": ", 1)[-1]
        _, status, used = os.wait4(child.pid, 0)
        child.returncode = status
    ended = f"{os.WEXITSTATUS(status)}" if os.WIFEXITED(status) else f"none within {seconds} s"
    time = used.ru_utime + used.ru_stime
    cells = [case.what, f"{size / 1e6:.2f}", f"{time:.2f}", f"{used.ru_maxrss / 1024:.0f}", ended, said and f"`{said}`"]
    faults = faults_of(case, all_size, time, used.ru_maxrss * 1024, f"{ended} {said}".strip())
    return Measured(row(cells), status, tuple(faults) if case.ends else ())


def measured_thrice(program: str, case: Case, seconds: int, memory: int) -> Measured:
    """The same, and again where it isn't within its bounds, three times at most: other work makes a processor slow."""
    for _ in range(3):
        with tempfile.TemporaryDirectory(prefix="worst-") as folder:
            it = measured(program, case, folder, seconds, memory)
        if not it.faults:
            break
    return it


def main() -> int:
    """The command."""
    parser = argparse.ArgumentParser(description=__doc__, formatter_class=argparse.RawDescriptionHelpFormatter)
    parser.add_argument("--program", required=True, help="the built program")
    parser.add_argument("--salvage", default=str(BUILT_SALVAGE), help="the built `pysalvage`")
    parser.add_argument("--seconds", type=int, default=60, help="the most seconds of a run (default: 60)")
    parser.add_argument("--memory", type=int, default=2000, help="the most MB of a run (default: 2000)")
    parser.add_argument("--only", default="", help="the cases in whose name this stands")
    parser.add_argument("--judged", action="store_true", help="those alone that have to keep within bounds")
    words = parser.parse_args()
    heads = ["core", "MB", "s", "MiB", "status", "line"]
    print(f"{machine()}; within {words.seconds} s and {words.memory} MB.\n")
    print(row(heads) + "\n|" + "---|" * len(heads), flush=True)
    odd = 0
    for case in (*(() if words.judged else (*cases(), *cases_of_salvage(), *shared())), *judged(), *heaps(), *of_asyncio(), *apart()):
        program = words.salvage if case.is_of_salvage() else words.program
        if words.only in case.what and os.path.isfile(program):
            it = measured_thrice(os.path.abspath(program), case, words.seconds, words.memory * 10 ** 6)
            # (9 and 24 are the signals by which the limit of seconds ends a process)
            odd += os.WIFSIGNALED(it.status) and os.WTERMSIG(it.status) not in (9, 24)
            print(it.row, flush=True)
            for fault in it.faults:
                odd += 1
                print(f"worst: {case.what}: {fault}", flush=True)
    return 1 if odd else 0


if __name__ == "__main__":
    sys.exit(main())
