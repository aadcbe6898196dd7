"""Rows of `listing footprint` and `listing reads`: which ranges the stacks of a core are read from, and how many reads a
report takes."""

from typing import Iterator, List

from made import READABLE, WRITABLE, Objects, Segment, core_file
from row import Row, row
from small_core import CALLER, CODE, FILE, FRAME, FUNCTION, HEAP, IMAGE, MODULE, MODULE_CODE, THREAD, bss, files_of, heap, mapped, small

WORDS = f"footprint layouts core {IMAGE}"

TEXT_RECORD, TEXT_AT, RECORD = 0x48, 0x30, 0x40
"""How long the record of a text is, and where in it a short text begins; and how long the other records are."""


def text_reads(at: int, length: int) -> List[str]:
    """The reads of a short text: its record, and its characters."""
    return [f"{at:x} {TEXT_RECORD:x}", f"{at + TEXT_AT:x} {length:x}"]


def frame_reads(frame: int, code: int, name: int, length: int) -> List[str]:
    """The reads of a frame: its record, that of its code, the file's name and the function's."""
    return [f"{frame:x} {RECORD:x}", f"{code:x} {RECORD:x}", *text_reads(FILE, 4), *text_reads(name, length)]


def small_reads() -> str:
    """The reads of the small core: the word that names the first thread, its record, both frames, and the word that
    names the modules, of which there are none. It has no table of lines, so none is read."""
    lines = [
        f"{HEAP + 8:x} 8", f"{THREAD:x} {RECORD:x}", *frame_reads(FRAME, CODE, FUNCTION, 1),
        *frame_reads(CALLER, MODULE_CODE, MODULE, 8), f"{HEAP + 16:x} 8",
    ]
    return "".join(f"{line}\n" for line in lines)


def rows() -> List[Row]:
    """All of them."""
    return [*footprints(), *counts()]


def footprints() -> Iterator[Row]:
    """The reads in order, and what has none."""
    yield row("listing: footprint", WORDS, files_of(small()), small_reads())
    objects = heap()
    data = bytes(objects.data)
    parts = [Segment(HEAP + at, data[at : at + 8], READABLE | WRITABLE) for at in range(0, len(data), 8)]
    yield row("listing: footprint: other segments of the same memory", WORDS,
              files_of(core_file([bss(), *parts[::-1], mapped()])), small_reads())
    for what, words, files in (
        ("no core", "footprint layouts", files_of(small())), ("a word without a path", "footprint layouts core image", files_of(small())),
        ("no interpreter", WORDS, files_of(small(bss=bss(0x400000, THREAD)))), ("no layouts", WORDS, files_of(small(), "[")),
        ("no ELF file", WORDS, files_of(b"text")),
    ):
        yield row(f"listing: footprint: {what}", words, files, "refused\n")


def counts() -> Iterator[Row]:
    """How many reads a report takes at most. Of the small core: 10 for the search and 3 for 0x400000; 3, 2 for its thread
    and 6 for each of two members for the interpreter; and for its stacks 15, 2 and 9 for each. Of one whose second
    frame is skipped and leads to itself: 10, 3 for 0x400000, 3, 2 and 6 for each of 16384 members, and no more than 15 beside."""

    def cyclic(objects: Objects) -> None:
        code = objects.record("code", None, filename=objects.text("<shim>"), name=FUNCTION)
        objects.frame(at=CALLER, code=code, back=CALLER)

    most = 10 + 3 + (3 + 2 + 2 * 6) + (15 + 2 + 2 * 9)
    yield row("listing: reads of the small core", f"reads layouts {most} core {IMAGE}", files_of(small()), f"report, in {most} reads or fewer\n")
    ring = 10 + 3 + (3 + 2 + 6 * 16384) + 15
    yield row("listing: reads of a ring of skipped members", f"reads layouts {ring} core {IMAGE}", files_of(small(cyclic)), f"none, in {ring} reads or fewer\n")
    for what, words in (("no core", "reads layouts 1"), ("no number", f"reads layouts x core {IMAGE}")):
        yield row(f"listing: reads: {what}", words, files_of(small()), "refused\n")
