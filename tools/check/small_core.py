"""The small core with which rows, tests, hostile input and measures begin: an interpreter with one thread of two frames, and its
program's map and bss.
"""

import struct
from typing import Callable, Dict, Optional, Sequence

from made import EXAMPLE, Objects, Segment, core_file, image_file, layout_of

HEAP = 0x10000
THREAD, FRAME, CALLER, CODE, MODULE_CODE, FILE, FUNCTION, MODULE = (
    HEAP + at for at in (0x40, 0x80, 0xC0, 0x100, 0x140, 0x180, 0x1D0, 0x220))
"""Where the small core has an interpreter, at the heap's begin, a thread, two frames, their codes, and three texts."""

TEXT = "Python v3.9.0\n\nThread 0x7F00\n    f (a.py)\n    <module> (a.py)\n"
"""What is printed of it."""


def heap(text: str = EXAMPLE, locals_at: int = 0) -> Objects:
    """The objects of the small core, by a layout file: `f`, which `<module>` called, both in `a.py`, in a thread of id
    0x7f00 that holds no lock. With an address for them the variables' names of both codes are there."""
    objects = Objects(layout_of(text), HEAP)
    objects.record("interpreter", HEAP)
    objects.word(HEAP + objects.group("interpreter")["threads"], THREAD)
    objects.record("thread", THREAD, interp=HEAP, frame=FRAME, id=0x7F00)
    objects.frame(at=FRAME, code=CODE, back=CALLER)
    objects.frame(at=CALLER, code=MODULE_CODE)
    objects.record("code", CODE, filename=FILE, name=FUNCTION, first_line=3, varnames=locals_at)
    objects.record("code", MODULE_CODE, filename=FILE, name=MODULE, first_line=1, varnames=locals_at)
    for at, name in ((FILE, "a.py"), (FUNCTION, "f"), (MODULE, "<module>")):
        objects.text(name, at)
    return objects


# ---- with its program

PATH = b"/usr/bin/python3.9"
BSS = 0x500000
IMAGE = "/usr/bin/python3.9=image"
GOOD = f"dump -c core --layouts layouts {IMAGE}"

PROGRAM = image_file([Segment(0x400000, b"", 5, 0x1000)], (BSS, 16))
"""The program's file: code at 0x400000, and a bss of two words."""


def mapped(name: bytes = PATH, **more: object) -> Segment:
    """The map of the program, of which the core has no byte."""
    return Segment(0x400000, b"", 5, 0x1000, name, **more)


def bss(*words: int) -> Segment:
    """The words of the bss: 0x400000, which is no interpreter, and the interpreter, if none are handed in."""
    return Segment(BSS, b"".join(struct.pack("<Q", word) for word in words or (0x400000, HEAP)), 6)


def small(
    change: Callable[[Objects], object] = lambda objects: None, text: str = EXAMPLE,
    more: Sequence[Segment] = (), notes: Sequence[bytes] = (), **parts: Segment,
) -> bytes:
    """The small core with the program's map and its bss, with a change of its objects."""
    objects = heap(text)
    change(objects)
    maps = [objects.segment(6), parts.get("code", mapped()), parts.get("bss", bss()), *more]
    return core_file(maps, notes)


def small_of(program: bytes) -> bytes:
    """The small core, of a program of this name."""
    return small(code=mapped(program))


def files_of(data: bytes, text: str = EXAMPLE, program: bytes = PROGRAM) -> Dict[str, bytes]:
    """The files of a row."""
    return {"core": data, "layouts": text.encode(), "image": program}


def of_locals(
    slots: Callable[[Objects, int, int], Sequence[int]], names: Sequence[str], arguments: int, count: Optional[int] = None
) -> bytes:
    """The small core with variables in its first frame."""
    return core_file([heap_of_locals(slots, names, arguments, count).segment(6), mapped(), bss()])


def heap_of_locals(
    slots: Callable[[Objects, int, int], Sequence[int]], names: Sequence[str], arguments: int, count: Optional[int] = None
) -> Objects:
    """Its objects."""
    objects = heap(locals_at=HEAP)
    numbers, texts = objects.klass("int", 24), objects.klass("str", 28)
    tuple_of = objects.items([objects.text(name) for name in names])
    found = slots(objects, numbers, texts)
    objects.record("code", CODE, filename=CODE + 0x80, name=FUNCTION, first_line=3, argcount=arguments,
                   nlocals=len(names) if count is None else count, varnames=tuple_of)
    frame = objects.frame(found, objects.free(), code=CODE, back=CALLER)
    objects.word(THREAD + 24, frame)
    return objects
