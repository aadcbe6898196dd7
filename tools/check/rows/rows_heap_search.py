"""Rows of `pysalvage` on the search of the heap: what is taken where nothing leads to an interpreter, and what isn't."""

from typing import Dict, Iterator, List, Sequence, Tuple

from made import EXAMPLE, Objects, Segment, Symbol, core_file, image_file, layout_of
from row import Row
from rows_salvage import GOOD, RUNTIME, broken_tree, named, salvage, status_record, text_of_json
from small_core import BSS, CODE, HEAP, MODULE_CODE, TEXT, THREAD, bss, files_of, heap, mapped

CODES = 0x5F0000
"""The class of codes."""

PROGRAM = image_file([Segment(0x400000, b"", 5, 0x1000)], (BSS, 16), [Symbol("PyCode_Type", CODES)])
"""The program's file, which names that class."""

SIGNAL = "Signal 11: core\n"


def rows() -> Iterator[Row]:
    """All of them."""
    for part in (taken, refused, several, beside):
        yield from part()


def known(klass: int = CODES) -> Objects:
    """The small core's objects, whose codes are of a class."""
    objects = heap()
    for code in (CODE, MODULE_CODE):
        objects.of_class(code, klass)
    return objects


def files(objects: Objects, pointer: int = 0x7F00, program: bytes = PROGRAM, segment: Tuple[int, bytes] = (6, b"")) -> Dict[str, bytes]:
    """A core whose bss leads nowhere, with a status record of this thread pointer."""
    flags, name = segment
    maps = [Segment(objects.start, bytes(objects.data), flags, name=name or None), mapped(), bss(0, 0)]
    return files_of(core_file(maps, [status_record(11, 4, pointer)]), program=program)


def none_found(addresses: int, members: int) -> bytes:
    """The line of a search that found none."""
    return b"no interpreter found: %d addresses looked at, %d members walked" % (addresses, members)


def taken() -> Iterator[Row]:
    """One whose thread is known."""
    text = SIGNAL + TEXT.replace("Thread 0x7F00", "Thread 0x7F00 (crashed)")
    yield salvage("heap search: one", GOOD, files(known()), text)
    tree = broken_tree(0, [])
    interpreters = tree["interpreters"]
    assert isinstance(interpreters, list)
    interpreters[0]["searched"] = True
    interpreters[0]["threads"][0]["crashed"] = True
    interpreters[0]["threads"][0]["frames"]["end"] = {"kind": "whole"}
    yield salvage("heap search: JSON of one", f"{GOOD} -j", files(known()), text_of_json({**tree, "missing": None, "signal": 11}))


def refused() -> Iterator[Row]:
    """What isn't taken: the words of the bss are looked at first, and once more as those of memory of no file."""
    words = len(known().data) // 8
    broken = known()
    broken.record("thread", THREAD, interp=HEAP, frame=THREAD + 0x40, next=0x70000000, id=0x7F00)
    stray = known()
    stray.word(THREAD + 24, 0x70000000)
    for what, made, line in (
        ("without the class of codes", files(known(), program=image_file([Segment(0x400000, b"", 5, 0x1000)], (BSS, 16))), none_found(2, 0)),
        ("a thread of another id", files(known(), 0x7F01), none_found(2 + words + 2, 1)),
        ("codes of another class", files(known(CODES + 8)), none_found(2 + words + 2, 1)),
        ("a broken chain of threads", files(broken), none_found(2 + words + 2, 1)),
        ("a frame that is missing", files(stray), none_found(2 + words + 2, 1)),
        ("memory of a file", files(known(), segment=(6, b"/tmp/heap")), none_found(2 + 2, 0)),
        ("memory that isn't writable", files(known(), segment=(4, b"")), none_found(2 + 2, 0)),
    ):
        yield salvage(f"heap search: refused: {what}", GOOD, made, line=line)


def threaded(count: int) -> Tuple[Objects, List[int]]:
    """So many interpreters with a known thread each, of the id 1, and their addresses."""
    objects = Objects(layout_of(EXAMPLE), HEAP)
    code = objects.of_class(objects.record("code"), CODES)
    places = []
    for _ in range(count):
        places.append(objects.record("interpreter"))
        objects.threads(places[-1], [{"id": 1, "frame": objects.frame(code=code)}])
    return objects, places


def shown(places: Sequence[int]) -> str:
    """Interpreters that were found by search, whose one frame is hidden."""
    return "".join(f"Interpreter 0x{place:x} (found by search)\nThread 0x1 (crashed)\n" for place in places)


def several() -> Iterator[Row]:
    """Several, each marked."""
    head = f"{SIGNAL}Python v3.9.0\n\n"
    objects, places = threaded(2)
    yield salvage("heap search: two", GOOD, files(objects, 1), head + shown(places))
    objects, places = threaded(17)
    yield salvage("heap search: seventeen", GOOD, files(objects, 1), head + shown(places[:16]) + "... more than 16 interpreters\n")


def beside() -> Iterator[Row]:
    """Where one is shown, or the head says that none runs, the heap isn't looked at."""
    objects, (one, _) = threaded(2)
    image = image_file([Segment(0x400000, b"", 5, 0x1000)], (BSS, 16), [Symbol("PyCode_Type", CODES), Symbol("_PyRuntime", RUNTIME)])
    maps = [known().segment(6), mapped(), bss(0, 0), Segment(RUNTIME, bytes(592), 6)]
    yield salvage("heap search: beside a head that names none", GOOD, files_of(core_file(maps, [status_record(11, 4, 0x7F00)]), program=image),
                  line=none_found(3, 0))
    yield salvage("heap search: beside one that is named", GOOD, named(objects, one, notes=[status_record(11, 4, 1)]),
                  f"{SIGNAL}Python v3.9.0\n\nThread 0x1 (crashed)\n")
