"""Rows of `pystacks merge`: the words, the order of the work, the addresses' text, maps, and what native addresses show."""

from typing import Dict, Iterator, List, Sequence

from made import Segment, Symbol, image_file
from row import Row, row
from small_core import BSS, IMAGE, PROGRAM, files_of, small

FRAMES = "    f (a.py)\n    <module> (a.py)\n"
EXTENSION = b"/lib/ext.so"
GOOD = f"merge core layouts 0 addresses {IMAGE}"
WITH_EXTENSION = f"{GOOD} /lib/ext.so=ext"

PYTHON = image_file([Segment(0x400000, bytes(0x400), 5, 0x1000)], (BSS, 16), [
    Symbol("_PyEval_EvalFrameDefault", 0x400100, 0x20, 0x12), Symbol("PyEval_EvalFrameDefault.cold", 0x400120, 0x20, 0x12),
    Symbol("time_sleep", 0x400140, 0x20, 0x12), Symbol("PyGILState_Ensure", 0x400160, 0x20, 0x12),
    Symbol("PyEval_EvalFrameEx", 0x400180, 0x20, 0x12), Symbol("_PyEval", 0x4001A0, 0x20, 0x12)])
"""The program's file with functions; its bytes begin 0x78 behind the file's begin."""

STEP, COLD, SLEEP, ENSURE, EX, SHORT = (0x400178 + 0x20 * number for number in range(6))


def library(symbols: Sequence[Symbol]) -> bytes:
    """A library in which a function's value is its place in the file."""
    return image_file([Segment(0x78, bytes(0x400), 5)], None, symbols)


FUNCTIONS = library([
    Symbol("outer", 0x80, 0x80, 0x12), Symbol("inner", 0xA0, 0x10, 0x12), Symbol("wide", 0xB0, 0x20, 0x12), Symbol("tight", 0xB0, 0x10, 0x12),
    Symbol("first", 0xD0, 0x10, 0x12), Symbol("second", 0xD0, 0x10, 0x12), Symbol("empty", 0xE8, 0, 0x12), Symbol("thing", 0xF0, 0x10, 0x11),
    Symbol("__libc_start_main", 0x120, 0x10, 0x12), Symbol("__clone", 0x130, 0x10, 0x12), Symbol("start_thread", 0x140, 0x10, 0x12),
    Symbol("__Pyx_PyObject_Call", 0x150, 0x10, 0x12), Symbol("__pyx_f_6mtrand_cont0_array", 0x160, 0x10, 0x12)])


def core(path: bytes = EXTENSION, more: Sequence[Segment] = (), **parts: object) -> bytes:
    """The small core with a library's map at 0x600000."""
    return small(more=[Segment(0x600000, b"", 5, 0x1000, path, **parts), *more])


def merge_files(text: str = "", data: bytes = b"", program: bytes = PYTHON) -> Dict[str, bytes]:
    """The files of a row."""
    return {**files_of(data or core(), program=program), "ext": FUNCTIONS, "addresses": text.encode()}


def merged(what: str, addresses: Sequence[int], out: str, words: str = WITH_EXTENSION, data: bytes = b"", program: bytes = PYTHON) -> Row:
    """A row of some addresses."""
    return row(f"merge: {what}", words, merge_files("".join(f"0x{it:x}\n" for it in addresses), data, program), out)


def refused(what: str, addresses: Sequence[int], data: bytes = b"", words: str = WITH_EXTENSION) -> Row:
    """A row of some addresses that can't be merged."""
    return row(f"merge: {what}", words, merge_files("".join(f"0x{it:x}\n" for it in addresses), data), line="cannot merge", status=7)


def rows() -> List[Row]:
    """All of them."""
    return [it for part in (words, order, texts, maps, functions, steps) for it in part()]


def words() -> Iterator[Row]:
    """Which words are taken."""
    for what, text in (
        ("the command alone", "merge"), ("no addresses", "merge core layouts 0"), ("an index that is no number", f"merge core layouts x addresses {IMAGE}"),
        ("an index of 2^64", f"merge core layouts 18446744073709551616 addresses {IMAGE}"), ("a word behind that is no image", "merge core layouts 0 addresses x"),
        ("two dashes", f"merge core layouts 0 addresses -- {IMAGE}"), ("a front of the word", f"merg core layouts 0 addresses {IMAGE}"),
        ("an option", f"{GOOD} -l"),
    ):
        yield row(f"merge: words: {what}", text, merge_files(), line="bad words", status=2)


def order() -> Iterator[Row]:
    """The core, the layouts, the images and the addresses are read; then the layouts, the report, the index, the lines, the maps."""
    for what, text, line, status in (
        ("the core is read first", f"merge none none2 0 none3 {IMAGE}", "cannot read none", 3),
        ("the layouts are read before the images", "merge core none 0 none3 /a=none2", "cannot read none", 3),
        ("the images are read before the addresses", "merge core image 0 none2 /a=none", "cannot read none", 3),
        ("the addresses are read before the layouts are judged", "merge core image 0 none", "cannot read none", 3),
        ("the layouts are judged before the core", f"merge image image 0 addresses {IMAGE}", "layouts: not TOML", 6),
        ("the core before the index", "merge layouts layouts 9 layouts", "not an ELF64 little-endian file", 1),
        ("an image that is missing", "merge core layouts 9 layouts", "image not given: /usr/bin/python3.9", 1),
        ("an index of no thread", f"merge core layouts 1 addresses {IMAGE}", "cannot merge", 7),
        ("the greatest index", f"merge core layouts 0xffffffffffffffff addresses {IMAGE}", "cannot merge", 7),
    ):
        yield row(f"merge: {what}", text, merge_files(), line=line, status=status)
    yield row("merge: an index in hexadecimal", f"merge core layouts 0x0 addresses {IMAGE}", merge_files(), FRAMES)


def texts() -> Iterator[Row]:
    """The addresses' text."""
    for what, text, shown in (
        ("no line", "", ""), ("an address in no map", "0x1234\n", "    0x1234 (?)\n"), ("no newline at the end", "0x1234", "    0x1234 (?)\n"),
        ("digits of either case", "0xAbC\n", "    0xabc (?)\n"), ("leading zeros", "0x0000000000001234\n", "    0x1234 (?)\n"),
        ("the greatest address", "0xffffffffffffffff\n0x0\n", "    0xffffffffffffffff (?)\n    0x0 (?)\n"),
        ("an address of Python's without a function", "0x400010\n", ""),
    ):
        yield row(f"merge: addresses: {what}", GOOD, merge_files(text, program=PROGRAM), shown + FRAMES)
    for what, text in (
        ("an empty line", "0x1234\n\n"), ("a line of a newline", "\n"), ("no 0x", "1234\n"), ("0X", "0X1\n"), ("no digit", "0x\n"), ("17 digits", "0x00000000000001234\n"),
        ("no digit of 16", "0x12g4\n"), ("a blank behind", "0x1 \n"), ("a carriage return", "0x1\r\n"), ("a sign", "-0x1\n"), ("the second line", "0x1\nx\n"),
    ):
        yield row(f"merge: addresses: {what}", GOOD, merge_files(text), line="cannot merge", status=7)


def maps() -> Iterator[Row]:
    """The core's maps as entries."""
    other = lambda start, flags, **more: Segment(start, b"", flags, 0x1000, b"/lib/other", **more)
    yield refused("two maps that overlap", [], core(more=[other(0x600800, 4)]))
    yield refused("two maps in one place", [], core(more=[other(0x600000, 4)]))
    yield merged("a map that may neither be read nor executed overlaps", [], FRAMES, data=core(more=[other(0x600800, 2)]))
    yield merged("maps out of order", [0x600088], "    outer (/lib/ext.so)\n" + FRAMES, data=core(more=[other(0x300000, 4)]))
    yield refused("a place in a file past 2^64", [], core(pages=1 << 52))
    yield merged("the same of a map that may neither be read nor executed", [], FRAMES, data=core(more=[other(0x700000, 0, pages=1 << 52)]))
    yield merged("the last place in a file", [0x600FFF], "    0x600fff (?)\n" + FRAMES, GOOD, core(pages=(1 << 52) - 1))
    yield refused("an address's place past that", [0x601000], small(more=[Segment(0x600000, b"", 5, 0x2000, EXTENSION, pages=(1 << 52) - 1)]))
    yield merged("the next pages of a file", [0x600000], "    0x600000 (/lib/ext.so)\n" + FRAMES, data=core(pages=1))


def functions() -> Iterator[Row]:
    """What an address outside of Python shows."""
    for what, at, shown in (
        ("a function", 0x80, "outer"), ("the last byte of one", 0xFF, "outer"), ("one within another", 0xA0, "inner"), ("behind that", 0xC8, "wide"),
        ("of one value the shorter", 0xBF, "tight"), ("of one value and size the first", 0xD8, "first"), ("one of no bytes", 0xE8, "outer"),
        ("no function", 0x110, "0x600110"), ("no segment's bytes", 0x10, "0x600010"), ("Cython's name", 0x168, "mtrand_cont0_array"),
        ("a thread's begin in another library", 0x148, "start_thread"), ("a process's begin in another library", 0x128, "__libc_start_main"),
    ):
        yield merged(f"functions: {what}", [0x600000 + at], f"    {shown} (/lib/ext.so)\n" + FRAMES)
    for what, path, at in (
        ("a process's begin", b"/lib/libc.so.6", 0x128), ("a thread's", b"/lib/libc.so.6", 0x138), ("a thread's, in the library of threads", b"/lib/libpthread.so.0", 0x148),
        ("glue of calls", b"/lib/ext.so", 0x158),
    ):
        yield merged(f"functions: left out: {what}", [0x600000 + at], FRAMES, f"{GOOD} {path.decode()}=ext", core(path))
    yield merged("a file that is gone", [0x600088], "    outer (/lib/ext.so)\n" + FRAMES, data=core(b"/lib/ext.so (deleted)"))
    yield merged("a file that isn't handed in", [0x600088], "    0x600088 (?)\n" + FRAMES, GOOD)
    yield merged("a file that is refused", [0x600088], "    0x600088 (?)\n" + FRAMES, f"{GOOD} /lib/ext.so=layouts")
    yield merged("a map of no file", [0x600088], "    0x600088 (?)\n" + FRAMES, data=core(b"[vdso]"))
    yield merged("a map of no name", [0x500008], "    0x500008 (?)\n" + FRAMES)
    yield merged("one address twice", [0x600088, 0x600088], "    outer (/lib/ext.so)\n" * 2 + FRAMES)


def steps() -> Iterator[Row]:
    """What Python's own addresses show: steps of its interpreter, its native functions, and nothing."""
    first, second = FRAMES.splitlines(True)
    yield merged("steps: one for each frame", [STEP, 0x600088, STEP], first + "    outer (/lib/ext.so)\n" + second)
    yield merged("steps: native frames before them and behind", [0x600088, STEP, STEP, 0x6000D0],
                 "    outer (/lib/ext.so)\n" + FRAMES + "    first (/lib/ext.so)\n")
    yield merged("steps: the other names", [COLD, 0x600088, EX], first + "    outer (/lib/ext.so)\n" + second)
    yield merged("steps: one past the end", [STEP, STEP, 0x600088, STEP], FRAMES + "    outer (/lib/ext.so)\n")
    yield refused("steps: one frame left over", [STEP])
    yield refused("steps: two past the end", [STEP] * 4)
    yield merged("a native function of Python's", [SLEEP], "    time_sleep (/usr/bin/python3.9)\n" + FRAMES)
    yield merged("functions of Python's that are left out", [ENSURE, SHORT], FRAMES)
    yield merged("a step of another file than Python's", [0x700178], "    _PyEval_EvalFrameDefault (/lib/python)\n" + FRAMES,
                 f"{WITH_EXTENSION} /lib/python=image", core(more=[Segment(0x700000, b"", 5, 0x1000, b"/lib/python")]))
