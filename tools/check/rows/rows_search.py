"""Rows of `pystacks dump` on the search: which version is told, what an image says, which candidate is the
interpreter's, and where the lock is."""

import struct
from typing import Callable, Dict, Iterator, List, Optional, Sequence, Tuple

from made import (
    AARCH64, DYNAMIC_SYMBOLS, EXAMPLE, NO_BITS, STRINGS, SYMBOLS, Objects, Section, Segment, Symbol, core_file, edited,
    image_file, layout_of,
)
from row import Row, row
from small_core import HEAP, IMAGE, PATH, PROGRAM, TEXT, THREAD, bss, files_of, heap, mapped, small

GOOD = f"dump -c core --layouts layouts {IMAGE}"
LIBRARY = b"/usr/lib/libpython3.9.so.1.0"
CODE = Segment(0x400000, b"", 5, 0x1000)


def rows() -> List[Row]:
    """All of them."""
    return [*libraries(), *versions(), *facts(), *kept_symbols(), *candidates(), *sections(), *heads(), *locks()]


def libraries() -> Iterator[Row]:
    """Which of two maps is Python's library, whose image is then the one that is needed."""
    program = b"/usr/bin/x"
    for path, is_library in (
        (b"/tmp/_MEIOqzg01/libpython2.7.so.1.0", True), (b"./libpython2.7.so", True), (b"/usr/lib/libpython3.4d.so", True),
        (b"/usr/lib/x86_64-linux-gnu/libboost_python-py27.so.1.58.0", False), (b"/libpython3.10.so", True),
        (b"/libpython3.10m.so", True), (b"/libpython3.9u.so.1.0", True), (b"/libpython3.9x.so", False),
        (b"/libpython3.100.so", False), (b"/libpython3.10so", True), (b"/libpython3x9mso", True),
        (b"/libpython3\xc3\xa99\xe2\x82\xacso", True), (b"/libpython3\n9.so", False), (b"/libpython3.9\nso", False),
        (b"libpython3.9.so", False), (b"/libpython3.so", False), (b"/libpython/libpython3.9.so", True),
        (b"/libpython3.9.so\xff", False), (b"", False),
    ):
        maps = [mapped(program), Segment(0x600000, b"", 5, 0x1000, path)]
        yield row(f"library: {path!r}", "dump -c core --layouts layouts", files_of(core_file(maps)),
                  line=b"image not given: " + (path if is_library else program))


NUMBERS = b"\xf0\0\x0c\3\xc1\0\x0a\3\xa5\0\x0d\3\xbf\2\x0b\3\xd4\2\x0b\3"
"""The numbers of 3.12.0, 3.10.0rc1, 3.13.0a5, 3.11.2b15, and 3.11.2 of no level, at 0x1000."""

TEXTS = (
    (0x2000, b"3.10.0rc1 (tags/v3.10.0rc1, Aug 28 2021, 18:25:40)", 128), (0x3000, b"3.9.1 (default, Dec 11 2020)", 127),
    (0x4000, b"3.7.10fooboo ", 128), (0x5000, b"\0\x012.7.15+ (default, Oct  2 2018)", 64), (0x6000, b"13.7.1 x", 8),
)
"""Texts, each with zeros behind it up to so many bytes."""


def versions() -> Iterator[Row]:
    """Which source tells the version. No layout covers it, and the line names it."""
    memory = [Segment(0x1000, NUMBERS, 6)] + [Segment(at, text.ljust(size, b"\0"), 6) for at, text, size in TEXTS]
    number, text, older = "Py_Version", "Py_GetVersion.version", "version"
    none = (0x700000, 0)
    for what, symbols, program, library, path, want in (
        ("the number, before the text", {number: 0x1000, text: 0x2000}, none, None, b"/p", "3.12.0"),
        ("a number of a candidate", {number: 0x1004}, none, None, b"/p", "3.10.0rc1"),
        ("a number of an alpha", {number: 0x1008}, none, None, b"/p", "3.13.0a5"),
        ("a number of a beta", {number: 0x100C}, none, None, b"/p", "3.11.2b15"),
        ("a number of no level", {number: 0x1010}, none, None, b"/p", "3.11.2"),
        ("a number that isn't there is final", {number: 0x1011, text: 0x2000}, none, None, b"/python3.9", (0x1011, 4)),
        ("the text, before the older name", {text: 0x2000, older: 0x5000}, (0x6000, 8), None, b"/p", "3.10.0rc1"),
        ("the older name", {older: 0x2000}, (0x6000, 8), None, b"/p", "3.10.0rc1"),
        ("127 bytes of text are none", {text: 0x3000, older: 0x2000}, (0x5000, 64), None, b"/p", "2.7.15+"),
        ("a text that spells none", {text: 0x4000}, (0x6000, 8), None, b"/p", "3.7.1"),
        ("the program's bss first", {}, (0x5000, 64), (0x6000, 8), b"/p", "2.7.15+"),
        ("the program's bss is cut", {}, (0x5000, 65), (0x6000, 8), b"/p", (0x5000, 65)),
        ("the library's bss", {}, (0x4000, 128), (0x6000, 8), b"/p", "3.7.1"),
        ("the library's bss is cut", {}, (0x4000, 128), (0x6000, 9), b"/p", (0x6000, 9)),
        ("the library's bss, before the path", {}, none, (0x6000, 8), b"/python3.9", "3.7.1"),
        ("the path", {}, none, (0x6000, 7), b"/python3.9", "3.9.0"),
        ("a text that isn't there, and the path", {text: 0x9000}, none, None, b"/python3.9", "3.9.0"),
        ("a path of a library", {}, none, None, b"/python3.10.so.1", "3.10.0"),
        ("zeros in a path", {}, none, None, b"/a.b/python03.007", "3.7.0"),
        ("the greatest number in a path", {}, none, None, b"/python18446744073709551615.0", "18446744073709551615.0.0"),
        *((f"the path {path}", {}, none, None, path.encode(), None) for path in (
            "/python18446744073709551616.0", "/python3.99999999999999999999", "/usr/bin/python3", "/usr/bin/python3.",
            "/usr/bin/python.3.9", "/usr/bin/python3.9-dbg", "/usr/bin/python+3.9", "/usr/bin/python3.9/",
            "/usr/bin/python3.9/pypy", "/usr/bin/pypython3.9", "/usr/bin/Python3.9", "")),
    ):
        maps = [mapped(path)] + ([] if library is None else [Segment(0x600000, b"", 5, 0x1000, LIBRARY)])
        kept = [Symbol(name, at) for name, at in symbols.items()]
        files = {**files_of(core_file([*memory, *maps]), "layout = []"), "image": image_file([CODE], program, kept)}
        words = f"dump -c core --layouts layouts {path.decode()}=image"
        if library is not None:
            files["library"] = image_file([Segment(0x600000, b"", 5, 0x1000)], library)
            words += f" {LIBRARY.decode()}=library"
        line = "no Python version found" if want is None else f"no layout for Python {want}" if isinstance(want, str) else (
            f"version unreadable at 0x{want[0]:x}, {want[1]} bytes")
        yield row(f"version: {what}", words, files, line=line)


def facts() -> Iterator[Row]:
    """What an image says of its bss, of which the length and the place stand in the line; and why it says nothing."""
    section = lambda name, kind, addr, size: Section(name, kind, addr, None if kind == NO_BITS else bytes(size), size)
    small_bss, runtime = section(".bss", NO_BITS, 0x500000, 16), section(".PyRuntime", 1, 0x600000, 32)
    top = 2 ** 64 - 1
    for what, code, at, more, want in (
        ("where it is linked", CODE, 0x400000, [small_bss], (0x500000, 16)),
        ("moved up", CODE, 0x401000, [small_bss, runtime], (0x501000, 16)),
        ("linked in the middle of a page", Segment(0x400123, b"", 5, 0x1000), 0x402000, [runtime, small_bss], (0x502000, 16)),
        ("mapped below", CODE, 0x3FF000, [small_bss], (0x500000, 16)),
        ("the larger of two", CODE, 0x400000, [small_bss, section(".bss", NO_BITS, 0x700000, 32)], (0x700000, 32)),
        ("the last of two of one size", CODE, 0x400000, [small_bss, section(".bss", NO_BITS, 0x700000, 16)], (0x700000, 16)),
        ("a larger one of another name", CODE, 0x400000, [small_bss, section(".tbss", NO_BITS, 0, 99)], (0x500000, 16)),
        ("a larger one of another kind", CODE, 0x400000, [small_bss, section(".bss", 1, 0, 99)], (0x500000, 16)),
        ("none", CODE, 0x400000, [runtime], None),
        ("no code", Segment(0x400000, b"", 6, 0x1000), 0x400000, [small_bss], None),
        ("that ends at the last address", Segment(0, b"", 5, 0x1000), 0x1000, [section(".bss", NO_BITS, top - 4112, 16)],
         (top - 16, 16)),
        ("that ends past it", Segment(0, b"", 5, 0x1000), 0x1000, [section(".bss", NO_BITS, top - 4112, 17)], None),
    ):
        program = image_file([code], None, (), more)
        files = {**files_of(core_file([heap().segment(6), Segment(at, b"", 5, 0x1000, PATH)])), "image": program}
        line = f"bad image: {PATH.decode()}" if want is None else f"version unreadable at 0x{want[0]:x}, {want[1]} bytes"
        yield row(f"image: a bss {what}", GOOD, files, line=line)
    for what, kind in (("plain", SYMBOLS), ("dynamic", DYNAMIC_SYMBOLS)):
        program = image_file([CODE], (0x500000, 16), (), [Section("", kind, 0, None, 1 << 20)])
        yield row(f"image: {what} symbols past the end", GOOD, files_of(small(), program=program),
                  line=f"bad image: {PATH.decode()}")
    moved = Segment(0, b"", 5, 0x1000)
    nothing = image_file([moved], (top, 16))
    yield row("image: a bss that moves past the last address is none", GOOD, files_of(core_file(
        [heap().segment(6), Segment(0x1000, b"", 5, 0x1000, PATH)]), program=nothing), line="no interpreter found")


def kept_symbols() -> Iterator[Row]:
    """Which symbols of an image are kept: that of the version's number, which is then asked for where it would be."""
    for what, fields, want in (
        ("an object", (0x500008, 8, 0x11, 1), 0x501008), ("a function", (0x400010, 8, 0x12, 1), 0x401010),
        ("undefined", (0x400010, 8, 0x12, 0), None), ("global, of value 0", (0, 0, 0x10, 1), None),
        ("weak, of value 0", (0, 0, 0x20, 1), None), ("local, of value 0", (0, 0, 0x00, 1), 0x1000),
        ("past the bss", (0x500009, 8, 0x11, 1), None), ("past the bss, of no size", (0x600000, 0, 0x11, 1), 0x601000),
        ("past the last address", (2 ** 64 - 0x1000, 0, 0x11, 1), None),
        ("a function past the map", (0x400FF9, 8, 0x12, 1), None), ("a function of no size", (0x400010, 0, 0x12, 1), None),
    ):
        value, size, info, number = fields
        program = image_file([CODE], (0x500000, 16), [Symbol("Py_Version", value, size, info, number)])
        at = Segment(0x401000, b"", 7, 0x1000, b"/p")
        files = {**files_of(core_file([heap().segment(6), at, Segment(0x501000, bytes(16), 6)])), "image": program}
        line = "no Python version found" if want is None else f"version unreadable at 0x{want:x}, 4 bytes"
        if want == 0x501008:
            line = "no layout for Python 0.0.0"
        yield row(f"symbol: {what}", "dump -c core --layouts layouts /p=image", files, line=line)
    plain = [Symbol("Py_Version", 0x1000), Symbol("Py_Version", 0x2000)]
    texts, names = b"\0Py_Version\0", Section(".dynstr", STRINGS, 0, b"\0Py_Version\0")
    row_of = bytes(24) + struct.pack("<I2BH2Q", texts.index(b"P"), 0x11, 0, 1, 0x3000, 0)
    for what, more, want in (
        ("the last of two", [], 0x2000),
        ("dynamic ones behind", [Section(".dynsym", DYNAMIC_SYMBOLS, 0, row_of, link=3), names], 0x3000),
    ):
        program = image_file([CODE], (0x500000, 16), plain, more)
        yield row(f"symbol: {what}", GOOD, files_of(small(), program=program),
                  line=f"version unreadable at 0x{want:x}, 4 bytes")


def interpreter(objects: Objects, number: int, named: Optional[int] = None, count: int = 1, frames: int = 0) -> int:
    """Puts an interpreter of so many threads, the first of this id, each with so many frames; its threads may name
    another."""
    at = objects.record("interpreter")
    code = objects.record("code", None, filename=objects.text("a.py"), name=objects.text("f")) if frames else 0
    first = objects.frames([code] * frames)
    fields = [{"id": number + it, "frame": first} for it in range(count)]
    objects.threads(at, [{**it, "interp": at if named is None else named} for it in fields])
    return at


def shown(number: Optional[int]) -> Dict[str, str]:
    """The text of an interpreter whose one thread has this id and no frames, or the line why there is none."""
    return {"line": "no interpreter found"} if number is None else {"out": f"Python v3.9.0\n\nThread 0x{number:X}\n"}


def candidates() -> Iterator[Row]:
    """Which word of the bss is the interpreter: the first that passes the test."""
    objects = Objects(layout_of(EXAMPLE), HEAP)
    one, other = interpreter(objects, 1), interpreter(objects, 2)
    strange = interpreter(objects, 3, named=one)
    cycle = interpreter(objects, 4)
    thread = struct.unpack_from("<Q", objects.data, cycle - HEAP + 8)[0]
    objects.word(thread + 8, thread)
    too_many, too_deep = interpreter(objects, 5, count=4097), interpreter(objects, 6, frames=4097)
    lost = objects.record("interpreter")
    objects.word(lost + 8, 0x4B0000)
    headless = objects.record("interpreter")
    objects.word(headless + 8, headless + 0x100000)
    null = objects.record("interpreter")
    data = objects.segment(6)
    end = HEAP + len(data.data) - 8
    at_null = Segment(0, struct.pack("<8Q", 0, 0, null, 0, 7, 0, 0, 0), 6)
    for what, words, more, want in (
        ("none", [0], [], None), ("one", [one], [], 1), ("behind a word of no map", [0x4000000, one], [], 1),
        ("behind the code's address", [0x400000, one], [], 1), ("the first of two", [other, one], [], 2),
        ("behind one whose thread names another", [strange, one], [], 1), ("one whose thread names another", [strange], [], None),
        ("behind one whose thread leads to itself", [cycle, one], [], 1), ("behind one of 4097 threads", [too_many, one], [], 1),
        ("behind one of 4097 frames", [too_deep, one], [], 1), ("behind one whose thread is missing", [lost, one], [], 1),
        ("behind one whose thread is in no map", [headless, one], [], 1), ("behind one that is cut", [end, one], [], 1),
        ("behind the last address", [2 ** 64 - 1, one], [], 1), ("without threads, and no map at 0", [null, one], [], 1),
    ):
        core = core_file([data, mapped(), bss(*words), Segment(0x4B0000, b"", 6, 0x1000), *more])
        program = image_file([CODE], (0x500000, 8 * len(words)))
        yield row(f"candidate: {what}", GOOD, files_of(core, program=program), **shown(want))
    program = image_file([CODE], (0x500000, 16))
    yield row("candidate: without threads, and a thread at 0 that names it", GOOD, files_of(
        core_file([data, mapped(), bss(null, one), at_null]), program=program), "Python v3.9.0\n\n")
    for what, made, text in (
        ("4096 threads", lambda it: interpreter(it, 1, count=4096), [f"Thread 0x{number:X}" for number in range(4096, 0, -1)]),
        ("4096 frames", lambda it: interpreter(it, 1, frames=4096), ["Thread 0x1"] + ["    f (a.py)"] * 4096),
    ):
        objects = Objects(layout_of(EXAMPLE), HEAP)
        first, second = made(objects), interpreter(objects, 9999)
        data_of = core_file([objects.segment(6), mapped(), bss(first, second)])
        yield row(f"candidate: one of {what}", GOOD, files_of(data_of),
                  "".join(f"{line}\n" for line in ["Python v3.9.0", "", *text]))
    many = [0x12345678] * 100_000 + [one]
    yield row("candidate: the last of 100,001 words", GOOD, files_of(
        core_file([data, mapped(), bss(*many)]), program=image_file([CODE], (0x500000, 8 * len(many)))), **shown(1))


def sections() -> Iterator[Row]:
    """Which words are tried: those of the program's runtime section and bss, and then of the library's."""
    objects = Objects(layout_of(EXAMPLE), HEAP)
    one, other = interpreter(objects, 1), interpreter(objects, 2)
    data = objects.segment(6)
    runtime = lambda at, size: [Section(".PyRuntime", 1, at, None, size)]
    word = lambda number: struct.pack("<Q", number)
    for what, program, library, words, want in (
        ("the runtime section first", ((0x500000, 8), (0x510000, 8)), None, {0x500000: [one], 0x510000: [other]}, 2),
        ("a runtime section that is cut", ((0x500000, 8), (0x510000, 16)), None, {0x500000: [one], 0x510000: [other]}, 1),
        ("a tail of 7 bytes", ((0x500000, 15), None), None, {0x500000: [0, one]}, None),
        ("a runtime section of 7 bytes", ((0x500000, 8), (0x510000, 7)), None, {0x500000: [one], 0x510000: [other]}, 1),
        ("a runtime section at 0", ((0x500000, 8), (0, 8)), None, {0x500000: [one], 0: [other]}, 1),
        ("the library's last", ((0x500000, 8), None), ((0x700000, 8), (0x710000, 8)),
         {0x500000: [0], 0x700000: [one], 0x710000: [other]}, 2),
        ("the program's before the library's", ((0x500000, 8), None), ((0x700000, 8), (0x710000, 8)),
         {0x500000: [one], 0x700000: [other], 0x710000: [other]}, 1),
    ):
        maps = [mapped()] + ([Segment(0x600000, b"", 5, 0x1000, LIBRARY)] if library else [])
        held = [Segment(at, b"".join(map(word, numbers)), 6) for at, numbers in words.items()]
        made = lambda code, parts: image_file([code], parts[0], (), runtime(*parts[1]) if parts[1] else ())
        files = files_of(core_file([data, *maps, *held]), program=made(CODE, program))
        words_of = GOOD
        if library:
            files["library"] = made(Segment(0x600000, b"", 5, 0x1000), library)
            words_of += f" {LIBRARY.decode()}=library"
        yield row(f"section: {what}", words_of, files, **shown(want))


def heads() -> Iterator[Row]:
    """The head that symbols give is tried before the words of sections, by the layout's family."""
    objects = Objects(layout_of(EXAMPLE), HEAP)
    one, other, strange = interpreter(objects, 1), interpreter(objects, 2), 0
    record = objects.free()
    for number, word in enumerate((24, 0, 0, other, one, strange)):
        objects.word(record + 8 * number, word)
    data = objects.segment(6)
    for what, keys, minor, symbol, at, want in (
        ("a symbol", {"head": '"symbol"'}, 9, "interp_head", record + 24, 2),
        ("a symbol of no interpreter", {"head": '"symbol"'}, 9, "interp_head", record + 40, 1),
        ("a symbol that is missing", {"head": '"symbol"'}, 9, "_PyRuntime", record + 24, 1),
        ("the runtime of 3.7", {}, 7, "_PyRuntime", record, 2), ("the runtime of 3.9", {}, 9, "_PyRuntime", record - 8, 2),
        ("the runtime of 3.11", {}, 11, "_PyRuntime", record - 16, 2),
        ("a runtime at the end", {}, 7, "_PyRuntime", 2 ** 64 - 21, 1),
        ("offsets in the runtime", {"head": '"offsets"', "offsets": "{size=8, head=0}"}, 13, "_PyRuntime", record, 2),
        ("offsets that lead nowhere", {"head": '"offsets"', "offsets": "{size=8, head=0}"}, 13, "_PyRuntime", 0x500000, 1),
    ):
        number = bytes([0xF0, 0, minor, 3])
        program = image_file([CODE], (0x500000, 8), [Symbol(symbol, at), Symbol("Py_Version", 0x700000)])
        keys = {"lock": '"symbol"', "first_minor": str(minor), "last_minor": str(minor), **keys}
        text = edited(EXAMPLE, **keys)
        core = core_file([data, mapped(), bss(one), Segment(0x700000, number, 6)])
        out = f"Python v3.{minor}.0\n\nThread 0x{want:X}\n"
        yield row(f"head: {what}", GOOD, files_of(core, text, program), out)


def locks() -> Iterator[Row]:
    """Where the lock is, by its family, the machine and the version: the thread there is marked."""
    held = TEXT.replace("0x7F00", "0x7F00 (gil)")
    gil = {"lock": '"gil"', "interpreter": "{threads=8, modules=16, gil=24}", "gil": "{size=24, locked=16, holder=8}"}
    record = HEAP + 0x400

    def by_record(objects: Objects) -> None:
        objects.word(HEAP + 24, record)
        objects.record("gil", record, locked=1, holder=THREAD)

    named = lambda at: lambda objects: objects.word(at, THREAD)
    cases: Sequence[Tuple[str, Dict[str, str], Callable[[Objects], object], Sequence[Symbol], int, str, str]] = (
        ("a record", gil, by_record, (), 62, held, ""),
        ("a record that is missing", gil, lambda it: it.word(HEAP + 24, 0x70000000), (), 62, "",
         "unreadable at 0x70000000, 24 bytes"),
        ("no record", gil, lambda it: None, (), 62, TEXT, ""),
        ("a symbol", {"lock": '"symbol"'}, named(record), [Symbol("_PyThreadState_Current", record)], 62, held, ""),
        ("a symbol that is missing", {"lock": '"symbol"'}, named(record), (), 62, TEXT, ""),
        ("a symbol's word that is missing", {"lock": '"symbol"'}, named(record), [Symbol("_PyThreadState_Current", 0x70000000)],
         62, "", "unreadable at 0x70000000, 8 bytes"),
        ("the runtime", {}, named(HEAP + 0x400 + 568), [Symbol("_PyRuntime", record)], 62, held, ""),
        ("the runtime on aarch64", {}, named(HEAP + 0x400 + 584), [Symbol("_PyRuntime", record)], AARCH64, held, ""),
        ("the runtime on another machine", {}, named(HEAP + 0x400 + 568), [Symbol("_PyRuntime", record)], 40, TEXT, ""),
        ("no runtime", {}, named(HEAP + 0x400 + 568), (), 62, TEXT, ""),
        ("a runtime at the end", {}, named(record), [Symbol("_PyRuntime", 2 ** 64 - 1 - 567)], 62, "",
         "unreadable at 0xffffffffffffffff, 8 bytes"),
    )
    for what, keys, change, symbols, machine, out, line in cases:
        text = edited(EXAMPLE, **keys)
        objects = heap(text)
        change(objects)
        core = core_file([objects.segment(6), mapped(), bss()], machine=machine)
        files = files_of(core, text, image_file([CODE], (0x500000, 16), symbols) if symbols else PROGRAM)
        yield row(f"lock: {what}", GOOD, files, out, line)
