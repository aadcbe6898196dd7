"""Rows of `pystacks dump`: the words, the search, lines, names, locals and values, and JSON."""

import json
import struct
from typing import Callable, Dict, Iterator, List, Optional, Sequence

from made import (
    AARCH64, EXAMPLE, READABLE, WRITABLE, Objects, Segment, Symbol, core_file, edited, image_file, layout_of, process_record,
    status_record,
)
from named_threads import named_threads
from row import Row, row
from small_core import (
    BSS, CALLER, CODE, FRAME, FUNCTION, GOOD, HEAP, IMAGE, PATH, TEXT, THREAD, bss, files_of, heap, mapped,
    of_locals, small,
)

def rows() -> List[Row]:
    """All of them."""
    parts = (words, causes, limits, searches, images, heads, lines, families_of_lines, cut_tables, names, locals_rows, values, trees, unread)
    return [it for part in parts for it in part()]


def words() -> Iterator[Row]:
    """What the words ask for."""
    files = files_of(small())
    for what, text in (
        ("", GOOD), (": a front of the word", f"d --full-filenames {IMAGE} --layouts=layouts -ccore"),
        (": the first image of a path", f"{GOOD} /usr/bin/python3.9=core"),
        (": another image before", f"dump -c core --layouts layouts /lib/other=core {IMAGE}"),
        (": behind two dashes", f"dump --core=core --layouts layouts -- {IMAGE}"),
        (": locals of none", f"{GOOD} -ll"), (": an equals sign behind a letter", f"dump -c=core --layouts layouts {IMAGE}"),
        (": images before, between and behind", f"dump /lib/a=core -c core {IMAGE} --layouts layouts =core"),
        (": words behind two dashes are images",
         f"dump -c core --layouts layouts {IMAGE} -- -j=core --layouts=core --=core"),
        (": two equals signs", f"dump -c core --layouts layouts /lib/a=b=c {IMAGE}"),
        (": a core that begins with a dash", f"dump -c-x --layouts layouts {IMAGE}"),
        (": a core that begins with a dash, after an equals sign", f"dump --core=-x --layouts layouts {IMAGE}"),
    ):
        data = files_of(small()) if "locals" not in what else files_of(core_file([
            heap(locals_at=HEAP).segment(6), mapped(), bss()]))
        yield row(f"dump{what}", text, {**data, "-x": data["core"], "b=c": data["core"]}, TEXT)
    for what, text in (
        ("no core", f"dump --layouts layouts {IMAGE}"), ("no layouts", f"dump -c core {IMAGE}"),
        ("another command", f"dude -c core --layouts layouts {IMAGE}"), ("an image without a path", GOOD + " x"),
        ("help", "dump -h"), ("a version", "dump --version"), ("a core twice", GOOD + " -c core"),
        ("a flag twice", GOOD + " -j -j"), ("a flag with a value", GOOD + " --json=yes"),
        ("a core that begins with a dash", "dump -c -x --layouts layouts"), ("a front of an option", GOOD + " --jso"),
        ("a longer word", f"dumped -c core --layouts layouts {IMAGE}"), ("another case", GOOD.replace("dump", "Dump")),
        ("no command", f"-c core --layouts layouts {IMAGE}"), ("the command alone", "dump"),
        ("an option without a value", f"dump -c core {IMAGE} --layouts"), ("a core in both forms", GOOD + " --core=core"),
        ("layouts twice", GOOD + " --layouts layouts"),
        ("an image without a path, before", "dump x -c core --layouts layouts"),
        ("help behind the others", GOOD + " --help"), ("a version's letter", GOOD + " -V"),
        ("an unknown letter", GOOD + " -q"),
        ("a count with a value", GOOD + " --locals=2"), ("a flag behind two dashes", GOOD + " -- -j"),
    ):
        yield row(f"dump: words: {what}", text, files, line="bad words", status=2)
    yield row("dump: the layout file before the image", "dump -c core --layouts none /usr/bin/python3.9=none", files,
              line="cannot read none", status=3)
    yield row("dump: the layout file is judged before the core", f"dump -c image --layouts image {IMAGE}", files,
              line="layouts: not TOML", status=6)
    yield row("dump: an empty layout file", GOOD, files_of(small(), ""), line="layouts: table 0, key layout", status=6)
    yield row("dump: an odd name of an image", ["dump", "-c", "core", "--layouts", "layouts", 'a="\nb'], files,
              line='cannot read "\nb', status=3)
    yield row("dump: native frames before other processes", f"{GOOD} -snjl", files,
              line="native frames are not read from a core")
    yield row("dump: other processes", f"{GOOD} -s", files, line="subprocesses are not read from a core")
    yield row("dump: native frames behind the search", f"{GOOD} -n", files_of(small(bss=bss(0x400000, THREAD))),
              line="no interpreter found")


def causes() -> Iterator[Row]:
    """Why a core gives no report, in the order of the causes."""
    version = lambda text: Segment(BSS, text.ljust(64, b"\0"), 6)
    program = image_file([Segment(0x400000, b"", 5, 0x1000)], (BSS, 64))
    odd = b"/lib/\xff.so"
    for what, files, line in (
        ("no map with a name", files_of(core_file([heap().segment(6), Segment(0x400000, b"", 5, 0x1000)])),
         b"no named executable map"),
        ("no executable map", files_of(small(code=Segment(0x400000, b"", 4, 0x1000, PATH))), b"no named executable map"),
        ("no image of an odd name", files_of(small(code=mapped(odd))), b"image not given: " + odd),
        ("a bad image", files_of(small(), program=b"text"), b"bad image: " + PATH),
        ("an image without a bss", files_of(small(), program=image_file([Segment(0x400000, b"", 5, 0x1000)])),
         b"bad image: " + PATH),
        ("an image without code", files_of(small(), program=image_file([Segment(0x400000, b"", 4, 0x1000)], (BSS, 16))),
         b"bad image: " + PATH),
        ("half a bss", files_of(small(bss=Segment(BSS, bytes(8), 6, 16))), b"version unreadable at 0x500000, 16 bytes"),
        ("a version without a layout", files_of(small(bss=version(b"x 3.14.0rc1+dev (main)")), program=program),
         b"no layout for Python 3.14.0rc1+dev"),
        ("no layout", files_of(small(), edited(EXAMPLE, first_minor="10", last_minor="10")), b"no layout for Python 3.9.0"),
        ("no interpreter", files_of(small(bss=bss(0x400000, THREAD))), b"no interpreter found"),
    ):
        yield row(f"dump: cause: {what}", GOOD, files, line=line)
    yield row("dump: cause: no image", "dump -c core --layouts layouts", files_of(small()),
              line="image not given: /usr/bin/python3.9")
    other = b"/usr/bin/pythonx.9"
    yield row("dump: cause: no version", "dump -c core --layouts layouts /usr/bin/pythonx.9=image",
              files_of(small(code=mapped(other))), line="no Python version found")


def limits() -> Iterator[Row]:
    """Chains past a limit are none of an interpreter; a bss that isn't there takes no memory."""

    def chained(count: int) -> Callable[[Objects], None]:
        def change(objects: Objects) -> None:
            objects.word(THREAD + 24, 0)
            first = objects.free()
            for number in range(count - 1):
                after = first + 64 * (number + 1) if number + 2 < count else 0
                objects.record("thread", first + 64 * number, next=after, interp=HEAP, id=number)
            objects.word(THREAD + 8, first if count > 1 else 0)
        return change

    lines = [f"Thread 0x{number:X}" + (" (gil)" if number == 0 else "") for number in reversed(range(4095))]
    text = "".join(f"{line}\n" for line in ["Python v3.9.0", "", *lines, "Thread 0x7F00"])
    yield row("dump: 4096 threads", GOOD, files_of(small(chained(4096))), text)
    yield row("dump: 4097 threads", GOOD, files_of(small(chained(4097))), line="no interpreter found")

    def cyclic(objects: Objects) -> None:
        shim = objects.text("<shim>")
        code = objects.record("code", None, filename=shim, name=FUNCTION)
        objects.frame(at=CALLER, code=code, back=CALLER)

    yield row("dump: a skipped member leads to itself", GOOD, files_of(small(cyclic)), line="no interpreter found")
    for what, size, line in (
        ("20 GB", 20 << 30, f"version unreadable at 0x500000, {20 << 30} bytes"),
        ("2^63 bytes", 1 << 63, f"version unreadable at 0x500000, {1 << 63} bytes"),
    ):
        program = image_file([Segment(0x400000, b"", 5, 0x1000)], (BSS, size))
        yield row(f"dump: a bss of {what} that isn't there", GOOD, files_of(small(), program=program), line=line,
                  memory=200_000 << 10)
        told = image_file([Segment(0x400000, b"", 5, 0x1000)], (BSS, size), [Symbol("Py_Version", 0x4000F0, 4)])
        files = files_of(small(code=Segment(0x400000, bytes(0xF0) + b"\xf0\0\x09\3", 5, 0x1000, PATH)), program=told)
        yield row(f"dump: a bss of {what}, and a version that is told", GOOD, files, line="no interpreter found",
                  memory=200_000 << 10)


def searches() -> Iterator[Row]:
    """Which interpreter is taken."""

    def second(objects: Objects) -> None:
        # (an interpreter at 8 bytes behind the first one's begin, whose thread has another id and no frames)
        objects.record("thread", HEAP + 0x10, interp=HEAP + 8, id=0x7F01)
        objects.word(HEAP + 0x10, HEAP + 0x10)
        objects.word(HEAP + 8, THREAD)

    yield row("dump: the first interpreter of two", GOOD, files_of(small(second, bss=bss(HEAP + 8, HEAP))),
              "Python v3.9.0\n\nThread 0x7F01\n")
    yield row("dump: the second, where the first is none", GOOD, files_of(small(second, bss=bss(HEAP + 16, HEAP))), TEXT)
    symbols = [Symbol("_PyRuntime", HEAP), Symbol("Py_Version", 0x4001E0, 4)]
    program = image_file([Segment(0x400000, bytes(0x1E0 - 64 - 56) + b"\xf0\0\x09\3", 5, 0x1000)], (BSS, 16), symbols)
    program = program[:64] + program[64:72] + struct.pack("<Q", 0) + program[80:]
    lock = 568
    held = lambda word: lambda objects: objects.word(HEAP + lock, word)
    yield row("dump: the image tells the version, and the runtime the lock", GOOD,
              files_of(small(held(THREAD)), program=program), TEXT.replace("0x7F00", "0x7F00 (gil)"))
    yield row("dump: the runtime names no holder", GOOD, files_of(small(held(0)), program=program), TEXT)
    yield row("dump: the holder is missing", GOOD, files_of(small(held(0x402000)), program=program),
              line="unreadable at 0x402000, 64 bytes")
    yield row("dump: a map that can be written is not of the image", GOOD,
              files_of(small(held(THREAD), code=Segment(0x400000, b"", 7, 0x1000, PATH)), program=program),
              line="version unreadable at 0x4001e0, 4 bytes")
    yield row("dump: the core's own bytes come first", GOOD, files_of(
        small(held(0), code=Segment(0x400000, bytes(0x1E0) + b"\xf0\0\x0e\3", 5, 0x1000, PATH)), program=program),
        line="no layout for Python 3.14.0")


def images() -> Iterator[Row]:
    """An image is taken as it is handed in: the machine of its file isn't looked at by the program."""
    yield row("dump: an image of another machine", GOOD, files_of(small(), program=image_file(
        [Segment(0x400000, b"", 5, 0x1000)], (BSS, 16), machine=AARCH64)), TEXT)
    library = b"/usr/lib/libpython3.9.so.1.0"
    both = [mapped(b"/usr/bin/start"), Segment(0x600000, b"", 5, 0x1000, library)]
    data = core_file([heap().segment(6), *both, bss()])
    yield row("dump: the library is needed where one is mapped", f"{GOOD} /usr/bin/start=image", files_of(data),
              line="image not given: /usr/lib/libpython3.9.so.1.0")


def heads() -> Iterator[Row]:
    """The lines of the signal and the process."""
    notes = [status_record(11, 4), status_record(6, 5), process_record(3, b"x", b"no"),
             process_record(4, b"python3", b"python3 a\xff.py\0x")]
    yield row("dump: signal and process", GOOD, files_of(small(notes=notes)),
              "Signal 11: core\nProcess 4: python3 a\ufffd.py\n" + TEXT)


def lines() -> Iterator[Row]:
    """The line of a frame's last instruction."""
    table = bytes([0, 1, 10, 1, 8, 1, 4, 1])

    def at(offset: int, length: Optional[int] = None) -> Callable[[Objects], None]:
        def change(objects: Objects) -> None:
            objects.record("frame", FRAME, code=CODE, back=CALLER, instr=offset)
            objects.write(CODE + 48, struct.pack("<Q", 0x20000))
        return change

    def with_table(offset: int, length: Optional[int] = None) -> bytes:
        objects = Objects(layout_of(EXAMPLE), 0x20000)
        objects.table(table, length=length)
        return small(at(offset), more=[objects.segment(6)])

    for what, data, line in (
        ("of the last step", with_table(30), ":7"), ("of the second step", with_table(17), ":5"),
        ("of the first step", with_table(0), ":4"), ("behind no instruction", with_table(-1), ""),
        ("a table of 65536 bytes", with_table(30, 65536), ""), ("a table that is missing", small(at(30)), ""),
        ("a table of a length below 0", with_table(30, -1), ""), ("a table that ends past the memory", with_table(30, 9), ""),
    ):
        yield row(f"dump: line: {what}", GOOD, files_of(data), TEXT.replace("f (a.py)", f"f (a.py{line})"))


PAIRS, RANGES, LOCATIONS = bytes([0, 1, 10, 1, 8, 1, 4, 1]), bytes([4, 1, 2, 0x80, 6, 2]), bytes.fromhex("D90000E807F8")
"""A line table of each family."""


def line_row(what: str, text: str, first: int, table: bytes, instruction: int, line: str) -> Row:
    """The line of `f`, whose code has a first line and a table, by the field of its last instruction."""
    objects = heap(text)
    place = objects.table(table)
    objects.record("code", CODE, filename=CODE + 0x80, name=FUNCTION, first_line=first, table=place)
    objects.write(FRAME + 32, instruction.to_bytes(8, "little"))
    return row(f"dump: line: {what}", GOOD, files_of(core_file([objects.segment(6), mapped(), bss()]), text),
               TEXT.replace("f (a.py)", f"f (a.py{line})"))


def families_of_lines() -> Iterator[Row]:
    """The other families of line tables and of last instructions."""
    start = edited(EXAMPLE, lasti='"pointer"', code=(
        "{size=64, argcount=16, nlocals=20, first_line=24, filename=32, name=40, table=48, varnames=56, start=16}"))
    units, by_range = edited(EXAMPLE, lasti='"units"'), edited(EXAMPLE, lines='"ranges"')
    located = edited(EXAMPLE, lines='"locations"')
    for what, text, first, table, instruction, line in (
        ("pairs, a sum below 1", EXAMPLE, 3, bytes([0, 0xF7]), 0, ":-6"),
        ("units of two bytes", units, 3, PAIRS, 15, ":7"), ("a unit before the first", units, 3, PAIRS, 0xFFFFFFFF, ""),
        ("an address", start, 3, PAIRS, CODE + 16 + 30, ":7"), ("an address before the code", start, 3, PAIRS, CODE + 15, ""),
        ("the last address", start, 3, PAIRS, 2 ** 64 - 1, ""),
        ("ranges, the first", by_range, 10, RANGES, 0, ":11"), ("ranges, one of no line", by_range, 10, RANGES, 5, ""),
        ("ranges, behind one of no line", by_range, 10, RANGES, 6, ":13"), ("ranges, past the end", by_range, 10, RANGES, 12, ""),
        ("locations, the first", located, 5, LOCATIONS, 2, ":6"), ("locations, one below", located, 5, LOCATIONS, 4, ":3"),
        ("locations, one of no line", located, 5, LOCATIONS, 6, ""),
    ):
        yield line_row(what, text, first, table, instruction, line)


def cut_tables() -> Iterator[Row]:
    """A line table that is cut at any byte tells the lines of the entries that it has whole. (Of pairs the last line
    goes on without end; without an entry it is the first line.)"""
    for family, first, table, offset, lines in (
        ("pairs", 3, PAIRS, 30, (":3", ":3", ":4", ":4", ":5", ":5", ":6", ":6")),
        ("ranges", 10, RANGES, 0, ("", "", ":11", ":11", ":11", ":11")), ("ranges", 10, RANGES, 8, ("",) * 6),
        ("locations", 5, LOCATIONS, 2, ("", "", "", ":6", ":6", ":6")), ("locations", 5, LOCATIONS, 4, ("",) * 5 + (":3",)),
    ):
        text = edited(EXAMPLE, lines=f'"{family}"')
        for length, line in enumerate(lines):
            yield line_row(f"{length} bytes of {family}, at {offset}", text, first, table[:length], offset, line)


def names() -> Iterator[Row]:
    """The names of threads are those of the map of threading, if each part of it can be read."""
    named = named_threads
    for what, objects, told in (
        ("the name of a thread", named(), '0x7F00: "MainThread"'), ("the name of the second thread", named(own=0x7F01), '0x7F01: "Worker"'),
        ("the last thread of an id", named(ids=(0x7F00, 0x7F00)), '0x7F00: "Worker"'),
        ("the name of a thread of id -1", named(ids=(-1, 0x7F00), own=2 ** 64 - 1), '0xFFFFFFFFFFFFFFFF: "MainThread"'),
        ("no thread of that id", named(own=0x7F02), "0x7F02"), ("no module of threads", named(("sys", "_active")), "0x7F00"),
        ("keys behind that of threads are not read", named(("threading", 5000)), '0x7F00: "MainThread"'),
        ("a key that is no text leaves all names out", named((5000, "threading")), "0x7F00"),
        ("a key that isn't in memory leaves all names out", named((0xDEAD0000, "threading")), "0x7F00"),
    ):
        data = core_file([objects.segment(6), mapped(), bss()])
        yield row(f"dump: {what}", GOOD, files_of(data), TEXT.replace("0x7F00", told))


def locals_rows() -> Iterator[Row]:
    """Locals: which are shown, and why there are none."""
    seven = lambda objects, numbers, texts: [0, 1, objects.number(7, numbers) + 1]
    with_seven = TEXT.replace("f (a.py)\n", "f (a.py)\n        Locals:\n            c: 7\n")
    yield row("dump: locals: those that have a value", f"{GOOD} -l", files_of(of_locals(seven, "abc", 2)), with_seven)
    yield row("dump: locals: not asked for", GOOD, files_of(of_locals(seven, "abc", 2)), TEXT)
    all_of = lambda objects, numbers, texts: [
        objects.number(-5, numbers), objects.text("it's", klass=texts), objects.number(0, numbers)]
    shown = ("f (a.py)\n        Arguments:\n            x: -5\n            y: \"it\\\"s\"\n"
             "        Locals:\n            z: 0\n")
    yield row("dump: locals: arguments first", f"{GOOD} -l", files_of(of_locals(all_of, "xyz", 2)),
              TEXT.replace("f (a.py)\n", shown))
    none = lambda objects, numbers, texts: [0]
    for what, data, line in (
        ("a count below 0", of_locals(none, "a", 0, -1), "bad variable name or count in frame 0x{:x}"),
        ("65536", of_locals(none, "a", 0, 65536), "a frame counts 65536 locals"),
        ("no names", small(), "unreadable at 0x0, 24 bytes"),
    ):
        frame = struct.unpack_from("<Q", data, 64 + 56 * 4 + THREAD - HEAP + 24)[0]
        yield row(f"dump: locals: {what}", f"{GOOD} -l", files_of(data), line=line.format(frame))

    yield from local_causes()

    def nameless(objects: Objects) -> None:
        place = objects.items([objects.record("string", None, length=-1, state=100)])
        objects.record("code", CODE, filename=CODE + 0x80, name=FUNCTION, nlocals=1, varnames=place)

    yield row("dump: locals: a name that is no text", f"{GOOD} -l", files_of(small(nameless)),
              line=f"bad variable name or count in frame 0x{FRAME:x}")


def local_causes() -> Iterator[Row]:
    """Counts of arguments and variables, and which part of a local is missing first: the tuple's record, the word of a
    name, the name, the slot."""
    code, slots, names_at, long_at, nowhere = CODE, HEAP + 0x300, HEAP + 0x400, HEAP + 0x800, 0xDEAD0000

    def made(arguments: int, variables: int, names: Optional[Sequence[int]], items: int = 3) -> bytes:
        objects = heap(locals_at=HEAP)
        objects.record("code", code, filename=code + 0x80, name=FUNCTION, argcount=arguments, nlocals=variables,
                       varnames=nowhere if names is None else names_at)
        frame = objects.frame([0, 1, 0x9001], slots, code=code, back=CALLER)
        objects.word(THREAD + 24, frame)
        objects.items(names or (), names_at)
        objects.record("tuple", names_at, count=items)
        texts = [objects.text(text, long_at + 0x80 * number) for number, text in enumerate("abc")]
        objects.record("string", long_at + 0x180, length=4096, state=100)
        objects.text("x" * 4095, long_at + 0x200)
        for number, name in enumerate(names or ()):
            objects.word(names_at + 24 + 8 * number, texts[name] if name < 3 else name)
        return core_file([objects.segment(6), mapped(), bss()])

    def local(is_argument: bool) -> Dict[str, object]:
        return {"addr": 0x9000, "arg": is_argument, "name": "c", "repr": None}

    frame = HEAP + 0x300
    shown = lambda *found: tree(frame_tree("f", True, False, list(found)), frame_tree("<module>", True, True, []))
    marked = lambda is_argument: shown(local(is_argument)).replace('"repr": null', '"repr": "?"')
    bad = f"bad variable name or count in frame 0x{frame:x}"
    too_long, longest = HEAP + 0x800 + 0x180, HEAP + 0x800 + 0x200
    for what, data, out, line in (
        ("two arguments", made(2, 3, (0, 1, 2)), marked(False), ""), ("three arguments", made(3, 3, (0, 1, 2)), marked(True), ""),
        ("arguments below 0", made(-1, 3, (0, 1, 2)), marked(True), ""), ("variables without values", made(2, 2, (0, 1, 2)), shown(), ""),
        ("no variables", made(2, 0, (0, 1, 2)), shown(), ""), ("a tuple that states less", made(2, 3, (0, 1, 2), 1), marked(False), ""),
        ("a name of 4095 characters", made(2, 3, (0, longest, 2)), marked(False), ""),
        ("a count below 0, before the names", made(2, -1, None), "", bad),
        ("a count of 65536, before the names", made(2, 65536, None), "", "a frame counts 65536 locals"),
        ("no names, and no variables", made(2, 0, None), "", "unreadable at 0xdead0000, 24 bytes"),
        ("a name that is missing", made(2, 3, (0, nowhere, 2)), "", "unreadable at 0xdead0000, 72 bytes"),
        ("a name of 4096 characters", made(2, 3, (0, too_long, 2)), "", bad),
    ):
        yield row(f"dump: locals: {what}", f"{GOOD} -lj", files_of(data), out, line)


def values() -> Iterator[Row]:
    """How values are shown."""

    def shown(what: str, make: Callable[[Objects, int, int], int], text: str, options: str = "-l") -> Row:
        data = of_locals(lambda objects, numbers, texts: [make(objects, numbers, texts)], "v", 0)
        out = TEXT.replace("f (a.py)\n", f"f (a.py)\n        Locals:\n            v: {text}\n")
        return row(f"dump: value: {what}", f"{GOOD} {options}", files_of(data), out)

    def list_of(objects: Objects, items: Sequence[int], count: Optional[int] = None) -> int:
        klass, place = objects.klass("list", 25), objects.free()
        for number, item in enumerate(items):
            objects.word(place + 8 * number, item)
        found = objects.record("list", None, count=len(items) if count is None else count, items=place)
        return objects.of_class(found, klass)

    def itself(objects: Objects, numbers: int, texts: int) -> int:
        found = list_of(objects, [0])
        objects.word(struct.unpack_from("<Q", objects.data, found + 24 - HEAP)[0], found)
        return found

    def of_float(objects: Objects, numbers: int, texts: int) -> int:
        found = objects.record("float", None, value=struct.unpack("<Q", struct.pack("<d", 1.5))[0])
        return objects.of_class(found, objects.klass("float", 0))

    def of_dict(objects: Objects, numbers: int, texts: int) -> int:
        keys = objects.record("keys", None, used=2, slots=8)
        entries = keys + objects.group("keys")["size"] + 8
        objects.write(entries, bytes(48))
        objects.word(entries + 32, objects.text("k", klass=texts))
        objects.word(entries + 40, objects.number(1, numbers))
        return objects.of_class(objects.record("dict", None, keys=keys), objects.klass("dict", 29))

    def scalar(name: str, word: int, flag: int = 0) -> Callable[[Objects, int, int], int]:
        """A value of such a type, whose bytes stand behind the head of an object."""
        return lambda objects, numbers, texts: objects.of_class(
            objects.write(objects.free(), struct.pack("<3Q", 0, 0, word)), objects.klass(name, flag))

    def of_digits(count: int, *digits: int) -> Callable[[Objects, int, int], int]:
        def make(objects: Objects, numbers: int, texts: int) -> int:
            found = objects.record("long", None, count=count)
            objects.write(found + objects.group("long")["digits"], struct.pack(f"<{len(digits)}I", *digits))
            return objects.of_class(found, numbers)

        return make

    def of_tuple(objects: Objects, numbers: int, texts: int) -> int:
        items = [of_digits(-3, 7, 7)(objects, numbers, texts), objects.number(1, objects.klass("bool", 24))]
        return objects.of_class(objects.items(items), objects.klass("tuple", 26))

    letters = lambda count: lambda objects, numbers, texts: objects.text("x" * count, klass=texts)
    for what, make, text in (
        ("two digits", of_digits(2, 1, 1), "1073741825"), ("two digits, below 0", of_digits(-2, 1, 1), "-1073741825"),
        ("three digits", of_digits(3, 7, 7, 7), "+bigint"), ("three digits, below 0", of_digits(-3, 7, 7, 7), "-bigint"),
        ("the least count of digits", of_digits(-2 ** 63, 7), "-bigint"), ("no digits", of_digits(0, 7, 9), "0"),
        ("a number of 8 bytes", scalar("int", 2 ** 64 - 1, 23), "-1"), ("a truth of 8 bytes", scalar("bool", 2 ** 64 - 1, 23), "False"),
        ("a tuple", of_tuple, "(-bigint, True)"),
        ("numpy.bool", scalar("numpy.bool", 1), "true"), ("numpy.bool, false", scalar("numpy.bool", 0), "false"),
        ("numpy.uint8", scalar("numpy.uint8", 0xFE), "254"), ("numpy.uint16", scalar("numpy.uint16", 0xFFFE), "65534"),
        ("numpy.uint32", scalar("numpy.uint32", 0xFFFFFFFE), "4294967294"), ("numpy.uint64", scalar("numpy.uint64", 2 ** 64 - 1), str(2 ** 64 - 1)),
        ("numpy.int8", scalar("numpy.int8", 0xFE), "-2"), ("numpy.int16", scalar("numpy.int16", 0xFFFE), "-2"),
        ("numpy.int32", scalar("numpy.int32", 0xFFFFFFFE), "-2"), ("numpy.int64", scalar("numpy.int64", 2 ** 64 - 1), "-1"),
        ("numpy.float32", scalar("numpy.float32", 0x3FC00000), "float 0x3fc00000"),
        ("numpy.float64", scalar("numpy.float64", 0x3FF8000000000001), "float 0x3ff8000000000001"),
    ):
        yield shown(what, make, text)
    yield shown("a text of 200 letters", letters(200), '"' + "x" * 123 + '..."')
    yield shown("a text of 200 letters, twice", letters(200), '"' + "x" * 200 + '"', "-ll")
    yield shown("a list", lambda objects, numbers, texts: list_of(
        objects, [objects.text("s", klass=texts), objects.number(7, numbers)]), '["s", 7]')
    yield shown("a list that holds itself", itself, "[" * 58 + "..." + "]" * 58)
    yield shown("a list that holds itself, past 256 levels", itself, "?", "-lllll")
    yield shown("a dict with an empty slot", of_dict, '{"k": 1}')
    yield shown("a count below 0", lambda objects, numbers, texts: list_of(objects, [], -1), "?")
    yield shown("a truth", lambda objects, numbers, texts: objects.number(1, objects.klass("bool", 24)), "True")
    yield shown("a float", of_float, "float 0x3ff8000000000000")
    yield shown("none", lambda objects, numbers, texts: objects.of_class(
        objects.record("object"), objects.klass("NoneType", 0)), "None")
    yield shown("what isn't in memory", lambda objects, numbers, texts: 0x70000000, "?")
    places: List[int] = []

    def thing(objects: Objects, numbers: int, texts: int) -> int:
        places.append(objects.of_class(objects.record("object"), objects.klass("thing", 0)))
        return places[0]

    data = of_locals(lambda objects, numbers, texts: [thing(objects, numbers, texts)], "v", 0)
    yield row("dump: value: a thing", f"{GOOD} -l", files_of(data), TEXT.replace(
        "f (a.py)\n", f"f (a.py)\n        Locals:\n            v: <thing at 0x{places[0]:x}>\n"))


def frame_tree(name: str, is_entry: bool, is_shim_entry: bool, locals_of: Optional[List[Dict[str, object]]]) -> Dict[str, object]:
    """The tree of a frame in `a.py`."""
    return {"filename": "a.py", "is_entry": is_entry, "is_shim_entry": is_shim_entry, "line": 0, "locals": locals_of,
            "module": None, "name": name, "short_filename": None}


def tree(*frames: Dict[str, object], os_thread_id: Optional[int] = None) -> str:
    """The text of the tree of the small core's thread."""
    thread = {"active": True, "frames": list(frames), "os_thread_id": os_thread_id, "owns_gil": False, "pid": 0,
              "process_info": None, "thread_id": 0x7F00, "thread_name": None}
    return json.dumps([thread], indent=2, sort_keys=True) + "\n"


def trees() -> Iterator[Row]:
    """JSON, and what it alone shows: marks, ids, addresses."""
    plain = tree(frame_tree("f", True, False, None), frame_tree("<module>", True, True, None))
    yield row("dump: JSON", f"dump -jc core --layouts layouts {IMAGE}", files_of(small()), plain)
    quoted = lambda objects: objects.text('a"\n', FUNCTION)
    yield row("dump: JSON: a name with a quote and a line feed", f"{GOOD} -j", files_of(small(quoted)),
              tree(frame_tree('a"\n', True, False, None), frame_tree("<module>", True, True, None)))
    entry = edited(EXAMPLE, frame="{size=64, code=16, back=24, instr=32, entry=48, locals=56, code_tag_bits=0}")
    marked = lambda objects: objects.record("frame", FRAME, code=CODE, back=CALLER, entry=1)
    yield row("dump: JSON: where C called into Python", f"{GOOD} -j", files_of(small(marked, entry), entry),
              tree(frame_tree("f", True, False, None), frame_tree("<module>", False, True, None)))
    native = edited(EXAMPLE, thread="{size=64, next=8, interp=16, id=32, frame=24, native_id=40}")
    told = lambda objects: objects.record("thread", THREAD, interp=HEAP, id=0x7F00, native_id=4242)
    yield row("dump: JSON: no frames, and the system's id", f"{GOOD} -j", files_of(small(told, native), native),
              tree(os_thread_id=4242))

    def chain(kept: Sequence[bool]) -> Callable[[Objects], None]:
        def change(objects: Objects) -> None:
            shim = objects.record("code", None, filename=objects.text("<shim>"), name=FUNCTION)
            objects.word(THREAD + 24, objects.frames([CODE if it else shim for it in kept]))
        return change

    for what, kept, marks in (
        ("kept, skipped, kept", (True, False, True), (True, True)),
        ("skipped, kept, kept", (False, True, True), (False, True)),
        ("kept, kept, skipped", (True, True, False), (False, True)), ("skipped, skipped", (False, False), ()),
    ):
        frames = [frame_tree("f", True, mark, None) for mark in marks]
        yield row(f"dump: JSON: marks: {what}", f"{GOOD} -j", files_of(small(chain(kept))), tree(*frames))


def unread() -> Iterator[Row]:
    """No layouts, and a core in other segments of the same memory."""
    yield row("dump: layouts of none", GOOD, files_of(small(), "layout = []"), line="no layout for Python 3.9.0")
    objects = heap()
    data, cut = bytes(objects.data), 0x85
    part = lambda first, end, **more: Segment(HEAP + first, data[first:end], READABLE | WRITABLE, **more)
    words = [part(at, at + 8) for at in range(0, len(data), 8)]
    covered = Segment(HEAP + cut - 8, bytes([0xAA] * 8) + data[cut:], READABLE | WRITABLE)
    for what, parts in (
        ("two halves", [part(cut, None), part(0, cut)]), ("a segment for each word", words[::-1]),
        # (the first one's memory goes on without bytes; the second one's first bytes are none of the memory's)
        ("two that overlap", [part(0, cut, size=cut + 16), covered]),
    ):
        yield row(f"dump: other segments of the same memory: {what}", GOOD, files_of(core_file([bss(), *parts, mapped()])), TEXT)
    over = Segment(HEAP + 64, bytes(64), READABLE | WRITABLE)
    yield row("dump: the first segment that holds an address counts", GOOD,
              files_of(small(more=[over])), TEXT)
