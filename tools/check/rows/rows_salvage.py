"""Rows of `pysalvage`: the words, the causes, heads and marks, ends of chains, interpreters, names, and JSON."""

import json
import struct
from typing import Callable, Dict, Iterator, List, Optional, Sequence, Tuple, Union

from made import AARCH64, EXAMPLE, Objects, Section, Segment, Symbol, core_file, edited, image_file, layout_of, note, process_record
from row import Row, row
from small_core import (
    BSS, CALLER, CODE, FILE, FRAME, FUNCTION, HEAP, IMAGE, MODULE_CODE, PATH, TEXT, THREAD, bss, files_of, heap, mapped,
    small,
)

GOOD = f"core --layouts layouts {IMAGE}"
RUNTIME = 0x510000
"""Where `_PyRuntime` is, in a section of 592 bytes: of 3.9 it names the newest interpreter at 32, and that of the current
thread at 568, on aarch64 at 584."""

NAMED = image_file([Segment(0x400000, b"", 5, 0x1000)], (BSS, 16), [Symbol("_PyRuntime", RUNTIME)], [
    Section(".PyRuntime", 1, RUNTIME, None, 592)])
"""The program's file with the runtime."""

STRIPPED = image_file([Segment(0x400000, b"", 5, 0x1000)], (BSS, 16), [], [Section(".PyRuntime", 1, RUNTIME, None, 592)])
"""The same without symbols."""

HELP = """\
pysalvage CORE --layouts FILE [--records FILE] [-n N] [-l].. [-j] [--signal] [--registers]
          [--missing] [--check-layout] [--names] [--tasks] [--exceptions] [--waits]
          [--native [--strict] [--crashed]] [--heap] [PATH=FILE]..

What is left of the Python stacks in the core of a broken process, or in one that was cut: each chain of threads and
frames as far as it goes. Where no mark stands a chain is whole.

CORE            the core's file
--layouts FILE  the layout file
--records FILE  where the fields are that sections need beyond the layouts
-n N            the first N frames of a thread and the last N, from 1 to 4096; 100 unless it is said
-l              the locals of each frame with their values; more of each value by each more, up to five
-j              JSON in place of text
--signal        how the signal came about
--registers     the registers of each thread, and which of Python's threads it is
--missing       in JSON, which ranges were asked for and are not in memory
--check-layout  whether the process itself says that the layout is its own
--names         the names of the threads, of each interpreter
--tasks         the tasks of asyncio, of each interpreter: where they stand and what they wait for
--exceptions    the exceptions that each thread raises and handles, with their tracebacks
--waits         what each thread waits for: a lock and its owner, the interpreter's lock, or a queue
--native        the native stack of each thread, in one with its Python frames
--strict        native stacks without guesses
--crashed       the native stack of the thread that got the signal alone
--heap          the objects of each class that the collector tracks, and their bytes
PATH=FILE       FILE is read in place of the file that the process had mapped from PATH
--help          this text
--version       the version of the program
"""


def rows() -> List[Row]:
    """All of them."""
    parts = (words, order, described, causes, versions, heads, marks, frames, threads, interpreters, names, trees, signals, registers,
             missed)
    return [it for part in parts for it in part()]


def salvage(
    what: str, words: Union[str, Sequence[str]], files: Dict[str, bytes], out: str = "", line: bytes = b"", status: Optional[int] = None,
) -> Row:
    """A row, whose line begins with this program's name."""
    made = row(f"salvage: {what}", words, files, out, status=(1 if line else 0) if status is None else status)
    return Row(made.what, made.words, made.files, made.status, made.out, b"pysalvage: " + line + b"\n" if line else b"")


def group(name: str) -> Dict[str, int]:
    """The places of a group of the layout."""
    found = layout_of(EXAMPLE)[name]
    assert isinstance(found, dict)
    return found


def named(objects: Objects, *interpreters: int, more: Sequence[Segment] = (), notes: Sequence[bytes] = (), machine: int = 62) -> Dict[str, bytes]:
    """The files of a core whose newest interpreter is the first of these, or the usual one. The runtime section names the
    others, and the bss none."""
    maps = [objects.segment(6), mapped(), bss(0, 0), runtime(*(interpreters or (HEAP,))), *more]
    return files_of(core_file(maps, notes, machine), program=NAMED)


def runtime(*interpreters: int) -> Segment:
    """The memory of the runtime section, with these words from the newest interpreter's on."""
    words = struct.pack(f"<{len(interpreters)}Q", *interpreters)
    return Segment(RUNTIME, (bytes(32) + words).ljust(592, b"\0"), 6)


def status_record(signal: int, pid: int, pointer: int = 0, size: int = 336) -> bytes:
    """The note of a thread's status, with the thread pointer of its registers."""
    head = struct.pack("<12xh18xi", signal, pid).ljust(280, b"\0")
    return note(b"CORE\0", 1, (head + struct.pack("<Q", pointer)).ljust(size, b"\0")[:size])


def words() -> Iterator[Row]:
    """What the words ask for."""
    files = files_of(small())
    yield salvage("the help", "--help", {}, HELP)
    yield salvage("the version", "--version", {}, "pysalvage 1.0.0\n")
    for what, text in (
        ("", GOOD), ("an equals sign", f"--layouts=layouts core {IMAGE}"), ("the first image of a path", f"{GOOD} /usr/bin/python3.9=core"),
        ("behind two dashes", f"--layouts layouts -- core {IMAGE}"), ("as many frames as may be", f"{GOOD} -n 4096"),
        ("one frame", f"{GOOD} --frames 1"), ("a bundle", f"core -n100 --layouts layouts {IMAGE}"),
    ):
        yield salvage(f"words: {what}", text, files, TEXT)
    for what, text in (
        ("none", "core"), ("no layouts", f"core {IMAGE}"), ("a core twice", f"{GOOD} core"), ("no frame", f"{GOOD} -n 0"),
        ("too many frames", f"{GOOD} -n 4097"), ("frames twice", f"{GOOD} -n 1 -n 1"), ("help beside others", f"{GOOD} --help"),
        ("JSON twice", f"{GOOD} -j -j"), ("a section twice", f"{GOOD} --signal --signal"), ("a number with a sign", f"{GOOD} -n +1"),
    ):
        yield salvage(f"words: refused: {what}", text, files, line=b"bad words", status=2)


def order() -> Iterator[Row]:
    """The core, the layouts and the images are read; then the layouts are judged, and then the core."""
    files = files_of(small())
    for what, text, line, status in (
        ("the core is read first", f"none --layouts none2 {IMAGE}", b"cannot read none", 3),
        ("the layouts are read before the images", "core --layouts none /a=none2", b"cannot read none", 3),
        ("the images are read", "core --layouts layouts /a=none", b"cannot read none", 3),
        ("the layouts are judged before the core", f"layouts --layouts core {IMAGE}", b"layouts: not TOML", 6),
        ("then the core", f"layouts --layouts layouts {IMAGE}", b"not an ELF64 little-endian file", 1),
    ):
        yield salvage(f"order: {what}", text, files, line=line, status=status)


RECORDS = b"[[records]]\nmajor = 3\nminor = 9\nfirst_patch = 0\nlast_patch = 2\nset_entry = {size=16, key=0, hash=8}\n"
"""A file of records."""


def described() -> Iterator[Row]:
    """The file of records: it is read first and judged first, and its faults have its name."""
    files = {**files_of(small()), "records": RECORDS}
    with_it = f"{GOOD} --records records"
    for what, words, text in (
        ("one that no section needs", with_it, RECORDS), ("of no release", with_it, b"records = []\n"),
        ("an equals sign", f"{GOOD} --records=records", RECORDS),
    ):
        yield salvage(f"records: {what}", words, {**files, "records": text}, TEXT)
    apart = RECORDS.replace(b"first_patch = 0", b"first_patch = 3").replace(b"last_patch = 2", b"last_patch = 3")
    yield salvage("records: two tables of one minor version", with_it, {**files, "records": RECORDS + apart}, TEXT)
    for what, text, line in (
        ("not TOML", b"=", b"records: not TOML"), ("no array", b"records = 1\n", b"records: table 0, key records"),
        ("a key too many", RECORDS + b"more = 1\n", b"records: table 0, key more"),
        ("a key of a group is missing", RECORDS.replace(b", hash=8", b""), b"records: table 0, key set_entry.hash"),
        ("a field past the end", RECORDS.replace(b"hash=8", b"hash=9"), b"records: table 0 is unsound"),
        ("two fields in one place", RECORDS.replace(b"hash=8", b"hash=7"), b"records: table 0 is unsound"),
        ("one group twice for a release", RECORDS + RECORDS, b"records: tables 0 and 1 clash"),
    ):
        yield salvage(f"records: {what}", with_it, {**files, "records": text}, line=line, status=6)
    for what, words, line, status in (
        ("not there", f"{GOOD} --records none", b"cannot read none", 3), ("read first", "none --layouts layouts --records none2", b"cannot read none2", 3),
        ("judged first", f"core --layouts core --records layouts {IMAGE}", b"records: table 0, key records", 6), ("twice", f"{with_it} --records records", b"bad words", 2),
    ):
        yield salvage(f"records: {what}", words, files, line=line, status=status)


def causes() -> Iterator[Row]:
    """Why nothing is left, in the order of the causes."""
    version = Segment(BSS, b"x 3.14.0rc1+dev (main)".ljust(64, b"\0"), 6)
    program = image_file([Segment(0x400000, b"", 5, 0x1000)], (BSS, 64))
    for what, files, line in (
        ("no map with a name", files_of(core_file([heap().segment(6), Segment(0x400000, b"", 5, 0x1000)])), b"no named executable map"),
        ("no image of an odd name", files_of(small(code=mapped(b"/lib/\xff.so"))), b"image not given: /lib/\xff.so"),
        ("a bad image", files_of(small(), program=b"text"), b"bad image: " + PATH),
        ("a version without a layout", files_of(small(bss=version), program=program), b"no layout for Python 3.14.0rc1+dev"),
        ("no interpreter", files_of(small(bss=bss(0x400000, THREAD))), b"no interpreter found: 2 addresses looked at, 0 members walked"),
        ("addresses that repeat", named(Objects(layout_of(EXAMPLE), HEAP), THREAD, THREAD),
         b"no interpreter found: 77 addresses looked at, 0 members walked"),
    ):
        yield salvage(f"cause: {what}", GOOD, files, line=line)


HALF = Segment(BSS, struct.pack("<Q", HEAP), 6, 16)
"""The first word of a bss, which is the interpreter; the other one is missing, so that nothing that is there tells a version."""

BY_NAMES = TEXT.replace("3.9.0", "3.9 (by the names of files)")
"""What is printed where the names of files alone tell the version."""


def versions() -> Iterator[Row]:
    """A version by the names of files, where nothing that is there tells it."""
    other = lambda name: Segment(0x600000, bytes(16), 4, name=name)
    line = b"version unreadable at 0x500000, 16 bytes"
    image = lambda path: GOOD.replace("/usr/bin/python3.9", path)
    yield salvage("version: by the program's name", GOOD, files_of(small(bss=HALF)), BY_NAMES)
    for what, path, name in (
        ("another file's", "/usr/bin/app", b"/lib/python3.9"), ("another file's with more behind it", "/usr/bin/app", b"/lib/python3.9.2"),
        ("another file's with the letter of pymalloc", "/usr/bin/app", b"/lib/python3.9m"),
        ("two files', which tell one", "/usr/bin/python3.9", b"/lib/libpython3.9.txt"),
    ):
        yield salvage(f"version: by {what}", image(path), files_of(small(code=mapped(path.encode()), bss=HALF, more=[other(name)])), BY_NAMES)
    for what, path, name in (
        ("two files, which tell two", "/usr/bin/python3.9", b"/lib/libpython3.8.txt"), ("a major number alone", "/usr/bin/app", b"/lib/python3"),
        ("a folder's name", "/usr/bin/app", b"/lib/python3.9/a"), ("a version without a layout", "/usr/bin/app", b"/lib/python3.10"),
        ("a free-threaded build", "/usr/bin/app", b"/lib/python3.9t"), ("a build that counts references", "/usr/bin/app", b"/lib/python3.9d"),
        ("another word in front", "/usr/bin/app", b"/lib/xpython3.9"),
    ):
        yield salvage(f"version: none by {what}", image(path), files_of(small(code=mapped(path.encode()), bss=HALF, more=[other(name)])),
                      line=line)
    yield salvage("version: by names, as JSON", f"{GOOD} -j --missing", files_of(small(bss=HALF)), text_of_json(by_names()))
    yield salvage("version: by names, without records", f"{GOOD} -j --tasks --records records", {**files_of(small(bss=HALF)), "records": RECORDS},
                  text_of_json({**by_names(), "missing": None, "tasks": [
                      {"frameworks": {"curio": False, "greenlet": False, "trio": False}, "interpreter": hex(HEAP), "tasks": None}]}))


def by_names() -> Dict[str, object]:
    """The JSON of the small core without half of its bss, of which the missing range is told."""
    tree = broken_tree(0, [0, BSS >> 16])
    interpreters = tree["interpreters"]
    assert isinstance(interpreters, list)
    interpreters[0]["searched"] = True
    interpreters[0]["threads"][0]["frames"]["end"] = {"kind": "whole"}
    return {**tree, "version": "3.9", "version_by_names": True}


def text_of_json(tree: Dict[str, object]) -> str:
    """An object as it is printed."""
    return json.dumps(tree, indent=2, ensure_ascii=False) + "\n"


def heads() -> Iterator[Row]:
    """The lines of the signal and the process."""
    notes = [status_record(11, 4), status_record(6, 5), process_record(4, b"python3", b'python3 -c "a\xff\n"\0x')]
    yield salvage("signal and process", GOOD, files_of(small(notes=notes)),
                  'Signal 11: core\nProcess 4: python3 -c "a\ufffd\\u{a}"\n' + TEXT)
    odd = 'a"\\\nThread 0x1 (gil)\x1b\u2028é'
    files = files_of(small(notes=notes[:1]))
    yield salvage("a core of an odd name", [odd, *GOOD.split(" ")[1:]], {**files, odd: files["core"]},
                  'Signal 11: a"\\\\u{a}Thread 0x1 (gil)\\u{1b}\\u{2028}é\n' + TEXT)


def marks() -> Iterator[Row]:
    """Who holds the lock, and who got the signal: by the thread pointer of the registers, where the machine has it there."""
    crashed = TEXT.replace("0x7F00", "0x7F00 (crashed)")
    for what, notes, machine, text in (
        ("by its thread pointer", [status_record(11, 4, 0x7F00)], 62, crashed), ("a signal of 0", [status_record(0, 4, 0x7F00)], 62, TEXT),
        ("the first record alone", [status_record(11, 4), status_record(6, 5, 0x7F00)], 62, TEXT),
        ("a record without registers", [status_record(11, 4, 0x7F00, 284)], 62, TEXT),
        ("another machine", [status_record(11, 4, 0x7F00)], AARCH64, TEXT),
    ):
        signal = 0 if "of 0" in what else 11
        yield salvage(f"crashed: {what}", GOOD, named(heap(), notes=notes, machine=machine), f"Signal {signal}: core\n" + text)
    objects = Objects(layout_of(EXAMPLE), HEAP)
    objects.record("interpreter", HEAP)
    objects.threads(HEAP, [{"id": number} for number in (1, 2, 3)])
    yield salvage("the crashed thread first", GOOD, named(objects, notes=[status_record(11, 4, 2)]),
                  "Signal 11: core\nPython v3.9.0\n\nThread 0x2 (crashed)\nThread 0x3\nThread 0x1\n")
    nobody = Objects(layout_of(EXAMPLE), HEAP)
    nobody.record("interpreter", HEAP)
    nobody.threads(HEAP, [{"id": number} for number in (0, 1, 0)])
    yield salvage("an id of 0 marks no thread", GOOD, named(nobody, notes=[status_record(11, 4)]),
                  "Signal 11: core\nPython v3.9.0\n\nThread 0x0\nThread 0x1\nThread 0x0\n")
    lock = heap()
    lock.word(HEAP + 24, 0x70000000)
    gil = edited(EXAMPLE, lock='"gil"', interpreter="{threads=8, modules=16, gil=24}", gil="{size=24, locked=16, holder=8}")
    yield salvage("a lock that can't be read", GOOD, {**named(lock), "layouts": gil.encode()},
                  TEXT.replace("Thread", "... lock unreadable at 0x70000000, 24 bytes\nThread"))


def lined(step: int) -> Callable[[Objects], None]:
    """Has the line of `f` be so far from the third one, which is its first."""
    def change(objects: Objects) -> None:
        table = objects.table(bytes([0, step % 256]))
        objects.record("code", CODE, filename=FILE, name=FUNCTION, first_line=3, table=table)
    return change


def frames() -> Iterator[Row]:
    """Frames, as far as they go."""
    head = "Python v3.9.0\n\nThread 0x7F00\n"
    first, last = "    f (a.py)\n", "    <module> (a.py)\n"
    code, frame, string = (group(it) for it in ("code", "frame", "string"))
    missing = f"    ... unreadable at 0x70000000, {frame['size']} bytes\n"
    for what, change, text in (
        ("no frame", lambda it: it.record("thread", THREAD, interp=HEAP, frame=0, id=0x7F00), ""),
        ("a frame that is missing", lambda it: it.frame(at=FRAME, code=CODE, back=0x70000000),
         first + missing),
        ("a first frame that is missing", lambda it: it.record("thread", THREAD, interp=HEAP, frame=0x70000000, id=0x7F00),
         missing),
        ("a name that is missing", lambda it: it.word(CODE + code["name"], 0x70000000),
         f"    ? unreadable at 0x70000000, {string['size']} bytes\n" + last),
        ("a name that is too long", lambda it: it.word(FUNCTION + string["length"], -1), "    ? a name that is too long\n" + last),
        ("a line", lined(1), "    f (a.py:4)\n" + last), ("a line below 1", lined(-9), first + last),
        ("a shim", lambda it: it.word(CODE + code["filename"], 0), last),
    ):
        objects = heap()
        change(objects)
        yield salvage(f"frames: {what}", GOOD, named(objects), head + text)
    for what, count, limit, text in (
        ("all of 2 N", 4, 2, first * 3 + last), ("2 N + 1", 5, 2, first * 2 + "    ... 1 more frames\n" + first + last),
        ("a deep recursion", 20000, 1, first + "    ... 19998 more frames\n" + last),
    ):
        objects = heap()
        chain = objects.frames([CODE] * (count - 2), CALLER)
        objects.frame(at=FRAME, code=CODE, back=chain)
        yield salvage(f"frames: {what}", f"{GOOD} -n {limit}", named(objects), head + text)
    cycle = heap()
    cycle.frame(at=CALLER, code=MODULE_CODE, back=CALLER)
    yield salvage("frames: a cycle", f"{GOOD} -n 1", named(cycle),
                  head + first + "    ... 1048574 more frames\n" + last + "    ... cut after 1048576 members\n")
    five = heap()
    five.frame(at=FRAME, code=CODE, back=FRAME)
    five.threads(HEAP, [{"id": number, "frame": FRAME} for number in range(1, 6)])
    whole = f"{first}    ... 1048574 more frames\n{first}    ... cut after 1048576 members\n"
    yield salvage("frames: a cycle in each of five threads", f"{GOOD} -n 1", named(five),
                  "Python v3.9.0\n\nThread 0x5\n    ... cut after 0 members\n"
                  + "".join(f"Thread 0x{number:X}\n{whole}" for number in (4, 3, 2, 1)))


def threads() -> Iterator[Row]:
    """Threads, as far as they go."""
    head = "Python v3.9.0\n\n"
    for what, fields, text in (
        ("a thread that is missing", [{"id": 1}, {"id": 2, "next": 0x70000000}],
         "... threads unreadable at 0x70000000, 64 bytes\nThread 0x2\nThread 0x1\n"),
        ("a thread of another interpreter", [{"id": 1}, {"id": 2, "interp": 0x99}], "... threads of the interpreter at 0x99\nThread 0x1\n"),
        ("more than 4096", [{"id": number} for number in range(1, 4098)],
         "... more than 4096 threads\n" + "".join(f"Thread 0x{number:X}\n" for number in reversed(range(1, 4097)))),
    ):
        objects = Objects(layout_of(EXAMPLE), HEAP)
        objects.record("interpreter", HEAP)
        objects.threads(HEAP, fields)
        yield salvage(f"threads: {what}", GOOD, named(objects), head + text)


def several(count: int, is_chained: bool) -> Tuple[Objects, List[int]]:
    """So many interpreters with a thread each, of the ids 1, 2 and so on, and their addresses; each names the next one,
    where they are chained."""
    objects = Objects(layout_of(EXAMPLE), HEAP)
    places = []
    for number in range(count):
        places.append(objects.record("interpreter"))
        objects.threads(places[-1], [{"id": number + 1}])
    for place, after in zip(places, places[1:] if is_chained else ()):
        objects.word(place, after)
    return objects, places


def interpreters() -> Iterator[Row]:
    """Several interpreters, each by how it was found; one that was found by search is shown where its threads are whole."""
    head = "Python v3.9.0\n\n"
    objects, (one, two) = several(2, True)
    text = f"Interpreter 0x{one:x}\nThread 0x1\nInterpreter 0x{two:x}\nThread 0x2\n"
    yield salvage("interpreters: two", GOOD, named(objects, one), head + text)
    yield salvage("interpreters: the crashed one first", GOOD, named(objects, one, notes=[status_record(11, 4, 2)]),
                  "Signal 11: core\n" + head + f"Interpreter 0x{two:x}\nThread 0x2 (crashed)\nInterpreter 0x{one:x}\nThread 0x1\n")
    idle = objects.record("interpreter")
    objects.word(idle, one)
    yield salvage("interpreters: the newest one without threads", GOOD, named(objects, idle), head + text)
    objects, (one, two) = several(2, False)
    idle, idler = objects.record("interpreter"), objects.record("interpreter")
    for place, after in ((one, idle), (idle, idler), (idler, two)):
        objects.word(place, after)
    text = f"Interpreter 0x{one:x}\nThread 0x1\nInterpreter 0x{two:x}\nThread 0x2\n"
    yield salvage("interpreters: behind two without threads", GOOD, named(objects, one), head + text)
    objects.word(idle, idle)
    yield salvage("interpreters: one without threads that is its own next", GOOD, named(objects, one), head + "Thread 0x1\n")
    objects, places = several(17, True)
    many = "".join(f"Interpreter 0x{place:x}\nThread 0x{number + 1:X}\n" for number, place in enumerate(places[:16]))
    yield salvage("interpreters: seventeen", GOOD, named(objects, places[0]), head + many + "... more than 16 interpreters\n")
    objects, (one, two) = several(2, False)
    found = f"Interpreter 0x{one:x}\nThread 0x1\nInterpreter 0x{two:x} (found by search)\nThread 0x2\n"
    yield salvage("interpreters: by search in the runtime section", GOOD, named(objects, one, two), head + found)
    yield salvage("interpreters: one twice", GOOD, named(objects, one, one), head + "Thread 0x1\n")
    maps = [objects.segment(6), mapped(), bss(0, two), runtime(one)]
    yield salvage("interpreters: by search", GOOD, files_of(core_file(maps), program=NAMED), head + found)
    objects.word(one, one)
    searched = f"Interpreter 0x{one:x} (found by search)\nThread 0x1\n"
    yield salvage("interpreters: by search, one that names itself", GOOD, named(objects, 0, one, two),
                  head + searched + f"Interpreter 0x{two:x} (found by search)\nThread 0x2\n")
    objects, (one, two) = several(2, True)
    told = f"Interpreter 0x{two:x}\nThread 0x2\n"
    yield salvage("interpreters: by search, one that names the other", GOOD, named(objects, 0, one, two), head + searched + told)
    yield salvage("interpreters: by search, one that names the one before", GOOD, named(objects, 0, two, one), head + told + searched)
    broken = heap()
    broken.record("thread", THREAD, interp=HEAP, next=0x70000000, id=0x7F00)
    yield salvage("interpreters: by search, with a broken chain", GOOD, files_of(core_file([broken.segment(6), mapped(), bss()])),
                  line=b"no interpreter found: 2 addresses looked at, 1 members walked")
    yield salvage("interpreters: by search in the runtime section, with a broken chain", GOOD, named(broken, 0, HEAP),
                  line=b"no interpreter found: 77 addresses looked at, 1 members walked")
    yield from parts_of_sections()
    maps = [broken.segment(6), mapped(), bss(0, 0), runtime(HEAP)]
    yield salvage("interpreters: by the place of the runtime section, with a broken chain", GOOD,
                  files_of(core_file(maps), program=STRIPPED), head + "... threads unreadable at 0x70000000, 64 bytes\nThread 0x7F00\n")


def parts_of_sections() -> Iterator[Row]:
    """The words that are there of a runtime section of which some are missing, and the budget of the search."""
    objects, (one, two) = several(2, False)
    found = lambda lock: f"Python v3.9.0\n\nInterpreter 0x{one:x}\n{lock}Thread 0x1\nInterpreter 0x{two:x} (found by search)\n{lock}Thread 0x2\n"
    lost = "... lock unreadable at 0x510238, 8 bytes\n"
    whole = runtime(one, two).data
    for what, parts in (
        ("its last word", [(0, 584)]), ("half of its last word", [(0, 588)]), ("its first word", [(8, 592)]),
        ("a byte of its first word", [(1, 592)]), ("one between", [(0, 256), (264, 592)]), ("all but the two", [(32, 48)]),
    ):
        maps = [objects.segment(6), mapped(), bss(0, 0), *(Segment(RUNTIME + begin, whole[begin:end], 6) for begin, end in parts)]
        yield salvage(f"interpreters: by search in the runtime section without {what}", GOOD, files_of(core_file(maps), program=NAMED),
                      found(lost if len(parts) == 1 and parts[0][1] < 576 else ""))
    ring = heap()
    ring.record("thread", THREAD, interp=HEAP, next=THREAD, id=0x7F00)
    place = ring.record("interpreter")
    ring.threads(place, [{"id": 1}])
    image = image_file([Segment(0x400000, b"", 5, 0x1000)], (BSS, 8 * 1100))
    maps = [ring.segment(6), mapped(), bss(*[0x400000] * 50, *[HEAP] * 1050)]
    yield salvage("interpreters: as many members as are walked by search", GOOD, files_of(core_file(maps), program=image),
                  line=b"no interpreter found: 1074 addresses looked at, 4194304 members walked")
    maps = [ring.segment(6), mapped(), bss(place, *[HEAP] * 1099)]
    ended = "... the search ended after {} members and {} addresses\n"
    yield salvage("interpreters: one, and as many members as are walked by search", GOOD, files_of(core_file(maps), program=image),
                  "Python v3.9.0\n\nThread 0x1\n" + ended.format(4096 * 1024 + 1, 1025))
    maps = [ring.segment(6), mapped(), bss(place, 0)]
    image = image_file([Segment(0x400000, b"", 5, 0x1000)], (BSS, 8 * 4194305))
    yield salvage("interpreters: one, and more words than are looked at in a section", GOOD, files_of(core_file(maps), program=image),
                  "Python v3.9 (by the names of files)\n\nThread 0x1\n" + ended.format(1, 2))
    tree = by_names()
    yield salvage("interpreters: JSON of a search that ended", f"{GOOD} -j", files_of(small(bss=bss(HEAP, 0)), program=image),
                  text_of_json({**tree, "missing": None, "search_ended": {"addresses": 2, "members": 1}}))


def names() -> Iterator[Row]:
    """A name forges no line."""
    objects = heap()
    objects.text('f\n"\\\x1b', FUNCTION)
    yield salvage("names: a line feed", GOOD, named(objects), TEXT.replace("f (", "f\\u{a}\\u{22}\\u{5c}\\u{1b} (", 1))
    for why in (f"unreadable at 0x70000000, {group('string')['size']} bytes", "a name that is too long", "a name that is no text"):
        objects = heap()
        objects.text("?", FUNCTION)
        objects.word(CODE + group("code")["filename"], objects.text(why))
        yield salvage(f"names: as those of a member that has none: {why}", GOOD, named(objects), TEXT.replace("f (a.py)", f"? ({why})", 1))


def trees() -> Iterator[Row]:
    """JSON."""
    member = lambda name: {"filename": "a.py", "line": 0, "locals": None, "locals_fault": None, "name": name}
    frames = {"between": 0, "end": {"kind": "whole"}, "first": [member("f"), member("<module>")], "last": [], "met": 2}
    thread = {"address": hex(THREAD), "crashed": True, "frames": frames, "gil": False, "name": None, "os_thread_id": None,
              "thread_id": 0x7F00}
    interpreter = {"address": hex(HEAP), "lock": {"holder": 0, "kind": "read"}, "searched": False, "threads": [thread],
                   "threads_end": {"kind": "whole"}}
    tree = {"exceptions": None, "heap": None, "interpreters": [interpreter], "layout_check": None, "missing": None, "more": False, "names": None,
            "native": None, "process": {"arguments": "p\n", "pid": 4}, "registers": None, "search_ended": None, "signal": 11, "signal_info": None, "stacks": None,
            "tasks": None, "version": "3.9.0", "version_by_names": False, "waits": None}
    notes = [status_record(11, 4, 0x7F00), process_record(4, b"p", b"p\n")]
    text = lambda it: json.dumps(it, indent=2, ensure_ascii=False) + "\n"
    yield salvage("JSON", f"{GOOD} -j", named(heap(), notes=notes), text(tree))
    yield salvage("JSON of a heap that isn't described", f"{GOOD} -j --heap", named(heap(), notes=notes), text(tree))
    below = heap()
    lined(-9)(below)
    unmarked = {**interpreter, "threads": [{**thread, "crashed": False}]}
    yield salvage("JSON of a line below 1", f"{GOOD} -j", named(below), text({**tree, "interpreters": [unmarked], "process": None, "signal": None}))
    cut = heap()
    cut.word(CODE + group("code")["name"], 0x70000000)
    cut.frame(at=CALLER, code=MODULE_CODE, back=0x70000008)
    lost = lambda address, of: {"address": address, "kind": "unreadable", "length": group(of)["size"]}
    broken = {**frames, "end": lost("0x70000008", "frame"), "first": [
        {"address": hex(FRAME), "why": lost("0x70000000", "string")}, member("<module>")]}
    plain = {**interpreter, "threads": [{**thread, "crashed": False, "frames": broken}]}
    yield salvage("JSON of what is broken", f"{GOOD} -j", named(cut), text({**tree, "interpreters": [plain], "process": None, "signal": None}))


def signal_record(signal: int, code: int, union: bytes = b"", size: int = 128) -> bytes:
    """The note of a signal."""
    return note(b"CORE\0", 0x53494749, (struct.pack("<iii4x", signal, 0, code) + union).ljust(size, b"\0")[:size])


def signals() -> Iterator[Row]:
    """How the signal came about."""
    address, sender = struct.pack("<Q", 0x1234), struct.pack("<iI", 77, 1000)
    for signal, code, union, line in (
        (11, 1, address, "SIGSEGV at 0x1234: address not mapped"), (11, 2, address, "SIGSEGV at 0x1234: no permission"),
        (11, 77, address, "SIGSEGV at 0x1234: code 77"), (7, 2, address, "SIGBUS at 0x1234: no such physical address"),
        (8, 1, address, "SIGFPE at 0x1234: integer division by zero"), (4, 2, address, "SIGILL at 0x1234: illegal operand"),
        (5, 1, address, "SIGTRAP at 0x1234: breakpoint"),
        (11, 128, bytes(8), "SIGSEGV, no address: an address that can't be one, or a protection fault"),
        (5, 128, bytes(8), "SIGTRAP by the system"), (6, -6, struct.pack("<iI", 4, 0), "SIGABRT by itself"),
        (15, 0, sender, "SIGTERM by process 77, user 1000"), (10, -1, sender, "SIGUSR1 by process 77, user 1000"),
        (31, 1, address + struct.pack("<i", 59), "SIGSYS at 0x1234: a filter refused call 59"), (29, 3, b"", "SIGIO with code 3"),
        (40, 0, sender, "signal 40 by process 77, user 1000"),
    ):
        notes = [status_record(signal, 4), process_record(4, b"p", b"p"), signal_record(signal, code, union)]
        head = f"Signal {signal}: core\n{line}\nProcess 4: p\n"
        yield salvage(f"signal: {line}", f"{GOOD} --signal", named(heap(), notes=notes), head + TEXT)
    for what, notes, line in (
        ("gcore's", [status_record(0, 4), signal_record(0, 128)], "No signal is told by the first thread's record"),
        ("no note", [status_record(11, 4)], "No note tells how the signal came about"),
        ("another signal's", [status_record(11, 4), signal_record(6, -6)], "The note is of SIGABRT, another signal"),
        ("a short note", [status_record(11, 4), signal_record(11, 1, address, 23)], "The note of the signal is too short"),
    ):
        signal = 0 if what == "gcore's" else 11
        yield salvage(f"signal: {what}", f"{GOOD} --signal", named(heap(), notes=notes), f"Signal {signal}: core\n{line}\n{TEXT}")


NAMES = "r15 r14 r13 r12 rbp rbx r11 r10 r9 r8 rax rcx rdx rsi rdi orig_rax rip cs eflags rsp ss fs_base gs_base ds es fs gs".split()
"""The registers of x86-64, in the order of a status record."""


def registers_text(*held: int) -> str:
    """The lines of the registers that hold these."""
    cells = [f" {name:>8} {value:016x}" for name, value in zip(NAMES, held)]
    return "".join("\n   " + "".join(cells[at : at + 4]) for at in range(0, len(cells), 4)) + "\n"


def registers() -> Iterator[Row]:
    """The registers of each thread."""
    held = [0] * 27
    held[21] = 0x7F00
    notes = [status_record(0, 5), status_record(0, 4, 0x7F00), status_record(0, 6, 0x7F00, 200), process_record(4, b"p", b"p")]
    lines = ["Thread 5 (none of Python's)" + registers_text(*[0] * 27), "Thread 4 (Python's 0x7F00)" + registers_text(*held),
             "Thread 6 (whose is not told): no registers\n"]
    head = "Signal 0: core\nProcess 4: p\n"
    yield salvage("registers", f"{GOOD} --registers", named(heap(), notes=notes), head + TEXT + "".join(lines))


def broken_caller(back: int) -> Dict[str, bytes]:
    """The files of a core in which a chain of frames leads to this address."""
    objects = heap()
    objects.frame(at=CALLER, code=MODULE_CODE, back=back)
    return named(objects)


def missed_object(blocks: Sequence[int]) -> Dict[str, object]:
    """What tells of refused reads."""
    return {"missing": {"above": 0, "blocks": list(blocks)}}


def broken_tree(back: int, blocks: Sequence[int]) -> Dict[str, object]:
    """What is told of a core in which a chain of frames leads to this address, and of its refused reads."""
    member = lambda name: {"filename": "a.py", "line": 0, "locals": None, "locals_fault": None, "name": name}
    end = {"address": hex(back), "kind": "unreadable", "length": group("frame")["size"]}
    frames = {"between": 0, "end": end, "first": [member("f"), member("<module>")], "last": [], "met": 2}
    thread = {"address": hex(THREAD), "crashed": False, "frames": frames, "gil": False, "name": None, "os_thread_id": None,
              "thread_id": 0x7F00}
    interpreter = {"address": hex(HEAP), "lock": {"holder": 0, "kind": "read"}, "searched": False, "threads": [thread],
                   "threads_end": {"kind": "whole"}}
    return {"exceptions": None, "heap": None, "interpreters": [interpreter], "layout_check": None, **missed_object(blocks), "more": False, "names": None,
            "native": None, "process": None, "registers": None, "search_ended": None, "signal": None, "signal_info": None, "stacks": None, "tasks": None,
            "version": "3.9.0", "version_by_names": False, "waits": None}


def missed() -> Iterator[Row]:
    """Which reads were refused, by blocks of 65,536 bytes. Block 0 is that of a word 0, which is tried as an interpreter."""
    missing = f"{GOOD} --missing"
    text = lambda it: json.dumps(it, indent=2, ensure_ascii=False) + "\n"
    yield salvage("missing: the text is the same", missing, files_of(small()), TEXT)
    for what, files, line, blocks in (
        ("no interpreter", files_of(small(bss=bss(0x400000, THREAD))), b"no interpreter found: 2 addresses looked at, 0 members walked", []),
        ("half a bss", files_of(small(bss=Segment(BSS, bytes(8), 6, 16))),
         b"no interpreter found: 1 addresses looked at, 0 members walked", [BSS >> 16]),
        ("no core", {**files_of(small()), "core": b"text"}, b"not an ELF64 little-endian file", []),
    ):
        yield salvage(f"missing: {what}", missing, files, text(missed_object(blocks)), line)
    unnamed = files_of(small(code=mapped(b"/usr/bin/python"), bss=HALF))
    yield salvage("missing: half a bss of a program whose name tells no version", missing.replace("python3.9", "python"), unnamed,
                  text(missed_object([BSS >> 16])), b"version unreadable at 0x500000, 16 bytes")
    faulty = files_of(small(), "")
    yield salvage("missing: a faulty layout file", missing, faulty, line=b"layouts: table 0, key layout", status=6)
    for back, blocks in (
        (0x70000008, [0, 0x7000]), (0x7000FFC0, [0, 0x7000]), (0x7000FFF8, [0, 0x7000, 0x7001]), (2**64 - 8, [0, 2**48 - 1]),
    ):
        yield salvage(f"missing: a frame at {back:#x}", f"{missing} -j", broken_caller(back), text(broken_tree(back, blocks)))
