"""Rows of `pystacks walk`: handed-in addresses, layouts and their families, chains and their limits."""

import struct
from typing import Callable, Dict, Iterator, List, Sequence, Tuple

from made import EXAMPLE, NOTE, Objects, Segment, core_file, edited, elf_file, layout_of, note
from row import Row, row
from small_core import CODE, FILE, FRAME, FUNCTION, HEAP, MODULE_CODE, TEXT, THREAD, heap

GOOD = "walk core sample 3.9.0 0x10000 0"

HELD = TEXT.replace("0x7F00", "0x7F00 (gil)")


def small(change: Callable[[Objects], object] = lambda objects: None, text: str = EXAMPLE) -> bytes:
    """The small core, with a change of its objects."""
    objects = heap(text)
    change(objects)
    return core_file([objects.segment(6)])


def rows() -> List[Row]:
    """All of them."""
    return [*words(), *cores(), *layout_files(), *layout_flaws(), *orders(), *families(), *chains(), *texts()]


def words() -> Iterator[Row]:
    """What the words ask for."""
    files = {"core": small()}
    yield row("walk", GOOD, files, TEXT)
    yield row("walk: numbers in decimal", "walk core sample 3.9.0 65536 0x0", files, TEXT)
    yield row("walk: leading zeros", "walk core sample 003.09.0 0x000000000010000 00", files, TEXT)
    yield row("walk: a file named sample", "walk core ./sample 3.9.0 0x10000 0", {**files, "sample": b"[[layout"},
              line="layouts: not TOML", status=6)
    for what, text in (
        ("no words", ""), ("another command", "dude"), ("a front of walk", "wal core sample 3.9.0 0x10000 0"),
        ("a word less", "walk core sample 3.9.0 0x10000"), ("a word more", GOOD + " 0"),
        ("a version of two numbers", "walk core sample 3.9 0x10000 0"),
        ("a version with a flag", "walk core sample 3.9.0rc1 0x10000 0"),
        ("a number of four digits", "walk core sample 3.9.0000 0x10000 0"),
        ("an address in other digits", "walk core sample 3.9.0 10000h 0"), ("0X", "walk core sample 3.9.0 0X10000 0"),
        ("a number past 64 bits", "walk core sample 3.9.0 18446744073709551616 0"),
        ("a sign", "walk core sample 3.9.0 +65536 0"), ("an empty number", "walk core sample 3.9.0 0x 0"),
        ("another case", GOOD.replace("walk", "Walk")), ("no digits", "walk core sample 3.9.0  0"),
        ("a version of four numbers", "walk core sample 3.9.0.1 0x10000 0"),
        ("a version without a minor", "walk core sample 3..0 0x10000 0"),
        ("17 hexadecimal digits", "walk core sample 3.9.0 0x1000000000000000f 0"),
        ("hexadecimal digits alone", "walk core sample 3.9.0 ff 0"), ("a lock below 0", "walk core sample 3.9.0 0x10000 -1"),
        ("no lock", "walk core sample 3.9.0 0x10000 "),
    ):
        yield row(f"walk: words: {what}", text, files, line="bad words", status=2)
    for what, text, name in (
        ("a core of an empty name", "walk  sample 3.9.0 0x10000 0", ""), ("a folder for a core", "walk . sample 3.9.0 0x10000 0", "."),
        ("a layout file of an empty name", "walk core  3.9.0 0x10000 0", ""),
        ("a core below a file", "walk core/core sample 3.9.0 0x10000 0", "core/core"),
    ):
        yield row(f"walk: {what}", text, files, line=f"cannot read {name}", status=3)
    yield row("walk: digits of either case", "walk core sample 3.9.0 0xfFaB 0", files, line="unreadable at 0xffb3, 8 bytes")
    yield row("walk: the greatest address", "walk core sample 3.9.0 18446744073709551615 0", files,
              line="unreadable at 0xffffffffffffffff, 8 bytes")


def files_note(count: int, names: bytes) -> bytes:
    """A file table that says so many entries, and has two, of a page each, and names."""
    entries = (2 ** 22, 2 ** 22 + 4096, 0, 5 * 2 ** 20, 5 * 2 ** 20 + 4096, 0)
    return note(b"CORE\0", 0x46494C45, struct.pack("<8Q", count, 4096, *entries) + names)


def many_segments(count: int) -> bytes:
    """The small core among so many segments, each other one of one byte and apart from the next."""
    others = [Segment(0x100000 + 16 * index, b"A", 4) for index in range(count - 1)]
    return core_file([*others[::2], heap().segment(6), *others[1::2]])


def cores() -> Iterator[Row]:
    """What is no core, and what isn't in memory."""
    whole = small()
    bare = elf_file(4, [heap().segment(6)])
    long_table = note(b"CORE\0", 0x46494C45, struct.pack("<2Q", 2 ** 60, 4096))
    two_files = files_note(2, b"a\0b\0")
    with_notes = lambda notes: elf_file(4, [heap().segment(6), Segment(0, notes, 0, kind=NOTE)])
    not_elf, header = "not an ELF64 little-endian file", "bad program headers"
    for what, data, line in (
        ("no bytes", b"", not_elf), ("text", b"text", not_elf), ("63 bytes", whole[:63], not_elf),
        ("32 bits", whole[:4] + b"\1" + whole[5:], not_elf), ("big-endian", whole[:5] + b"\2" + whole[6:], not_elf),
        ("a byte less", whole[:-1], header), ("a header alone", whole[:64], header),
        ("65535 program headers", whole[:56] + b"\xff\xff" + whole[58:], header),
        ("headers of another size", whole[:54] + b"\x39\0" + whole[56:], header),
        ("a segment that ends past 2^64 - 1", whole[:80] + b"\xff" * 8 + whole[88:], header),
        ("no note segment", bare, "no note segment"),
        ("a note of 11 bytes", with_notes(bytes(11)), "bad note"),
        ("a short status record", with_notes(note(b"CORE\0", 1, bytes(111))), "bad note"),
        ("a short process record", with_notes(note(b"CORE\0", 3, bytes(135))), "bad note"),
        ("a file table of 2^60 entries", with_notes(long_table), "bad note"),
        ("a file table of 15 bytes", with_notes(note(b"CORE\0", 0x46494C45, bytes(15))), "bad note"),
        ("a file table of fewer names", with_notes(files_note(2, b"a\0b")), "bad note"),
        ("a file table of fewer entries", with_notes(files_note(3, b"a\0b\0c\0")), "bad note"),
    ):
        yield row(f"walk: core: {what}", GOOD, {"core": data}, line=line)
    for what, notes in (
        ("a short record of another type", note(b"CORE\0", 2, b"")),
        ("a status record of 112 bytes", note(b"CORE\0", 1, bytes(112))),
        ("a process record of 136 bytes", note(b"CORE\0", 3, bytes(136))),
        ("a file table of 16 bytes", note(b"CORE\0", 0x46494C45, bytes(16))),
        ("a file table of all its names", two_files),
        ("empty names", files_note(2, b"\0\0")),
        ("two file tables", two_files + files_note(2, b"c\0d\0")),
    ):
        yield row(f"walk: core: {what}", GOOD, {"core": with_notes(notes)}, TEXT)
    yield row("walk: core: 65,533 segments", GOOD, {"core": many_segments(65533)}, TEXT)
    files = {"core": whole}
    yield row("walk: no layout", "walk core sample 3.8.0 0x10000 0", files, line="no layout for Python 3.8.0")
    yield row("walk: no interpreter there", "walk core sample 3.9.0 0x20000 0", files,
              line="unreadable at 0x20008, 8 bytes")
    yield row("walk: the lock's word", "walk core sample 3.9.0 0x10000 0x10008", files, HELD)
    yield row("walk: the lock's word names no thread", "walk core sample 3.9.0 0x10000 0x10000", files, TEXT)
    yield row("walk: the lock's word is missing", "walk core sample 3.9.0 0x10000 0x20000", files,
              line="unreadable at 0x20000, 8 bytes")
    yield row("walk: the holder is missing, before the threads", "walk core sample 3.9.0 0x20000 0x10118", files,
              line="unreadable at 0x3, 64 bytes")
    yield row("walk: the threads are missing, behind the holder", "walk core sample 3.9.0 0x20000 65544", files,
              line="unreadable at 0x20008, 8 bytes")
    yield row("walk: no lock, and a thread of id 0", GOOD, {"core": small(lambda it: it.word(THREAD + 32, 0))},
              TEXT.replace("0x7F00", "0x0 (gil)"))
    yield row("walk: no file", "walk none sample 3.9.0 0x10000 0", files, line="cannot read none", status=3)
    yield row("walk: a folder", "walk . sample 3.9.0 0x10000 0", files, line="cannot read .", status=3)
    yield row("walk: no memory", GOOD, files, line="out of memory", status=5, lengths={"core": 1 << 30}, memory=1 << 28)


def layout_files() -> Iterator[Row]:
    """Layout files, and what is wrong with them."""
    later = edited(EXAMPLE, first_minor="10", last_minor="10")
    ten = "".join(edited(EXAMPLE, first_minor=str(at), last_minor=str(at)) for at in range(10, 20))
    for what, text, line, status in (
        ("the example", EXAMPLE, "", 0), ("two layouts", later + EXAMPLE, "", 0),
        ("minors the wrong way round", edited(EXAMPLE, first_minor="10"), "layouts: table 0 is unsound", 6),
        ("the eleventh is unsound", ten + edited(EXAMPLE, last_minor="8"), "layouts: table 10 is unsound", 6),
        ("twice the same", EXAMPLE * 2, "layouts: tables 0 and 1 clash", 6),
        ("the first and the fourth", EXAMPLE + later + edited(later, major="2") + EXAMPLE,
         "layouts: tables 0 and 3 clash", 6),
        ("no group", edited(EXAMPLE, tuple=""), "layouts: table 0, key tuple", 6),
        ("no field", EXAMPLE.replace("id=32, ", ""), "layouts: table 0, key thread.id", 6),
        ("no field of the third", later + edited(later, major="2") + EXAMPLE.replace("thread = {size=64, ", "thread = {"),
         "layouts: table 2, key thread.size", 6),
        ("an unknown key", EXAMPLE + "zeal = 1\n", "layouts: table 0, key zeal", 6),
        ("no bytes", "", "layouts: table 0, key layout", 6), ("no TOML", "[[layout", "layouts: not TOML", 6),
        ("no layouts", "layout = []", "no layout for Python 3.9.0", 1),
        ("a far place", EXAMPLE.replace("threads=8", "threads=1048575"), "unreadable at 0x10ffff, 8 bytes", 1),
    ):
        files = {"core": small(), "layouts": text.encode()}
        yield row(f"walk: layouts: {what}", "walk core layouts 3.9.0 0x10000 0", files, "" if line else TEXT, line, status)


FLAWS = (
    ("major", "major = 3\n", ""), ("major", "major = 3", "major = 1000"), ("major", "major = 3", "major = -1"),
    ("major", "major = 3", 'major = "3"'), ("bytes_text", "= false", "= 0"), ("managed", '"none"', '"absent"'),
    ("managed", '"none"', "0"), ("tuple", "tuple = {size=24, count=16, at=24}", "tuple = 24"),
    ("thread.id", "id=32,", "id=4294967296,"), ("thread.id", "id=32,", "id=32.0,"),
    ("thread.native_id", "id=32,", "id=32, native_id=true,"), ("thread.other", "id=32,", "id=32, other=0,"),
    ("keys.log2", "slots=8", "slots=8, log2=9"), ("keys.slots", ", slots=8", ""), ("string.long_at", "long_at=72, ", ""),
    ("gil", "dict =", "gil = {size=24}\ndict ="), ("dict", '"general"', '"none"'),
    ("other", "[[layout]]", "other = 0\n[[layout]]"),
    ("layout", "[[layout]]", "[layout]"), ("x", "[[layout]]\nmajor = 3", "layout = [{major=3}, 0]\n[x]"),
    ("cframe", 'frames = "direct"', 'frames = "cframe"'),
)
"""The key that is named, and what stands in place of a part of the example."""

UNSOUND = (
    ("last_minor = 9", "last_minor = 8"), ("threads=8", "threads=1048576"), ("modules=16", "modules=1048576"),
    ("modules=16", "modules=15"), ("{size=64, next", "{size=0, next"), ("{size=64, next", "{size=65536, next"),
    ("next=8", "next=57"), ("next=8", "next=9"), ("id=32,", "id=32, native_id=57,"), ("id=32,", "id=32, native_id=28,"),
    ("{size=64, code", "{size=0, code"), ("instr=32", "instr=32, entry=64"), ("instr=32", "instr=32, entry=35"),
    ("locals=56", "locals=35"), ("locals=56", "locals=1048576"), ("code_tag_bits=0", "code_tag_bits=4"),
    ("{size=64, argcount", "{size=0, argcount"), ("argcount=16", "argcount=17"), ("varnames=56", "varnames=57"),
    ("{size=72, length", "{size=0, length"), ("pointer=64", "pointer=65"), ("state=32", "state=23"),
    ("short_at=48", "short_at=35"), ("long_at=72", "long_at=35"), ("short_at=48", "short_at=1048576"),
    ("long_at=72", "long_at=1048576"), ("kind_shift=2", "kind_shift=30"), ("compact_bit=5", "compact_bit=32"),
    ("ascii_bit=6", "ascii_bit=32"), ("compact_bit=5", "compact_bit=4"), ("ascii_bit=6", "ascii_bit=2"),
    ("ascii_bit=6", "ascii_bit=5"), ("{size=32, length=16, at=32}", "{size=0, length=16, at=32}"),
    ("length=16, at=32}", "length=16, at=23}"), ("length=16, at=32}", "length=16, at=1048576}"),
    ("{size=24, count=16, at=24}", "{size=0, count=16, at=24}"), ("count=16, at=24}", "count=16, at=23}"),
    ("count=16, at=24}", "count=16, at=1048576}"), ("list = {size=40", "list = {size=0"), ("items=24", "items=23"),
    ("object = {size=16", "object = {size=0"), ("klass = {size=48", "klass = {size=0"), ("name=24,", "name=31,"),
    ("long = {size=32", "long = {size=0"), ("digits=24", "digits=8"), ("small = {size=24", "small = {size=0"),
    ("float = {size=24", "float = {size=0"), ("dict = {size=48", "dict = {size=0"), ("keys = {size=40", "keys = {size=0"),
)
"""What makes the example unsound in place of a part of it: records of no or too many bytes, fields that meet or stand
outside, places past 2^20."""

PARTS = {
    "lock": '"gil"', "frames": '"cframe"', "lasti": '"pointer"', "dicts": '"compact"', "managed": '"tagged"',
    "interpreter": "{threads=8, modules=16, gil=24}", "gil": "{size=24, locked=16, holder=8}", "cframe": "{current=0}",
    "code": "{size=64, argcount=16, nlocals=20, first_line=24, filename=32, name=40, table=48, varnames=56, start=64}",
    "frame": "{size=80, code=0, back=8, instr=56, entry=70, locals=72, code_tag_bits=0}",
    "keys": "{size=32, used=24, log2=9, kind=10}", "heap": "{size=64, cached_keys=48, inline=24}",
}
"""Groups that the example hasn't, by the keys that differ."""

UNSOUND_PARTS = (
    ("gil=24}", "gil=1048576}"), ("gil=24}", "gil=20}"), ("current=0", "current=1048576"), ("instr=56", "instr=66"),
    ("start=64", "start=1048576"), ("kind=10", "kind=9"), ("heap = {size=64", "heap = {size=0"),
    ("inline=24", "inline=1048576"), ("locked=16, holder=8", "locked=17, holder=20"), ("gil = {size=24", "gil = {size=0"),
)
"""What makes a layout with those groups unsound."""


def layout_flaws() -> Iterator[Row]:
    """A layout file for each flaw, in place of a part of a good one."""
    parts = edited(EXAMPLE, **PARTS)
    cases = [(EXAMPLE, old, new, f"key {key}") for key, old, new in FLAWS]
    cases += [(EXAMPLE, old, new, "") for old, new in UNSOUND] + [(parts, old, new, "") for old, new in UNSOUND_PARTS]
    for text, old, new, key in cases:
        assert old in text, old
        files = {"core": b"", "layouts": text.replace(old, new, 1).encode()}
        line = f"layouts: table 0, {key}" if key else "layouts: table 0 is unsound"
        yield row(f"walk: layouts: {old!r} to {new!r}", "walk core layouts 3.9.0 0x10000 0", files, line=line, status=6)
    for what, text, line in (
        ("a number past 63 bits", EXAMPLE.replace("id=32,", "id=9223372036854775808,"), "layouts: not TOML"),
        ("no UTF-8", b"\xff", "layouts: not TOML"), ("a number", "layout = 1", "layouts: table 0, key layout"),
        ("a list of a number", "layout = [0]", "layouts: table 0, key layout"),
        ("a second without minors", EXAMPLE + "[[layout]]\nmajor = 3\n", "layouts: table 1, key first_minor"),
        ("a state of bytes", edited(EXAMPLE, strings='"bytes"', string="{size=72, length=16, state=32, short_at=48}"),
         "layouts: table 0, key string.state"),
        ("the groups that the example hasn't", parts, "not an ELF64 little-endian file"),
    ):
        files = {"core": b"", "layouts": text if isinstance(text, bytes) else text.encode()}
        status = 6 if line.startswith("layouts") else 1
        yield row(f"walk: layouts: {what}", "walk core layouts 3.9.0 0x10000 0", files, line=line, status=status)


def orders() -> Iterator[Row]:
    """What is said first: the core is read, then the layout file, which is judged before the core."""
    files = {"core": small(), "good": EXAMPLE.encode(), "bad": b"[[layout"}
    for one, other, line, status in (
        ("none", "absent", "cannot read none", 3), ("none", "bad", "cannot read none", 3),
        ("bad", "none", "cannot read none", 3), ("bad", "bad", "layouts: not TOML", 6),
        ("bad", "good", "not an ELF64 little-endian file", 1),
    ):
        yield row(f"walk: order: core {one}, layouts {other}", f"walk {one} {other} 3.9.0 0x10000 0", files, "", line, status)


GIL = {"lock": '"gil"', "interpreter": "{threads=8, modules=16, gil=24}", "gil": "{size=24, locked=8, holder=16}"}
CFRAME = {"frames": '"cframe"', "cframe": "{current=8}"}
BYTES = {"strings": '"bytes"', "string": "{size=72, length=16, short_at=48}"}
ENTRY = {"frame": "{size=64, code=16, back=24, instr=32, entry=48, locals=56, code_tag_bits=0}"}
NATIVE = {"thread": "{size=64, next=8, interp=16, id=32, frame=24, native_id=40}"}
TAG_1 = {"frame": ENTRY["frame"].replace("bits=0", "bits=1").replace("entry=48, ", "")}
TAG_3 = {"frame": ENTRY["frame"].replace("bits=0", "bits=3")}
"""Families that the example hasn't, by the keys that differ."""

LOCK = HEAP + 0x18
"""Where a record of the lock stands: `locked` 8 bytes behind it, the holder 16."""

CALL = HEAP + 0x30
"""Where a C frame stands."""


def held(objects: Objects) -> None:
    """The lock's record says that the thread holds it."""
    objects.record("gil", LOCK, locked=1, holder=THREAD)


def called(objects: Objects) -> None:
    """A C frame names the newest frame, and the thread that C frame."""
    objects.record("thread", THREAD, interp=HEAP, frame=CALL, id=0x7F00)
    objects.record("cframe", CALL, current=FRAME)


def with_umlaut(objects: Objects) -> None:
    """The function's name is one character, of two bytes of UTF-8."""
    objects.record("string", FUNCTION, length=2)
    objects.write(FUNCTION + 48, "\u00e4".encode())


def tagged(objects: Objects) -> None:
    """The lowest bits of the frames' words for their codes are set."""
    bits = 2 ** objects.group("frame")["code_tag_bits"] - 1
    objects.word(FRAME + 16, CODE + bits)
    objects.word(FRAME + 64 + 16, MODULE_CODE + 1)


def families() -> Iterator[Row]:
    """Each family of layouts, with the lock's holder."""
    umlaut = TEXT.replace(" f ", " \u00e4 ")
    both = lambda *changes: lambda objects: [change(objects) for change in changes]
    native = lambda objects: objects.record("thread", THREAD, interp=HEAP, frame=FRAME, id=0x7F00, native_id=4242)
    all_of = {**GIL, **CFRAME, **BYTES, **TAG_3}
    cases: Sequence[Tuple[str, Dict[str, str], Callable[[Objects], object], int, str, str]] = (
        ("a symbol names the word", {"lock": '"symbol"'}, lambda it: None, HEAP + 8, HELD, ""),
        ("a record, held", GIL, held, LOCK, HELD, ""),
        ("a record, not held", GIL, lambda it: it.record("gil", LOCK, holder=THREAD), LOCK, TEXT, ""),
        ("a record, held by none", GIL, lambda it: it.record("gil", LOCK, locked=1), LOCK, TEXT, ""),
        ("a record, and the holder is missing", GIL, lambda it: it.record("gil", LOCK, locked=1, holder=0xDEAD0000),
         LOCK, "", "unreadable at 0xdead0000, 64 bytes"),
        ("a record that ends past the memory", GIL, lambda it: None, HEAP + 0x258, "", "unreadable at 0x10258, 24 bytes"),
        ("C frames", CFRAME, called, 0, TEXT, ""),
        ("a C frame is missing", CFRAME, lambda it: it.record("thread", THREAD, interp=HEAP, frame=0x20000), HEAP + 8,
         "", "unreadable at 0x20008, 8 bytes"),
        ("names in UTF-8", BYTES, with_umlaut, 0, umlaut, ""),
        ("one tag bit", TAG_1, tagged, 0, TEXT, ""), ("three tag bits", TAG_3, tagged, 0, TEXT, ""),
        ("ids of the system", NATIVE, native, 0, TEXT.replace("0x7F00", "4242"), ""),
        ("many at once", all_of, both(held, called, with_umlaut, tagged), LOCK, umlaut.replace("0x7F00", "0x7F00 (gil)"), ""),
    )
    for what, keys, change, lock, out, line in cases:
        text = edited(EXAMPLE, **keys)
        files = {"core": small(change, text), "layouts": text.encode()}
        yield row(f"walk: family: {what}", f"walk core layouts 3.9.0 0x10000 {lock}", files, out, line)


def of_threads(ids: Sequence[int], frames: Callable[[Objects, int, int], int]) -> bytes:
    """A core of threads of these ids, which have the same frames, of a shown code and one in the file `<shim>`."""
    objects = Objects(layout_of(EXAMPLE), HEAP)
    interpreter = objects.record("interpreter")
    name, file, shim = objects.text("f"), objects.text("a.py"), objects.text("<shim>")
    kept = objects.record("code", None, filename=file, name=name)
    first = frames(objects, kept, objects.record("code", None, filename=shim, name=name))
    objects.threads(interpreter, [{"id": number, "frame": first} for number in ids])
    return core_file([objects.segment()])


def printed(ids: Sequence[int], frames: int) -> str:
    """The text of threads of these ids, which have so many frames."""
    lines = []
    for number in reversed(ids):
        lines += [f"Thread 0x{number:X}" + (" (gil)" if number == 0 else "")] + ["    f (a.py)"] * frames
    return "".join(f"{line}\n" for line in ["Python v3.9.0", "", *lines])


def chains() -> Iterator[Row]:
    """Chains to null, the limits, and chains that never end."""
    none = lambda objects, kept, skipped: 0
    three = lambda objects, kept, skipped: objects.frames([kept, skipped, kept])
    many = lambda count: lambda objects, kept, skipped: objects.frames([kept, skipped] * count)
    lost = lambda objects, kept, skipped: objects.frames([kept], 0x1234)

    def cyclic(objects: Objects, kept: int, skipped: int) -> int:
        at = objects.free()
        return objects.frame(at=at, code=skipped, back=at)

    yield row("walk: the last thread comes first", GOOD, {"core": of_threads([0, 0xAB], three)}, printed([0, 0xAB], 2))
    yield row("walk: 4096 threads", GOOD, {"core": of_threads(range(4096), none)}, printed(range(4096), 0))
    yield row("walk: 4097 threads", GOOD, {"core": of_threads(range(4097), none)}, line="more than 4096 threads")
    yield row("walk: 4096 frames, each before a skipped one", GOOD, {"core": of_threads([7], many(4096))}, printed([7], 4096))
    yield row("walk: 4097 frames", GOOD, {"core": of_threads([7], many(4097))}, line="more than 4096 frames in a thread")
    yield row("walk: a skipped member leads to itself", GOOD, {"core": of_threads([7], cyclic)},
              line="more than 16384 frames visited in a thread")
    yield row("walk: a member is missing", GOOD, {"core": of_threads([7], lost)}, line="unreadable at 0x1234, 64 bytes")


def texts() -> Iterator[Row]:
    """Which members are shown: those whose texts are both texts, and whose file has a name that isn't `<shim>`."""

    def changed(place: int, state: int, length: int, data: bytes = b"", at: int = 48) -> bytes:
        objects = heap()
        objects.record("string", place, length=length, state=state)
        objects.write(place + at, data)
        return core_file([objects.segment()])

    def apart(state: int, length: int, data: bytes) -> bytes:
        objects = heap()
        objects.record("string", FUNCTION, length=length, state=state, pointer=objects.write(objects.free(), data))
        return core_file([objects.segment()])

    without = TEXT.replace("    f (a.py)\n", "")
    for what, data, out in (
        ("UTF-8, apart", apart(0x44, 5, "\u00fcber".encode()), TEXT.replace(" f ", " \u00fcber ")),
        ("Latin-1, apart", apart(0x04, 2, b"\xff\xe4"), TEXT.replace(" f ", " \u00ff\u00e4 ")),
        ("two bytes a character, apart", apart(0x08, 3, "\U0001f600a".encode("utf-16-le")), TEXT.replace(" f ", " \U0001f600a ")),
        ("two bytes a character, marked as ASCII", changed(FUNCTION, 0x68, 1, b"\xff\xff"), TEXT.replace(" f ", " \uffff ")),
        ("four bytes a character, apart", apart(0x10, 1, b"\xff\xff\x10\0"), TEXT.replace(" f ", " \U0010ffff ")),
        ("no characters, apart", apart(0x0C, 0, b""), TEXT.replace(" f (", "  (")),
        ("a unit of 4 bytes that is no character", changed(FUNCTION, 48, 1, b"\0\0\x11\0", 72), without),
        ("a length of 4096", changed(FUNCTION, 100, 4096), without),
        ("a length below 0", changed(FUNCTION, 100, -1), without),
        ("an empty name", changed(FUNCTION, 100, 0), TEXT.replace(" f (", "  (")),
        ("Latin-1", changed(FUNCTION, 36, 1, b"\xe4", 72), TEXT.replace(" f ", " \u00e4 ")),
        ("two bytes a character", changed(FUNCTION, 40, 1, b"\x34\x22", 72), TEXT.replace(" f ", " \u2234 ")),
        ("a lone half of a pair", changed(FUNCTION, 40, 1, b"\x34\xd8", 72), without),
        ("four bytes a character", changed(FUNCTION, 48, 1, b"\x40\xf6\x01\0", 72), TEXT.replace(" f ", " \U0001f640 ")),
        ("a file of no name", changed(FILE, 100, 0), "Python v3.9.0\n\nThread 0x7F00\n"),
        ("the file <shim>", changed(FILE, 100, 6, b"<shim>"), "Python v3.9.0\n\nThread 0x7F00\n"),
    ):
        yield row(f"walk: text: {what}", GOOD, {"core": data}, out)
