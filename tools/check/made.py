"""Cores and images, laid out of named parts: segments, notes, sections, symbols, and the objects of an interpreter by
the field names of a layout. What is written is ELF for little-endian machines of 64 bits (System V gABI), with the
notes of Linux' cores.
"""

import re
import struct
from dataclasses import dataclass
from typing import Dict, List, Optional, Sequence, Tuple, Union

from rooms import ROOT

X86_64, AARCH64 = 62, 183
EXECUTABLE, WRITABLE, READABLE = 1, 2, 4
LOAD, NOTE = 1, 4
SYMBOLS, STRINGS, NOTES, NO_BITS, DYNAMIC_SYMBOLS = 2, 3, 7, 8, 11
PAGE = 4096

# ---- layouts

Fields = Dict[str, int]
Layout = Dict[str, Union[str, bool, int, Fields]]

EXAMPLE = (ROOT / "docs" / "LAYOUTS.md").read_text(encoding="utf-8").split("```toml\n")[1].split("```")[0]
"""The layout of docs/LAYOUTS.md, which is that of `sample`. It describes no real CPython."""


def layout_of(text: str) -> Layout:
    """The first layout of a file as docs/LAYOUTS.md writes it: a key or a group on each line."""
    layout: Layout = {}
    for line in text.split("[[layout]]")[1].splitlines():
        found = re.fullmatch(r"(\w+) = (.*)", line)
        if found:
            key, value = found.groups()
            layout[key] = value_of(value)
    return layout


def value_of(text: str) -> Union[str, bool, int, Fields]:
    """What a key has: a word, a truth, a number, or a group of numbers."""
    if text.startswith("{"):
        return {name: int(number) for name, number in re.findall(r"(\w+)=(\d+)", text)}
    if text in ("true", "false"):
        return text == "true"
    return text.strip('"') if text.startswith('"') else int(text)


def edited(text: str, **parts: str) -> str:
    """A layout file with other values for some keys; a key that it lacks is added, and one of no value goes."""
    for key, value in parts.items():
        line = f"{key} = {value}\n" if value else ""
        text, count = re.subn(rf"^{key} = .*\n", line.replace("\\", "\\\\"), text, flags=re.MULTILINE)
        text += "" if count else line
    return text


# ---- objects

FOUR_BYTES = {"argcount", "nlocals", "first_line", "state", "locked", "instr"}
ONE_BYTE = {"entry", "log2", "kind"}

LETTERS = 100
"""The state of a text in the example: compact, ASCII, units of one byte."""


class Objects:
    """The objects of one stretch of memory, by a layout. An address is handed in, or is the next free one that 16
    divides."""

    def __init__(self, layout: Layout, start: int) -> None:
        self.layout, self.start, self.data = layout, start, bytearray()

    def group(self, name: str) -> Fields:
        """The places of a record's fields."""
        found = self.layout[name]
        assert isinstance(found, dict)
        return found

    def write(self, at: int, data: bytes) -> int:
        """Puts bytes at an address."""
        first = at - self.start
        self.data.extend(bytes(max(0, first + len(data) - len(self.data))))
        self.data[first : first + len(data)] = data
        return at

    def word(self, at: int, number: int) -> int:
        """Puts a number of 8 bytes at an address."""
        return self.write(at, (number % 2 ** 64).to_bytes(8, "little"))

    def free(self, at: Optional[int] = None) -> int:
        """The address that is handed in, or the next free one."""
        return self.start + -(-len(self.data) // 16) * 16 if at is None else at

    def record(self, group: str, at: Optional[int] = None, /, **fields: int) -> int:
        """Puts the record of a group, with these fields; the others are 0."""
        places, at = self.group(group), self.free(at)
        size = places.get("size") or max(places.values()) + 8
        self.write(at, bytes(size))
        for field, number in fields.items():
            width = 4 if field in FOUR_BYTES else 1 if field in ONE_BYTE else 8
            self.write(at + places[field], (number % 2 ** (8 * width)).to_bytes(width, "little"))
        return at

    def text(self, text: str, at: Optional[int] = None, klass: int = 0) -> int:
        """Puts a compact text of ASCII characters."""
        state = {"state": LETTERS} if "state" in self.group("string") else {}
        at = self.record("string", at, length=len(text), **state)
        self.write(at + self.group("string")["short_at"], text.encode("utf-8"))
        return self.of_class(at, klass)

    def of_class(self, at: int, klass: int) -> int:
        """Says of which type an object is, if it is of one."""
        if klass:
            self.word(at + self.group("object")["klass"], klass)
        return at

    def table(self, data: bytes, at: Optional[int] = None, length: Optional[int] = None) -> int:
        """Puts a bytes object; another length may be stated."""
        at = self.record("bytes", at, length=len(data) if length is None else length)
        self.write(at + self.group("bytes")["at"], data)
        return at

    def items(self, items: Sequence[int], at: Optional[int] = None) -> int:
        """Puts a tuple."""
        at = self.record("tuple", at, count=len(items))
        for number, item in enumerate(items):
            self.word(at + self.group("tuple")["at"] + 8 * number, item)
        return at

    def klass(self, name: str, flag: int, at: Optional[int] = None) -> int:
        """Puts a type of a name and one flag, with its name behind it."""
        at = self.record("klass", at, flags=1 << flag)
        place = self.write(self.free(), name.encode("utf-8").ljust(128, b"\0"))
        self.word(at + self.group("klass")["name"], place)
        return at

    def number(self, number: int, klass: int) -> int:
        """Puts an integer of at most one digit of 30 bits, of a layout with signed counts."""
        at = self.record("long", None, count=(number > 0) - (number < 0))
        self.write(at + self.group("long")["digits"], abs(number).to_bytes(4, "little"))
        return self.of_class(at, klass)

    def frame(self, slots: Sequence[int] = (), at: Optional[int] = None, **fields: int) -> int:
        """Puts a frame, with the slots of its variables."""
        at = self.record("frame", at, **fields)
        for number, slot in enumerate(slots):
            self.word(at + self.group("frame")["locals"] + 8 * number, slot)
        return at

    def frames(self, codes: Sequence[int], back: int = 0) -> int:
        """Puts a chain of frames, one for each code; the last leads to `back`. Returns the first."""
        if not codes:
            return back
        first = self.free()
        size = -(-self.group("frame")["size"] // 16) * 16
        for number, code in enumerate(codes):
            at = first + size * number
            self.frame(at=at, code=code, back=back if number + 1 == len(codes) else at + size)
        return first

    def threads(self, interpreter: int, threads: Sequence[Fields]) -> int:
        """Puts a chain of threads of an interpreter, and names the first one there."""
        first = self.free()
        size = -(-self.group("thread")["size"] // 16) * 16
        for number, fields in enumerate(threads):
            at = first + size * number
            after = 0 if number + 1 == len(threads) else at + size
            self.record("thread", at, **{"next": after, "interp": interpreter, **fields})
        self.word(interpreter + self.group("interpreter")["threads"], first if threads else 0)
        return first

    def segment(self, flags: int = READABLE | WRITABLE) -> "Segment":
        """The load segment of these objects."""
        return Segment(self.start, bytes(self.data), flags)


# ---- notes


def padded(data: bytes) -> bytes:
    """Some bytes padded to 4."""
    return data + bytes(-len(data) % 4)


def note(owner: bytes, kind: int, data: bytes) -> bytes:
    """A note."""
    return struct.pack("<3I", len(owner), len(data), kind) + padded(owner) + padded(data)


def file_table(entries: Sequence[Tuple[int, int, bytes]]) -> bytes:
    """The note of a file table: starts, first pages, and names."""
    numbers = b"".join(struct.pack("<3Q", start, start + PAGE, pages) for start, pages, _ in entries)
    names = b"".join(name + b"\0" for _, _, name in entries)
    return note(b"CORE\0", 0x46494C45, struct.pack("<2Q", len(entries), PAGE) + numbers + names)


def status_record(signal: int, pid: int) -> bytes:
    """The note of a thread's status."""
    return note(b"CORE\0", 1, struct.pack("<12xh18xi", signal, pid).ljust(336, b"\0"))


def process_record(pid: int, name: bytes, arguments: bytes) -> bytes:
    """The note of the process."""
    return note(b"CORE\0", 3, struct.pack("<24xi12x16s80s", pid, name, arguments))


def build_id(data: bytes) -> bytes:
    """The note of a build id."""
    return note(b"GNU\0", 3, data)


# ---- files


@dataclass(frozen=True)
class Segment:
    """A load segment, or one of notes."""

    start: int
    data: bytes = b""
    flags: int = READABLE | EXECUTABLE
    size: Optional[int] = None
    """Its bytes in memory; the same as in the file, if not given."""
    name: Optional[bytes] = None
    """In a core, the file that is mapped there."""
    pages: int = 0
    """Where it begins in that file."""
    kind: int = LOAD


@dataclass(frozen=True)
class Section:
    """A section; where `data` is None it has no bytes in the file."""

    name: str
    kind: int
    addr: int = 0
    data: Optional[bytes] = b""
    size: int = 0
    link: int = 0


@dataclass(frozen=True)
class Symbol:
    """A symbol, a global object of section 1 if nothing else is said."""

    name: str
    value: int
    size: int = 0
    info: int = 0x11
    section: int = 1


def elf_file(
    kind: int, segments: Sequence[Segment], machine: int = X86_64, sections: Sequence[Section] = (), names: int = 0
) -> bytes:
    """An ELF file: the header, the program headers, the segments' bytes one after another, the sections', and the
    section headers. `names` is the number of the section of names."""
    at = 64 + 56 * len(segments)
    rows, parts = bytearray(), bytearray()
    for it in segments:
        size = len(it.data) if it.size is None else it.size
        rows += struct.pack("<2I6Q", it.kind, it.flags, at + len(parts), it.start, 0, len(it.data), size, 0)
        parts += it.data
    heads, texts, first = b"", b"\0" + b"".join(it.name.encode() + b"\0" for it in sections), at + len(parts)
    behind = b""
    for number, it in enumerate(sections):
        data = texts if number == names and names else it.data
        name = texts.index(b"\0" + it.name.encode() + b"\0") + 1 if it.name else 0
        size = it.size if data is None else len(data)
        entry = 24 if it.kind in (SYMBOLS, DYNAMIC_SYMBOLS) else 0
        heads += struct.pack("<2I4Q2I2Q", name, it.kind, 0, it.addr, first + len(behind), size, it.link, 0, 0, entry)
        behind += data or b""
    table = first + len(behind) if sections else 0
    header = b"\x7fELF\2\1\1".ljust(16, b"\0") + struct.pack(
        "<2HI3QI6H", kind, machine, 1, 0, 64, table, 0, 64, 56, len(segments), 64, len(sections), names)
    return b"".join([header, rows, parts, behind, heads])


def core_file(segments: Sequence[Segment], notes: Sequence[bytes] = (), machine: int = X86_64) -> bytes:
    """A core: the load segments in order, and a segment of notes, the last of which is the file table of those that
    have a name, if one has."""
    named = [(it.start, it.pages, it.name) for it in segments if it.name is not None]
    table = [file_table(named)] if named else []
    return elf_file(4, [*segments, Segment(0, b"".join([*notes, *table]), 0, kind=NOTE)], machine)


def image_file(
    segments: Sequence[Segment],
    bss: Optional[Tuple[int, int]] = None,
    symbols: Sequence[Symbol] = (),
    more: Sequence[Section] = (),
    machine: int = X86_64,
) -> bytes:
    """A program or library: its segments, a bss at an address with a size, plain symbols, and further sections."""
    sections: List[Section] = [Section("", 0)]
    if bss is not None:
        sections.append(Section(".bss", NO_BITS, bss[0], None, bss[1]))
    sections += more
    if symbols:
        texts, rows = b"\0", bytes(24)
        for it in symbols:
            rows += struct.pack("<I2BH2Q", len(texts), it.info, 0, it.section, it.value, it.size)
            texts += it.name.encode() + b"\0"
        link = len(sections) + 1
        sections += [Section(".symtab", SYMBOLS, 0, rows, link=link), Section(".strtab", STRINGS, 0, texts)]
    sections.append(Section(".shstrtab", STRINGS))
    return elf_file(3, segments, machine, sections, len(sections) - 1)
