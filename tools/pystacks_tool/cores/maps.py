"""What a core tells of the files that its process had mapped, and of which build an ELF file is.

The names are those that the program goes by: a load segment has the name that the last entry of the core's file
tables gives to its start. What is no core tells no maps here; the program has a line for it.
"""

import io
import re
import struct
from enum import Enum
from typing import IO, Dict, FrozenSet, Iterator, List, NamedTuple, Optional, Tuple

LOAD, NOTE = 1, 4
EXECUTABLE, WRITABLE = 1, 2
FILE_TABLE = 0x46494C45
BUILD_ID = 3
EXTENDED = 0xFFFF
"""The count of program headers that stands for one kept elsewhere, which the program refuses."""

HEAD = 1 << 16
"""The most bytes that are read at the front of a file or a map."""

LIBRARY = re.compile(r"/libpython[0-9].[0-9][0-9]?[mdu]?.so")
"""The name of Python's library, as `is_python_lib` of the crate py_process has it."""


class Segment(NamedTuple):
    """A program header."""

    kind: int
    flags: int
    offset: int
    start: int
    size: int
    """How many bytes the file has of it."""


class Map(NamedTuple):
    """A load segment with its file's name."""

    segment: Segment
    name: bytes
    pages: int
    """Where it begins in its file."""


class Use(Enum):
    """What the program does with a file."""

    NEEDED = "needed"
    """It looks into it, and refuses the core without it."""
    LOOKED_INTO = "not needed"
    """It looks into it where it is there."""
    MEMORY = "memory"
    """It reads bytes there that the core leaves out."""


class Wanted(NamedTuple):
    """A file that the program makes use of."""

    name: bytes
    builds: FrozenSet[bytes]
    """The build ids that the core has of it."""
    use: Use


def read_at(file: IO[bytes], offset: int, size: int) -> bytes:
    """The bytes of a range, as many as are there."""
    length = file.seek(0, 2)
    if offset >= length:
        return b""
    file.seek(offset)
    return file.read(min(size, length - offset))


def header_of(file: IO[bytes]) -> bytes:
    """The header of a 64-bit little-endian ELF file, and of another nothing."""
    header = read_at(file, 0, 64)
    return header if len(header) == 64 and header.startswith(b"\x7fELF\2\1") else b""


def machine_of(file: IO[bytes]) -> Optional[int]:
    """The number of the machine that such a file is for."""
    header = header_of(file)
    return struct.unpack_from("<H", header, 18)[0] if header else None


def segments_of(file: IO[bytes]) -> List[Segment]:
    """The program headers of such a file, and of another none."""
    header = header_of(file)
    if not header:
        return []
    (table,), (count,) = struct.unpack_from("<Q", header, 32), struct.unpack_from("<H", header, 56)
    if count == EXTENDED:
        return []
    rows = read_at(file, table, 56 * count)
    return [
        Segment(kind, flags, offset, start, size)
        for kind, flags, offset, start, _, size, _, _ in struct.iter_unpack("<2I6Q", rows[: len(rows) // 56 * 56])
    ]


def notes_of(data: bytes) -> Iterator[Tuple[bytes, int, bytes]]:
    """The notes at the front of some bytes: owner, type and descriptor."""
    at = 0
    while at + 12 <= len(data):
        name_size, size, kind = struct.unpack_from("<3I", data, at)
        start = at + 12 + (name_size + 3) // 4 * 4
        if start + size > len(data):
            return
        yield data[at + 12 : at + 12 + name_size], kind, data[start : start + size]
        at = start + (size + 3) // 4 * 4


def table_entries(table: bytes) -> Dict[int, Tuple[int, bytes]]:
    """The entries of a file table, by start: where each begins in its file, in pages, and the file's name."""
    if len(table) < 16:
        return {}
    (count,) = struct.unpack_from("<Q", table)
    if count > (len(table) - 16) // 24:
        return {}
    # (behind the last nul there is no name)
    names = table[16 + 24 * count :].split(b"\0")[:-1]
    numbers = struct.iter_unpack("<3Q", table[16 : 16 + 24 * count])
    return {start: (pages, name) for (start, _, pages), name in zip(numbers, names)}


def maps_of(file: IO[bytes]) -> List[Map]:
    """The maps of a core that have a name, in the order of its program headers."""
    segments = segments_of(file)
    named: Dict[int, Tuple[int, bytes]] = {}
    for it in segments:
        if it.kind == NOTE:
            for _, kind, data in notes_of(read_at(file, it.offset, it.size)):
                named.update(table_entries(data) if kind == FILE_TABLE else {})
    return [Map(it, named[it.start][1], named[it.start][0]) for it in segments if it.kind == LOAD and it.start in named]


def is_text(name: bytes) -> bool:
    """Whether a name is UTF-8."""
    try:
        name.decode("utf-8")
    except UnicodeDecodeError:
        return False
    return True


def is_library(name: bytes) -> bool:
    """Whether a name is that of Python's library."""
    return is_text(name) and bool(LIBRARY.search(name.decode("utf-8")))


def build_id(file: IO[bytes]) -> Optional[bytes]:
    """The build id of an ELF file, or of its first bytes, where these have it."""
    for it in segments_of(file):
        if it.kind == NOTE:
            for owner, kind, data in notes_of(read_at(file, it.offset, min(it.size, HEAD))):
                if owner == b"GNU\0" and kind == BUILD_ID:
                    return data
    return None


def builds_in(file: IO[bytes], maps: List[Map]) -> Dict[bytes, List[bytes]]:
    """The build ids that a core has of its files, by name: in the maps that show a file from its start."""
    found: Dict[bytes, List[bytes]] = {}
    for it in maps:
        if it.pages == 0:
            head = read_at(file, it.segment.offset, min(it.segment.size, HEAD))
            build = build_id(io.BytesIO(head))
            if build:
                found.setdefault(it.name, []).append(build)
    return found


def uses_of(maps: List[Map]) -> Dict[bytes, Use]:
    """What the program does with the files of these maps, in the order of the maps. Bytes that a core leaves out are
    read where a map is not writable: what was never written there is still as in the file."""
    names = [it.name for it in maps if it.segment.flags & EXECUTABLE]
    libraries = [name for name in names if is_library(name)]
    first = dict.fromkeys(libraries[:1] + names[:1])
    looked_into = dict(zip(first, (Use.NEEDED, Use.LOOKED_INTO)))
    shown = [it.name for it in maps if it.name in looked_into or not it.segment.flags & WRITABLE]
    return {name: looked_into.get(name, Use.MEMORY) for name in shown}


def wanted_files(file: IO[bytes]) -> List[Wanted]:
    """The files of a core that the program makes use of, each once, in the order of the maps."""
    maps = maps_of(file)
    builds = builds_in(file, maps)
    return [Wanted(name, frozenset(builds.get(name, ())), use) for name, use in uses_of(maps).items()]
