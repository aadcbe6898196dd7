"""A reader of cores for the tests of the tools alone: which byte stands at an address, which addresses lie in a map,
what the notes are, and which name a map has. It shares nothing with what prepares cores."""

import struct
from dataclasses import dataclass
from typing import Dict, Iterator, List, Optional, Set, Tuple


@dataclass(frozen=True)
class Row:
    """A program header."""

    kind: int
    flags: int
    start: int
    memory: int
    data: bytes


@dataclass(frozen=True)
class Reader:
    """A core."""

    rows: List[Row]

    @property
    def loads(self) -> List[Row]:
        """The load segments."""
        return [it for it in self.rows if it.kind == 1]

    @property
    def notes(self) -> List[bytes]:
        """The bytes of the segments of notes."""
        return [it.data for it in self.rows if it.kind == 4]

    def bytes_at(self) -> Dict[int, int]:
        """The byte at each address that has one: that of the first segment there."""
        found: Dict[int, int] = {}
        for it in reversed(self.loads):
            found.update(zip(range(it.start, it.start + it.memory), it.data))
        return found

    def read(self, start: int, size: int) -> Optional[bytes]:
        """The bytes from an address on, where one segment has them all."""
        for it in self.loads:
            at = start - it.start
            if 0 <= at and at + size <= len(it.data):
                return it.data[at : at + size]
        return None

    def addresses(self) -> Set[int]:
        """The addresses that lie in a map."""
        return {at for it in self.loads for at in range(it.start, it.start + it.memory)}

    def names(self) -> List[Tuple[int, int, bytes]]:
        """The maps that have a name, in order: where each begins, its flags, and the last name of that start."""
        named = {start: name for data in self.notes for start, name in names_in(data)}
        return [(it.start, it.flags, named[it.start]) for it in self.loads if it.start in named]


def notes_in(data: bytes) -> Iterator[Tuple[int, bytes]]:
    """The types and descriptors of the notes of a segment."""
    at = 0
    while at + 12 <= len(data):
        owner, size, kind = struct.unpack_from("<3I", data, at)
        at += 12 + (owner + 3) // 4 * 4
        yield kind, data[at : at + size]
        at += (size + 3) // 4 * 4


def names_in(data: bytes) -> Iterator[Tuple[int, bytes]]:
    """The starts and names of the file tables among some notes."""
    for kind, table in notes_in(data):
        if kind == 0x46494C45 and len(table) >= 16:
            (count,) = struct.unpack_from("<Q", table, 0)
            names = table[16 + 24 * count :].split(b"\0")
            yield from ((struct.unpack_from("<Q", table, 16 + 24 * n)[0], names[n]) for n in range(count))


def reader(data: bytes) -> Reader:
    """A core in bytes."""
    (table,), (count,) = struct.unpack_from("<Q", data, 32), struct.unpack_from("<H", data, 56)
    rows = []
    for number in range(count):
        kind, flags, offset, start, _, size, memory, _ = struct.unpack_from("<2I6Q", data, table + 56 * number)
        part = data[offset : offset + size]
        assert len(part) == size or kind not in (1, 4)
        rows.append(Row(kind, flags, start, memory, part))
    return Reader(rows)
