"""The program headers of a core, and a core that is written anew: other headers over the same bytes of memory.

A piece is a header that is to be written with where its bytes come from: from the core that is read, from bytes of its
own, or from the one block of zero bytes to which all runs of zero pages point.
"""

import os
import struct
from typing import IO, Iterator, List, NamedTuple, Optional, Sequence, Tuple

from pystacks_tool.cores.maps import EXTENDED, LOAD, NOTE, header_of, read_at
from pystacks_tool.cores.progress import count_read

PAGE = 4096
BLOCK = 1 << 20
"""How many bytes are read at once."""

LAST = 1 << 64

ROW = "<2I6Q"


class Header(NamedTuple):
    """A program header."""

    kind: int
    flags: int
    offset: int
    start: int
    physical: int
    size: int
    """How many bytes the file has of it."""
    memory: int
    """How many addresses it has."""
    align: int = 1

    @property
    def end(self) -> int:
        """Where its addresses end."""
        return self.start + self.memory

    @property
    def has_bytes(self) -> bool:
        """Whether it is one whose bytes the program reads."""
        return self.kind in (LOAD, NOTE)


class Piece(NamedTuple):
    """A header that is to be written. Its offset is that in the core that is read."""

    header: Header
    data: Optional[bytes] = None
    """Bytes of its own."""
    is_zero: bool = False


def headers_of(file: IO[bytes]) -> Optional[List[Header]]:
    """The program headers, where they are such as the program reads: all of them there, and no memory past the last
    address."""
    header = header_of(file)
    if not header:
        return None
    (table,), (size, count) = struct.unpack_from("<Q", header, 32), struct.unpack_from("<2H", header, 54)
    rows = read_at(file, table, 56 * count)
    if size != 56 or count == EXTENDED or len(rows) != 56 * count:
        return None
    found = [Header(*row) for row in struct.iter_unpack(ROW, rows)]
    return None if any(it.kind == LOAD and it.end >= LAST for it in found) else found


def stretches(fd: int, start: int, end: int) -> Iterator[Tuple[int, int]]:
    """The parts of a range of a file that are no holes. A file of a system that tells no holes has none."""
    at = start
    while at < end:
        try:
            first = os.lseek(fd, at, os.SEEK_DATA)
            last = min(os.lseek(fd, first, os.SEEK_HOLE), end)
        except OSError as error:
            first, last = (end, end) if error.errno == 6 else (at, end)
        if first >= end:
            return
        yield first, last
        at = last


def blocks(fd: int, start: int, end: int) -> Iterator[Tuple[int, bytes]]:
    """The bytes of a range, block by block, each with its place."""
    at = start
    while at < end:
        data = os.pread(fd, min(BLOCK, end - at), at)
        if not data:
            return
        count_read(len(data))
        yield at, data
        at += len(data)


def copy(source: int, start: int, size: int, target: int, at: int) -> None:
    """Copies a range of a file to a place of another one, and leaves holes as they are."""
    for first, last in stretches(source, start, start + size):
        for place, data in blocks(source, first, last):
            write_at(target, data, at + place - start)


def write_at(fd: int, data: bytes, at: int) -> None:
    """Writes all of some bytes."""
    done = 0
    while done < len(data):
        done += os.pwrite(fd, data[done:] if done else data, at + done)


def laid(pieces: Sequence[Piece]) -> Tuple[List[Header], int, int]:
    """The headers with their places in the file that is written; where its block of zero bytes begins, and ends."""
    end = 64 + 56 * len(pieces)
    placed: List[Header] = []
    for it in pieces:
        placed.append(it.header._replace(offset=end, align=1))
        end += 0 if it.is_zero or not it.header.has_bytes else it.header.size
    zeros = max((it.header.size for it in pieces if it.is_zero), default=0)
    placed = [new._replace(offset=end) if it.is_zero else new for it, new in zip(pieces, placed)]
    return placed, end, end + zeros


def written(source: int, pieces: Sequence[Piece], target: int) -> int:
    """Writes a core of these pieces, and returns its length."""
    placed, _, end = laid(pieces)
    head = bytearray(os.pread(source, 64, 0))
    # (no section headers: what they would describe has moved)
    struct.pack_into("<2Q", head, 32, 64, 0)
    struct.pack_into("<2H", head, 54, 56, len(pieces))
    struct.pack_into("<3H", head, 58, 64, 0, 0)
    rows = [struct.pack(ROW, it.kind, it.flags, it.offset, it.start, it.physical, it.size, it.memory, 1) for it in placed]
    write_at(target, bytes(head) + b"".join(rows), 0)
    for it, new in zip(pieces, placed):
        if it.data is not None:
            write_at(target, it.data, new.offset)
        elif not it.is_zero and it.header.has_bytes:
            copy(source, it.header.offset, it.header.size, target, new.offset)
    os.ftruncate(target, end)
    return end
