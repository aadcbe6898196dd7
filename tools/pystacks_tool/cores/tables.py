"""The entries of a core's file tables."""

import struct
from typing import IO, Iterator, List, NamedTuple, Sequence

from pystacks_tool.cores.headers import Header
from pystacks_tool.cores.maps import FILE_TABLE, NOTE, notes_of, read_at


class Entry(NamedTuple):
    """A mapping of a file."""

    start: int
    end: int
    offset: int
    """Where it begins in its file, in bytes."""
    name: bytes


def table_rows(table: bytes) -> Iterator[Entry]:
    """The entries of a file table, in order."""
    if len(table) < 16:
        return
    count, page = struct.unpack_from("<2Q", table)
    if count > (len(table) - 16) // 24:
        return
    # (behind the last nul there is no name)
    names = table[16 + 24 * count :].split(b"\0")[:-1]
    for (start, end, pages), name in zip(struct.iter_unpack("<3Q", table[16 : 16 + 24 * count]), names):
        yield Entry(start, end, pages * page, name)


def entries_of(file: IO[bytes], headers: Sequence[Header]) -> List[Entry]:
    """The entries of all file tables of a core, in order."""
    found: List[Entry] = []
    for it in headers:
        if it.kind == NOTE:
            for _, kind, data in notes_of(read_at(file, it.offset, it.size)):
                found += table_rows(data) if kind == FILE_TABLE else ()
    return found
