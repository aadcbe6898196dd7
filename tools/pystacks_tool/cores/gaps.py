"""Maps of a core's file table that no segment covers, and file tables of cores that have none.

The debugger's `gcore` leaves out mappings of files that can't be written and are as in the file, the text of programs
and libraries among them; the file table names them all. Each gets a load header without bytes in the file, in the
order of addresses among the others.
"""

import re
import struct
from bisect import bisect_right
from typing import AbstractSet, Callable, Dict, Iterator, List, Optional, Sequence

from pystacks_tool.cores.headers import LAST, PAGE, Header, headers_of
from pystacks_tool.cores.maps import EXECUTABLE, FILE_TABLE, LOAD, WRITABLE
from pystacks_tool.cores.sparse import MOST_HEADERS
from pystacks_tool.cores.tables import Entry

READABLE = 4

UNKNOWN = READABLE | WRITABLE | EXECUTABLE
"""The flags of a map whose file isn't there: it may be the program's, and no image has bytes of it."""

DATA = READABLE | WRITABLE
"""Those of a map of another file than an image, or of a place that the image doesn't have."""

LINE = re.compile(rb"([0-9a-f]+)-([0-9a-f]+) [r-][w-][x-][ps] ([0-9a-f]+) \S+ \d+ +(/.*)")

Find = Callable[[bytes], Optional[bytes]]
"""The path of a file that the core names, where it is there, and of the core's machine and build."""


def floor(number: int) -> int:
    """Where the page of an address begins."""
    return number // PAGE * PAGE


# ---- maps that no segment covers


class Image:
    """The load segments of a file that was mapped, and how far from their own addresses they lie."""

    def __init__(self, loads: List[Header]) -> None:
        self.loads = loads
        self.bias: Optional[int] = None

    def flags_of(self, entry: Entry) -> int:
        """The flags of a mapping: those of the load segment at its address. The mapping of the first segment's first
        page tells the bias."""
        first = self.loads[0]
        if entry.offset == floor(first.offset):
            self.bias = entry.start - floor(first.start)
        if self.bias is None:
            return DATA
        own = entry.start - self.bias
        for it in self.loads:
            if floor(it.start) <= own < it.end:
                fits = entry.offset - own == floor(it.offset) - floor(it.start)
                return it.flags & UNKNOWN if fits else DATA
        return DATA


def loads_of(path: bytes) -> List[Header]:
    """The load segments of an ELF file, and of another none."""
    try:
        with open(path, "rb") as file:
            return [it for it in headers_of(file) or () if it.kind == LOAD]
    except OSError:
        return []


def flags_of(entries: Sequence[Entry], find: Find) -> Dict[Entry, int]:
    """The flags of mappings, which are handed in by address."""
    images: Dict[bytes, Optional[Image]] = {}
    found: Dict[Entry, int] = {}
    for it in entries:
        if it.name not in images:
            path = find(it.name)
            images[it.name] = None if path is None else Image(loads_of(path))
        image = images[it.name]
        found[it] = UNKNOWN if image is None else image.flags_of(it) if image.loads else DATA
    return found


def free_of(entries: Sequence[Entry], headers: Sequence[Header]) -> List[Entry]:
    """The mappings that meet no segment, and of two that meet the first, by address."""
    # (a segment of no addresses has the name of its start, too)
    spans = sorted((it.start, max(it.end, it.start + 1)) for it in headers if it.kind == LOAD)
    starts, ends, most = [start for start, _ in spans], [], 0
    for _, end in spans:
        most = max(most, end)
        ends.append(most)
    found: List[Entry] = []
    for it in entries:
        # (of the segments that begin below its end the one that goes farthest)
        number = bisect_right(starts, it.end - 1)
        if (number == 0 or ends[number - 1] <= it.start) and (not found or found[-1].end <= it.start):
            found.append(it)
    return found


def with_gaps(headers: Sequence[Header], entries: Sequence[Entry], find: Find) -> List[Header]:
    """The headers with one for each mapping that no segment covers, in the order of addresses."""
    last = {it.start: it for it in entries}
    rows = sorted((it for it in last.values() if it.start < it.end < LAST and it.name), key=lambda it: it.start)
    free = set(free_of(rows, headers)) if rows else set()
    if not free or len(headers) + len(free) > MOST_HEADERS:
        return list(headers)
    flags = flags_of(rows, find)
    added = [Header(LOAD, flags[it], 0, it.start, 0, 0, it.end - it.start) for it in rows if it in free]
    return merged(headers, added)


def merged(headers: Sequence[Header], added: Sequence[Header]) -> List[Header]:
    """Both, each of the second ones before the first load segment that lies above it."""
    found: List[Header] = []
    at = 0
    for it in headers:
        while it.kind == LOAD and at < len(added) and added[at].start < it.start:
            found.append(added[at])
            at += 1
        found.append(it)
    return found + list(added[at:])


# ---- file tables from a copy of /proc/PID/maps


def unescaped(name: bytes) -> bytes:
    """A name as it is: the kernel writes a newline as an escape."""
    return name.replace(b"\\012", b"\n")


def entries_in(text: bytes) -> Iterator[Entry]:
    """The mappings of files in maps text."""
    for line in text.splitlines():
        row = LINE.fullmatch(line)
        if row:
            start, end, offset = (int(it, 16) for it in row.groups()[:3])
            if start < end < LAST and offset < LAST:
                yield Entry(start, end, offset, unescaped(row.group(4)))


def table_note(entries: Sequence[Entry]) -> bytes:
    """The note of a file table."""
    numbers = b"".join(struct.pack("<3Q", it.start, it.end, it.offset // PAGE) for it in entries)
    names = b"".join(it.name + b"\0" for it in entries)
    table = struct.pack("<2Q", len(entries), PAGE) + numbers + names
    return struct.pack("<3I", 5, len(table), FILE_TABLE) + b"CORE\0\0\0\0" + table + bytes(-len(table) % 4)


def split(it: Header, places: AbstractSet[int]) -> Iterator[Header]:
    """A segment in parts, which begin at these addresses."""
    cuts = sorted(at - it.start for at in places if it.start < at < it.end)
    for start, end in zip([0, *cuts], [*cuts, it.memory]):
        size = max(0, min(it.size, end) - start)
        offset = it.offset + min(start, it.size)
        yield it._replace(offset=offset, start=it.start + start, size=size, memory=end - start)


def at_maps(headers: Sequence[Header], entries: Sequence[Entry]) -> List[Header]:
    """The segments, cut where a mapping begins or ends: an emulator joins those of the same flags."""
    places = {at for it in entries for at in (it.start, it.end)}
    found: List[Header] = []
    for it in headers:
        found += split(it, places) if it.kind == LOAD and it.size <= it.memory else [it]
    return found if len(found) <= MOST_HEADERS else list(headers)
