"""A part of a core: the same notes, the same maps, and the same bytes wherever it has bytes. It grows by what a program missed.

Of a segment that lies in the core in pieces, each piece has a header of its own, and so has each stretch between them, without
bytes: it has the write flag, so that no image stands in for what is left out.
"""

import os
import struct
from bisect import bisect_right, insort
from typing import IO, AbstractSet, Dict, Iterable, Iterator, List, NamedTuple, Sequence, Tuple

from pystacks_tool.cores.headers import PAGE, ROW, Header, Piece, copy, write_at
from pystacks_tool.cores.maps import HEAD, LOAD, NOTE, WRITABLE, notes_of, read_at
from pystacks_tool.cores.sparse import MOST_HEADERS, may_be_cut, part_of
from pystacks_tool.cores.tables import Entry

FIRST = 32 << 20
"""How many bytes are given at first."""

BLOCK = 1 << 16
"""How many bytes a block has that a program names as missed."""

AROUND = 1 << 20
"""How much is given around a missed block after the first run; after each later one twice as much as before."""

WHOLE_FROM = 8
"""After which run all of a segment is given of which a block was missed."""

STACK = 1 << 16
"""How much of a stack is given at first, from its pointer on."""

STATUS = 1
"""The type of the note that has a thread's registers."""

STACK_POINTER = {62: 112 + 19 * 8, 183: 112 + 31 * 8}
"""Where the stack pointer stands in such a note, by the machine."""

Range = Tuple[int, int]
"""Where some bytes of a segment begin and end, counted from its start."""


class Shrunk(Exception):
    """The core became shorter while it was read."""


class Given(NamedTuple):
    """Some bytes of a segment that the part has."""

    start: int
    end: int
    place: int
    """Where they stand in the part's file."""


class Segment:
    """A header of the core, and what the part has of it."""

    def __init__(self, piece: Piece, is_cut: bool) -> None:
        self.piece = piece
        self.is_cut = is_cut
        """Whether the part may have less than all of it."""
        self.given: List[Given] = []

    @property
    def header(self) -> Header:
        """Its header in the core."""
        return self.piece.header

    def lacks(self, start: int, end: int) -> List[Range]:
        """What the part hasn't of a range."""
        found, at = [], start
        for it in self.given:
            if it.start >= end:
                break
            if it.start > at:
                found.append((at, it.start))
            at = max(at, it.end)
        return found + ([(at, end)] if at < end else [])

    def headers(self) -> Iterator[Header]:
        """Its headers in the part."""
        it, at = self.header, 0
        if not it.has_bytes:
            yield it._replace(offset=0)
            return
        for given in self.given:
            if given.start > at:
                yield part_of(it, at, given.start)._replace(size=0, flags=it.flags | WRITABLE)
            yield part_of(it, given.start, given.end)._replace(offset=given.place)
            at = given.end
        if at < it.size or not self.given:
            flags = it.flags | WRITABLE if it.size else it.flags
            yield part_of(it, at, it.size)._replace(size=0, flags=flags)


def alone(headers: Sequence[Header]) -> List[bool]:
    """Which of some headers share no address with another load segment: of two that meet the first one's bytes count, and so
    none may be left out."""
    loads = sorted((it.start, it.end, number) for number, it in enumerate(headers) if it.kind == LOAD and it.memory)
    found = [True] * len(headers)
    most, owner = 0, -1
    for start, end, number in loads:
        if owner >= 0 and start < most:
            found[number] = found[owner] = False
        if end > most:
            most, owner = end, number
    return found


def joined(ranges: Iterable[Range]) -> List[Range]:
    """Ranges in order, those that meet as one."""
    found: List[Range] = []
    for start, end in sorted(ranges):
        if found and start <= found[-1][1]:
            found[-1] = (found[-1][0], max(end, found[-1][1]))
        else:
            found.append((start, end))
    return found


class Part:
    """A part of a core, in a file of its own that is written anew as it grows."""

    def __init__(self, core: IO[bytes], pieces: Sequence[Piece], entries: Sequence[Entry], file: IO[bytes], budget: int) -> None:
        self.core, self.file, self.budget = core, file, budget
        self.length = os.fstat(core.fileno()).st_size
        self.named: AbstractSet[int] = {it.start for it in entries}
        lonely = alone([it.header for it in pieces])
        self.segments = [
            Segment(it, is_alone and it.data is None and may_be_cut(it.header, self.named)) for it, is_alone in zip(pieces, lonely)
        ]
        self.order = sorted((it.header.start, number) for number, it in enumerate(self.segments) if it.is_cut)
        self.end, self.spent, self.count = 64, 0, len(self.segments)
        self.runs = 1
        """How often a program was run over it."""

    # ---- what is given

    def clear(self, it: Header, start: int, end: int) -> Range:
        """A range of a segment in whole pages, so long that no name of the core's file table stands where it begins or ends."""
        start, end = max(0, start // PAGE * PAGE), min(it.size, -(-end // PAGE) * PAGE)
        while start > 0 and it.start + start in self.named:
            start -= PAGE
        while end < it.size and it.start + end in self.named:
            end += PAGE
        return max(0, start), min(it.size, end)

    def cost(self, it: Segment, start: int, end: int) -> int:
        """How many bytes a range has that the part hasn't."""
        return sum(last - first for first, last in it.lacks(*self.clear(it.header, start, end)))

    def put(self, it: Segment, start: int, end: int) -> None:
        """Gives a range of a segment."""
        for first, last in it.lacks(*self.clear(it.header, start, end)):
            self.check()
            copy(self.core.fileno(), it.header.offset + first, last - first, self.file.fileno(), self.end)
            self.check()
            insort(it.given, Given(first, last, self.end))
            self.end += last - first
            self.spent += last - first
            self.count += 2

    def check(self) -> None:
        """Sees that the core is as long as it was."""
        if os.fstat(self.core.fileno()).st_size < self.length:
            raise Shrunk()

    def give(self, it: Segment, start: int, end: int, limit: int) -> bool:
        """Gives a range if that leaves the part no longer than this. Whether something was given."""
        cost = self.cost(it, start, end)
        if not cost or self.spent + cost > limit or self.count > MOST_HEADERS:
            return False
        self.put(it, start, end)
        return True

    # ---- at first

    def pointers(self) -> List[int]:
        """The stack pointers of the threads."""
        machine = struct.unpack("<H", read_at(self.core, 18, 2))[0]
        place = STACK_POINTER.get(machine)
        if place is None:
            return []
        found: List[int] = []
        for it in self.segments:
            if it.header.kind == NOTE and it.piece.data is None:
                for owner, kind, data in notes_of(read_at(self.core, it.header.offset, it.header.size)):
                    if kind == STATUS and owner == b"CORE\0" and len(data) >= place + 8:
                        found += struct.unpack_from("<Q", data, place)
        return found

    def bases(self) -> List[Segment]:
        """The writable mappings of files, and what follows each at once: bss."""
        ends = {it.header.end for it in self.segments if it.header.start in self.named}
        cut = [it for it in self.segments if it.is_cut and it.header.flags & WRITABLE]
        return [it for it in cut if it.header.start in self.named or it.header.start in ends]

    def begin(self, first: int = FIRST) -> None:
        """Gives what is given at first: what can't be cut; the front of each mapping of a file; then, smallest first, so many bytes
        of the writable mappings of files, of the stacks, and of the others, and half of what may be read at most: the rest is for
        what is missed."""
        for it in self.segments:
            if it.header.has_bytes and not it.is_cut:
                self.put_whole(it)
            elif it.is_cut and it.header.start in self.named:
                self.put(it, 0, min(HEAD, it.header.size))
        limit = max(self.spent, min(first, self.budget // 2))
        for it in sorted(self.bases(), key=lambda it: it.header.size):
            self.give(it, 0, it.header.size, limit)
        for pointer in self.pointers():
            for it in self.at(pointer, pointer + 1):
                start = pointer - it.header.start
                self.give(it, start, min(it.header.size, start + STACK), limit)
        for it in sorted((it for it in self.segments if it.is_cut), key=lambda it: it.header.size):
            if not self.give(it, 0, it.header.size, limit) and it.header.size > limit:
                break
        self.write()

    def put_whole(self, it: Segment) -> None:
        """Gives all of a segment that can't be cut, or of notes."""
        if it.piece.data is not None:
            write_at(self.file.fileno(), it.piece.data, self.end)
        else:
            self.check()
            copy(self.core.fileno(), it.header.offset, it.header.size, self.file.fileno(), self.end)
        it.given = [Given(0, it.header.size, self.end)]
        self.end += it.header.size
        self.spent += it.header.size

    # ---- what was missed

    def at(self, start: int, end: int) -> Iterator[Segment]:
        """The segments that may be cut and of which the core has bytes in a range of addresses."""
        number = max(0, bisect_right(self.order, (start, len(self.segments))) - 1)
        for first, index in self.order[number:]:
            if first >= end:
                return
            it = self.segments[index]
            if it.header.start + it.header.size > start:
                yield it

    def missed(self, block: int) -> Iterator[Tuple[Segment, Range]]:
        """What the core has of a block, by its number, and the part hasn't."""
        start = block * BLOCK
        for it in self.at(start, start + BLOCK):
            first, last = max(0, start - it.header.start), min(it.header.size, start + BLOCK - it.header.start)
            if it.lacks(first, last):
                yield it, (first, last)

    def wanted(self, blocks: Iterable[int], size: int) -> List[Tuple[Segment, Range]]:
        """What stands around missed blocks, in ranges of this size; those that meet are one. Of the least size each stands alone."""
        spans: Dict[int, List[Range]] = {}
        found: Dict[int, Segment] = {}
        for block in blocks:
            for it, (first, last) in self.missed(block):
                found[it.header.start] = it
                spans.setdefault(it.header.start, []).append(self.around(it.header, first, last, size))
        return [(found[start], span) for start, its in spans.items() for span in (its if size == BLOCK else joined(its))]

    def grow(self, blocks: Sequence[int], run: int) -> bool:
        """Gives what stands around missed blocks, as much as the number of the run says, and less where there is no room for that.
        Whether anything was given."""
        # (bytes that aren't written are to be zero)
        os.ftruncate(self.file.fileno(), self.end)
        grew = False
        for size in sizes(run):
            wanted = self.wanted(blocks, size)
            if size == BLOCK or self.spent + sum(self.cost(it, *span) for it, span in wanted) <= self.budget:
                for it, span in wanted:
                    grew = self.give(it, *span, self.budget) or grew
                break
        self.write()
        return grew

    @staticmethod
    def around(it: Header, first: int, last: int, size: int) -> Range:
        """A range of this size around another one, within its segment."""
        more = max(0, size - (last - first)) // 2
        return max(0, first - more), min(it.size, last + more)

    def left_out(self, blocks: Iterable[int]) -> int:
        """How many of some missed blocks the core has and the part hasn't."""
        return sum(1 for block in blocks if any(True for _ in self.missed(block)))

    @property
    def is_whole(self) -> bool:
        """Whether the part has all bytes that the core has."""
        return not any(it.lacks(0, it.header.size) for it in self.segments if it.is_cut)

    # ---- its file

    def write(self) -> None:
        """Writes the headers behind the bytes, and the head."""
        rows = [row for it in self.segments for row in it.headers()]
        table = b"".join(
            struct.pack(ROW, it.kind, it.flags, it.offset, it.start, it.physical, it.size, it.memory, 1) for it in rows)
        head = bytearray(os.pread(self.core.fileno(), 64, 0))
        # (no section headers: what they would describe isn't here)
        struct.pack_into("<2Q", head, 32, self.end, 0)
        struct.pack_into("<2H", head, 54, 56, len(rows))
        struct.pack_into("<3H", head, 58, 64, 0, 0)
        write_at(self.file.fileno(), bytes(head), 0)
        write_at(self.file.fileno(), table, self.end)
        os.ftruncate(self.file.fileno(), self.end + len(table))


def sizes(run: int) -> List[int]:
    """How much is given around a block after a run, longest first: a shorter one where there is no room for it."""
    longest = 1 << 62 if run >= WHOLE_FROM else AROUND << (run - 1)
    shorter = [AROUND << number for number in range(WHOLE_FROM - 2, -1, -1)]
    return [longest, *(it for it in shorter if it < longest), BLOCK]
