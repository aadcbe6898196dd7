"""Runs of zero pages in a core, and the pieces of its segments without them.

A kernel counts each thread's whole stack in a core, so that of gigabytes a few megabytes are in use. A segment is cut
at its runs of zero pages, whose headers all point to one block of zero bytes. Its pieces stand in its place, so that
each address has the byte that it had; and no piece begins where the core's file table names a map, so that each name
stands where it stood.
"""

from typing import AbstractSet, Dict, Iterator, List, NamedTuple, Sequence, Tuple

from pystacks_tool.cores.headers import BLOCK, PAGE, Header, Piece, blocks, stretches
from pystacks_tool.cores.maps import EXECUTABLE, LOAD, WRITABLE

SHORTEST = 4 * PAGE
"""The shortest run at which a segment is cut."""

ZEROS = 2 << 20
"""How long the block of zero bytes may be; a longer run has several headers."""

MOST_HEADERS = 60_000

MOST_SHARES = 16_384
"""How many headers the runs that are longer than the block may take in all; else the block is longer."""

NOTHING = bytes(BLOCK)
NO_PAGE = bytes(PAGE)

Run = Tuple[int, int]
"""Where some pages of a segment begin and end, counted from its start."""


class Cuts(NamedTuple):
    """The runs at which segments are cut, by the segments' numbers."""

    runs: Dict[int, List[Run]]
    block: int

    @property
    def zeros(self) -> int:
        """How many bytes they are."""
        return sum(end - start for runs in self.runs.values() for start, end in runs)


def used_in(data: bytes) -> Iterator[Run]:
    """The pages of a block that are not all zero."""
    if data == NOTHING[: len(data)]:
        return
    for at in range(0, len(data), PAGE):
        page = data[at : at + PAGE]
        if page != NO_PAGE[: len(page)]:
            yield at, at + len(page)


def used_pages(fd: int, it: Header) -> Iterator[Run]:
    """The pages of a segment that are not all zero."""
    for first, last in stretches(fd, it.offset, it.offset + it.size):
        start = it.offset + (first - it.offset) // PAGE * PAGE
        end = it.offset + min(it.size, -((it.offset - last) // PAGE) * PAGE)
        for place, data in blocks(fd, start, end):
            for begin, after in used_in(data):
                yield place - it.offset + begin, place - it.offset + after


def zero_runs(fd: int, it: Header) -> List[Run]:
    """The runs of zero pages of a segment that are long enough, in order."""
    runs, at = [], 0
    for begin, end in used_pages(fd, it):
        if begin - at >= SHORTEST:
            runs.append((at, begin))
        at = max(at, end)
    return runs + ([(at, it.size)] if it.size - at >= SHORTEST else [])


def may_be_cut(it: Header, named: AbstractSet[int]) -> bool:
    """Whether a segment has bytes and may have several headers. That of an executable file stays whole, since its
    symbols are looked for in the map; and so does one whose end an image may have."""
    if it.kind != LOAD or not 0 < it.size <= it.memory:
        return False
    if it.start not in named:
        return True
    return not it.flags & EXECUTABLE and (it.size == it.memory or bool(it.flags & WRITABLE))


def moved(run: Run, it: Header, named: AbstractSet[int]) -> Run:
    """A run without the pages at its ends where a cut would fall on a named address."""
    start, end = run
    while 0 < start < end and it.start + start in named:
        start += PAGE
    while start < end < it.size and it.start + end in named:
        end -= PAGE
    return start, end


def longest(runs: Dict[int, List[Run]], most: int) -> Dict[int, List[Run]]:
    """So many runs, the longest of all."""
    every = [(end - start, number, start, end) for number, its in runs.items() for start, end in its]
    kept: Dict[int, List[Run]] = {}
    for _, number, start, end in sorted(every, reverse=True)[: max(0, most)]:
        kept.setdefault(number, []).append((start, end))
    return {number: sorted(its) for number, its in kept.items()}


def cuts_of(fd: int, headers: Sequence[Header], named: AbstractSet[int]) -> Cuts:
    """At which runs the segments of a core can be cut."""
    runs: Dict[int, List[Run]] = {}
    for number, it in enumerate(headers):
        if may_be_cut(it, named):
            its = [moved(run, it, named) for run in zero_runs(fd, it)]
            runs[number] = [(start, end) for start, end in its if end - start >= SHORTEST]
    runs = longest(runs, (MOST_HEADERS - MOST_SHARES - len(headers)) // 2)
    block = Cuts(runs, 0).zeros // MOST_SHARES // PAGE * PAGE + PAGE
    most = max((end - start for its in runs.values() for start, end in its), default=0)
    return Cuts(runs, min(max(ZEROS, block), most))


def shares(run: Run, block: int, it: Header, named: AbstractSet[int]) -> List[Run]:
    """A run in parts that are no longer than the block; no cut falls on a named address."""
    start, end = run
    parts: List[Run] = []
    while end - start > block:
        cut = start + block // PAGE * PAGE
        while cut > start and it.start + cut in named:
            cut -= PAGE
        if cut == start:
            return []
        parts.append((start, cut))
        start = cut
    return [*parts, (start, end)]


def part_of(it: Header, start: int, end: int) -> Header:
    """The header of a part of a segment; the last part has the addresses without bytes too."""
    memory = it.memory - start if end == it.size else end - start
    return it._replace(offset=it.offset + start, start=it.start + start, size=end - start, memory=memory)


def pieces_of(it: Header, runs: Sequence[Run], block: int, named: AbstractSet[int]) -> List[Piece]:
    """The pieces of a segment that is cut at these runs."""
    pieces, at = [], 0
    for run in runs:
        parts = shares(run, block, it, named)
        if parts and run[0] > at:
            pieces.append(Piece(part_of(it, at, run[0])))
        pieces += [Piece(part_of(it, start, end), is_zero=True) for start, end in parts]
        at = run[1] if parts else at
    return pieces + ([Piece(part_of(it, at, it.size))] if at < it.size or not pieces else [])


def cut_pieces(headers: Sequence[Header], cuts: Cuts, named: AbstractSet[int]) -> List[Piece]:
    """The pieces of all segments, in their order."""
    pieces: List[Piece] = []
    for number, it in enumerate(headers):
        pieces += pieces_of(it, cuts.runs.get(number, ()), cuts.block, named)
    return pieces
