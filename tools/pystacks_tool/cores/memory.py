"""The memory of a process by kinds of mappings, as its core's program headers tell it."""

from bisect import bisect_left, bisect_right
from typing import IO, Dict, Iterable, List, NamedTuple, Sequence, Tuple

from pystacks_tool.cores.headers import Header, headers_of
from pystacks_tool.cores.maps import EXECUTABLE, LOAD, WRITABLE
from pystacks_tool.cores.tables import Entry, entries_of
from pystacks_tool.model import Mapped

FILES = 8
"""How many files have a line."""


class Span(NamedTuple):
    """A mapping: a load segment, or its pieces where a core was cut at zero pages."""

    flags: int
    name: bytes
    """The name of its file, or nothing."""
    start: int
    end: int
    held: int
    """How many of its bytes are in the core."""


def name_at(entries: Sequence[Entry], starts: Sequence[int], address: int) -> bytes:
    """The name of the file that is mapped at an address, or nothing. The entries stand by their starts."""
    at = bisect_right(starts, address) - 1
    return entries[at].name if at >= 0 and address < entries[at].end else b""


def spans_of(headers: Sequence[Header], table: Sequence[Entry]) -> List[Span]:
    """The mappings, in order. A segment goes on with the one before it where it follows it with the same flags and file, and no mapping of a
    file begins there."""
    entries = sorted(table, key=lambda it: it.start)
    starts = [it.start for it in entries]
    named, found = set(starts), [Span(-1, b"", 0, 0, 0)]
    for it in headers:
        if it.kind != LOAD:
            continue
        name, last = name_at(entries, starts, it.start), found[-1]
        if (last.flags, last.name, last.end) == (it.flags, name, it.start) and it.start not in named:
            found[-1] = last._replace(end=it.end, held=last.held + it.size)
        else:
            found.append(Span(it.flags, name, it.start, it.end, it.size))
    return found[1:]


def kind_of(span: Span, stacks: Sequence[int]) -> str:
    """What a mapping is. The stack pointers are in order."""
    if span.name:
        return span.name.decode("utf-8", "replace")
    at = bisect_left(stacks, span.start)
    if at < len(stacks) and stacks[at] < span.end:
        return "stacks of threads"
    if span.flags & WRITABLE:
        return "heap and other memory without a file"
    return "code without a file" if span.flags & EXECUTABLE else "memory without a file that isn't writable"


def mapped_of(file: IO[bytes], stacks: Iterable[int]) -> Tuple[Mapped, ...]:
    """How many bytes each kind of mapping has, and how many of them are in the core: what has no file first, then files by what the core has of
    them, the smaller ones together. `stacks` are the stack pointers of threads."""
    headers = headers_of(file)
    if headers is None:
        return ()
    pointers = sorted(stacks)
    found: Dict[str, Mapped] = {}
    files: Dict[str, Mapped] = {}
    for it in spans_of(headers, entries_of(file, headers)):
        kind = kind_of(it, pointers)
        rows = files if it.name else found
        own = rows.get(kind, Mapped(kind, 0, 0, 0))
        rows[kind] = Mapped(kind, own.count + 1, own.size + it.end - it.start, own.held + it.held)
    return (*largest(found.values()), *with_rest(largest(files.values())))


def largest(rows: Iterable[Mapped]) -> List[Mapped]:
    """Those of which the core has the most first."""
    return sorted(rows, key=lambda it: (-it.held, -it.size, it.kind))


def with_rest(rows: List[Mapped]) -> List[Mapped]:
    """The first files, and the others together."""
    rest = rows[FILES:]
    if not rest:
        return rows
    return [*rows[:FILES], Mapped(f"{len(rest)} other files", sum(it.count for it in rest), sum(it.size for it in rest), sum(it.held for it in rest))]
