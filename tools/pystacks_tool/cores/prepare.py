"""Prepares a core that the program can't read, or only dearly: another file, with the same bytes at the same addresses
wherever the core has bytes. The core itself is only read.

What is done is said in a line. Where a core needs nothing there is no other file.
"""

import os
import re
import stat
from typing import IO, Callable, List, NamedTuple, Optional, Tuple

from pystacks_tool.cores.gaps import READABLE, Find, at_maps, table_note, with_gaps
from pystacks_tool.cores.headers import Header, Piece, copy, headers_of, stretches, written
from pystacks_tool.cores.kinds import ELF
from pystacks_tool.cores.maps import LOAD, NOTE, WRITABLE, notes_of, read_at
from pystacks_tool.cores.parts import FIRST, Part, Shrunk
from pystacks_tool.cores.sparse import Cuts, cut_pieces, cuts_of
from pystacks_tool.cores.tables import Entry, entries_of
from pystacks_tool.spare import spare_file, spare_folder

LEAST = 64 << 20
"""How many zero bytes make it worth writing a core anew, if they are half of it."""

LARGEST = 1 << 48
"""More bytes than a core has: headers that claim so many are wrong, and no sign of a core that was cut."""


NO_STACKS = 1
NO_ROOM = 5
NO_PROGRAM = 127

SHRUNK = "the core became shorter while it was read"


class Unprepared(Exception):
    """Why a core can't be prepared, and the tool's status then."""

    def __init__(self, line: str, status: int = NO_ROOM) -> None:
        super().__init__(line)
        self.status = status


class Wishes(NamedTuple):
    """How a core is to be prepared."""

    keep: str = ""
    """Where the new file is to be kept; else it has no name."""
    room: Optional[int] = None
    """How long a core may be; a longer one is made shorter wherever that is possible."""
    budget: Optional[int] = None
    """How many bytes of a core may be read; of one that has more a part is made. Without it no part is made."""
    tells: Callable[[], bool] = lambda: True
    """Whether the program that is asked tells what it missed; else no part is made either."""
    first: int = FIRST
    """How many bytes of such a core are given at first."""
    is_forced: bool = False
    """Whether it is cut at all its runs of zero pages, however few; or a part is made of it, however few bytes it has."""
    maps: Tuple[Entry, ...] = ()
    """The mappings of files by a copy of /proc/PID/maps, for a core that has no file table."""
    finder: Callable[[IO[bytes]], Find] = lambda file: lambda name: None
    """What finds the files that a core names."""


class Work:
    """A core at work."""

    def __init__(self, file: IO[bytes], headers: List[Header]) -> None:
        self.file = file
        self.headers = headers
        self.maps: Tuple[Entry, ...] = ()
        """The mappings of a file table that is written beside those of the core."""
        self.pieces: List[Piece] = []
        self.said: List[str] = []
        """What was done."""
        self.is_part = False
        """Whether a part of it is to be made."""

    @property
    def length(self) -> int:
        """How many bytes the file has."""
        return os.fstat(self.file.fileno()).st_size

    @property
    def entries(self) -> List[Entry]:
        """The entries of its file tables, the one that is written last."""
        return [*entries_of(self.file, self.headers), *self.maps]

    @property
    def all_pieces(self) -> List[Piece]:
        """What is written: its segments, and the file table."""
        pieces = self.pieces or [Piece(it) for it in self.headers]
        if not self.maps:
            return pieces
        table = table_note(self.maps)
        return [*pieces, Piece(Header(NOTE, READABLE, 0, 0, 0, len(table), 0), data=table)]


class Prepared(NamedTuple):
    """A core that was prepared, and what was done."""

    file: IO[bytes]
    said: Tuple[str, ...]
    part: Optional[Part] = None
    """What the file is of the core, where it is a part of it."""


def megabytes(size: int) -> str:
    """A size within a line."""
    return f"{size / 1e6:.0f} MB" if size >= 10_000_000 else f"{size / 1e6:.1f} MB"


def counted(count: int) -> str:
    """A number of maps within a line."""
    return "1 map" if count == 1 else f"{count} maps"


def available(text: str) -> Optional[int]:
    """How much memory is free, by the text of /proc/meminfo."""
    found = re.search(r"^MemAvailable: +(\d+) kB$", text, re.MULTILINE)
    return int(found.group(1)) * 1024 if found else None


def new_file(keep: str) -> IO[bytes]:
    """The file that is written. One that is there is never written over; one without a name is gone with the tool."""
    try:
        return open(keep, "x+b") if keep else spare_file()
    except OSError as error:
        raise Unprepared(f"cannot write {keep or 'a file in ' + spare_folder()}: {error.strerror}") from None


def unwritten(keep: str, error: OSError) -> Unprepared:
    """That a core can't be written."""
    where = keep or f"a file in {spare_folder()} (TMPDIR names another folder)"
    return Unprepared(f"cannot write {where}: {error.strerror}")


# ---- cores that were cut


def whole_notes(data: bytes) -> int:
    """How many bytes the whole notes at the front of some bytes take."""
    at = 0
    for owner, _, text in notes_of(data):
        after = at + 12 + -(-len(owner) // 4) * 4 + -(-len(text) // 4) * 4
        if after > len(data):
            break
        at = after
    return at


def shortened(work: Work, it: Header) -> Header:
    """A header without the bytes that the file lacks. A segment that loses some gets the write flag, so that no image
    stands in for what had been written there; of notes the whole ones stay."""
    size = max(0, min(it.size, work.length - it.offset))
    offset = min(it.offset, work.length)
    if it.kind == NOTE:
        return it._replace(offset=offset, size=whole_notes(read_at(work.file, offset, size)))
    return it._replace(offset=offset, size=size, flags=it.flags | WRITABLE)


def mend_cut(work: Work) -> None:
    """Lets the segments end where the file ends, and says so."""
    length = work.length
    wanted = max((it.offset + it.size for it in work.headers if it.has_bytes and it.size), default=0)
    if not length < wanted <= LARGEST:
        return
    work.headers = [
        shortened(work, it) if it.has_bytes and it.size and it.offset + it.size > length else it for it in work.headers
    ]
    work.said.append(f"core is cut: {length} of {wanted} bytes; what is there is shown")


# ---- cores that leave out maps


def fill_gaps(work: Work, wishes: Wishes) -> None:
    """Adds the maps of the file tables that no segment covers, of which one may be written anew."""
    if wishes.maps:
        work.headers, work.maps = at_maps(work.headers, wishes.maps), wishes.maps
        work.said.append(f"a file table of {counted(len(work.maps))} written")
    headers = with_gaps(work.headers, work.entries, wishes.finder(work.file))
    count = len(headers) - len(work.headers)
    if count:
        work.headers = headers
        work.said.append(f"{counted(count)} of its file table added")


# ---- cores of zero pages


def shares_bytes(work: Work) -> bool:
    """Whether segments have more bytes than the file: then they share some, as in a core that was written anew."""
    return sum(it.size for it in work.headers if it.has_bytes) > work.length


def is_worth(cuts: Cuts, work: Work, wishes: Wishes) -> bool:
    """Whether a core is written anew for its runs of zero pages."""
    is_too_long = wishes.room is not None and work.length > wishes.room
    is_sparse = cuts.zeros >= LEAST and cuts.zeros * 2 >= work.length
    return bool(cuts.runs) and (wishes.is_forced or is_too_long or is_sparse)


def is_long(work: Work, wishes: Wishes) -> bool:
    """Whether a core has more bytes than may be read; its holes are none."""
    if wishes.budget is None or work.length <= wishes.budget:
        return False
    if wishes.is_forced:
        return True
    used = sum(last - first for first, last in stretches(work.file.fileno(), 0, work.length))
    return used > wishes.budget and wishes.tells()


def cut_zeros(work: Work, wishes: Wishes) -> None:
    """Cuts the segments at their runs of zero pages, where there are many."""
    if not wishes.is_forced and work.length < LEAST:
        return
    named = {it.start for it in work.entries}
    cuts = cuts_of(work.file.fileno(), work.headers, named)
    if is_worth(cuts, work, wishes):
        work.pieces = cut_pieces(work.headers, cuts, named)
        work.said.append(f"{megabytes(cuts.zeros)} of {megabytes(work.length)} are zero pages, and left out")


# ---- the whole


def plain_of(file: IO[bytes]) -> Tuple[IO[bytes], List[str]]:
    """The file of a core that is neither packed nor a pipe, and what was done. (What unpacks isn't imported for a core as it is usually.)"""
    try:
        if stat.S_ISREG(os.fstat(file.fileno()).st_mode) and read_at(file, 0, len(ELF)) == ELF:
            return file, []
    except OSError:
        pass
    from pystacks_tool.cores.unpack import NoSpace, NoUnpacker, unpacked

    try:
        return unpacked(file)
    except NoUnpacker as reason:
        raise Unprepared(str(reason), NO_PROGRAM) from None
    except NoSpace as reason:
        raise Unprepared(str(reason)) from None


def prepared(file: IO[bytes], wishes: Wishes) -> Optional[Prepared]:
    """What a core comes to, or nothing where it is read as it is. What is no core is the program's to refuse."""
    plain, said = plain_of(file)
    work = mended(plain, wishes)
    if work:
        work.said = said + work.said
        new = begun(work, wishes) if work.is_part else finished(work, wishes)
        if plain is not file and not work.is_part:
            plain.close()
        return new
    return kept(Prepared(plain, tuple(said)), wishes) if said else None


def mended(file: IO[bytes], wishes: Wishes) -> Optional[Work]:
    """A core that has to be written anew, with its pieces."""
    headers = headers_of(file)
    if headers is None or not any(it.kind == LOAD for it in headers):
        return None
    work = Work(file, headers)
    mend_cut(work)
    if shares_bytes(work):
        return None
    fill_gaps(work, wishes)
    work.is_part = is_long(work, wishes)
    if not work.is_part:
        cut_zeros(work, wishes)
    return work if work.said or work.is_part else None


def kept(new: Prepared, wishes: Wishes) -> Prepared:
    """A core that was unpacked alone, in the file that is to keep it."""
    if not wishes.keep:
        return new
    file = new_file(wishes.keep)
    length = os.fstat(new.file.fileno()).st_size
    try:
        with new.file:
            copy(new.file.fileno(), 0, length, file.fileno(), 0)
        file.truncate(length)
    except OSError as error:
        raise Unprepared(f"cannot write {wishes.keep}: {error.strerror}") from None
    return Prepared(file, new.said)


def finished(work: Work, wishes: Wishes) -> Prepared:
    """Writes the core that was prepared."""
    new = new_file(wishes.keep)
    try:
        written(work.file.fileno(), work.all_pieces, new.fileno())
    except OSError as error:
        new.close()
        raise unwritten(wishes.keep, error) from None
    return Prepared(new, tuple(work.said))


def begun(work: Work, wishes: Wishes) -> Prepared:
    """The part of a core with which its reading begins."""
    assert wishes.budget is not None
    new = new_file(wishes.keep)
    part = Part(work.file, work.all_pieces, work.entries, new, wishes.budget)
    try:
        part.begin(wishes.first)
    except OSError as error:
        new.close()
        raise unwritten(wishes.keep, error) from None
    except Shrunk:
        new.close()
        raise Unprepared(SHRUNK, NO_STACKS) from None
    return Prepared(new, tuple(work.said), part)
