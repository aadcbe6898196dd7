"""Whether an interpreter was there when the process ended: by the record that Python keeps of its interpreters.

Up to 3.6 the variable `interp_head` holds the address of the newest one, and from 3.7 on `_PyRuntime` does, at a place that each minor
version has of its own; from 3.13 on the record says its place itself (`_Py_DebugOffsets`). The word is 0 before Python starts, and again
once it was taken down. What can't be read, or whose version isn't told by a file's name, claims nothing.
"""

import os
import re
import struct
from typing import IO, Iterator, List, NamedTuple, Optional, Sequence

from pystacks_tool.cores.headers import Header, headers_of
from pystacks_tool.cores.maps import LOAD, read_at, segments_of
from pystacks_tool.cores.symbols import NAMED, SYMBOLS, Section, bytes_of, sections_of
from pystacks_tool.cores.tables import Entry, entries_of

DYNAMIC = 11
"""The kind of sections with the symbols that other files see (SHT_DYNSYM)."""

PLACES = {7: 24, 8: 32, 9: 32, 10: 32, 11: 40, 12: 40}
"""Where `_PyRuntime` holds the newest interpreter's address, by minor version (struct pyruntimestate, pycore_runtime.h)."""

OWN_PLACE, COOKIE = 40, b"xdebugpy"
"""Where that record says so itself from 3.13 on, and how it begins then (`_Py_DebugOffsets`)."""

FILE = re.compile(rb"(?:lib)?python(\d)\.(\d+)(?:m|d|dm|u|mu)?(?:\.so.*)?")
"""The names of Python's program and its library."""


class Python(NamedTuple):
    """A file of Python's that was mapped."""

    name: bytes
    major: int
    minor: int
    start: int
    """Where its first bytes were mapped."""


def pythons_in(entries: Sequence[Entry]) -> Iterator[Python]:
    """Python's files among those that were mapped."""
    for it in entries:
        found = FILE.fullmatch(os.path.basename(it.name))
        if found and it.offset == 0:
            yield Python(it.name, int(found[1]), int(found[2]), it.start)


def values_of(file: IO[bytes], table: Section, names: bytes, wanted: bytes) -> Iterator[int]:
    """The values of the symbols of one name."""
    rows = bytes_of(file, table)
    for name, _, _, section, value, _ in struct.iter_unpack("<IBBHQQ", rows[: len(rows) // 24 * 24]):
        if section and names[name : name + len(wanted) + 1] == wanted + b"\0":
            yield value


def symbol_in(file: IO[bytes], wanted: bytes) -> Optional[int]:
    """The value of a file's first symbol of a name."""
    sections = sections_of(file)
    for it in sections:
        if it.kind in (SYMBOLS, DYNAMIC) and it.link < len(sections) and sections[it.link].kind == NAMED:
            found = next(values_of(file, it, bytes_of(file, sections[it.link]), wanted), None)
            if found is not None:
                return found
    return None


def first_address(file: IO[bytes]) -> int:
    """The address that a file gives its first byte."""
    return next((it.start - it.offset for it in segments_of(file) if it.kind == LOAD), 0)


def bytes_at(core: IO[bytes], headers: Sequence[Header], address: int, size: int) -> bytes:
    """The bytes at an address, where the core has all of them; else none."""
    for it in headers:
        if it.kind == LOAD and it.start <= address and address + size <= it.start + it.size:
            found = read_at(core, it.offset + address - it.start, size)
            return found if len(found) == size else b""
    return b""


def word_at(core: IO[bytes], headers: Sequence[Header], address: int) -> Optional[int]:
    """The word at an address."""
    found = bytes_at(core, headers, address, 8)
    return struct.unpack("<Q", found)[0] if found else None


def place_in(core: IO[bytes], headers: Sequence[Header], python: Python, record: int) -> Optional[int]:
    """Where the record holds the newest interpreter's address."""
    if python.major != 3:
        return None
    if bytes_at(core, headers, record, len(COOKIE)) == COOKIE:
        own = word_at(core, headers, record + OWN_PLACE)
        return None if own is None else record + own
    return record + PLACES[python.minor] if python.minor in PLACES else None


def newest_interpreter(core: IO[bytes], headers: Sequence[Header], python: Python, path: bytes) -> Optional[int]:
    """The word that holds the newest interpreter's address; nothing where it can't be told."""
    is_old = (python.major, python.minor) < (3, 7)
    with open(path, "rb") as file:
        symbol = symbol_in(file, b"interp_head" if is_old else b"_PyRuntime")
        if symbol is None:
            return None
        record = python.start + symbol - first_address(file)
    place = record if is_old else place_in(core, headers, python, record)
    return None if place is None else word_at(core, headers, place)


def has_no_interpreter(path: str, images: List[bytes]) -> bool:
    """Whether a core says that no interpreter was there, by these files (words `NAME=FILE`)."""
    files = {name: place for name, _, place in (it.partition(b"=") for it in images)}
    try:
        with open(path, "rb") as core:
            headers = headers_of(core) or []
            pythons = [it for it in pythons_in(entries_of(core, headers)) if it.name in files]
            words = [newest_interpreter(core, headers, it, files[it.name]) for it in pythons]
    except (OSError, struct.error):
        return False
    told = [it for it in words if it is not None]
    return bool(told) and not any(told)
