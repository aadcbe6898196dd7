"""The names of functions that a file has no symbol for: those of a debug file of the same build id, and of the small symbol table that
some systems put into their files (`.gnu_debugdata`).

What is read is one table of symbols and its names, none longer than LONGEST. A file that isn't as it should be has no names.
"""

import io
import os
import struct
from bisect import bisect_right
from typing import IO, List, NamedTuple, Optional, Tuple

from pystacks_tool.cores.maps import build_id, read_at

LONGEST = 1 << 27
"""The most bytes of a table, or of what is unpacked."""

MOST = 4096
"""The most sections of a file."""

SYMBOLS, NAMED, PACKED = 2, 3, b".gnu_debugdata"
"""The kinds of sections that have symbols and names (SHT_SYMTAB, SHT_STRTAB), and the name of the one with a packed file."""

CODE = (2, 10)
"""The kinds of symbols that are functions (STT_FUNC, STT_GNU_IFUNC)."""

FOLDERS = (b"usr/lib/debug/.build-id", b"usr/local/lib/debug/.build-id")
"""Where systems keep debug files by their build ids."""


class Section(NamedTuple):
    """A section of an ELF file."""

    name: int
    kind: int
    place: int
    size: int
    link: int


class Functions:
    """The functions of a file, by the addresses that they cover."""

    def __init__(self, rows: List[Tuple[int, int, bytes]]) -> None:
        self.rows = sorted(rows)
        """Of each its first address, the one behind its last, and its name."""
        self.starts = [it[0] for it in self.rows]

    def at(self, address: int) -> Optional[Tuple[str, int]]:
        """The function that covers an address and is the nearest, and how far behind its start that stands."""
        at = bisect_right(self.starts, address) - 1
        if at < 0:
            return None
        start, end, name = self.rows[at]
        return (name.decode("utf-8", "replace"), address - start) if address < end else None


def sections_of(file: IO[bytes]) -> List[Section]:
    """The sections of an ELF file."""
    head = read_at(file, 0, 64)
    if len(head) < 64 or head[:6] != b"\x7fELF\x02\x01":
        return []
    place, = struct.unpack_from("<Q", head, 40)
    size, count = struct.unpack_from("<HH", head, 58)
    if size != 64 or count > MOST:
        return []
    rows = struct.iter_unpack("<IIQQQQIIQQ", read_at(file, place, 64 * count)[: 64 * count // 64 * 64])
    return [Section(it[0], it[1], it[4], it[5], it[6]) for it in rows]


def bytes_of(file: IO[bytes], section: Section) -> bytes:
    """The bytes of a section, if they aren't too many."""
    return read_at(file, section.place, section.size) if section.size <= LONGEST else b""


def functions_of(file: IO[bytes]) -> Optional[Functions]:
    """The functions of a file's table of symbols, if it has one."""
    sections = sections_of(file)
    for it in sections:
        if it.kind == SYMBOLS and it.link < len(sections) and sections[it.link].kind == NAMED:
            return Functions(rows_of(bytes_of(file, it), bytes_of(file, sections[it.link])))
    return None


def rows_of(table: bytes, names: bytes) -> List[Tuple[int, int, bytes]]:
    """The functions of a table."""
    rows = []
    for name, info, _, place, value, size in struct.iter_unpack("<IBBHQQ", table[: len(table) // 24 * 24]):
        if info & 15 in CODE and place and size and name < len(names):
            rows.append((value, value + size, names[name: names.find(b"\0", name)]))
    return rows


def unpacked(data: bytes) -> Optional[IO[bytes]]:
    """What is packed, as far as it may be long. (What unpacks it is imported where a file has it alone.)"""
    import lzma

    try:
        return io.BytesIO(lzma.LZMADecompressor().decompress(data, max_length=LONGEST))
    except (lzma.LZMAError, EOFError, ValueError, MemoryError):
        return None


def packed_in(file: IO[bytes]) -> Optional[IO[bytes]]:
    """The file that is packed into a file, if one is."""
    head = read_at(file, 0, 64)
    sections = sections_of(file)
    number = struct.unpack_from("<H", head, 62)[0] if len(head) == 64 else 0
    if number >= len(sections):
        return None
    names = bytes_of(file, sections[number])
    for it in sections:
        if names[it.name: it.name + len(PACKED) + 1] == PACKED + b"\0":
            return unpacked(bytes_of(file, it))
    return None


def debug_file(root: bytes, own: Optional[bytes]) -> Optional[bytes]:
    """The debug file of a build id below a folder, if there is one of that id."""
    if not own or len(own) < 2:
        return None
    for folder in FOLDERS:
        path = os.path.join(root or b"/", folder, own[:1].hex().encode(), own[1:].hex().encode() + b".debug")
        try:
            with open(path, "rb") as file:
                if build_id(file) == own:
                    return path
        except OSError:
            continue
    return None


def more_functions(path: bytes, root: bytes) -> Optional[Functions]:
    """The functions of a file beside those that its own tables name: by its debug file, or else by what is packed into it."""
    try:
        with open(path, "rb") as file:
            debug = debug_file(root, build_id(file))
            if debug is not None:
                with open(debug, "rb") as other:
                    return functions_of(other)
            packed = packed_in(file)
            return None if packed is None else functions_of(packed)
    except (OSError, struct.error):
        return None
