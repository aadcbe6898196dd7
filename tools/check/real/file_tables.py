"""Writes a file table into a core that has none, such as those of qemu-user, from a copy of the process's own
/proc/PID/maps (with qemu the guest's), in place: the tool's preparing would leave out its zero pages too, which what is
compared of a core's bytes can't have.

A file table is a note that says which file stands at which addresses. It is put behind the core's last byte, and the
program headers once more behind it, with one more for the note: nothing else of the core is changed.
"""

import struct
from pathlib import Path
from typing import Sequence

from pystacks_tool.cores.gaps import table_note
from pystacks_tool.cores.maps import NOTE, header_of
from pystacks_tool.cores.tables import Entry

MOST_HEADERS = 0xFFFE
"""The most program headers that a header can count by itself."""


class TableError(Exception):
    """Why a core can't be given a file table."""


def add_file_table(core: Path, files: Sequence[Entry]) -> None:
    """Writes a file table into a core, in place."""
    note = table_note(files)
    with open(core, "r+b") as file:
        header = header_of(file)
        if not header:
            raise TableError(f"{core} is no 64-bit little-endian ELF file")
        (table,), (count,) = struct.unpack_from("<Q", header, 32), struct.unpack_from("<H", header, 56)
        file.seek(table)
        rows = file.read(56 * count)
        if len(rows) < 56 * count or count >= MOST_HEADERS:
            raise TableError(f"{core} has no program headers to which one can be added")
        end = file.seek(0, 2)
        at = end + -end % 8
        row = struct.pack("<2I6Q", NOTE, 0, at, 0, 0, len(note), 0, 4)
        file.write(bytes(at - end) + note + bytes(-len(note) % 8))
        behind = file.tell()
        file.write(rows + row)
        # (the header last: up to then it is the core that it was)
        file.seek(32)
        file.write(struct.pack("<Q", behind))
        file.seek(56)
        file.write(struct.pack("<H", count + 1))
