"""What the notes of a core tell of its process, whatever the programs say of it: so that a refusal says what is known."""

import os
import re
import struct
from typing import IO, Optional, Set

from pystacks_tool.cores.headers import headers_of
from pystacks_tool.cores.maps import NOTE, maps_of, notes_of, read_at
from pystacks_tool.model import whole_or_cut
from pystacks_tool.show.escape import in_line, signal_name

STATUS_RECORD, PROCESS_RECORD = 1, 3
"""The types of the notes of a thread and of the process (NT_PRSTATUS, NT_PRPSINFO)."""

SIGNAL, PID = 12, 32
"""Where a thread's record has its signal, and its id (Linux' elf_prstatus, of 64 bits)."""

OWN_ID, ARGUMENTS, ROOM = 24, 56, 80
"""Where the process's record has its id and its arguments, and how many bytes these have (elf_prpsinfo, of 64 bits)."""

OTHERS = (
    ("pypy.*|libpypy.*", "PyPy"), ("graalpy.*", "GraalPy"), (r"libjvm\.so", "a Java machine"), ("node|nodejs", "Node.js"),
    (r"ruby[0-9.]*|libruby[-0-9.]*\.so.*", "Ruby"), ("perl[0-9.]*", "Perl"), ("php[0-9.]*", "PHP"),
)
"""Other interpreters by the names of their files."""

MOST = 1 << 26
"""How many bytes of notes are read at most: many note segments may stand over the same bytes."""


class Known:
    """What is known of a process."""

    def __init__(self) -> None:
        self.signal: Optional[int] = None
        self.pid: Optional[int] = None
        self.arguments = ""
        self.threads = 0
        self.other = ""
        """The interpreter that it is, where that is another one than CPython."""

    @property
    def line(self) -> str:
        """The same in a line; nothing where nothing is known."""
        name = signal_name(self.signal) if self.signal else None
        signal = f"signal {self.signal}{f' ({name})' if name else ''}" if self.signal else ""
        process = f"process {self.pid}: {in_line(whole_or_cut(self.arguments))}" if self.pid is not None else ""
        threads = f"{self.threads} thread{'s' if self.threads > 1 else ''}" if self.threads else ""
        return ", ".join(it for it in (threads, signal, process) if it)


def read_notes(file: IO[bytes], known: Known) -> None:
    """Adds what the notes tell: of the first record of a thread the signal."""
    left = MOST
    for it in headers_of(file) or []:
        left -= it.size if it.kind == NOTE else 0
        if it.kind != NOTE or left < 0:
            continue
        for _, kind, data in notes_of(read_at(file, it.offset, it.size)):
            if kind == STATUS_RECORD and len(data) >= PID + 4:
                if not known.threads:
                    (known.signal,) = struct.unpack_from("<h", data, SIGNAL)
                known.threads += 1
            elif kind == PROCESS_RECORD and len(data) >= ARGUMENTS + ROOM and known.pid is None:
                (known.pid,) = struct.unpack_from("<i", data, OWN_ID)
                known.arguments = data[ARGUMENTS : ARGUMENTS + ROOM].split(b"\0")[0].decode("utf-8", "replace").strip()


def other_among(names: Set[bytes]) -> str:
    """The other interpreter whose files some names are; nothing where a file of CPython is there."""
    files = [os.path.basename(os.fsdecode(it)) for it in names]
    if any(it.startswith(("python", "libpython")) for it in files):
        return ""
    return next((what for names_of, what in OTHERS for it in files if re.fullmatch(names_of, it)), "")


def known_of(file: IO[bytes]) -> Known:
    """What a core tells of its process. What can't be read tells nothing."""
    known = Known()
    try:
        read_notes(file, known)
        known.other = other_among({it.name for it in maps_of(file)})
    except (OSError, struct.error):
        pass
    return known


def known_at(path: str) -> Known:
    """The same of a core's file."""
    try:
        with open(path, "rb") as file:
            return known_of(file)
    except OSError:
        return Known()
