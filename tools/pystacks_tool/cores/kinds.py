"""What a file is that is no core of a 64-bit little-endian process: so that its user needn't guess."""

import struct
from typing import IO, NamedTuple, Optional

from pystacks_tool.cores.maps import read_at
from pystacks_tool.faults import NO_STACKS, Fault, shown
from pystacks_tool.places import machine_name

ELF = b"\x7fELF"
NARROW, BIG = 1, 2
"""The class of 32 bits, and the byte order of the greatest byte first."""

KINDS = {1: "an object file", 2: "a program", 3: "a program or a library"}
"""What is no core, by the types of ELF files. (A slim core has no type.)"""

CORE = 4

ARCHIVES = ((b"PK\3\4", 0, "a zip"), (b"ustar", 257, "a tar"), (b"7z\xbc\xaf\x27\x1c", 0, "a 7z"))
"""How archives are known, and where that stands in them."""

HEAD = 512
"""How many bytes at the front of a file tell what it is."""

OTHER_READERS = "gdb reads such a core: gdb PROGRAM CORE"


class NoCore(NamedTuple):
    """What a file is that isn't read, and what to do next."""

    line: str
    then: str


def no_core(head: bytes) -> Optional[NoCore]:
    """What the first bytes tell of a file that isn't read; nothing of one that may be a core."""
    if not head:
        return NoCore("is empty", "see that the disk has room, and that `ulimit -c` is unlimited, before the next one")
    for mark, place, archive in ARCHIVES:
        if head[place : place + len(mark)] == mark:
            return NoCore(f"is {archive} archive, and no core", "unpack it, and name the core that is in it")
    if not head.startswith(ELF):
        return NoCore("is no ELF file, and so no core", "`file` says what it is; cores packed by gzip, xz, bzip2, zstd and lz4 are taken")
    if len(head) < 20:
        return NoCore("ends within its first 20 bytes", "copy the core anew")
    order = ">" if head[5] == BIG else "<"
    kind, machine = struct.unpack_from(f"{order}2H", head, 16)
    what = "a core" if kind == CORE else KINDS.get(kind, "an ELF file")
    if head[4] == NARROW:
        return NoCore(f"is {what} of a 32-bit machine, {machine_name(machine)}: only 64-bit processes are read", OTHER_READERS)
    if head[5] == BIG:
        return NoCore(f"is {what} of a big-endian machine, {machine_name(machine)}: only little-endian ones are read", OTHER_READERS)
    if kind in KINDS:
        then = "/proc/sys/kernel/core_pattern says where cores go; `readelf -h` says CORE of one"
        return NoCore(f"is {what} for {machine_name(machine)}, and no core", then)
    return None


def check_kind(file: Optional[IO[bytes]], name: bytes) -> None:
    """Refuses a file that isn't read, and says what it is. One that can't be read is the program's to refuse."""
    if file is None:
        return
    try:
        found = no_core(read_at(file, 0, HEAD))
    except OSError:
        return
    if found:
        raise Fault(f"{shown(name)} {found.line}", NO_STACKS, found.then)
