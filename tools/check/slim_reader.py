"""A reader of slim cores that shares nothing with the program: what a slim core of some pieces has, byte by byte.

A slim core is a file of segments (System V gABI) whose header names nothing but its kind, its machine and its program
headers; one load segment for each piece of memory, in order, none of which touches another; and one segment of notes,
which are the core's own, each segment of them filled to a multiple of 4.
"""

import struct
from typing import Dict, List, Sequence, Tuple

from child_cores import Failure

LOAD, NOTE = 1, 4
FLAGS = 6
LARGEST = 65533
"""The most pieces: a header counts 65534 segments, and one of them is the notes'."""

Header = Tuple[int, int, int, int, int, int]
"""The kind, the flags, where the bytes begin, the address, and the sizes in the file and in memory."""


def headers_of(data: bytes) -> List[Header]:
    """The program headers of a file."""
    at, = struct.unpack_from("<Q", data, 32)
    count, = struct.unpack_from("<H", data, 56)
    found = []
    for number in range(count):
        kind, flags, offset, addr, _, size, full, _ = struct.unpack_from("<2I6Q", data, at + 56 * number)
        found.append((kind, flags, offset, addr, size, full))
    return found


def notes_in(data: bytes) -> bytes:
    """The note segments of a core, each filled to a multiple of 4."""
    parts = [data[offset : offset + size] for kind, _, offset, _, size, _ in headers_of(data) if kind == NOTE]
    return b"".join(part + bytes(-len(part) % 4) for part in parts)


def slim_file(machine: int, pieces: Sequence[Tuple[int, bytes]], notes: bytes) -> bytes:
    """The slim core of some pieces, each an address with its bytes."""
    count = len(pieces) + 1
    header = b"\x7fELF\2\1".ljust(16, b"\0") + struct.pack("<2HI3QI6H", 0, machine, 0, 0, 64, 0, 0, 0, 56, count, 0, 0, 0)
    at = 64 + 56 * count
    rows = b""
    for addr, data in pieces:
        rows += struct.pack("<2I6Q", LOAD, FLAGS, at, addr, 0, len(data), len(data), 0)
        at += len(data)
    rows += struct.pack("<2I6Q", NOTE, 0, at, 0, 0, len(notes), 0, 0)
    return b"".join([header, rows, *(data for _, data in pieces), notes])


def own_bytes(core: bytes, addr: int, size: int) -> Dict[int, int]:
    """The bytes of some addresses that a core itself has: those of its first segment that has one."""
    found: Dict[int, int] = {}
    for kind, _, offset, start, length, _ in reversed(headers_of(core)):
        low, high = max(addr, start), min(addr + size, start + length)
        if kind == LOAD and low < high:
            found.update(zip(range(low, high), core[offset + low - start : offset + high - start]))
    return found


def check_slim(core: bytes, slim: bytes) -> int:
    """Fails where a file isn't the slim core of its own pieces, or these don't ascend, or touch, or have another byte than
    the core. Returns how many pieces it has."""
    machine, = struct.unpack_from("<H", core, 18)
    *loads, last = headers_of(slim)
    pieces = [(addr, slim[offset : offset + size]) for _, _, offset, addr, size, _ in loads]
    if slim != slim_file(machine if machine in (62, 183) else 0, pieces, notes_in(core)):
        raise Failure(f"the slim core isn't that of its {len(pieces)} pieces; its last segment is {last}")
    for (one, data), (other, _) in zip(pieces, pieces[1:]):
        if one + len(data) >= other:
            raise Failure(f"the piece at {one:#x} of {len(data)} bytes meets that at {other:#x}")
    for addr, data in pieces:
        wrong = [at for at, byte in own_bytes(core, addr, len(data)).items() if data[at - addr] != byte]
        if wrong or not data:
            raise Failure(f"the piece at {addr:#x} has another byte at {wrong[:1] or 'no address'}")
    return len(pieces)
