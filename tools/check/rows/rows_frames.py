"""Files with a table of call frames, with which the cases of tools/check/fuzz.py for `listing frames` begin."""

import struct
from typing import List, Sequence, Tuple

from row import Row, row

BASE, BEGIN = 0x400000, 0x401000
"""Where the file is mapped, and the first address of its first entry."""

PROGRAMS = (
    bytes([0x41, 0x0E, 16, 0x86, 2, 0x43, 0x0D, 6, 0x0A, 0xC6, 0x0C, 7, 8, 0x41, 0x0B]),
    bytes([0x02, 3, 0x05, 3, 2, 0x11, 12, 0x7E, 0x14, 13, 2, 0x15, 14, 0x7E, 0x06, 3, 0x07, 12, 0x08, 13, 0x09, 15, 3]),
    bytes([0x03, 4, 0, 0x0F, 2, 0x76, 0x78, 0x04, 2, 0, 0, 0, 0x10, 6, 2, 0x77, 8, 0x16, 3, 1, 0x30, 0x2E, 8, 0x12, 6, 0x7E, 0x13, 0x7D]),
)
"""Instructions of the entries: of the usual kind, of rules and of expressions."""


def word(number: int) -> bytes:
    """A number of four bytes, modulo 2^32."""
    return struct.pack("<I", number % (1 << 32))


def record(body: bytes) -> bytes:
    """A record: its length, and then its bytes, up to a multiple of four."""
    body += bytes(-len(body) % 4)
    return word(len(body)) + body


def frames_file(programs: Sequence[bytes], machine: int = 62, augmentation: bytes = b"zPLR") -> bytes:
    """A file of a load segment and PT_GNU_EH_FRAME, with an entry of 16 addresses for each program."""
    said = {b"zR": bytes([1, 0x1B]), b"zRS": bytes([1, 0x1B]), b"zPLR": bytes([7, 0x9B, 1, 2, 3, 4, 0x1B, 0x1B])}[augmentation]
    header = 176
    frames = header + 12 + 8 * len(programs)
    records = record(word(0) + bytes([1]) + augmentation + bytes([0, 1, 0x78, 16]) + said + bytes([0x0C, 7, 8, 0x90, 1]))
    pairs = b""
    for nth, program in enumerate(programs):
        at, begin = frames + len(records), BEGIN + 16 * nth
        data = b"\1\x1b" if augmentation == b"zPLR" else b""
        pairs += word(begin - (BASE + header)) + word(at - header)
        records += record(word(at + 4 - frames) + word(begin - (BASE + at + 8)) + word(16) + bytes([len(data)]) + data + program)
    table = bytes([1, 0x1B, 3, 0x3B]) + word(frames - header - 4) + word(len(programs)) + pairs + records + word(0)
    size = header + len(table)
    head = b"\x7fELF\2\1\1" + bytes(9) + struct.pack("<HHIQQQIHHHHHH", 3, machine, 1, 0, 64, 0, 0, 64, 56, 2, 0, 0, 0)
    load = struct.pack("<IIQQQQQQ", 1, 5, 0, BASE, BASE, size, size, 0x1000)
    named = struct.pack("<IIQQQQQQ", 0x6474E550, 4, header, BASE + header, BASE + header, len(table), len(table), 4)
    return head + load + named + table


def samples() -> List[Tuple[str, bytes]]:
    """The files, each with what it is."""
    return [
        ("the usual instructions", frames_file(PROGRAMS)),
        ("a signal's frame", frames_file(PROGRAMS[:1], augmentation=b"zRS")),
        ("an aarch64", frames_file([bytes([0x2D, 0x41, 0x9D, 2]), *PROGRAMS], machine=183, augmentation=b"zR")),
    ]


def rows() -> List[Row]:
    """A run over each: every entry, with at most 64 addresses of it."""
    return [row(f"frames: {what}", "frames file 1 64", {"file": data}) for what, data in samples()]
