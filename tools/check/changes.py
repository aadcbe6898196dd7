"""Changes of files for hostile input: of bytes, words, lengths, addresses and links, stretches that are copied, cuts;
of the headers of segments and sections, segments that overlap, links into cycles, and numbers in texts."""

import re
from dataclasses import dataclass
from random import Random
from typing import Callable, Dict, List, Tuple

Files = Dict[str, bytes]

NUMBERS = (0, 1, 2, 0x7F, 0xFF, 0x1000, 0xFFFF, 2 ** 31, 2 ** 32 - 1, 2 ** 32, 2 ** 47, 2 ** 60, 2 ** 63 - 1, 2 ** 63,
           2 ** 64 - 1)
"""Numbers at which something turns over."""

LOAD = 1


def word(data: bytes, at: int, width: int = 8) -> int:
    """The number at a place."""
    return int.from_bytes(data[at : at + width], "little")


def put(data: bytearray, at: int, value: int, width: int = 8) -> None:
    """Puts a number at a place, as much of it as there is room for."""
    data[at : at + width] = (value % 2 ** (8 * width)).to_bytes(width, "little")[: max(0, len(data) - at)]


def number(random: Random, data: bytearray, at: int, width: int) -> int:
    """Another number for the one at a place: one that turns over, one close by, or one that stands elsewhere."""
    other = random.randrange(0, max(1, len(data) - width), width)
    near = word(data, at, width) + random.choice((-8, -1, 1, 8, 16, 0x1000))
    return random.choice((random.choice(NUMBERS), near, word(data, other, width)))


def change_number(random: Random, data: bytearray, width: int) -> None:
    """Changes a number of some bytes, at a place that the width divides."""
    if len(data) >= width:
        at = random.randrange(0, len(data) - width + 1, width)
        put(data, at, number(random, data, at, width), width)


def change_link(random: Random, data: bytearray) -> None:
    """Puts one word of the file in place of another, both such as addresses are: chains part, join and close."""
    words = [at for at in range(0, len(data) - 7, 8) if 0x1000 <= word(data, at) < 2 ** 47]
    if words:
        one, two = random.choice(words), random.choice(words)
        data[one : one + 8] = data[two : two + 8]


def change_stretch(random: Random, data: bytearray) -> None:
    """Copies a stretch over another, in place of it or beside it, or takes one out."""
    size = min(len(data), random.choice((1, 8, 24, 56, 64, 200)))
    one, two = random.randrange(len(data) - size + 1), random.randrange(len(data) - size + 1)
    kept = random.choice((0, size))
    data[two : two + kept] = data[one : one + size] if random.random() < 0.7 else b""


def change_end(random: Random, data: bytearray) -> None:
    """Cuts the file, or lengthens it."""
    if random.random() < 0.7:
        del data[random.randrange(len(data)) :]
    else:
        data += bytes(random.choice((1, 64, 5000)))


def change_decimal(random: Random, data: bytearray) -> None:
    """Puts another number in place of a decimal one, as texts have them."""
    found = [it.span() for it in re.finditer(rb"\d+", bytes(data))]
    if found:
        first, end = random.choice(found)
        near = int(data[first:end][:30]) + random.choice((-8, -1, 1, 8))
        data[first:end] = str(random.choice((near, random.choice(NUMBERS), -1, 2 ** 64))).encode()


# ---- of ELF files


@dataclass(frozen=True)
class Load:
    """A load segment: where its header stands and its bytes begin, its address, and its length in the file."""

    header: int
    offset: int
    start: int
    size: int


def headers_in(data: bytes) -> Tuple[List[int], List[int]]:
    """Where the headers of an ELF file's segments stand, and those of its sections; none, where it is no ELF file."""
    if data[:4] != b"\x7fELF" or len(data) < 64:
        return [], []

    def places(at: int, count: int, size: int) -> List[int]:
        return [at + size * nth for nth in range(count) if at + size * (nth + 1) <= len(data)]

    return places(word(data, 32), word(data, 56, 2), 56), places(word(data, 40), word(data, 60, 2), 64)


def loads_in(data: bytes) -> List[Load]:
    """The load segments of a file."""
    found = [Load(at, word(data, at + 8), word(data, at + 16), word(data, at + 32))
             for at in headers_in(data)[0] if word(data, at, 4) == LOAD]
    return [it for it in found if it.offset + it.size <= len(data)]


def change_header(random: Random, data: bytearray) -> None:
    """Changes a field of the header of a segment or of a section: its kind, its place, its address, or its size."""
    segments, sections = headers_in(data)
    width, of_segments, of_sections = random.choice((
        (4, (0, 4), (0, 4, 40)), (8, (8, 16, 32, 40), (16, 24, 32)), (8, (8, 16, 32, 40), (16, 24, 32))))
    places = [at + it for at in segments for it in of_segments] + [at + it for at in sections for it in of_sections]
    if places:
        at, other = random.choice(places), word(data, random.choice(places), width)
        left = len(data) - other
        put(data, at, random.choice((number(random, data, at, width), other, left, left + 1)), width)


def change_overlap(random: Random, data: bytearray) -> None:
    """Has a load segment begin within another, or go on into it without bytes of its own, or the two change places."""
    loads = loads_in(data)
    if len(loads) < 2:
        return
    one, two = random.sample(loads, 2)
    kind = random.randrange(3)
    if kind == 0:
        put(data, one.header + 16, two.start + random.randrange(-max(1, one.size), max(1, two.size)))
    elif kind == 1:
        put(data, one.header + 40, two.start - one.start + random.randrange(0, two.size + 2))
    else:
        first, second = (data[it.header : it.header + 56] for it in (one, two))
        data[one.header : one.header + 56], data[two.header : two.header + 56] = second, first


def change_cycle(random: Random, data: bytearray) -> None:
    """Has an address in memory lead back to one in front of its own place, as the last member of a ring does."""
    loads = loads_in(data)
    links = [(at, it.start + at - it.offset, word(data, at))
             for it in loads for at in range(it.offset, it.offset + it.size - 7, 8)]
    links = [link for link in links if any(it.start <= link[2] < it.start + it.size for it in loads)]
    if links:
        at, own, _ = random.choice(links)
        before = sorted({value for _, _, value in links if value <= own})[-3:]
        if before:
            put(data, at, random.choice(before))


Change = Callable[[Random, bytearray], None]

CHANGES: Tuple[Change, ...] = (
    lambda random, data: change_number(random, data, 1), lambda random, data: change_number(random, data, 2),
    lambda random, data: change_number(random, data, 4), lambda random, data: change_number(random, data, 8),
    lambda random, data: change_number(random, data, 8), change_link, change_link, change_stretch, change_end)

OF_ELF: Tuple[Change, ...] = (change_header, change_header, change_overlap, change_cycle)
"""The changes that know of segments and sections."""


def changed(random: Random, data: bytes) -> bytes:
    """A file after some changes."""
    result = bytearray(data)
    kinds = CHANGES + (OF_ELF if data[:4] == b"\x7fELF" else (change_decimal,))
    for _ in range(random.choice((1, 1, 1, 2, 3, 8))):
        if result:
            random.choice(kinds)(random, result)
    return bytes(result)


def changed_word(random: Random, text: str) -> str:
    """An argument with a character that is another one, is gone, or stands twice."""
    if not text:
        return "-"
    at = random.randrange(len(text))
    return text[:at] + random.choice(("", text[at] * 2, random.choice("-=0x19az/ ."))) + text[at + 1 :]
