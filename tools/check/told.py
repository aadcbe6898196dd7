"""Runs on changed files of which the rules of docs/ tell the answer: the status, what is printed, and the line."""

import re
from dataclasses import dataclass
from random import Random
from typing import Callable, Dict, Iterator, Optional, Tuple

from changes import Files, changed_word
from made import EXAMPLE, Objects, Segment, core_file, edited, image_file
from rows_dump import line_row
from small_core import BSS, CALLER, CODE, FRAME, GOOD, HEAP, MODULE_CODE, PROGRAM, TEXT, THREAD, bss, files_of, heap, mapped, small
from rows_reach import GOOD as REACH
from rows_slim import LOCATE, SLIM
from sample_cores import LARGEST, counts_text


@dataclass(frozen=True)
class Told:
    """A run of which the rules tell the status, what is printed, and the line after the program's name. Where no text
    is told, it must be one of the command."""

    words: Tuple[str, ...]
    files: Files
    status: int
    line: str = ""
    out: Optional[bytes] = b""


WORDS = {command: tuple(words.split(" ")) for command, words in (
    ("dump", GOOD), ("walk", "walk core layouts 3.9.0 0x10000 0"), ("reach", REACH), ("locate", LOCATE), ("slim", SLIM),
    ("pysalvage", GOOD.replace("dump -c ", "")))}
"""The words of each command over the files of a small core."""

Teller = Callable[[Random, str], Told]


def nowhere(random: Random) -> int:
    """An address at which no memory is."""
    return random.randrange(2 ** 32, 2 ** 47, 8)


def cut(random: Random, command: str) -> Told:
    """A core that is cut anywhere has no header, or lacks bytes that its headers name."""
    data = small()
    length = random.randrange(len(data))
    line = "not an ELF64 little-endian file" if length < 64 else "bad program headers"
    return Told(WORDS[command], files_of(data[:length]), 1, line)


def cut_image(random: Random, command: str) -> Told:
    """An image that is cut anywhere lacks headers of sections: they stand at its end."""
    return Told(WORDS[command], files_of(small(), program=PROGRAM[: random.randrange(len(PROGRAM))]), 1,
                "bad image: /usr/bin/python3.9")


def large_bss(random: Random, command: str) -> Told:
    """A bss that claims more than there is, up to 2^63 bytes, has a version that can't be read."""
    size = random.choice((1 << random.randrange(8, 64), random.randrange(0x100, 2 ** 63)))
    program = image_file([Segment(0x400000, b"", 5, 0x1000)], (BSS, size))
    return Told(WORDS[command], files_of(small(), program=program), 1, f"version unreadable at 0x{BSS:x}, {size} bytes")


def broken(command: str, change: Callable[[Objects], object], line: str) -> Told:
    """A chain that doesn't end, or whose record isn't there: no interpreter is found, and a walk tells why."""
    return Told(WORDS[command], files_of(small(change)), 1, line if command == "walk" else "no interpreter found")


def ring(random: Random, command: str) -> Told:
    """A chain of frames, or of threads, that closes has no end."""
    is_of_frames = random.random() < 0.5
    group, field, places = ("frame", "back", (FRAME, CALLER)) if is_of_frames else ("thread", "next", (THREAD,))
    line = "more than 4096 frames in a thread" if is_of_frames else "more than 4096 threads"
    first = random.choice(places)
    return broken(command, lambda objects: objects.word(places[-1] + objects.group(group)[field], first), line)


def torn(random: Random, command: str) -> Told:
    """A record of the chain stands where no memory is."""
    at = nowhere(random)
    group, place, field, record = random.choice((
        ("interpreter", HEAP, "threads", "thread"), ("thread", THREAD, "next", "thread"),
        ("thread", THREAD, "frame", "frame"), ("frame", FRAME, "back", "frame"), ("frame", FRAME, "code", "code"),
        ("frame", CALLER, "code", "code")))
    line = f"unreadable at 0x{at:x}, {heap().group(record)['size']} bytes"
    return broken(command, lambda objects: objects.word(place + objects.group(group)[field], at), line)


def unnamed(random: Random, command: str) -> Told:
    """A frame whose file or function has a name that isn't there, or too long a one, is not shown."""
    code, line = random.choice(((CODE, "    f (a.py)\n"), (MODULE_CODE, "    <module> (a.py)\n")))
    field, at, length = random.choice(("filename", "name")), nowhere(random), random.choice((-1, 4096, 2 ** 62))
    is_long = random.random() < 0.5

    def change(objects: Objects) -> None:
        if is_long:
            text = objects.text("x")
            objects.word(text + objects.group("string")["length"], length)
        objects.word(code + objects.group("code")[field], text if is_long else at)

    return Told(WORDS[command], files_of(small(change)), 0, out=TEXT.replace(line, "").encode())


def overlapped(random: Random, command: str) -> Told:
    """Of two segments that have an address the first counts."""
    objects = heap()
    own = objects.segment(6)
    at = random.randrange(HEAP - 64, HEAP + len(own.data))
    noise = Segment(at, bytes(random.randrange(256) for _ in range(random.choice((1, 8, 64, 300)))), 6)
    other = Segment(FRAME + objects.group("frame")["code"], MODULE_CODE.to_bytes(8, "little"), 6)
    is_before = random.random() < 0.5
    maps = [other, own, noise] if is_before else [own, noise, other]
    text = TEXT.replace("f (a.py)", "<module> (a.py)") if is_before else TEXT
    return Told(WORDS[command], files_of(core_file([*maps, mapped(), bss()])), 0, out=text.encode())


FIRST_LINE = 10_000


def entries_of(table: bytes) -> Iterator[Tuple[int, int]]:
    """The entries that a line table has whole, of two bytes each: a step, and a difference of lines."""
    for step, delta in zip(table[::2], table[1::2]):
        yield step, delta - 256 if delta > 127 else delta


def line_of_pairs(table: bytes, instruction: int) -> Optional[int]:
    """The line of an instruction by pairs: that of the last entry which isn't behind it."""
    at, line = 0, FIRST_LINE
    for step, delta in entries_of(table):
        at += step
        if at > instruction:
            break
        line += delta
    return line


def line_of_ranges(table: bytes, instruction: int) -> Optional[int]:
    """The line of an instruction by ranges: that of the entry which has it, and none where its difference is -128."""
    at, line = 0, FIRST_LINE
    for step, delta in entries_of(table):
        line += 0 if delta == -128 else delta
        if at <= instruction < at + step:
            return None if delta == -128 else line
        at += step
    return None


def cut_table(random: Random, command: str) -> Told:
    """A line table of any bytes, and so one that is cut anywhere, tells the lines of the entries that it has whole."""
    family, line_of = random.choice((("pairs", line_of_pairs), ("ranges", line_of_ranges)))
    table = bytes(random.randrange(256) for _ in range(random.choice((0, 1, 2, 3, 7, 8, 40))))
    instruction = random.randrange(random.choice((1, 300, 3000)))
    line = line_of(table, instruction)
    layouts = edited(EXAMPLE, lines=f'"{family}"')
    it = line_row("", layouts, FIRST_LINE, table, instruction, "" if line is None else f":{line}")
    return Told(it.words, it.files, 0, out=it.out)


# ---- of `sample`, which reads no file


def number_of(text: str) -> Optional[int]:
    """The number that a word is: 1 to 20 decimal digits, or `0x` and 1 to 16 hexadecimal digits."""
    is_hexadecimal = text.startswith("0x")
    if not re.fullmatch("0x[0-9a-fA-F]{1,16}" if is_hexadecimal else "[0-9]{1,20}", text):
        return None
    number = int(text, 16 if is_hexadecimal else 10)
    return number if number <= LARGEST else None


def sampled(random: Random, command: str) -> Told:
    """A number in any form, and words that are none: the seed with its counts, a core, or bad words."""
    number = random.choice((random.randrange(2 ** 64), random.randrange(1000), LARGEST - random.randrange(3)))
    text = random.choice((str(number), str(number).zfill(20), hex(number), "0x" + f"{number:X}".zfill(16)))
    words = ["sample", text, *random.choice(((), (), ("core",)))]
    if random.random() < 0.3:
        at = random.randrange(1, len(words))
        words[at] = changed_word(random, words[at])
    seed = number_of(words[1])
    if seed is None or words[2:] not in ([], ["core"]):
        return Told(tuple(words), {}, 2, "bad words")
    return Told(tuple(words), {}, 0, out=None if words[2:] else counts_text(seed).encode())


BEFORE_STACKS: Tuple[Teller, ...] = (cut, cut_image, large_bss, ring, torn)

TELLERS: Dict[str, Tuple[Teller, ...]] = {
    "dump": (*BEFORE_STACKS, unnamed, overlapped, cut_table), "walk": (cut, ring, torn, unnamed, overlapped),
    "reach": BEFORE_STACKS, "locate": BEFORE_STACKS, "slim": BEFORE_STACKS, "sample": (sampled,)}
"""What is told of each command."""
