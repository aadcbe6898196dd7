"""Rows of `pysalvage --native`: each end and each mark of a native stack, over a file with a table of its own that is laid out by hand.

The file is one of x86-64 that is mapped at CODE. Its table has two entries: of the file's addresses 0x400000 to 0x40000f, where the CFA is
rsp + 8, and behind an instruction of one byte rsp + 16, with rbp saved at the CFA less 16; and of 0x400020 to 0x40003f, where it is rsp + 8,
and from 0x400024 on rsp + 32. The return address stands at the CFA less 8.
"""

import struct
from typing import Dict, Iterator, Sequence

from made import Segment, note, process_record
from row import Row
from rows_salvage import GOOD, named, salvage
from small_core import TEXT, heap

CODE, OTHER, PAGE, STACK = 0x7000_0000, 0x7100_0000, 0x7200_0000, 0x7300_0000
"""Where the file is mapped, one that isn't at hand, code that is in no file, and the stack."""

MADE = "/lib/made.so"
WORDS = f"{GOOD} {MADE}=made --native"

HEADER, COMMON, FIRST, SECOND = 176, 204, 228, 252
"""Where the table stands in the file, the common entry, and the two entries."""


def made_file(of_signals: bool = False, more: int = 0) -> bytes:
    """The file; with frames of signals alone; and with so many instructions more, which do nothing, in its second entry."""
    size = 276 + more
    head = b"\x7fELF\2\1\1".ljust(16, b"\0") + struct.pack("<2HI3QI6H", 3, 62, 1, 0, 64, 0, 0, 64, 56, 2, 64, 0, 0)
    load = struct.pack("<2I6Q", 1, 5, 0, 0x400000, 0x400000, size, size, 4096)
    frames = struct.pack("<2I6Q", 0x6474E550, 4, HEADER, 0x4000B0, 0x4000B0, 28, 28, 4)
    table = struct.pack("<4BI", 1, 0x1B, 3, 0x3B, COMMON - HEADER - 4)
    pairs = struct.pack("<I4i", 2, -HEADER, FIRST - HEADER, 0x20 - HEADER, SECOND - HEADER)
    augmentation = b"zRS\0" if of_signals else b"zR\0"
    common = struct.pack("<IIB", 20, 0, 1) + augmentation + bytes([1, 0x78, 16, 1, 0x1B, 12, 7, 8, 0x90, 1]).ljust(15 - len(augmentation), b"\0")
    first = struct.pack("<IIiIB", 20, FIRST + 4 - COMMON, -(FIRST + 8), 16, 0) + bytes([0x41, 14, 16, 0x86, 2, 0, 0])
    second = struct.pack("<IIiIB", 20 + more, SECOND + 4 - COMMON, 0x20 - (SECOND + 8), 32, 0) + bytes([0x44, 14, 32]) + bytes(4 + more)
    return head + load + frames + table + pairs + common + first + second


FILE = made_file()


def damaged(place: int, value: bytes) -> bytes:
    """The file with other bytes at a place."""
    return FILE[:place] + value + FILE[place + len(value):]


def status(system_id: int, signal: int, at: int, top: int = STACK, base: int = 0, pointer: int = 0) -> bytes:
    """The status record of a thread that stands somewhere."""
    words = [0] * 27
    words[4], words[16], words[19], words[21] = base, at, top, pointer
    return note(b"CORE\0", 1, struct.pack("<12xh18xi", signal, system_id).ljust(112, b"\0") + struct.pack("<27Q", *words) + bytes(8))


def files_over(statuses: Sequence[bytes], words: Sequence[int], page: bytes = b"", file: bytes = FILE) -> Dict[str, bytes]:
    """The files of a core of these threads, over these words of a stack, with code in a page that is no file's."""
    segments = [Segment(CODE, b"", 5, 4096, MADE.encode()), Segment(OTHER, b"", 5, 4096, b"/lib/other.so"),
                Segment(PAGE, page.ljust(64, b"\xcc"), 5), Segment(STACK, struct.pack(f"<{len(words)}Q", *words), 6)]
    return {**named(heap(), more=segments, notes=[*statuses, process_record(4, b"p", b"p")]), "made": file}


def native(what: str, at: int, words: Sequence[int], lines: str, page: bytes = b"", base: int = 0, strict: bool = False,
           file: bytes = FILE, short: bool = False) -> Row:
    """A row of one thread, over these words of its stack; with the first and the last frame alone."""
    files = files_over([status(9, 11, at, STACK, base)], words, page, file)
    head = "Signal 11: core\nProcess 4: p\n"
    return salvage(f"native: {what}", f"{WORDS}{' --strict' * strict}{' -n 1' * short}", files, f"{head}{TEXT}Native thread 9 (crashed)\n{lines}")


CALLER = "    0x70000030 0x40002f (made.so)"
"""The line of a frame that called."""

HERE = "    0x70000024 0x400024 (made.so)\n"
NONE = "    0x70000012 0x400012 (made.so)\n"

RESUMES = [0] * 5 + [11, 12, 13, 14, 15, 16, 17, 18, 19, 20, STACK + 256, 0, 22, 23, 24]
"""What a signal saved of registers, by the words of its frame."""


def ends() -> Iterator[Row]:
    """How stacks end."""
    yield native("whole", CODE + 0x24, [0, 0, 0, 0], HERE)
    yield native("a caller", CODE + 0x24, [0, 0, 0, CODE + 0x30, 0, 0, 0, 0], f"{HERE}{CALLER}\n")
    yield native("no table", CODE + 0x12, [0], f"{NONE}    ... no table covers 0x70000012\n")
    yield native("no file", 0x5000, [0], "    0x5000 (in no file)\n    ... 0x5000 is in no file\n")
    yield native("a file that is not at hand", OTHER + 16, [0], "    0x71000010 (in no file)\n"
                 "    ... 0x71000010 is in a file that is not at hand (other.so)\n")
    yield native("unreadable", CODE + 0x24, [0, 0], f"{HERE}    ... unreadable at 0x73000018, 8 bytes\n")
    for what, file, line in (
        ("the table", damaged(HEADER, b"\2"), "the table of its file can't be read"),
        ("the record", damaged(COMMON + 8, b"\7"), "its record can't be read"),
        ("the rules", damaged(SECOND + 17, b"\x3f"), "its rules can't be read"),
        ("the CFA", damaged(COMMON + 17, b"\0\0\0"), "its canonical frame address is not known"),
        ("the return address", damaged(COMMON + 20, b"\0\0"), "its return address is not known"),
    ):
        at = CODE + 0x22 if what == "the CFA" else CODE + 0x24
        head = HERE if at == CODE + 0x24 else "    0x70000022 0x400022 (made.so)\n"
        yield native(f"refused: {what}", at, [0, 0, 0, 0], f"{head}    ... {line}\n", file=file)


def limits() -> Iterator[Row]:
    """Stacks that don't go up, or go on and on: past 2^20 frames, 64 of signals, or 2^26 bytes of rules."""
    calls = [0, 0, 0, CODE + 0x30]
    # (behind 64 frames of signals stands one whose rules aren't read; an entry of 65,546 bytes fits 1023 times)
    for what, count, file in (("frames", 1 << 20, FILE), ("frames of signals", 65, made_file(True)), ("rules", 1024, made_file(False, 65_536))):
        first, last = (f"{HERE[:-1]} <signal>\n", "    0x70000030 0x400030 (made.so)") if what == "frames of signals" else (HERE, CALLER)
        yield native(f"cut at {what}", CODE + 0x24, calls * (count + 4), f"{first}    ... {count - 2} more frames\n{last}\n"
                     f"    ... cut: no more {what} are read\n", file=file, short=True)
    # (the CFA is rbp + 8, which no rule changes)
    same = damaged(SECOND + 17, bytes([0x0C, 6, 8, 0, 0, 0, 0]))
    yield native("not above", CODE + 0x24, [CODE + 0x30, 0, 0, 0], f"{HERE}{CALLER}\n    ... its caller's frame is not above it\n", base=STACK, file=same)


def marks() -> Iterator[Row]:
    """What is found by other means than tables."""
    # add $8, %rsp; ret
    yield native("an epilogue", PAGE, [0, CODE + 0x30, 0, 0, 0, 0], f"    0x72000000 (in no file) <epilogue>\n{CALLER}\n",
                 page=bytes([0x48, 0x83, 0xC4, 8, 0xC3]))
    # leave; ret
    yield native("an epilogue by the frame pointer", PAGE, [0, 0, 0, CODE + 0x30, 0, 0, 0, 0],
                 f"    0x72000000 (in no file) <epilogue>\n{CALLER}\n", page=bytes([0xC9, 0xC3]), base=STACK + 16)
    # add $-8, %rsp; ret: that takes from the stack pointer
    yield native("no epilogue", PAGE, [0, CODE + 0x30, 0, 0, 0], "    0x72000000 (in no file)\n    ... 0x72000000 is in no file\n",
                 page=bytes([0x48, 0x83, 0xC4, 0xF8, 0xC3]), strict=True)
    # mov $15, %rax; syscall
    handled = [*RESUMES, STACK + 176, CODE + 0x24, 0, 0, 0, 0]
    yield native("a signal's trampoline", PAGE, handled, f"    0x72000000 (in no file) <signal> <signal trampoline>\n{HERE}",
                 page=bytes([0x48, 0xC7, 0xC0, 15, 0, 0, 0, 0x0F, 5]))


def guesses() -> Iterator[Row]:
    """What is guessed, and what isn't where no guess is wanted."""
    jump = "    0x0 (in no file)\n    ... 0x0 is in no file\n"
    words = [CODE + 0x30, 0, 0, 0, 0]
    yield native("a jump to no code", 0, words, f"{jump}    ... guess: jumped to no code\n{CALLER} <guess>\n")
    yield native("a jump, strict", 0, words, jump, strict=True)
    yield native("a jump from no code", 0, [7, 0], jump)
    none, words = f"{NONE}    ... no table covers 0x70000012\n", [0, 0x33, CODE + 0x30, 0, 0, 0, 0]
    yield native("a frame pointer", CODE + 0x12, words, f"{none}    ... guess: frame pointer\n{CALLER} <guess>\n", base=STACK + 8)
    yield native("a frame pointer, strict", CODE + 0x12, words, none, base=STACK + 8, strict=True)
    yield native("no frame pointer", CODE + 0x12, words, none, base=STACK + 4)
    yield native("frame pointers", CODE + 0x12, [0, STACK + 32, CODE + 0x13, 0, 0, CODE + 0x30, 0, 0, 0, 0], f"{none}    ... guess: frame pointer\n"
                 f"    0x70000013 0x400012 (made.so) <frame pointer> <guess>\n{CALLER} <guess>\n", base=STACK + 8)


PYTHONS = "Thread 9 (Python's 0x7F00) (crashed)\n"
"""The line of the thread of Python's."""

BESIDE = "    ... where these stand among the native frames is not known\n    f (a.py)\n    <module> (a.py)\n"
"""Its Python frames, where none of Python's own code tells which native frame runs them."""


def both(what: str, words: str, lines: str, signal: int = 11, at: int = CODE + 0x24, stack: Sequence[int] = (0, 0, 0, CODE + 0x30, 0, 0, 0, 0)) -> Row:
    """A row of a thread of Python's, over these words of its stack, and behind it of one that is none of Python's."""
    files = files_over([status(9, signal, at, STACK, STACK + 8, 0x7F00), status(10, 0, CODE + 0x24, STACK + 32)], stack)
    text = TEXT.replace("0x7F00", "0x7F00 (crashed)") if signal else TEXT
    return salvage(f"native: {what}", f"{WORDS}{words}", files, f"Signal {signal}: core\nProcess 4: p\n{text}{lines}")


def in_one() -> Iterator[Row]:
    """One stack of a thread's Python frames and its native ones, and that of the thread that got the signal alone."""
    own, other = f"{HERE[:-1]} [C]\n{CALLER} [C]\n", f"Native thread 10\n{HERE}"
    yield both("in one with Python's frames", "", f"{PYTHONS}{own}{BESIDE}{other}")
    yield both("of the crashed thread alone", " --crashed", f"{PYTHONS}{own}{BESIDE}")
    yield both("of the first thread, where no signal is told", " --crashed", f"{PYTHONS.replace(' (crashed)', '')}{own}{BESIDE}", signal=0)
    yield both("the first and the last line", " --crashed -n 1", f"{PYTHONS}{HERE[:-1]} [C]\n    ... 3 more lines\n    <module> (a.py)\n")
    guess = f"{NONE[:-1]} [C]\n{CALLER} <guess> [C]\n{BESIDE}    ... no table covers 0x70000012\n    ... guess: frame pointer\n"
    stack = [0, 0x33, CODE + 0x30, 0, 0, 0, 0, 0, 0, 0]
    yield both("in one, behind a guess", " --crashed", f"{PYTHONS}{guess}", at=CODE + 0x12, stack=stack)
    strict = f"{PYTHONS}{NONE[:-1]} [C]\n{BESIDE}    ... no table covers 0x70000012\n"
    yield both("in one, strict", " --crashed --strict", strict, at=CODE + 0x12, stack=stack)
    files = files_over([status(9, 11, CODE + 0x24)], [0] * 4)
    yield salvage("native: --crashed alone asks for nothing", f"{GOOD} --crashed", files, f"Signal 11: core\nProcess 4: p\n{TEXT}")


def rows() -> Iterator[Row]:
    """All rows."""
    for part in (ends, limits, marks, guesses, in_one):
        yield from part()
