"""Rows of programs that `listing built` writes as cores and images: as they are written, and with some bytes
changed."""

import struct
from typing import Iterator, List

from built_program import GOOD, PATH, SAMPLES, Program, built, stored_layouts
from made import LOAD
from row import Row, row

FRAMES = Program(frames=2)
"""Two frames."""

LOCALS = Program(frames=2, owner=0, arguments=1, locals=(("x", -5), ("y", ["s", 7])))
"""The same with locals, by a thread that holds the lock."""

FLAGS, OFFSET, FILE_SIZE = 4, 8, 32
"""Where fields stand in a program header."""

HEADERS, SYMBOLS, STRINGS, STRINGS_SIZE = 0xB0, 0x1B0, 0x228, 79
"""Where the section headers, the symbols and the names of an image begin, and how long the names are."""


def changed(data: bytes, at: int, part: bytes) -> bytes:
    """Some bytes with others from a place on."""
    return data[:at] + part + data[at + len(part) :]


def load_header(core: bytes, number: int) -> int:
    """Where the program header of a load segment stands, counted from 0."""
    headers = range(64, 64 + 56 * struct.unpack_from("<H", core, 56)[0], 56)
    return [at for at in headers if struct.unpack_from("<I", core, at)[0] == LOAD][number]


def rows(listing: str) -> List[Row]:
    """All that need a program built."""
    return [it for part in (samples, layouts, cut, without_runtime, seeds) for it in part(listing)]


def samples(listing: str) -> Iterator[Row]:
    """Both programs by each sample."""
    for version, text in SAMPLES:
        files = built(listing, text, FRAMES.words(), version)
        yield row(f"built: frames of {version}", GOOD, files, FRAMES.text(text, version))
        files = built(listing, text, LOCALS.words(), version)
        yield row(f"built: locals of {version}", f"{GOOD} -l", files, LOCALS.text(text, version, 1))


def layouts(listing: str) -> Iterator[Row]:
    """Both programs by each layout of a real build."""
    for it in stored_layouts():
        files = built(listing, it.whole, FRAMES.words(), it.version, it.machine)
        yield row(f"built: frames of {it.version} by {it.file}", GOOD, files, FRAMES.text(it.text, it.version))
        files = built(listing, it.whole, LOCALS.words(), it.version, it.machine)
        yield row(f"built: locals of {it.version} by {it.file}", f"{GOOD} -l", files,
                  LOCALS.text(it.text, it.version, 1))


def cut(listing: str) -> Iterator[Row]:
    """A core without the bytes that the image has too, as the kernel leaves them out but for a page."""
    version, text = SAMPLES[2]
    files = built(listing, text, FRAMES.words(), version)
    header = load_header(files["core"], 0)
    page = changed(files["core"], header + FILE_SIZE, struct.pack("<Q", 0x1000))
    other = changed(files["image"], 0x1000, bytes([0, 0, 9, 3]))
    printed = FRAMES.text(text, version)
    yield row("built: another version in the image", GOOD, {**files, "image": other}, printed)
    yield row("built: no image", GOOD.rsplit(" ", 1)[0], files, line=f"image not given: {PATH}")
    yield row("built: native frames", f"{GOOD} -n", files, line="native frames are not read from a core")
    yield row("built: cut", GOOD, {**files, "core": page}, printed)
    yield row("built: cut: another version in the image", GOOD, {**files, "core": page, "image": other},
              line="no layout for Python 3.9.0")
    yield row("built: cut: a map that can be written is not of the image", GOOD,
              {**files, "core": changed(page, header + FLAGS, struct.pack("<I", 7))},
              line="version unreadable at 0x401000, 4 bytes")
    yield row("built: cut: no image", GOOD.rsplit(" ", 1)[0], {**files, "core": page}, line=f"image not given: {PATH}")


def with_runtime_section(image: bytes) -> bytes:
    """An image with a section `.PyRuntime` at an address that no map holds."""
    strings = image[STRINGS : STRINGS + STRINGS_SIZE] + b".PyRuntime\0"
    headers = bytearray(image[HEADERS : HEADERS + 4 * 64])
    headers[3 * 64 + 24 : 3 * 64 + 40] = struct.pack("<2Q", len(image), len(strings))
    headers += struct.pack("<2I4Q2I2Q", STRINGS_SIZE, 1, 0, 0x700000, 0, 16, 0, 0, 8, 0)
    header = changed(changed(image[:64], 40, struct.pack("<Q", len(image) + len(strings))), 60, struct.pack("<H", 5))
    return header + image[64:] + strings + bytes(headers)


def without_runtime(listing: str) -> Iterator[Row]:
    """An image that doesn't define `_PyRuntime`: the words of its bss are tried in order."""
    version, text = SAMPLES[0]
    files = built(listing, text, FRAMES.words(), version)
    core, printed = files["core"], FRAMES.text(text, version)
    image = changed(files["image"], SYMBOLS + 2 * 24 + 6, bytes(2))
    words_at = struct.unpack_from("<Q", core, load_header(core, 1) + OFFSET)[0]

    def worded(*words: int) -> bytes:
        return changed(core, words_at, struct.pack(f"<{len(words)}Q", *words))

    def alone(*words: int) -> bytes:
        return worded(*words, *[0] * (0x1000 - len(words)))

    none, interpreter = 0x400000, 0x600000
    for what, data, program in (
        ("the second word", worded(none, interpreter), image),
        ("the second word, and a section that no map holds", worded(none, interpreter), with_runtime_section(image)),
        ("the first word", worded(interpreter, none), image),
        ("the second word alone", alone(none, interpreter), image),
    ):
        yield row(f"built: without the runtime: {what}", GOOD, {**files, "core": data, "image": program}, printed)
    yield row("built: the runtime names none: the second word", GOOD, {**files, "core": alone(none, interpreter)},
              printed)
    for what, program in (("without the runtime", image), ("the runtime names none", files["image"])):
        yield row(f"built: {what}: no word", GOOD, {**files, "core": alone(none, none), "image": program},
                  line="no interpreter found")


def seeded(seed: int) -> Iterator[str]:
    """The lines of the threads of a seed's program, the last one first, with their locals."""
    for thread in reversed(range(256)):
        yield f"Thread 0x{1000 + 16 * thread:X}"
        for frame in range(1 + (seed % 16 + thread) % 16):
            yield f"    f{(seed % 1000 + 31 * thread + frame) % 1000} (m{frame}.py:{2 + frame})"
            number = 7 * thread + frame
            yield from ("        Arguments:", f"            x: {number}")
            yield from ("        Locals:", f'            y: ["s", {number}]')


def seeds(listing: str) -> Iterator[Row]:
    """The programs of some seeds."""
    version, text = SAMPLES[0]
    for seed in (0, 7, 999, 2 ** 64 - 1):
        lines = ["Signal 6: core", "Process 1: python3", f"Python v{version}", "", *seeded(seed)]
        files = built(listing, text, [str(seed)], version)
        yield row(f"built: seed {seed}", f"{GOOD} -l", files, "".join(f"{line}\n" for line in lines))


IMAGE_LINES = (
    "machine x86-64", "segment 1 5 0 4194304 8192 8192", "segment 1 6 8192 5242880 0 131072", "section 0 0 0 0 0 ",
    "section 8 5242880 8192 131072 0 .bss", "section 2 0 432 120 3 .symtab", "section 3 0 552 79 0 .strtab",
    "plain 0 0 0 0 ", "plain 17 1 4198400 4 Py_Version", "plain 17 1 5242880 8 _PyRuntime",
    "plain 17 1 5308424 8 _PyThreadState_Current", "plain 17 1 5308432 8 interp_head", "build -",
    "binary 5242880 131072 0 0 4", "symbol _PyRuntime 5242880", "symbol Py_Version 4198400")
"""What an image says, the address of `_PyRuntime` among it."""


def listing_rows(listing: str) -> List[Row]:
    """Those of `listing` itself."""
    version, text = SAMPLES[2]
    files = built(listing, text, FRAMES.words(), version)
    found = [row("listing: built: the image", f"elf image {0x400000} {0x2000}", files,
                 "".join(f"{line}\n" for line in IMAGE_LINES))]
    for what, words, line in (
        ("places", "3.12.0 x86-64 places 1 2 none 0", "600000 600020"),
        ("no layout", "3.11.0 x86-64 core 7", "no layout"), ("no number", "3.12.0+x x86-64 core 7", "uncovered"),
        ("no seed", "3.12.0 x86-64 core f", "refused"), ("another machine", "3.12.0 arm core 7", "refused"),
        ("no version", "3 x86-64 core 7", "refused"), ("no program", "3.12.0 x86-64 core", "refused"),
        ("a word less", "3.12.0 x86-64", "refused"), ("a number less", "3.12.0 x86-64 core 1 2 none", "refused"),
        ("a count that is no number", "3.12.0 x86-64 core 1 -2 none 0", "refused"),
    ):
        found.append(row(f"listing: built: {what}", f"built layouts {words}", files, f"{line}\n"))
    return found
