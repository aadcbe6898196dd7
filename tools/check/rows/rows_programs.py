"""Rows of programs that `listing built` writes at the bounds of what can be written: values, locals, who holds the
lock, and how many threads and frames there are."""

from typing import Iterator, List, Optional, Tuple

from built_program import GOOD, SAMPLES, Program, StoredLayout, built, stored_layouts
from made import EXAMPLE, edited, layout_of
from row import Row, row
from rows_built import FRAMES, LOCALS

JOINED = "cpython-[ax]*"
"""The names of the files that have the layouts of all versions of a machine."""

NUMBERS = (
    0, 1, -1, 2 ** 30 - 1, 1 - 2 ** 30, 2 ** 30, -2 ** 30, 2 ** 31, -2 ** 31, 2 ** 32, 2 ** 59, 2 ** 60 - 1,
    1 - 2 ** 60)
"""Numbers of no digit, of one of 30 bits, and of two. No program has one of more."""

TEXTS = (
    "", "x" * 4095, "'", "it's \"quoted\" by \\ and '", "\\", "line\nfeed\n", "\x01\x1b[0m\t\x7f", "\x80",
    "caf\xe9 \xff", "\u0100", "\u20ac \uffff", "\U00010000", "\U0001f600 \U0010ffff", "\xe9" * 2047, "\u20ac" * 1365,
    "\U0001f600" * 1023, "x" * 122 + "'", "x" * 123, "x" * 124, "x" * 123 + "\u20ac", "\u20ac" * 123, "\u20ac" * 124,
)
"""Texts of each kind, by their first and last characters, and as long as there are: of 4095 bytes in UTF-8 at most.
The last ones come to as many characters as a value shows of a text, to one less and to one more."""

LISTS = (
    [], list(range(1000)), [-1, "s", 2 ** 60 - 1, "\u20ac"], ["x" * 400, 7], ["x" * 118, 7], ["x" * 117, 7],
    ["x" * 116, 7], [1] * 40, [1] * 41, [1] * 42, [10 ** 8] * 13,
)
"""Lists: of none, of many, of both kinds, and such as come close to the width."""

EDGES = Program(arguments=20, locals=[
    *((f"number{at}", value) for at, value in enumerate(NUMBERS)),
    *((f"text{at}", value) for at, value in enumerate(TEXTS)),
    *((f"list{at}", value) for at, value in enumerate(LISTS)), ("x" * 4095, 1), ("\U0001f600\u20ac\xe9", 2)])
"""All of these as locals, two of which have odd names."""

WHOLE = 40
"""So many times locals are asked for that each of these values is shown whole."""


LOCKS = {"3.9.0": 0x500238, "3.10.0": 0x500238, "3.12.0": 0x600020}
"""Where the lock is in the cores of the samples: the word in `_PyRuntime`, or the lock's own record."""


def rows(listing: str) -> List[Row]:
    """All that need a program built."""
    return [it for part in (edges, counts, many_locals, holders, versions, zeros, walks, many, wide) for it in part(listing)]


def walk(version: str) -> str:
    """The words of a walk of a sample's core, with the lock."""
    return f"walk core layouts {version} 0x600000 {LOCKS[version]:#x}"


def asked(times: int) -> str:
    """The words that ask for locals so many times."""
    return f"{GOOD} -{'l' * times}"


def edges(listing: str) -> Iterator[Row]:
    """Values at their bounds, cut and whole."""
    for version, text in SAMPLES:
        files = built(listing, text, EDGES.words(), version)
        for times in (1, 2, 5, WHOLE, 255):
            yield row(f"built: edges of {version}, {times} times", asked(times), files,
                      EDGES.text(text, version, times))
    for it in stored_layouts(JOINED):
        files = built(listing, it.text, EDGES.words(), it.version, it.machine)
        yield row(f"built: edges of {it.version} by {it.file}", asked(WHOLE), files,
                  EDGES.text(it.text, it.version, WHOLE))


def counts(listing: str) -> Iterator[Row]:
    """How often locals are asked for changes neither of the programs without long values."""
    version, text = SAMPLES[2]
    for what, program in (("frames", FRAMES), ("locals", LOCALS)):
        files = built(listing, text, program.words(), version)
        for times in (1, 2, 5):
            yield row(f"built: {what}, {times} times", asked(times), files, program.text(text, version, times))


def many_locals(listing: str) -> Iterator[Row]:
    """Frames of 300 locals, some, all or none of them arguments, and of as many as there may be."""
    for count, arguments, samples in (
        (300, 0, SAMPLES), (300, 1, SAMPLES), (300, 299, SAMPLES), (300, 300, SAMPLES), (65535, 65535, SAMPLES[:1]),
    ):
        program = Program(arguments=arguments, locals=[(f"v{at}", at) for at in range(count)])
        for version, text in samples:
            files = built(listing, text, program.words(), version)
            yield row(f"built: {count} locals of {version}, {arguments} arguments", asked(1), files,
                      program.text(text, version, 1))


def held(owner: Optional[int]) -> Tuple[str, Program]:
    """Three threads, and which of them holds the lock."""
    return ("none" if owner is None else f"thread {owner}"), Program(threads=3, frames=2, owner=owner)


def holders(listing: str) -> Iterator[Row]:
    """Who holds the lock, by each sample and each layout of a real build."""
    samples = [StoredLayout("sample", text, text, version, "x86-64") for version, text in SAMPLES]
    for it in (*samples, *stored_layouts(JOINED)):
        for owner in (0, 1, 2, None):
            who, program = held(owner)
            files = built(listing, it.text, program.words(), it.version, it.machine)
            yield row(f"built: lock {layout_of(it.text)['lock']} of {it.version} by {it.file}: {who}", GOOD, files,
                      program.text(it.text, it.version))


def versions(listing: str) -> Iterator[Row]:
    """Who holds the lock in 3.7, where the word that names the thread stands elsewhere from 3.7.4 on."""
    for it in stored_layouts(JOINED):
        for version in ("3.7.3", "3.7.4", "3.7.17") if it.version == "3.7.0" else ():
            for owner in (2, None):
                who, program = held(owner)
                files = built(listing, it.text, program.words(), version, it.machine)
                yield row(f"built: lock of {version} by {it.file}: {who}", GOOD, files, program.text(it.text, version))


def zeros(listing: str) -> Iterator[Row]:
    """Zeros in front of a serial number, which the version that is told doesn't have."""
    for asked_for, told in (("3.9.0a05", "3.9.0a5"), ("3.9.0b00", "3.9.0b0"), ("3.9.0rc10", "3.9.0rc10")):
        files = built(listing, EXAMPLE, Program().words(), asked_for)
        yield row(f"built: version {asked_for}", GOOD, files, Program().text(EXAMPLE, told))


def walks(listing: str) -> Iterator[Row]:
    """Who holds the lock, by the address of the lock; and by none, with which nobody is marked."""
    for version, text in SAMPLES:
        for owner in (None, 0, 1, 2):
            who, program = held(owner)
            files = built(listing, text, program.words(), version)
            yield row(f"built: walk: lock of {version}: {who}", walk(version), files, program.walked(text, version))
        _, program = held(None)
        yield row(f"built: walk: no lock of {version}", f"walk core layouts {version} 0x600000 0", files,
                  program.walked(text, version))


def many(listing: str) -> Iterator[Row]:
    """As many threads, and as many frames of a thread, as there may be."""
    for what, program in (
        ("4096 threads", Program(threads=4096, owner=0)), ("4096 frames", Program(frames=4096)),
        ("64 threads of 64 frames", Program(threads=64, frames=64, owner=63)),
    ):
        for version, text in SAMPLES:
            files = built(listing, text, program.words(), version)
            yield row(f"built: {what} of {version}", GOOD, files, program.text(text, version))
            yield row(f"built: walk: {what} of {version}", walk(version), files, program.walked(text, version))


WIDE = edited(EXAMPLE, frame="{size=65535, code=16, back=24, instr=32, locals=56, code_tag_bits=0}")
"""A layout whose frames have 65,535 bytes."""


def wide(listing: str) -> Iterator[Row]:
    """A core of some 270 MB, of 4096 such frames."""
    program = Program(frames=4096)
    yield row("built: 4096 frames of 65535 bytes", GOOD, built(listing, WIDE, program.words(), "3.9.0"), program.text(WIDE, "3.9.0"))


def listing_rows(listing: str) -> List[Row]:
    """Those of `listing` itself: which programs it refuses to write."""
    found = []
    for what, program, machine, line in (
        ("no threads", Program(threads=0), "x86-64", "not valid 0 0"),
        ("4097 threads", Program(threads=4097), "x86-64", "not valid 4096 0"),
        ("4097 frames", Program(frames=4097), "x86-64", "not valid 0 0"),
        ("a holder that is no thread", Program(threads=3, owner=3), "x86-64", "not valid 0 0"),
        ("a holder, where no place is known", Program(owner=0), "other", "uncovered"),
        ("more arguments than locals", Program(arguments=1), "x86-64", "not valid 0 0"),
        ("2^60", Program(locals=[("a", 2 ** 60)]), "x86-64", "not valid 0 0"),
        ("-2^60", Program(locals=[("a", -2 ** 60)]), "x86-64", "not valid 0 0"),
        ("2^60 in a list", Program(locals=[("a", [1, 2 ** 60])]), "x86-64", "not valid 0 0"),
        ("a text of 4096 characters", Program(locals=[("a", "x" * 4096)]), "x86-64", "not valid 0 0"),
        ("a text of 4096 bytes", Program(locals=[("a", "\xe9" * 2048)]), "x86-64", "not valid 0 0"),
        ("a name of 4096 characters", Program(locals=[("x" * 4096, 1)]), "x86-64", "not valid 0 0"),
        ("65536 locals", Program(locals=[("a", 1)] * 65536), "x86-64", "not valid 0 0"),
    ):
        version, text = SAMPLES[0]
        words = ["built", "layouts", version, machine, "core", *program.words()]
        found.append(row(f"listing: built: refused: {what}", words, {"layouts": text.encode()}, f"{line}\n"))
    return [*found, *versions_of_listing(), no_room()]


def versions_of_listing() -> Iterator[Row]:
    """Versions of which a number can be made, and others."""
    files = {"layouts": EXAMPLE.encode()}
    for version, is_covered in (
        ("3.9.99", True), ("3.9.0a0", True), ("3.9.0b9", True), ("3.9.0rc15", True), ("3.9.0rc16", False),
        ("3.9.0a05", True), ("3.9.0rc00", True), ("3.9.0c1", False), ("3.9.0+x", False),
    ):
        words = ["built", "layouts", version, "x86-64", "places", *Program().words()]
        found = "600000 500238\n" if is_covered else "uncovered\n"
        yield row(f"listing: built: version {version}", words, files, found)


def no_room() -> Row:
    """Such frames, of which five threads of 4096 have no room."""
    frame = 65536 + 64 + 48 + 32 + 80 + 80
    needed = (1 << 18) + 32 + 3 * (48 + 128) + 5 * (64 + 4096 * frame)
    words = ["built", "layouts", "3.9.0", "x86-64", "core", *Program(threads=5, frames=4096).words()]
    return row("listing: built: no room", words, {"layouts": WIDE.encode()}, f"no room {needed}\n")
