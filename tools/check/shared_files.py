"""Files in which many entries stand for the same bytes: so little is there that claims much."""

import struct
from typing import Sequence

from made import NO_BITS, NOTE, STRINGS, SYMBOLS, EXAMPLE, Objects, Section, Segment, Symbol, core_file, image_file, layout_of, note
from small_core import BSS, HEAP, bss, heap, heap_of_locals, mapped

MANY = 1000
"""How many entries share some bytes."""

LONG = 10 ** 6
"""How many bytes they share."""

EMPTY_NOTE = struct.pack("<3I", 0, 0, 0x99)
"""A note without a name and a descriptor."""


def header_at(number: int) -> int:
    """Where the program header of a number stands."""
    return 64 + 56 * number


def over(data: bytes, first: int, others: Sequence[int], mem_size: bool = False) -> bytes:
    """An ELF file whose program headers of some numbers have the file's bytes of the first one."""
    made = bytearray(data)
    offset, size = (struct.unpack_from("<Q", made, header_at(first) + at)[0] for at in (8, 32))
    for number in others:
        at = header_at(number)
        struct.pack_into("<Q", made, at + 8, offset)
        struct.pack_into("<Q", made, at + 32, size)
        if mem_size:
            struct.pack_into("<Q", made, at + 40, size)
    return bytes(made)


def usual() -> Segment:
    """The objects of the small core, each of whose frames has names of its variables: none."""
    return heap_of_locals(lambda objects, numbers, texts: [], "", 0).segment(6)


def of_long_name(mark: bytes = b"n") -> bytes:
    """A core of so many load segments at one address, whose file's name is long."""
    at = 0x9000000
    first = Segment(at, b"", 5, 0x1000, b"/" + mark * LONG)
    return core_file([usual(), mapped(), bss(), first, *[Segment(at, b"", 5, 0x1000)] * (MANY - 1)])


def of_notes() -> bytes:
    """A core of so many note segments over the same notes."""
    notes = Segment(0, EMPTY_NOTE * (LONG // len(EMPTY_NOTE)), 0, kind=NOTE)
    own = [usual(), mapped(), bss(), notes]
    data = core_file([*own, *[Segment(0, b"", 0, kind=NOTE)] * (MANY - 1)])
    return over(data, 3, range(4, 3 + MANY))


def of_bss() -> bytes:
    """A core whose bss is there by so many load segments over the same bytes of the file."""
    own = [heap().segment(6), mapped(), Segment(BSS, bytes(LONG), 6)]
    places = [Segment(BSS + LONG * number, b"", 6, 0) for number in range(1, MANY)]
    return over(core_file([*own, *places]), 2, range(3, 2 + MANY), mem_size=True)


def of_heap_words() -> bytes:
    """A core whose heap is there by many load segments over the same words of the file. Each word is the address of a record that
    names a thread of another interpreter; nothing else leads to one, and a status record tells a thread pointer."""
    objects = heap()
    stray = objects.record("interpreter")
    thread = objects.record("thread", None, interp=HEAP + 1, id=1)
    objects.word(stray + objects.group("interpreter")["threads"], thread)
    words = Segment(0x9000000, struct.pack("<Q", stray) * (LONG // 8), 6)
    own = [objects.segment(6), mapped(), bss(0, 0), words]
    places = [Segment(0x9000000 + 2 * LONG * number, b"", 6, 0) for number in range(1, MANY // 5)]
    return over(core_file([*own, *places], [status_of(0x7F00)]), 3, range(4, 3 + MANY // 5), mem_size=True)


def status_of(pointer: int) -> bytes:
    """The note of a thread's status, with its thread pointer."""
    return note(b"CORE\0", 1, (bytes(280) + struct.pack("<Q", pointer)).ljust(336, b"\0"))


def image_of_codes() -> bytes:
    """A program that names the class of codes."""
    return image_file([Segment(0x400000, b"", 5, 0x1000)], (BSS, 16), [Symbol("PyCode_Type", 0x5F0000)])


def image_of_bss(size: int) -> bytes:
    """A program whose bss has so many bytes."""
    return image_file([Segment(0x400000, b"", 5, 0x1000)], (BSS, size))


def image_of_symbols(count: int, length: int) -> bytes:
    """An image of so many symbols, each of whose names ends with the last one's."""
    rows = bytes(24) + b"".join(
        struct.pack("<I2BH2Q", 1 + number, 0x11, 0, 1, 0x400000 + number, 0) for number in range(count))
    texts = b"\0" + b"s" * length + b"\0"
    symbols = [Section(".symtab", SYMBOLS, 0, rows, link=3), Section(".strtab", STRINGS, 0, texts)]
    return image_file([Segment(0x400000, b"", 5, 0x1000)], (BSS, 16), more=symbols)


def image_of_sections(count: int, length: int) -> bytes:
    """An image of so many sections of no bits, which share a long name."""
    name = "s" * length
    made = bytearray(image_file(
        [Segment(0x400000, b"", 5, 0x1000)], (BSS, 16), more=[Section(name, 1), *[Section("", NO_BITS, 0, None, 8)] * count]))
    heads, = struct.unpack_from("<Q", made, 40)
    names, = struct.unpack_from("<H", made, 62)
    offset, = struct.unpack_from("<Q", made, heads + 64 * names + 24)
    place = made.index(b"\0" + name.encode(), offset) + 1 - offset
    for number in range(3, 3 + count):
        struct.pack_into("<I", made, heads + 64 * number, place)
    return bytes(made)


def of_names(count: int) -> bytes:
    """A core whose interpreter has so many names of threads, which are one text."""
    objects = heap()
    numbers, texts, dicts, things = (objects.klass(name, flag) for name, flag in (("int", 24), ("str", 28), ("dict", 29), ("object", 0)))
    module = objects.klass("module", 0)
    objects.word(module + 40, 16)
    objects.word(things + 40, 16)

    def dict_of(*entries: Sequence[int]) -> int:
        keys = objects.record("keys", None, used=len(entries), slots=8)
        objects.write(keys + 40 + 8, b"".join(struct.pack("<3Q", 0, one, other) for one, other in entries))
        return objects.of_class(objects.record("dict", None, keys=keys), dicts)

    def instance(klass: int, attributes: int) -> int:
        at = objects.write(objects.free(), bytes(32))
        objects.word(at + 16, attributes)
        return objects.of_class(at, klass)

    text = lambda text: objects.text(text, klass=texts)
    thread = instance(things, dict_of((text("_name"), text("t" * 4095))))
    active = dict_of(*((objects.number(0x7F00 + number, numbers), thread) for number in range(count)))
    objects.word(HEAP + 16, dict_of((text("threading"), instance(module, dict_of((text("_active"), active))))))
    return core_file([objects.segment(6), mapped(), bss()])


def of_hidden_frames(threads: int) -> bytes:
    """A core of so many threads, each of 16,384 members of its own chain that aren't shown. (The members are the same ones.)"""
    objects = Objects(layout_of(EXAMPLE), HEAP)
    place = objects.record("interpreter")
    code = objects.record("code", None, filename=objects.text("<shim>"), name=objects.text("f"))
    first = objects.frames([code] * 16384)
    objects.threads(place, [{"id": 0x7F00 + number, "frame": first} for number in range(threads)])
    return core_file([objects.segment(6), mapped(), bss()])


def layout_of_tables(tables: int) -> str:
    """The example's layout, with a key that there isn't: so many inline tables that say nothing."""
    return f"{EXAMPLE}x = [{'{a={b={}}},' * tables}]\n"
