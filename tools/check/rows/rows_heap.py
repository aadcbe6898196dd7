"""Rows of `pysalvage --heap`: what is counted of each class, how it is named, how lists end, and why no heap is told."""

import json
import struct
from typing import Callable, Dict, Iterator, List, Optional, Sequence, Tuple

from made_heaps import BYTES, CACHED_KEYS, COLLECTING, DICTS, FLAGS, HEADS, INTEGER, LIST, NOWHERE, QUALNAME, RECORDS, TRACKED, TUPLE, TYPE
from made_heaps import BASE, MadeHeap, of_minor, of_runtime, with_sets
from row import Row
from rows_salvage import GOOD, STRIPPED, broken_tree, salvage
from small_core import HEAP, TEXT

HEAPS = f"{GOOD} --records records --heap"

GENERATIONS = {"youngest": "generation 0", "middle": "generation 1", "oldest": "generation 2", "permanent": "the permanent generation"}
"""The lists in text."""


def rows() -> Iterator[Row]:
    """All of them."""
    for part in (counted, sizes, keys, shared, sets, names, lost, ends, collecting, many, several, checked, of_runtimes, untold, trees):
        yield from part()


NO_SETS = "    tables of sets are not counted: no symbol names their classes\n"


def head(*counts: int, at: int = HEAP, sets: bool = False) -> str:
    """The line that counts the objects of the lists, and the one that says that the tables of sets are not counted."""
    youngest, middle, oldest, permanent = [*counts, 0, 0, 0, 0][:4]
    return f"Heap of the interpreter at 0x{at:x}: {youngest}, {middle}, {oldest} and {permanent} objects\n" + ("" if sets else NO_SETS)


Tops = Sequence[Tuple[int, int]]
"""Bytes and addresses of the largest objects of a class."""


def line(objects: int, size: int, name: str, tops: Tops = (), more: int = 0, unknown: int = 0, unread: int = 0) -> str:
    """The line of a class, and that of its largest objects if there are any."""
    blocks = f" and {more} in other blocks" if more else ""
    lost_size = f", {unknown} of unknown size" if unknown else ""
    lost_blocks = f", {unread} of unknown other blocks" if unread else ""
    largest = f"        the largest: {', '.join(f'{number} at 0x{at:x}' for number, at in tops)}\n" if tops else ""
    return f"    {objects} objects, {size} bytes{blocks}{lost_size}{lost_blocks}: {name}\n{largest}"


def told(what: str, made: MadeHeap, text: str, *cuts: int) -> Row:
    """A heap that is told so."""
    return salvage(f"heap: {what}", HEAPS, made.files(*cuts), TEXT + text)


def counted() -> Iterator[Row]:
    """How many objects there are of each class, in which order."""
    yield told("no objects", MadeHeap(), head())
    made = MadeHeap()
    one, other = made.klass("Order", 48), made.klass("Row", 100)
    for it in (one, other, one):
        made.add("youngest", it)
    yield told("two objects of one class and one of another", made, head(3) + line(2, 128, "Order", made.tops(one, 64))
               + line(1, 116, "Row", made.tops(other, 116)))
    made = MadeHeap()
    classes = [made.klass(it, 32) for it in ("A", "B", "C")]
    for name, it in zip(HEADS, (classes[2], classes[0], classes[1], classes[2])):
        made.add(name, it)
    lines = [line(objects, 48 * objects, name, made.tops(it, 48)) for objects, name, it in zip((1, 1, 2), "ABC", classes)]
    yield told("one in each list", made, head(1, 1, 1, 1) + lines[2] + lines[0] + lines[1])
    made = MadeHeap()
    large, small = made.klass("Large", 200), made.klass("Small", 16)
    for it in (small, small, large):
        made.add("oldest", it)
    yield told("most bytes first", made, head(0, 0, 3) + line(1, 216, "Large", made.tops(large, 216)) + line(2, 64, "Small", made.tops(small, 32)))
    made = MadeHeap()
    klass = made.klass("P", 24, 8, (TRACKED, TUPLE))
    held = [made.add("youngest", klass, it) for it in (1, 3, 3, 0, 2, 3)]
    yield told("the three largest of six, by address where they are as large", made, head(6)
               + line(6, 6 * 40 + 12 * 8, "P", [(64, held[1]), (64, held[2]), (64, held[5])]))


SIZES: Tuple[Tuple[str, Sequence[int], Tuple[int, int], Sequence[int], Tuple[int, int, int, int]], ...] = (
    ("a tuple of three", (TRACKED, TUPLE), (24, 8), (3,), (64, 0, 0, 0)),
    ("a tuple of none", (TRACKED, TUPLE), (24, 8), (0,), (40, 0, 0, 0)),
    ("a list of five, with room for eight", (TRACKED, LIST), (40, 0), (5, NOWHERE, 8), (56, 64, 0, 0)),
    ("a list with room for none", (TRACKED, LIST), (40, 0), (0, 0, 0), (56, 0, 0, 0)),
    ("a list with more room than 64 bits have", (TRACKED, LIST), (40, 0), (0, 0, 2 ** 61), (56, 0, 0, 1)),
    ("bytes", (TRACKED, BYTES), (33, 1), (5,), (54, 0, 0, 0)),
    ("an integer below 0, of two digits", (TRACKED, INTEGER), (24, 4), (-2,), (48, 0, 0, 0)),
    ("a class with three slots, that keeps no keys", (TRACKED, TYPE), (880, 40), (3, *[0] * 120), (1016, 0, 0, 0)),
    ("one that has no count of items", (TRACKED,), (24, 8), (3,), (40, 0, 0, 0)),
    ("one without a head of the collector", (), (24, 0), (), (24, 0, 0, 0)),
    ("with flags of later versions", (3, 4, TRACKED), (24, 0), (), (40, 0, 0, 0)),
    ("the most bytes that there may be", (TRACKED,), (2 ** 64 - 17, 0), (), (2 ** 64 - 1, 0, 0, 0)),
    ("a byte more than there may be", (TRACKED,), (2 ** 64 - 16, 0), (), (0, 0, 1, 0)),
    ("more items than there may be", (TRACKED, TUPLE), (24, 8), (2 ** 61,), (0, 0, 1, 0)),
    ("a count below 0", (TRACKED, TUPLE), (24, 8), (-1,), (0, 0, 1, 0)),
)
"""What an object of a class is, by its flags, its bytes and those of an item, and the words behind its head; its bytes, those in other blocks,
and of how many the size is not known, and that of other blocks."""


def sizes() -> Iterator[Row]:
    """How many bytes an object has."""
    for what, bits, (basic, item), words, (size, more, unknown, unread) in SIZES:
        made = MadeHeap()
        at = made.add("youngest", made.klass("T", basic, item, bits), *words)
        yield told(f"size: {what}", made, head(1) + line(1, size, "T", [(size + more, at)], more, unknown, unread))
    made = MadeHeap()
    klass = made.klass("T", 2 ** 64 - 17)
    made.add("youngest", klass)
    made.add("youngest", klass)
    yield told("size: a sum that is more than there may be", made, head(2) + line(2, 2 ** 64 - 1, "T", made.tops(klass, 2 ** 64 - 1)))


def keys() -> Iterator[Row]:
    """How many bytes the keys of a dict have."""
    for what, owners, slots, more, unread in (
        ("its own", 1, 8, 168, 0), ("two owners", 2, 8, 0, 0), ("no owner", 0, 8, 0, 0), ("no slots", 1, 0, 40, 0),
        ("the most slots of an index of one byte each", 1, 255, 40 + 255 + 170 * 24, 0), ("256 slots", 1, 256, 40 + 512 + 170 * 24, 0),
        ("65,536 slots", 1, 65536, 40 + 262144 + 43690 * 24, 0), ("more slots than there may be", 1, 2 ** 63, 0, 1),
        ("more bytes than there may be", 1, 2 ** 60, 0, 1),
    ):
        made = MadeHeap()
        at = made.add("youngest", made.klass("D", 48, 0, (TRACKED, DICTS)), 0, 0, made.keys(owners, slots), 0)
        yield told(f"keys: {what}", made, head(1) + line(1, 64, "D", [(64 + more, at)], more, unread=unread))
    made = MadeHeap()
    klass = made.klass("D", 48, 0, (TRACKED, DICTS))
    for it in (made.keys(2), NOWHERE, made.keys()):
        made.add("youngest", klass, 0, 0, it, 0)
    (_, first), (_, second), (_, third) = made.tops(klass, 0)
    yield told("keys: of one dict of three", made, head(3) + line(3, 192, "D", [(232, third), (64, first), (64, second)], 168, unread=1))


def kept_by(made: MadeHeap, kind: int, keys: int, room: int = 880) -> int:
    """One more type, of a class of types, that keeps these keys. Where it stands."""
    return made.add("youngest", kind, *[0] * (CACHED_KEYS // 8 - 2), keys, *[0] * ((room - CACHED_KEYS) // 8 - 1))


def shared() -> Iterator[Row]:
    """Keys that several dicts share count once, with the type that keeps them."""
    for what, owners, slots, more, unread in (
        ("keys of three owners", 3, 8, 168, 0), ("keys of its own", 1, 8, 168, 0), ("256 slots", 9, 256, 40 + 512 + 170 * 24, 0),
        ("more bytes than there may be", 2, 2 ** 60, 0, 1),
    ):
        made = MadeHeap()
        at = kept_by(made, made.klass("type", 880, 40, (TRACKED, TYPE)), made.keys(owners, slots))
        yield told(f"a type's keys: {what}", made, head(1) + line(1, 896, "type", [(896 + more, at)], more, unread=unread))
    for what, keys, unread in (("none", 0, 0), ("not in memory", NOWHERE, 1)):
        made = MadeHeap()
        at = kept_by(made, made.klass("type", 880, 40, (TRACKED, TYPE)), keys)
        yield told(f"a type's keys: {what}", made, head(1) + line(1, 896, "type", [(896, at)], unread=unread))
    made = MadeHeap()
    held = made.keys(4)
    kind, table = made.klass("type", 880, 40, (TRACKED, TYPE)), made.klass("D", 48, 0, (TRACKED, DICTS))
    at = kept_by(made, kind, held)
    for _ in range(3):
        made.add("youngest", table, 0, 0, held, 0)
    yield told("a type's keys: those of three dicts count once", made, head(4) + line(1, 896, "type", [(896 + 168, at)], 168)
               + line(3, 192, "D", made.tops(table, 64)))


TABLES: Tuple[Tuple[str, Callable[[int], Tuple[int, int]], Tuple[int, int]], ...] = (
    ("the small table", lambda at: (7, at + 64), (0, 0)), ("a table of 32 entries", lambda at: (31, NOWHERE), (512, 0)),
    ("a table of one entry", lambda at: (0, NOWHERE), (16, 0)), ("a table at null", lambda at: (31, 0), (512, 0)),
    ("the small table's mask and another table", lambda at: (7, at + 72), (128, 0)),
    ("the most entries that there may be", lambda at: (2 ** 60 - 2, NOWHERE), (2 ** 64 - 16, 0)),
    ("an entry more", lambda at: (2 ** 60 - 1, NOWHERE), (0, 1)), ("a mask of all bits", lambda at: (-1, NOWHERE), (0, 1)),
)
"""Sets by the mask and the table of one at an address; the bytes of the table, and whether they are not known."""


def set_heap(bases: int = 0, ends_at: int = 0) -> Tuple[MadeHeap, int, int, int]:
    """A heap with `set`, `frozenset`, and a class that leads to `set`, or elsewhere, behind so many bases."""
    made = MadeHeap()
    kinds = [made.klass(it, 200) for it in ("set", "frozenset")]
    for it in kinds:
        made.objects.word(it + BASE, 0)
    klass = kinds[0] if not ends_at else ends_at
    for at in range(bases):
        derived = made.klass(f"D{at}", 200)
        made.objects.word(derived + BASE, klass)
        klass = derived
    return made, kinds[0], kinds[1], klass


def of_sets(what: str, made: MadeHeap, kinds: Tuple[int, int], text: str, *cuts: int) -> Row:
    """A heap that is told so, of a program whose symbols name the classes of sets."""
    program = with_sets(("PySet_Type", kinds[0]), ("PyFrozenSet_Type", kinds[1]))
    return salvage(f"heap: sets: {what}", HEAPS, made.files(*cuts, program=program), TEXT + text)


def sets() -> Iterator[Row]:
    """How many bytes the tables of sets have, of their classes, of those that derive from them, and of others."""
    table = (1, 1, 31, NOWHERE)
    for what, words, (more, unread) in TABLES:
        for name in ("set", "frozenset"):
            made, one, other, _ = set_heap()
            klass = {"set": one, "frozenset": other}[name]
            at = made.add("youngest", klass, 1, 1, 0, 0)
            mask, place = words(at)
            made.objects.word(at + 32, mask % 2 ** 64)
            made.objects.word(at + 40, place)
            yield of_sets(f"{name}: {what}", made, (one, other), head(1, sets=True)
                          + line(1, 216, name, [(min(216 + more, 2 ** 64 - 1), at)], more, unread=unread))
    for bases, more, unread in ((1, 512, 0), (2, 512, 0), (16, 512, 0), (17, 0, 1)):
        made, one, other, klass = set_heap(bases)
        at = made.add("youngest", klass, *table)
        yield of_sets(f"a class {bases} bases away", made, (one, other), head(1, sets=True)
                      + line(1, 216, f"D{bases - 1}", [(216 + more, at)], more, unread=unread))
    made, one, other, klass = set_heap(1, NOWHERE)
    at = made.add("youngest", klass, *table)
    yield of_sets("a base that is not in memory", made, (one, other), head(1, sets=True) + line(1, 216, "D0", [(216, at)], unread=1))
    made, one, other, _ = set_heap()
    klass = made.klass("T", 200)
    made.objects.word(klass + BASE, 0)
    at = made.add("youngest", klass, *table)
    yield of_sets("a class that derives from none", made, (one, other), head(1, sets=True) + line(1, 216, "T", [(216, at)]))
    made, one, other, klass = set_heap(1)
    at = made.add("youngest", klass, *table)
    made.objects.word(klass + BASE, klass)
    yield of_sets("a class that is its own base", made, (one, other), head(1, sets=True) + line(1, 216, "D0", [(216, at)], unread=1))
    made, one, other, klass = set_heap(1)
    made.sized(klass, 200, 0, (TRACKED, LIST))
    at = made.add("youngest", klass, 1, 1, 4, NOWHERE)
    yield of_sets("a class of lists that derives from it", made, (one, other), head(1, sets=True) + line(1, 216, "D0", [(248, at)], 32))
    for place in (32, 40):
        made, one, other, _ = set_heap()
        first, second = made.add("youngest", one, *table), made.add("youngest", one, *table)
        yield of_sets(f"a word that is not in memory, at {place}", made, (one, other), head(2, sets=True)
                      + line(2, 432, "set", [(728, first), (216, second)], 512, unread=1), second + place - HEAP, second + place + 8 - HEAP)
    made, one, other, _ = set_heap()
    at = made.add("youngest", one, *table)
    for name, where in (("PySet_Type", one), ("PyFrozenSet_Type", other)):
        yield salvage(f"heap: sets: {name} alone has a symbol", HEAPS, made.files(program=with_sets((name, where))),
                      TEXT + head(1) + line(1, 216, "set", [(216, at)]))


def one_of(klass: Callable[[MadeHeap], int]) -> MadeHeap:
    """A heap with one object, of this class."""
    made = MadeHeap()
    made.add("youngest", klass(made))
    return made


def with_word(klass: Callable[[MadeHeap], int], place: int, number: int) -> Callable[[MadeHeap], int]:
    """A class with another word in a place."""
    def changed(made: MadeHeap) -> int:
        at = klass(made)
        made.objects.word(at + place, number)
        return at

    return changed


def of_bytes(made: MadeHeap, name: bytes) -> int:
    """A class whose name has these bytes."""
    at = made.klass("T")
    made.objects.write(int.from_bytes(made.objects.data[at + 24 - HEAP : at + 32 - HEAP], "little"), name)
    return at


NAMES: Tuple[Tuple[str, Callable[[MadeHeap], int], str], ...] = (
    ("of a module of C's", lambda made: made.klass("zlib.Compress"), "zlib.Compress"),
    ("by module and name", lambda made: made.heap_class("Shop.Order", "shop.orders"), "shop.orders.Shop.Order"),
    ("of the program itself", lambda made: made.heap_class("Order", "__main__"), "Order"),
    ("of builtins", lambda made: made.heap_class("Order", "builtins"), "Order"),
    ("without a dict", lambda made: made.heap_class("Order"), "?.Order"),
    ("without a text", with_word(lambda made: made.heap_class("Order", "shop"), QUALNAME, NOWHERE), "shop.?"),
    ("a line feed and quotes", lambda made: made.klass('a"\n    9 objects, 9 bytes: "b'), "a\\u{22}\\u{a}    9 objects, 9 bytes: \\u{22}b"),
    ("the same of the heap", lambda made: made.heap_class('O"\n\\', 'm"\n'), "m\\u{22}\\u{a}.O\\u{22}\\u{a}\\u{5c}"),
    ("127 bytes", lambda made: made.klass("x" * 127), "x" * 127),
    ("128 bytes", lambda made: made.klass("x" * 128), "?"),
    ("no text", lambda made: of_bytes(made, b"a\xffb\0"), "?"),
    ("none", lambda made: made.klass(""), ""),
    ("not in memory", with_word(lambda made: made.klass("T"), 24, NOWHERE), "?"),
)
"""Classes, and how they are named."""


def names() -> Iterator[Row]:
    """Names of classes."""
    for what, klass, name in NAMES:
        made = one_of(klass)
        yield told(f"name: {what}", made, head(1) + line(1, 48, name, made.tops(min(made.held), 48)))


def lost() -> Iterator[Row]:
    """What can't be read of objects and of classes."""
    made = MadeHeap()
    klass = made.klass("T")
    first, second = made.add("oldest", klass), made.add("oldest", klass)
    yield told("lost: the word that names a class", made, head(0, 0, 2) + "    1 objects whose class can't be read\n" + line(1, 48, "T", [(48, second)]),
               first - HEAP, first + 16 - HEAP)
    made = MadeHeap()
    first, second = made.add("oldest", NOWHERE), made.add("oldest", made.klass("T"))
    yield told("lost: a class", made, head(0, 0, 2) + line(1, 48, "T", [(48, second)]) + line(1, 0, "?", [(0, first)], unknown=1, unread=1))
    made = MadeHeap()
    klass = made.klass("T")
    first = made.add("oldest", klass)
    yield told("lost: the flags of a class", made, head(0, 0, 1) + line(1, 0, "?", [(0, first)], unknown=1, unread=1),
               klass + FLAGS - HEAP, klass + FLAGS + 8 - HEAP)
    made = MadeHeap()
    klass = made.klass("P", 24, 8, (TRACKED, TUPLE))
    first, second = made.add("oldest", klass, 1, 0), made.add("oldest", klass, 1, 0)
    yield told("lost: a count", made, head(0, 0, 2) + line(2, 48, "P", [(48, first), (0, second)], unknown=1), second + 16 - HEAP, second + 24 - HEAP)
    made = MadeHeap()
    klass = made.klass("L", 40, 0, (TRACKED, LIST))
    first, second = made.add("oldest", klass, 0, 0, 4), made.add("oldest", klass, 0, 0, 4)
    yield told("lost: for how many items there is room", made, head(0, 0, 2) + line(2, 112, "L", [(88, first), (56, second)], 32, unread=1),
               second + 32 - HEAP, second + 40 - HEAP)


def of_three(of: str) -> Tuple[MadeHeap, List[int]]:
    """A heap with three objects in one list, and one in the next list; and where the heads of the three stand."""
    made = MadeHeap()
    klass = made.klass("T")
    for _ in range(3):
        made.add(of, klass)
    others = list(HEADS)
    made.add(others[(others.index(of) + 1) % 4], klass)
    return made, list(made.lists[of])


def left_of(of: str, count: int) -> str:
    """The line that counts, where so many of the three are left."""
    others = list(HEADS)
    after = others[(others.index(of) + 1) % 4]
    return head(*(count if it == of else 1 if it == after else 0 for it in HEADS))


def of_class(made: MadeHeap, *left_out: int) -> str:
    """The line of the one class of a heap, of whose objects those with these heads aren't counted."""
    (klass, held), = made.held.items()
    count = len(held) - len(left_out)
    return line(count, 48 * count, "T", made.tops(klass, 48, *(it + 16 for it in left_out)))


def ends() -> Iterator[Row]:
    """How lists end."""
    for of, name in GENERATIONS.items():
        made, (_, second, third) = of_three(of)
        made.objects.word(second + 8, third)
        yield told(f"end: {name} is torn at an object", made,
                   left_of(of, 1) + f"    {name} is torn at 0x{second:x}\n" + of_class(made, second, third))
        made, (_, second, third) = of_three(of)
        made.objects.word(second, NOWHERE)
        yield told(f"end: {name} leads to what is not in memory", made,
                   left_of(of, 2) + f"    {name} can't be read at 0x{NOWHERE:x}\n" + of_class(made, third))
    made, (_, second, third) = of_three("youngest")
    middle = made.head("middle")
    made.objects.word(second, middle)
    made.objects.word(middle + 8, second)
    yield told("end: the head of another list", made, left_of("youngest", 2) + f"    generation 0 is torn at 0x{middle:x}\n"
               + f"    generation 1 is torn at 0x{middle:x}\n" + of_class(made, third))
    made, (first, second, third) = of_three("youngest")
    own = made.head("youngest")
    made.objects.word(own + 8, second)
    yield told("end: its own head, which names another one", made,
               left_of("youngest", 3) + f"    generation 0 is torn at 0x{own:x}\n" + of_class(made))
    made, (first, second, third) = of_three("youngest")
    made.objects.word(third, first)
    yield told("end: one that was met", made, left_of("youngest", 3) + f"    generation 0 is torn at 0x{first:x}\n" + of_class(made))
    made, (first, second, third) = of_three("youngest")
    made.objects.word(first, first)
    yield told("end: itself", made, left_of("youngest", 1) + f"    generation 0 is torn at 0x{first:x}\n" + of_class(made, second, third))
    made = MadeHeap()
    made.objects.word(made.head("oldest"), 0)
    yield told("end: a head that leads to null", made, head() + "    generation 2 can't be read at 0x0\n")
    made, _ = of_three("youngest")
    place = made.head("permanent")
    yield told("end: a head that is not in memory", made, left_of("youngest", 3) + f"    the permanent generation can't be read at 0x{place:x}\n"
               + of_class(made), place + 8 - HEAP, place + 16 - HEAP)


def collecting() -> Iterator[Row]:
    """Whether a collection runs."""
    for what, number, text in (
        ("one runs", 1, "    a collection runs\n"), ("in the highest byte", 2 ** 31, "    a collection runs\n"),
        ("behind the four bytes", 2 ** 32, ""),
    ):
        made = MadeHeap()
        made.objects.word(HEAP + COLLECTING, number)
        yield told(f"collecting: {what}", made, head() + text)
    yield told("collecting: not in memory", MadeHeap(), head(), COLLECTING + 3, COLLECTING + 4)


def of_classes(count: int) -> Tuple[MadeHeap, List[int]]:
    """A heap with an object of each of so many classes, and where these stand."""
    made = MadeHeap()
    classes = [made.klass(f"C{it}") for it in range(count)]
    for it in classes:
        made.add("oldest", it)
    return made, classes


def of_dense_classes(count: int) -> Tuple[MadeHeap, List[int], int]:
    """The same of classes that stand 8 bytes apart: each of their words is one address, that of their name; and how many bytes each object has."""
    made = MadeHeap()
    objects = made.objects
    # (as flags that address says that the collector tracks the objects, which have no count)
    name = objects.write(0x14000, b"T".ljust(128, b"\0"))
    begin = objects.write(objects.free(), struct.pack("<Q", name) * (count + 64))
    classes = [begin + 8 * it for it in range(count)]
    for it in classes:
        made.add("youngest", it)
    return made, classes, name + 16


def many() -> Iterator[Row]:
    """As many classes as have a line, and more."""
    for count, more in ((40, ""), (41, "    and 1 more classes\n"), (141, "    and 101 more classes\n")):
        made, classes = of_classes(count)
        lines = [line(1, 48, f"C{at}", made.tops(it, 48) if at < 10 else ()) for at, it in enumerate(classes[:40])]
        yield told(f"{count} classes", made, head(0, 0, count) + "".join(lines) + more)
    made, classes, size = of_dense_classes(2050)
    lines = [line(1, size, "T", made.tops(it, size) if at < 10 else ()) for at, it in enumerate(classes[:40])]
    yield told("2,050 classes", made, head(2050) + "".join(lines) + "    and 2010 more classes\n")


def of_two() -> Tuple[MadeHeap, int]:
    """The heap of two interpreters, an object in a list of each, and where the second one stands."""
    made = MadeHeap()
    objects = made.objects
    made.add("youngest", made.klass("T"))
    other = objects.free()
    objects.write(other, bytes(COLLECTING + 16))
    objects.word(HEAP, other)
    for place in HEADS.values():
        objects.word(other + place, other + place)
        objects.word(other + place + 8, other + place)
    objects.threads(other, [{"id": 1}])
    return made, other


def several() -> Iterator[Row]:
    """Two interpreters, of which each has lists of its own."""
    made, other = of_two()
    text = TEXT.replace("Thread", f"Interpreter 0x{HEAP:x}\nThread") + f"Interpreter 0x{other:x}\nThread 0x1\n"
    yield salvage("heap: two interpreters", HEAPS, made.files(), text + head(1) + of_class(made) + head(at=other))
    place, first = other + HEADS["oldest"], made.lists["youngest"][0]
    made.objects.word(first, place)
    made.objects.word(place + 8, first)
    torn = f"is torn at 0x{place:x}\n"
    yield salvage("heap: a list that leads to the head of another interpreter's", HEAPS, made.files(), text
                  + head(1) + f"    generation 0 {torn}" + of_class(made) + head(at=other) + f"    generation 2 {torn}")


def checked() -> Iterator[Row]:
    """3.13, whose heads are believed where what they lead to, or what they name as before them, names them."""
    words, text = of_minor(HEAPS, 13), of_minor(TEXT, 13)
    made = MadeHeap(13)
    made.add("middle", made.klass("T"))
    yield salvage("heap: 3.13", words, made.files(), text + head(0, 1) + of_class(made))
    for name in HEADS:
        made = MadeHeap(13)
        at, aside = made.head(name), made.objects.write(made.objects.free(), bytes(16))
        made.objects.word(at, aside)
        made.objects.word(at + 8, aside)
        yield salvage(f"heap: 3.13: no list for {GENERATIONS[name]}", words, made.files(), text + head().split(": ")[0] + f": no list at 0x{at:x}\n")
    tree = of_minor(tree_of([{"interpreter": hex(HEAP), "kind": "no lists"}]), 13).replace('"searched": false', '"searched": true')
    yield salvage("heap: JSON: 3.13: no list", f"{words} -j", made.files(), tree)
    made.objects.word(aside, at)
    yield salvage("heap: 3.13: what a head names as before it leads to it", words, made.files(),
                  text + head() + f"    the permanent generation is torn at 0x{aside:x}\n")
    made.objects.word(at, at)
    made.objects.word(at + 8, NOWHERE)
    yield salvage("heap: 3.13: what a head leads to does not lead back", words, made.files(), text + head().split(": ")[0] + f": no list at 0x{at:x}\n")


def of_runtimes() -> Iterator[Row]:
    """3.7 and 3.8, whose lists the runtime has."""
    counts = f"Heap of the runtime: 1, 0, 0 and 0 objects\n{NO_SETS}"
    for minor, size, before in ((7, 64, 32), (8, 48, 16)):
        words, text = of_minor(HEAPS, minor), of_minor(TEXT, minor)
        files, member = of_runtime(minor)
        yield salvage(f"heap: 3.{minor}", words, files, text + counts + line(1, size, "T", [(size, member + before)]))
    stripped, _ = of_runtime(8, STRIPPED)
    yield salvage("heap: 3.8: no symbol", words, stripped, text + "Heap of the runtime: no symbol tells where it is\n")
    yield salvage("heap: JSON: 3.8: no symbol", f"{words} -j", stripped, of_minor(tree_of([{"interpreter": None, "kind": "no runtime"}]), 8))


def without(group: bytes) -> bytes:
    """The records without a group."""
    return b"\n".join(it for it in RECORDS.split(b"\n") if not it.startswith(group + b" "))


def untold() -> Iterator[Row]:
    """Why no heap is told."""
    made = one_of(lambda made: made.klass("T"))
    files, not_told = made.files(), "Heap: not described for this version\n"
    for what, words, records, text in (
        ("without the flag", f"{GOOD} --records records", RECORDS, ""), ("no records", f"{GOOD} --heap", RECORDS, not_told),
        ("records of no release", HEAPS, b"records = []\n", not_told),
        ("of another release", HEAPS, RECORDS.replace(b"minor = 9", b"minor = 10"), not_told),
        ("without classes of the heap", HEAPS, without(b"heap_type"), not_told), ("without classes", HEAPS, without(b"type"), not_told),
    ):
        yield salvage(f"heap: {what}", words, {**files, "records": records}, TEXT + text)


# ---- JSON


def tree_of(heap: Optional[Sequence[Dict[str, object]]]) -> str:
    """The JSON of the small core with what is told of heaps."""
    tree = broken_tree(0, [])
    interpreters = tree["interpreters"]
    assert isinstance(interpreters, list)
    interpreters[0]["threads"][0]["frames"]["end"] = {"kind": "whole"}
    return json.dumps({**tree, "heap": heap, "missing": None}, indent=2, ensure_ascii=False, sort_keys=True) + "\n"


def class_tree(
    klass: int, name: Optional[str], objects: int, size: int, tops: Optional[Tops], more: int = 0, unknown: int = 0, unread: int = 0,
) -> Dict[str, object]:
    """The JSON of a class, with its largest objects where they are told."""
    largest = None if tops is None else [{"address": hex(at), "bytes": number} for number, at in tops]
    return {"address": hex(klass), "bytes": size, "largest": largest, "more": more, "name": name, "objects": objects, "unknown": unknown,
            "unread": unread}


def heap_tree(
    classes: Sequence[Dict[str, object]], is_collecting: Optional[bool] = False, unreadable: int = 0, more: int = 0,
    **lists: Tuple[int, Dict[str, str]],
) -> Dict[str, object]:
    """The JSON of a heap, with so many more classes, of whose lists these have objects, or no whole end."""
    whole = (0, {"kind": "whole"})
    told_lists = {name: {"end": lists.get(name, whole)[1], "objects": lists.get(name, whole)[0]} for name in HEADS}
    return {"classes": list(classes), "collecting": is_collecting, "interpreter": hex(HEAP), "kind": "heap", "lists": told_lists,
            "more_classes": more, "sets": False, "unreadable": unreadable}


def trees() -> Iterator[Row]:
    """JSON."""
    whole = {"kind": "whole"}
    json_row = lambda what, made, heap, *cuts, words=HEAPS: salvage(
        f"heap: JSON: {what}", f"{words} -j", made.files(*cuts), tree_of(heap))
    yield json_row("no objects", MadeHeap(), [heap_tree([])])
    yield json_row("no records", MadeHeap(), None, words=f"{GOOD} --heap")
    yield json_row("without the flag", MadeHeap(), None, words=f"{GOOD} --records records")
    made = MadeHeap()
    one, other, lists = made.klass("Order", 48), made.heap_class('R"', "shop"), made.klass("L", 40, 0, (TRACKED, LIST))
    for name, it in (("youngest", one), ("middle", other), ("youngest", one), ("permanent", NOWHERE), ("oldest", lists)):
        made.add(name, it, 0, 0, 8)
    tops = made.tops
    counted_classes = [class_tree(one, "Order", 2, 128, tops(one, 64)), class_tree(lists, "L", 1, 56, tops(lists, 120), 64),
                       class_tree(other, "shop.R\\u{22}", 1, 48, tops(other, 48)), class_tree(NOWHERE, None, 1, 0, tops(NOWHERE, 0), 0, 1, 1)]
    yield json_row("classes", made, [heap_tree(counted_classes, youngest=(2, whole), middle=(1, whole), oldest=(1, whole), permanent=(1, whole))])
    made, classes = of_classes(41)
    yield json_row("41 classes", made, [heap_tree([
        class_tree(it, f"C{at}", 1, 48, made.tops(it, 48) if at < 10 else None) for at, it in enumerate(classes)], oldest=(41, whole))])
    made, classes, size = of_dense_classes(2050)
    first_classes = [class_tree(it, "T", 1, size, made.tops(it, size) if at < 10 else None) for at, it in enumerate(classes[:2048])]
    yield json_row("2,050 classes", made, [heap_tree(first_classes, more=2, youngest=(2050, whole))])
    made, (first, second, _) = of_three("youngest")
    klass, own = made.klass("U"), made.head("oldest")
    made.objects.word(second, NOWHERE)
    made.objects.word(own + 8, own + 24)
    changed = made.lists["middle"][0]
    made.objects.word(changed + 24, klass)
    made.objects.word(HEAP + COLLECTING, 1)
    classes_left = [class_tree(class_in(made, first), "T", 1, 48, [(48, first + 16)]), class_tree(klass, "U", 1, 48, [(48, changed + 16)])]
    gone, torn = {"address": hex(NOWHERE), "kind": "unreadable"}, {"address": hex(own), "kind": "torn"}
    yield json_row("what is broken", made, [heap_tree(classes_left, True, 1, youngest=(2, gone), middle=(1, whole), oldest=(0, torn))],
                   second + 16 - HEAP, second + 32 - HEAP)
    yield json_row("collecting is not in memory", MadeHeap(), [heap_tree([], None)], COLLECTING, COLLECTING + 1)


def class_in(made: MadeHeap, first: int) -> int:
    """The class of the object of a head."""
    return int.from_bytes(made.objects.data[first + 24 - HEAP : first + 32 - HEAP], "little")
