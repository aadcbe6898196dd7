"""Rows of `pystacks reach`: the words, the order of the work, and what locals lead to."""

from typing import Callable, Iterator, List, Sequence

from made import Objects
from row import Row, row
from small_core import BSS, IMAGE, files_of, of_locals, small

GOOD = f"reach core layouts 0 {IMAGE}"


def rows() -> List[Row]:
    """All of them."""
    return [it for part in (words, order, objects_reached, limits) for it in part()]


def numbers(found: Sequence[int]) -> bytes:
    """A core whose newest frame has these numbers as locals."""
    return of_locals(lambda objects, klass, texts: [objects.number(it, klass) for it in found], "abcdef"[: len(found)], 0)


def words() -> Iterator[Row]:
    """Which words are taken."""
    files = files_of(numbers([7]))
    for what, text in (
        ("the command alone", "reach"), ("no index", "reach core layouts"), ("an index that is no number", f"reach core layouts x {IMAGE}"),
        ("an index below 0", f"reach core layouts -1 {IMAGE}"), ("an empty index", "reach core layouts  /a=b"),
        ("an index of 2^64", f"reach core layouts 18446744073709551616 {IMAGE}"),
        ("a word behind that is no image", "reach core layouts 0 x"), ("two indexes", f"reach core layouts 0 0 {IMAGE}"),
        ("a front of the word", f"reac core layouts 0 {IMAGE}"), ("an option", f"reach core layouts 0 {IMAGE} -l"),
    ):
        yield row(f"reach: words: {what}", text, files, line="bad words", status=2)


def order() -> Iterator[Row]:
    """The core, the layouts and the images are read; then the layouts, the report, and the index."""
    core = numbers([7])
    for what, text, line, status in (
        ("the core is read first", f"reach none none2 0 {IMAGE}", "cannot read none", 3),
        ("the layouts are read before the images", "reach core none 0 /a=none2", "cannot read none", 3),
        ("the images are read before the layouts are judged", "reach core image 0 /a=none", "cannot read none", 3),
        ("the layouts are judged before the core", f"reach image image 0 {IMAGE}", "layouts: not TOML", 6),
        ("the core before the index", "reach layouts layouts 9", "not an ELF64 little-endian file", 1),
        ("an image that is missing", "reach core layouts 9", "image not given: /usr/bin/python3.9", 1),
        ("an index of no thread", f"reach core layouts 1 {IMAGE}", "no such thread: 1", 9),
        ("the greatest index", f"reach core layouts 0xffffffffffffffff {IMAGE}", "no such thread: 18446744073709551615", 9),
    ):
        yield row(f"reach: {what}", text, files_of(core), line=line, status=status)
    bad = of_locals(lambda objects, klass, texts: [0], "a", 0, 65536)
    yield row("reach: locals that can't be read", GOOD, files_of(bad), line="a frame counts 65536 locals")
    yield row("reach: no locals", "reach core layouts 0x00 /usr/bin/python3.9=image",
              files_of(of_locals(lambda objects, klass, texts: [], "", 0)), "Objects 0\n")
    yield row("reach: names of locals that are missing", GOOD, files_of(small()), line="unreadable at 0x0, 24 bytes")


def list_of(objects: Objects, items: Sequence[int], klass: int, count: int = -2) -> int:
    """Puts a list, with another count if one is handed in."""
    place = objects.free()
    for number, item in enumerate(items):
        objects.word(place + 8 * number, item)
    found = objects.record("list", None, count=len(items) if count == -2 else count, items=place)
    return objects.of_class(found, klass)


def reached(what: str, make: Callable[[Objects, int, int], Sequence[int]], names: str, broken: Sequence[int] = (), more: int = 0) -> Row:
    """A row whose locals are made, and lead to themselves and to `more` objects that were made before them. The objects
    whose numbers in order are in `broken` are."""
    found: List[int] = []

    def slots(objects: Objects, klass: int, texts: int) -> Sequence[int]:
        made = make(objects, klass, texts)
        found.extend(sorted({*made, *objects.__dict__.get("led", ())} - {0}))
        return made

    data = of_locals(slots, names, 0)
    lines = "".join(f"    0x{it:x}{' ?' if number in broken else ''}\n" for number, it in enumerate(found))
    return row(f"reach: {what}", GOOD, files_of(data), f"Objects {len(found)}\n{lines}")


def objects_reached() -> Iterator[Row]:
    """What locals lead to."""

    def leads(objects: Objects, *led: int) -> None:
        objects.__dict__["led"] = led

    def shared(objects: Objects, klass: int, texts: int) -> Sequence[int]:
        lists, child = objects.klass("list", 25), objects.number(7, klass)
        leads(objects, child)
        return [list_of(objects, [child, 0], lists), list_of(objects, [child, child], lists)]

    def itself(objects: Objects, klass: int, texts: int) -> Sequence[int]:
        found = list_of(objects, [0], objects.klass("list", 25))
        objects.word(int.from_bytes(objects.data[found + 24 - objects.start : found + 32 - objects.start], "little"), found)
        return [found]

    def pair(objects: Objects, klass: int, texts: int) -> Sequence[int]:
        lists = objects.klass("list", 25)
        one = list_of(objects, [0], lists)
        two = list_of(objects, [one], lists)
        objects.word(int.from_bytes(objects.data[one + 24 - objects.start : one + 32 - objects.start], "little"), two)
        leads(objects, two)
        return [one]

    def of_dict(objects: Objects, klass: int, texts: int) -> Sequence[int]:
        keys = objects.record("keys", None, used=2, slots=8)
        entries = keys + objects.group("keys")["size"] + 8
        objects.write(entries, bytes(48))
        key, value = objects.text("k", klass=texts), objects.number(1, klass)
        objects.word(entries + 32, key)
        objects.word(entries + 40, value)
        leads(objects, key, value)
        return [objects.of_class(objects.record("dict", None, keys=keys), objects.klass("dict", 29))]

    def of_tuple(objects: Objects, klass: int, texts: int) -> Sequence[int]:
        one, two = objects.number(1, klass), objects.text("s", klass=texts)
        leads(objects, one, two)
        return [objects.of_class(objects.items([one, 0, two]), objects.klass("tuple", 26))]

    def text_alone(objects: Objects, klass: int, texts: int) -> Sequence[int]:
        return [objects.text("s", klass=texts), objects.number(7, klass), 0]

    yield reached("a text and a number", text_alone, "abc")
    yield reached("two lists that share an item", shared, "ab")
    yield reached("a list that holds itself", itself, "a")
    yield reached("two lists that hold each other", pair, "a")
    yield reached("a dict", of_dict, "a")
    yield reached("a tuple", of_tuple, "a")
    yield reached("one object twice", lambda objects, klass, texts: [objects.number(7, klass)] * 2, "ab")
    yield reached("an address that is not in memory", lambda objects, klass, texts: [0x70000000], "a", [0])
    def short(objects: Objects, klass: int, texts: int) -> Sequence[int]:
        return [objects.of_class(objects.record("list", None, count=2, items=BSS + 8), objects.klass("list", 25))]

    def negative(objects: Objects, klass: int, texts: int) -> Sequence[int]:
        keys = objects.record("keys", None, used=2 ** 63, slots=8)
        return [objects.of_class(objects.record("dict", None, keys=keys), objects.klass("dict", 29))]

    def lost(objects: Objects, klass: int, texts: int) -> Sequence[int]:
        leads(objects, 0x70000000)
        return [objects.of_class(objects.items([0x70000000]), objects.klass("tuple", 26))]

    yield reached("a list whose second item is not in memory", short, "a", [0])
    yield reached("a dict of a number of slots below 0", negative, "a", [0])
    yield reached("an item that is not in memory", lost, "a", [1])
    yield reached("a count below 0", lambda objects, klass, texts: [list_of(objects, [], objects.klass("list", 25), -1)], "a", [0])


def limits() -> Iterator[Row]:
    """A list of 64 lists, each with 262144 slots over one array of zeros but for the last: 2^24 slots in all, and one more."""

    def made(more: int) -> Callable[[Objects, int, int], Sequence[int]]:
        def slots(objects: Objects, klass: int, texts: int) -> Sequence[int]:
            lists = objects.klass("list", 25)
            place = objects.write(objects.free(), bytes(8 * 262144))
            counts = [262144] * 63 + [262144 - 64 + more]
            found = [objects.of_class(objects.record("list", None, count=count, items=place), lists) for count in counts]
            objects.__dict__["led"] = found
            return [list_of(objects, found, lists)]

        return slots

    yield reached("as many slots as there may be", made(0), "a")
    yield row("reach: too many slots", GOOD, files_of(of_locals(made(1), "a", 0)),
              line="more than 1048576 objects or 16777216 slots", status=9)
