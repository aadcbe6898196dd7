"""Rows of `pystacks triage`: the words, the order of the work, and how cores are grouped."""

from typing import Dict, Iterator, List

from made import EXAMPLE, Objects
from row import Row, row
from small_core import FILE, FUNCTION, IMAGE, PROGRAM, THREAD, bss, of_locals, small

TWO = f"triage layouts a b {IMAGE}"
BOTH = "Group 1: 2\n    a\n    b\n"
EACH = "Group 1: 1\n    a\nGroup 2: 1\n    b\n"


def files(**cores: bytes) -> Dict[str, bytes]:
    """The files of a row: its cores, the layouts and the program's file."""
    return {**cores, "layouts": EXAMPLE.encode(), "image": PROGRAM}


def rows() -> List[Row]:
    """All of them."""
    return [it for part in (words, order, groups, refusals) for it in part()]


def words() -> Iterator[Row]:
    """Which words are taken."""
    core = small()
    for what, text in (
        ("the command alone", "triage"), ("no core", "triage layouts"), ("no core before the images", f"triage layouts {IMAGE}"),
        ("a core behind an image", f"triage layouts a {IMAGE} b"), ("another case", f"Triage layouts a {IMAGE}"),
        ("a front of the word", f"triag layouts a {IMAGE}"), ("4097 cores", " ".join(["triage layouts", *["a"] * 4097])),
    ):
        yield row(f"triage: words: {what}", text, files(a=core, b=core), line="bad words", status=2)
    yield row("triage: two dashes are a core", f"triage layouts a -- {IMAGE}", files(a=core), line="cannot read --", status=3)
    many = [f"c{number}" for number in range(4096)]
    yield row("triage: 4096 cores that are none", ["triage", "layouts", *many], files(**{name: b"" for name in many}),
              "Refused: 4096\n" + "".join(f"    {name}: not an ELF64 little-endian file\n" for name in many))


def order() -> Iterator[Row]:
    """The layouts, the images, the layouts' check, and then one core after the other."""
    core = small()
    for what, text, found, line, status in (
        ("the layouts are read before the images", "triage none a /x=none2", files(a=core), "cannot read none", 3),
        ("the images are read before the layouts are judged", "triage image a /x=none", files(a=core), "cannot read none", 3),
        ("the layouts are judged before a core is read", f"triage image none {IMAGE}", files(), "layouts: not TOML", 6),
        ("a core that is missing", f"triage layouts none {IMAGE}", files(), "cannot read none", 3),
        ("a later core that is missing", f"triage layouts a none {IMAGE}", files(a=core), "cannot read none", 3),
    ):
        yield row(f"triage: {what}", text, found, line=line, status=status)


def groups() -> Iterator[Row]:
    """Which cores stand in one group."""
    core = small()

    def with_text(at: int, text: str) -> bytes:
        return small(lambda objects: objects.text(text, at))

    def with_id(objects: Objects) -> None:
        objects.word(THREAD + objects.group("thread")["id"], 0x7F01)

    def shorter(objects: Objects) -> None:
        objects.word(THREAD + objects.group("thread")["frame"], 0)

    def twice(objects: Objects) -> None:
        objects.threads(objects.start, [{"id": 1}, {"id": 2}])

    yield row("triage: one core", f"triage layouts a {IMAGE}", files(a=core), "Group 1: 1\n    a\n")
    yield row("triage: the same core twice", f"triage layouts a a {IMAGE}", files(a=core), "Group 1: 2\n    a\n    a\n")
    yield row("triage: ids of threads that differ", TWO, files(a=core, b=small(with_id)), BOTH)
    yield row("triage: functions that differ", TWO, files(a=core, b=with_text(FUNCTION, "g")), EACH)
    yield row("triage: files that differ", TWO, files(a=core, b=with_text(FILE, "b.py")), EACH)
    yield row("triage: frames that one lacks", TWO, files(a=core, b=small(shorter)), EACH)
    yield row("triage: threads that one lacks", TWO, files(a=small(shorter), b=small(twice)), EACH)
    numbers = lambda found: lambda objects, numbers, texts: [objects.number(found, numbers)]
    yield row("triage: locals that differ", TWO, files(a=of_locals(numbers(1), "v", 0), b=of_locals(numbers(2), "v", 0)), BOTH)
    yield row("triage: groups by their first members", f"triage layouts a b c d {IMAGE}",
              files(a=core, b=with_text(FUNCTION, "g"), c=core, d=with_text(FUNCTION, "g")),
              "Group 1: 2\n    a\n    c\nGroup 2: 2\n    b\n    d\n")
    yield row("triage: a core's name with a line feed", ["triage", "layouts", "a\nb", IMAGE], files(**{"a\nb": core}),
              "Group 1: 1\n    a\nb\n")
    yield from lines()


def lines() -> Iterator[Row]:
    """Frames that differ by their lines alone."""

    def at_line(first: int) -> bytes:
        def change(objects: Objects) -> None:
            code = objects.group("code")
            place = objects.table(bytes([0, 1]))
            objects.write(0x10100 + code["first_line"], first.to_bytes(4, "little"))
            objects.word(0x10100 + code["table"], place)
        return small(change)

    yield row("triage: lines that differ", TWO, files(a=at_line(3), b=at_line(4)), EACH)
    yield row("triage: lines that are the same", TWO, files(a=at_line(4), b=at_line(4)), BOTH)


def refusals() -> Iterator[Row]:
    """Cores that have no report."""
    core, none = small(), small(bss=bss(0x400000, THREAD))
    yield row("triage: a core that is none", f"triage layouts a b c {IMAGE}", files(a=core, b=small(), c=b""),
              BOTH + "Refused: 1\n    c: not an ELF64 little-endian file\n")
    yield row("triage: all refused", TWO, files(a=b"", b=none),
              "Refused: 2\n    a: not an ELF64 little-endian file\n    b: no interpreter found\n")
    yield row("triage: the first refused", TWO, files(a=none, b=core), "Group 1: 1\n    b\nRefused: 1\n    a: no interpreter found\n")
    yield row("triage: no image", "triage layouts a b", files(a=core, b=b""),
              "Refused: 2\n    a: image not given: /usr/bin/python3.9\n    b: not an ELF64 little-endian file\n")
