"""Rows of `pystacks locate` and `pystacks slim`: the words, the order of the work, and what is told and written."""

from typing import Iterator, List

import slim_cores
from row import Row, row
from small_core import FRAME, IMAGE, files_of, of_locals, small

LOCATE = f"locate core layouts {IMAGE}"
SLIM = f"slim core layouts 0 {IMAGE}"

def rows() -> List[Row]:
    """All of them."""
    return [it for part in (words, order, located, too_many) for it in part()]


def words() -> Iterator[Row]:
    """Which words are taken."""
    for what, text in (
        ("locate alone", "locate"), ("no layouts", "locate core"), ("a word behind that is no image", "locate core layouts x"),
        ("an option of locate", f"{LOCATE} -l"), ("a front of the word", f"locat core layouts {IMAGE}"),
        ("slim alone", "slim"), ("no level", "slim core layouts"), ("a level that is no number", f"slim core layouts x {IMAGE}"),
        ("a level below 0", f"slim core layouts -1 {IMAGE}"), ("a level of 2^64", f"slim core layouts 18446744073709551616 {IMAGE}"),
        ("an image in place of the level", f"slim core layouts {IMAGE}"), ("a second level", f"slim core layouts 0 1 {IMAGE}"),
    ):
        yield row(f"slim: words: {what}", text, files_of(small()), line="bad words", status=2)


def order() -> Iterator[Row]:
    """The core, the layouts and the images are read; then the layouts, the process, and for a slim core its stacks."""
    for what, text, line, status in (
        ("the core is read first", f"COMMAND none none2 LEVEL {IMAGE}", "cannot read none", 3),
        ("the layouts are read before the images", "COMMAND core none LEVEL /a=none2", "cannot read none", 3),
        ("the images are read before the layouts are judged", "COMMAND core image LEVEL /a=none", "cannot read none", 3),
        ("the layouts are judged before the core", f"COMMAND image image LEVEL {IMAGE}", "layouts: not TOML", 6),
        ("no core", "COMMAND layouts layouts LEVEL", "not an ELF64 little-endian file", 1),
        ("an image that is missing", "COMMAND core layouts LEVEL", "image not given: /usr/bin/python3.9", 1),
    ):
        for command, level in (("locate", ""), ("slim", "0 ")):
            said = text.replace("COMMAND", command).replace("LEVEL ", level).replace(" LEVEL", f" {level}".rstrip())
            yield row(f"slim: {command}: {what}", said, files_of(small()), line=line, status=status)
    bad = of_locals(lambda objects, klass, texts: [0], "a", 0, 65536)
    yield row("slim: locals that can't be read", f"slim core layouts 1 {IMAGE}", files_of(bad), line="a frame counts 65536 locals")
    yield row("slim: names of locals that are missing", f"slim core layouts 1 {IMAGE}", files_of(small()), line="unreadable at 0x0, 24 bytes")
    yield row("slim: no interpreter", SLIM, files_of(small(lambda objects: objects.word(FRAME + objects.group("frame")["back"], FRAME))),
              line="no interpreter found")


def slim_rows() -> List[Row]:
    """Runs of `slim` that write a core: what that is is known by slim_reader.py alone."""
    return [row(f"slim: {what}", f"slim core layouts {level} {IMAGE}", files) for what, files, level in slim_cores.cases()]


def located() -> Iterator[Row]:
    """The three lines."""
    text = "Python v3.9.0\nInterpreter 0x10000\nLock 0x0\n"
    yield row("slim: where the interpreter is", LOCATE, files_of(small()), text)
    yield row("slim: locals that can't be read are not looked at", LOCATE, files_of(of_locals(lambda objects, klass, texts: [0], "a", 0, 65536)), text)


def too_many() -> Iterator[Row]:
    """One piece more than there may be. As many as there may be are in slim_cores.py."""
    files = files_of(slim_cores.many(1))
    yield row("slim: too many pieces", SLIM, files, line=f"too many pieces: {slim_cores.MOST + 1}", status=8)
    yield row("slim: where the interpreter of as many is", LOCATE, files, "Python v3.9.0\nInterpreter 0x10000\nLock 0x0\n")
