"""Programs that `listing built` writes as cores and images, and what `pystacks dump` must print of them."""

import re
import subprocess
import tempfile
from dataclasses import dataclass
from functools import lru_cache
from typing import Dict, Iterator, List, Optional, Sequence, Tuple, Union

from made import EXAMPLE, edited, layout_of
from rooms import ROOT
from rows_walk import PARTS

PATH = "/usr/bin/python3"
GOOD = f"dump -c core --layouts layouts {PATH}=image"

SAMPLES = (
    ("3.9.0", EXAMPLE),
    ("3.10.0", edited(EXAMPLE, first_minor="10", last_minor="10", lasti='"units"', lines='"ranges"')),
    ("3.12.0", edited(EXAMPLE, first_minor="12", last_minor="12", lines='"locations"', integers='"tagged"',
                      thread="{size=96, next=8, interp=16, id=32, frame=56, native_id=40}", **PARTS)),
)
"""Layouts that describe no real CPython, by the versions that they are taken for."""

Item = Union[int, str]
Value = Union[Item, Sequence[Item]]


class Unbuilt(Exception):
    """`listing` wrote no file of a program."""


def shown(value: Value, width: int) -> str:
    """A value within a width: a text has 5 characters less for itself, and a list 2 less; of that each item takes its
    bytes and 2, and the one that leaves 5 or less of it has dots in its place, and ends the list."""
    if isinstance(value, int):
        return str(value)
    if isinstance(value, str):
        characters = value.replace("'", '\\"').replace("\n", "\\n")
        return f'"{characters[: width - 5]}{"..." if width - 5 < len(characters) else ""}"'
    left, parts = width - 2, []
    for item in value:
        text = shown(item, left)
        left -= len(text.encode()) + 2
        parts.append(text if left > 5 else "...")
        if left <= 5:
            break
    return f"[{', '.join(parts)}]"


@dataclass(frozen=True)
class Program:
    """Threads of so many frames each, all with the same locals, of which the first so many are arguments; and the
    number of the thread that holds the lock."""

    threads: int = 1
    frames: int = 1
    owner: Optional[int] = None
    arguments: int = 0
    locals: Sequence[Tuple[str, Value]] = ()

    def words(self) -> List[str]:
        """The words that tell it to `listing`."""
        owner = "none" if self.owner is None else str(self.owner)
        numbers = [str(self.threads), str(self.frames), owner, str(self.arguments)]
        return numbers + [f"{name}={word_of(value)}" for name, value in self.locals]

    def text(self, layout: str, version: str, times: int = 0) -> str:
        """What is printed of it where locals are asked for so many times: threads by the system's id, where the layout
        has a place for it."""
        thread = layout_of(layout)["thread"]
        assert isinstance(thread, dict)
        lines = ["Signal 6: core", "Process 1: python3", f"Python v{version}", ""]
        for number in reversed(range(self.threads)):
            name = str(32512 + number) if "native_id" in thread else f"0x{32512 + number:X}"
            lines.append(f"Thread {name}{' (gil)' if number == self.owner else ''}")
            for frame in range(self.frames):
                line = 3 + frame % 1000 + frame % 4 // 2
                lines += [f"    f{frame} (a.py:{line})", *self.local_lines(128 * times)]
        return "".join(f"{line}\n" for line in lines)

    def walked(self, layout: str, version: str) -> str:
        """What a walk prints of it: neither signal nor process, and no lines."""
        lines = self.text(layout, version).splitlines(True)[2:]
        return re.sub(r":\d+\)$", ")", "".join(lines), flags=re.MULTILINE)

    def local_lines(self, width: int) -> Iterator[str]:
        """The lines of a frame's locals, each within a width; none of no width."""
        for number, (name, value) in enumerate(self.locals if width else ()):
            if number in (0, self.arguments):
                yield "        Arguments:" if number < self.arguments else "        Locals:"
            yield f"            {name}: {shown(value, width)}"


def word_of(value: Value) -> str:
    """The word of a value."""
    return str(value) if isinstance(value, (int, str)) else "[" + " ".join(map(str, value))


def written(listing: str, text: str, words: Sequence[str]) -> bytes:
    """A file that `listing` writes by a layout file and the words behind it."""
    with tempfile.NamedTemporaryFile(prefix="built-") as layouts:
        layouts.write(text.encode())
        layouts.flush()
        command = [listing, "built", layouts.name, *words]
        data = subprocess.run([it.encode() for it in command], stdout=subprocess.PIPE).stdout
    if data[:4] != b"\x7fELF":
        raise Unbuilt(f"{' '.join(words)[:200]}: {data[:200]!r}")
    return data


@lru_cache(maxsize=None)
def image(listing: str, text: str, version: str, machine: str) -> bytes:
    """The image of all programs of a version and a machine."""
    return written(listing, text, [version, machine, "image", *Program().words()])


def built(listing: str, text: str, program: Sequence[str], version: str, machine: str = "x86-64") -> Dict[str, bytes]:
    """The files of a row: the core and the image of a program, by its words, and the layouts by which they are written
    and read."""
    core = written(listing, text, [version, machine, "core", *program])
    return {"layouts": text.encode(), "core": core, "image": image(listing, text, version, machine)}


@dataclass(frozen=True)
class StoredLayout:
    """A layout of a real build: the file that it stands in with its whole text, and the layout's own."""

    file: str
    whole: str
    text: str
    version: str
    machine: str


def stored_layouts(pattern: str = "*") -> Iterator[StoredLayout]:
    """Those of the files of `layouts/` with such a name."""
    for path in sorted((ROOT / "layouts").glob(f"{pattern}.toml")):
        whole = path.read_text(encoding="utf-8")
        machine = "aarch64" if "aarch64" in path.name else "x86-64"
        for part in whole.split("[[layout]]")[1:]:
            text = f"[[layout]]{part}"
            layout = layout_of(text)
            yield StoredLayout(path.name, whole, text, f"{layout['major']}.{layout['first_minor']}.0", machine)
