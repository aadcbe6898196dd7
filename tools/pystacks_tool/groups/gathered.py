"""Groups of cores by their lines, in one pass: what is kept of a group doesn't grow with how many lines it has."""

import json
import sys
from dataclasses import dataclass, field
from typing import IO, Dict, Iterable, Iterator, List, Set

from pystacks_tool.faults import BAD_WORDS, Fault, say
from pystacks_tool.groups.lines import Line

CORES = 10
"""How many cores of a group are named."""

KINDS = 20
"""How many versions and hosts of a group are kept apart."""

KEYS = ("crash", "stacks")
"""The keys that a line has."""


@dataclass
class Gathered:
    """A group of cores."""

    line: Line
    """That of its first core."""
    count: int = 0
    first: str = ""
    """When its first core was written, where that is known."""
    last: str = ""
    cores: List[str] = field(default_factory=list)
    """The names of some of them."""
    versions: Set[str] = field(default_factory=set)
    hosts: Set[str] = field(default_factory=set)
    signals: Set[str] = field(default_factory=set)

    @property
    def has_stacks(self) -> bool:
        """Whether it is one of cores that have stacks."""
        return self.line["cause"] is None

    def add(self, line: Line) -> None:
        """Adds a core."""
        more = line.get("more")
        self.count += 1 + (more if isinstance(more, int) else 0)
        when = str(line.get("time") or "")
        if when:
            self.first = min(self.first, when) if self.first else when
            self.last = max(self.last, when)
        if len(self.cores) < CORES:
            self.cores.append(str(line["core"]))
        for kinds, key in ((self.versions, "version"), (self.hosts, "host"), (self.signals, "signal_name")):
            if line.get(key) and len(kinds) < KINDS:
                kinds.add(str(line[key]))


def gathered(lines: Iterable[Line], by: str) -> List[Gathered]:
    """The groups of some lines: those with stacks first, then by how many cores they have, then by when they began."""
    groups: Dict[str, Gathered] = {}
    for line in lines:
        key = line["keys"][by]  # type: ignore[index]
        group = groups.get(key)
        if group is None:
            group = groups[key] = Gathered(line)
        group.add(line)
    return sorted(groups.values(), key=lambda it: (not it.has_stacks, -it.count, it.first, it.cores[0]))


# ---- lines that were written


def is_line(tree: object) -> bool:
    """Whether an object is one of a core, with all its keys."""
    if not isinstance(tree, dict) or not isinstance(tree.get("core"), str) or not isinstance(tree.get("keys"), dict):
        return False
    return "cause" in tree and all(isinstance(tree["keys"].get(it), str) for it in KEYS)


@dataclass
class Counted:
    """How many lines were none of a core."""

    bad: int = 0
    first: str = ""
    """Where the first of them stands."""

    def note(self, name: str, number: int) -> None:
        """Counts one."""
        self.bad += 1
        self.first = self.first or f"{name}:{number}"


def lines_in(file: IO[str], name: str, counted: Counted) -> Iterator[Line]:
    """The lines of a file. What is none is counted."""
    for number, text in enumerate(file, 1):
        if not text.strip():
            continue
        try:
            tree = json.loads(text)
        except (ValueError, RecursionError):
            tree = None
        if is_line(tree):
            yield tree
        else:
            counted.note(name, number)


def lines_from(names: Iterable[str], counted: Counted) -> Iterator[Line]:
    """The lines of some files; of `-` those of the standard input."""
    for name in names:
        try:
            if name == "-":
                yield from lines_in(sys.stdin, "-", counted)
            else:
                with open(name, encoding="utf-8", errors="replace") as file:
                    yield from lines_in(file, name, counted)
        except OSError as error:
            raise Fault(f"cannot read {name}: {error.strerror}", BAD_WORDS, "--from names files that --keys wrote") from None


def say_counted(counted: Counted) -> None:
    """Says how many lines were none of a core."""
    if counted.bad:
        lines = "1 line is" if counted.bad == 1 else f"{counted.bad} lines are"
        say(f"{lines} none that --keys wrote, and left out; the first is {counted.first}")
