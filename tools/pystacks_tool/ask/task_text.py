"""The tasks of asyncio as `pysalvage --tasks` writes them as text: of many tasks its JSON is five times as long, and takes more memory.

What may stand in such a line is in docs/USAGE.md. Names, functions, files and types have no quote and no backslash of their own, and
nothing that ends a line: each such character is escaped as `\\u{..}`.
"""

import re
from typing import Dict, Iterable, List, Optional, Tuple

from pystacks_tool.model import Frame, Task, Tasks

TITLE = re.compile(r"(?:Interpreter (0x[0-9a-f]+): )?(Tasks [0-9]+ \(.*\)|Tasks are not told: .*|Tasks of (?:curio|trio) are not read|Greenlets are not read)")
"""The first line of an interpreter's tasks, and one of what isn't read, with the interpreter where there are several."""

DONE = re.compile(r"; ([0-9]+) finished (?:is|are)n't shown\)$")
LOST = "Tasks are not told: "
NOT_READ = " not read"

HEAD = re.compile(r'Task (?:"([^"]*)"|(0x[0-9a-f]+)) \((.*)\)')
"""The line that begins a task: its name or its address, and what it does."""

OTHER = re.compile(r"Task 0x[0-9a-f]+ is not told: .*|Registered, and no task: .*")
FRAME = re.compile(r"    (.*?) \((.*?)(?::([0-9]+))?\)")
CUT = "    ... "
NO_FRAME = "    ? no frame"

ESCAPED = re.compile(r"\\u\{([0-9a-f]+)\}")

KINDS = ("running", "ready", "not started")
"""What a task does that doesn't wait, as its line begins."""


def plain(text: str) -> str:
    """A text without escapes."""
    return ESCAPED.sub(lambda found: chr(int(found.group(1), 16)), text) if "\\" in text else text


def kind_of(condition: str) -> str:
    """What a task does, in a word."""
    return next((it for it in KINDS if condition.startswith(it)), "waiting")


def frame_in(line: str) -> Frame:
    """The frame of a line; one that isn't there, or whose texts can't be read, has no names."""
    found = FRAME.fullmatch(line)
    if found is None:
        return Frame(why="a coroutine without a frame")
    name, file, number = found.groups()
    if "?" in (name, file):
        return Frame(why="a name that can't be read")
    return Frame(plain(name), plain(file), int(number or 0))


class Found:
    """The tasks of one interpreter, while its lines are read."""

    def __init__(self, interpreter: str) -> None:
        self.interpreter, self.tasks, self.others = interpreter, [], []  # type: str, List[Task], List[str]
        self.done, self.fault, self.has_asyncio = 0, "", False

    def title(self, line: str) -> None:
        """Takes a first line."""
        if line.endswith(NOT_READ):
            self.others.append(line)
            return
        self.has_asyncio = True
        done = DONE.search(line)
        self.done = int(done.group(1)) if done else 0
        self.fault = line[len(LOST) :] if line.startswith(LOST) else ""

    @property
    def told(self) -> Tasks:
        """What was read."""
        return Tasks(self.interpreter, tuple(self.tasks), tuple(self.others), self.fault, self.done, self.has_asyncio)


class Chains:
    """The frames and the end of each chain, by its lines: most tasks stand where others do."""

    def __init__(self) -> None:
        self.known: Dict[Tuple[str, ...], Tuple[Tuple[Frame, ...], str]] = {}

    def of(self, lines: Iterable[str]) -> Tuple[Tuple[Frame, ...], str]:
        """Those of some lines."""
        key = tuple(lines)
        found = self.known.get(key)
        if found is None:
            end = key[0][len(CUT) :] if key and key[0].startswith(CUT) and not key[0].endswith(")") else ""
            found = self.known[key] = tuple(frame_in(it) for it in key[bool(end) :]), end
        return found


def task_in(head: "re.Match[str]", lines: Iterable[str], chains: Chains) -> Task:
    """A task."""
    name, address, condition = head.groups()
    frames, end = chains.of(lines)
    return Task(address or "", None if name is None else plain(name), kind_of(condition), plain(condition), frames, end)


def tasks_in(text: str) -> Tuple[Tasks, ...]:
    """The tasks of each interpreter that has asyncio, or of which is said what isn't read."""
    found: List[Found] = []
    chains, head, lines = Chains(), None, []  # type: Chains, Optional[re.Match[str]], List[str]
    for line in [*text.split("\n"), ""]:
        if line.startswith("    ") and head:
            lines.append(line)
            continue
        if head:
            found[-1].tasks.append(task_in(head, lines, chains))
        head, lines = HEAD.fullmatch(line) if found else None, []
        title = None if head else TITLE.fullmatch(line)
        if title:
            own, said = title.groups()
            if not found or found[-1].interpreter != (own or ""):
                found.append(Found(own or ""))
            found[-1].title(said)
        elif found and not head and OTHER.fullmatch(line):
            found[-1].others.append(line)
    return tuple(it.told for it in found)
