"""Groups of cores as they are shown: as text, and as JSON."""

import json
from typing import Dict, Iterator, List, Sequence

from pystacks_tool.groups.gathered import Gathered
from pystacks_tool.show.escape import in_line

WHY = {"crashed": "the thread that got the signal", "gil": "the thread that held the lock", "main": "the main thread"}
"""Which thread a group's stack is of."""


def ordered(kinds: Sequence[str]) -> str:
    """Some names, in order."""
    return ", ".join(in_line(it) for it in sorted(kinds))


def when(group: Gathered) -> str:
    """From when to when a group's cores were written, where that is known."""
    first, last = (it.replace("T", " ").replace("Z", "") for it in (group.first, group.last))
    if not first:
        return ""
    return first if first == last else f"{first} to {last}"


def title_of(number: int, group: Gathered) -> str:
    """A group's first line."""
    cores = f"{group.count} core{'s' if group.count > 1 else ''}"
    signal = ordered(list(group.signals)) if group.has_stacks else "without stacks"
    hosts = f"{len(group.hosts)} host{'s' if len(group.hosts) > 1 else ''}" if group.hosts else ""
    parts = [cores, signal, f"Python {ordered(list(group.versions))}" if group.versions else "", when(group), hosts]
    return f"Group {number}: {', '.join(it for it in parts if it)}"


def core_lines(group: Gathered) -> Iterator[str]:
    """The names of a group's cores, of which the first are said."""
    yield from (f"    {in_line(it)}" for it in group.cores)
    if group.count > len(group.cores):
        yield f"    ... {group.count - len(group.cores)} more cores"


def stack_lines(group: Gathered) -> Iterator[str]:
    """The stack of a group's first core, or why there is none."""
    line = group.line
    if line["process"]:
        yield f"        Process: {line['process']}"
    if not group.has_stacks:
        yield f"        ... {line['cause']}"
        return
    thread = line.get("thread")
    if isinstance(thread, dict):
        yield f"        Thread {thread['id']}: \"{thread['name']}\", {WHY.get(str(thread['why']), thread['why'])}"
    stack = line["stack"]
    yield from (f"            {in_line(str(it))}" for it in (stack if isinstance(stack, list) else []))


def lines_of(groups: Sequence[Gathered]) -> Iterator[str]:
    """The text of groups."""
    for number, group in enumerate(groups, 1):
        yield title_of(number, group)
        yield from core_lines(group)
        yield from stack_lines(group)


def tree_of(group: Gathered) -> Dict[str, object]:
    """A group as JSON has it."""
    names = ("told", "process", "thread", "frames", "stack", "cause", "keys")
    own = {key: group.line[key] for key in names}
    kinds = {"versions": sorted(group.versions), "hosts": sorted(group.hosts), "signals": sorted(group.signals)}
    return {"count": group.count, "first": group.first or None, "last": group.last or None, "cores": group.cores, **kinds, **own}


def json_of(groups: Sequence[Gathered]) -> List[str]:
    """The JSON of groups: an array, on lines."""
    return [json.dumps([tree_of(it) for it in groups], indent=2, sort_keys=True)]
