"""The lines of asyncio's tasks: how many there are, and where each one stands. Equal ones stand once."""

import re
from collections import Counter
from typing import Dict, Iterator, List, Sequence, Tuple

from pystacks_tool.model import Task, Tasks
from pystacks_tool.show.escape import as_name, in_line

NAMED = 2
"""How many tasks that stand at one place are named, where there are more."""

COUNTED = ("running", "ready", "not started", "waiting")
"""What is counted of tasks that aren't done."""


def name_of(task: Task) -> str:
    """A task's name, or its address."""
    return task.address if task.name is None else f'"{as_name(task.name)}"'


def name_key(task: Task) -> List[Tuple[int, str]]:
    """What names are in order by: numbers in them by how much they are."""
    parts = re.split(r"([0-9]{1,18})", task.address if task.name is None else task.name)
    return [(int(it), "") if at % 2 else (0, it) for at, it in enumerate(parts)]


def summary_of(tasks: Tasks, is_titled: bool = False) -> str:
    """How many tasks there are, by what they do, or why they aren't told; with the interpreter, where there are several."""
    front = f"Interpreter {tasks.interpreter}: " if is_titled else ""
    if tasks.fault:
        return f"{front}Tasks are not told: {in_line(tasks.fault)}"
    kinds = Counter(it.kind for it in tasks.tasks)
    counts = {it: kinds[it] for it in COUNTED}
    parts = ", ".join(f"{count} {kind}" for kind, count in counts.items() if count) or "none that isn't done"
    done = len(tasks.tasks) + tasks.done - sum(counts.values())
    aren = f"; {done} finished {'is' if done == 1 else 'are'}n't shown" if done else ""
    return f"{front}Tasks {sum(counts.values())} ({parts}{aren})"


def others_of(tasks: Tasks, is_titled: bool = False) -> List[str]:
    """What is said beside the tasks; with the interpreter, where there are several and it has no asyncio."""
    front = f"Interpreter {tasks.interpreter}: " if is_titled and not tasks.has_asyncio else ""
    return [front + it for it in tasks.others]


def title_of(tasks: Sequence[Task]) -> str:
    """The line of the tasks that stand at one place."""
    first = tasks[0]
    if len(tasks) == 1:
        return f"Task {name_of(first)} ({in_line(first.condition)})"
    more = f" and {len(tasks) - NAMED} more" if len(tasks) > NAMED else ""
    return f"{len(tasks)} tasks ({in_line(first.condition)}): {', '.join(name_of(it) for it in tasks[:NAMED])}{more}"


def together(tasks: Tasks, is_merged: bool) -> List[List[Task]]:
    """The tasks that aren't done, those that stand at one place together by their names: running ones first, and then those of the place
    at which most are."""
    found: Dict[object, List[Task]] = {}
    places: Dict[int, Tuple[object, ...]] = {}
    for at, task in enumerate(tasks.tasks):
        if task.kind in COUNTED:
            # (tasks that stand at one place share their frames mostly)
            place = places.get(id(task.frames))
            if place is None:
                place = places[id(task.frames)] = tuple(it.place for it in task.frames)
            key: Tuple[object, ...] = (task.condition, place, task.end)
            found.setdefault(key if is_merged and task.kind != "running" else at, []).append(task)
    its = [sorted(one, key=name_key) for one in found.values()]
    return sorted(its, key=lambda one: (COUNTED.index(one[0].kind) > 0, -len(one)))


def task_blocks(tasks: Tasks, is_merged: bool) -> Iterator[Tuple[List[Task], str]]:
    """The tasks that stand at one place, with their line."""
    return ((its, title_of(its)) for its in together(tasks, is_merged))
