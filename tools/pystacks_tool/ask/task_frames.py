"""The frames of tasks that run: they stand in the stack of the thread, from the newest down to the task's coroutine."""

import re
from collections import Counter
from typing import Dict, Optional, Tuple

from pystacks_tool.model import Frame, Report, Task, Tasks, Thread

IN_THREAD = re.compile(r"running in thread 0x([0-9A-F]+)")

Place = Tuple[str, str, int, str]


def thread_of(task: Task) -> Optional[int]:
    """The thread in which a task runs, by the interpreter's id, where that is told."""
    found = IN_THREAD.match(task.condition)
    return int(found.group(1), 16) if found else None


def place_of(task: Task) -> Optional[Place]:
    """Where the coroutine of a running task stands, if that is told: its one frame."""
    return task.frames[-1].place if task.frames and not task.frames[-1].why else None


def frames_down_to(thread: Thread, place: Place) -> Optional[Tuple[Frame, ...]]:
    """The frames of a thread down to the oldest one at a place; nothing where none stands there, or an older one that isn't shown may."""
    found = [at for at, it in enumerate(thread.frames) if it.place == place]
    if not found or thread.between or thread.end:
        return None
    return thread.frames[: found[-1] + 1]


def with_running_frames(report: Report) -> Report:
    """The report in which each task that runs has the frames of its thread down to its coroutine. Its own frame alone stays where its thread's
    stack doesn't show that one, and where two that run in a thread stand at one place, so that which is whose isn't known."""
    threads: Dict[int, Thread] = {it.number: it for it in report.threads if it.frames}
    running = Counter((thread_of(it), place_of(it)) for one in report.tasks for it in one.tasks if it.kind == "running")

    def with_frames(task: Task) -> Task:
        number, place = thread_of(task), place_of(task)
        thread = threads.get(number) if number is not None else None
        if task.kind != "running" or thread is None or place is None or running[number, place] > 1:
            return task
        return task._replace(frames=frames_down_to(thread, place) or task.frames)

    def with_all(tasks: Tasks) -> Tasks:
        return tasks._replace(tasks=tuple(with_frames(it) if it.kind == "running" else it for it in tasks.tasks))

    return report._replace(tasks=tuple(map(with_all, report.tasks)))
