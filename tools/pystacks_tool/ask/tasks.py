"""What `pysalvage --tasks` told of the tasks of asyncio."""

from typing import Callable, Dict, List, Optional, Tuple

from pystacks_tool.ask.dump import Tree
from pystacks_tool.model import Frame, Task, Tasks

FLAG = "--tasks"
"""The section's flag."""

KEY = "tasks"
"""Its key in the JSON."""


def frame_of(tree: Tree) -> Frame:
    """A coroutine's frame; one that isn't there, or whose texts can't be read, has no names."""
    own = tree["frame"]
    if own is None or own["name"] is None or own["filename"] is None:
        return Frame(why="a coroutine without a frame" if own is None else "a name that can't be read")
    return Frame(own["name"], own["filename"], own["line"])


def end_of(tree: Tree) -> str:
    """How a chain breaks off, where it does."""
    words: Dict[str, Callable[[], str]] = {
        "not stored": lambda: "what it awaits is not stored", "object": lambda: f"awaits an object at {tree['address']}",
        "unreadable": lambda: f"unreadable at {tree['address']}, {tree['length']} bytes",
        "cycle": lambda: f"awaits the one at {tree['address']} again", "cut": lambda: f"and more, from {tree['address']} on",
    }
    return words.get(tree["kind"], lambda: "")()


def condition_of(tree: Tree) -> str:
    """What a task does."""
    waiter, kind = tree["waiter"], str(tree["condition"])
    if kind == "waiting" and waiter is not None:
        kind = f"waits for {waiter['type'] or '?'}"
    if kind == "running" and tree["thread_id"] is not None:
        kind = f"running in thread 0x{tree['thread_id']:X}"
    return kind + (", to be cancelled" if tree["must_cancel"] else "")


def task_of(tree: Tree) -> Task:
    """A task."""
    chain = tree["chain"]
    frames = tuple(frame_of(it) for it in chain["members"] if it["kind"] != "between")
    return Task(tree["address"], tree["name"], str(tree["condition"]), condition_of(tree), frames, end_of(chain["end"]))


def fault_of(tree: Tree) -> str:
    """Why something isn't told."""
    words: Dict[str, Callable[[], str]] = {
        "unreadable": lambda: f"unreadable at {tree['address']}, {tree['length']} bytes", "too many": lambda: "there are more than are looked at",
        "malformed": lambda: "something on the way is not what it has to be", "not described": lambda: "not described for this version",
        "another size": lambda: f"they have {tree['size']} bytes, which is not described",
    }
    return words[tree["kind"]]()


def other_of(tree: Tree) -> str:
    """What is registered and no task, or a task that isn't told."""
    if tree["kind"] == "lost":
        return f"Task {tree['address']} is not told: {fault_of(tree['fault'])}"
    return f"Registered, and no task: <{tree['type'] or '?'} at {tree['address']}>"


FRAMEWORKS = {"curio": "Tasks of curio are not read", "greenlet": "Greenlets are not read", "trio": "Tasks of trio are not read"}
"""What is said where a process has a module of another framework."""


def not_read(tree: Tree) -> Tuple[str, ...]:
    """What isn't read, by the modules that an interpreter has. (An older program doesn't tell them.)"""
    has = tree.get("frameworks") or {}
    return tuple(line for name, line in FRAMEWORKS.items() if has.get(name))


def tasks_of(tree: Tree) -> Optional[Tasks]:
    """The tasks of an interpreter; nothing where it has no asyncio, nor another framework."""
    told, others = tree["tasks"], not_read(tree)
    if told is None:
        return Tasks(tree["interpreter"], others=others, has_asyncio=False) if others else None
    if told["kind"] != "read":
        return Tasks(tree["interpreter"], others=others, fault=fault_of(told))
    entries = told["entries"]
    return Tasks(tree["interpreter"], tuple(task_of(it) for it in entries if it["kind"] == "task"),
                 (*(other_of(it) for it in entries if it["kind"] != "task"), *others))


def all_tasks(trees: Optional[List[Tree]]) -> Tuple[Tasks, ...]:
    """The tasks of all interpreters that have asyncio or another framework."""
    return tuple(it for it in map(tasks_of, trees or ()) if it is not None)
