"""What `pystacks dump` told of a core, by its JSON, where `pysalvage` isn't there."""

from typing import Any, Dict, List, Optional, Tuple

from pystacks_tool.cores.known import Known
from pystacks_tool.model import Frame, Interpreter, Local, Report, Thread

Tree = Dict[str, Any]
"""JSON as a program wrote it."""


class Unexpected(Exception):
    """Why what a program wrote isn't taken."""


def local_of(tree: Tree) -> Local:
    """A local."""
    return Local(tree["name"], tree["repr"], tree["arg"], tree.get("value") is not None)


def frame_of(tree: Tree) -> Frame:
    """A frame."""
    rows = tree["locals"]
    shown = None if rows is None else tuple(local_of(it) for it in rows)
    return Frame(tree["name"], tree["filename"], tree["line"], shown)


def is_holder(tree: Tree) -> bool:
    """Whether a thread held the lock. One of the id 0, which no thread has, is marked by `dump` where nobody held it."""
    return bool(tree["owns_gil"]) and tree["thread_id"] != 0


def ends_of(rows: List[Tree], most: Optional[int]) -> Tuple[List[Tree], List[Tree]]:
    """The newest of some frames and the oldest, so many of each where that is said and there are more."""
    return (rows, []) if most is None or len(rows) <= 2 * most else (rows[:most], rows[-most:])


def thread_of(tree: Tree, most: Optional[int]) -> Thread:
    """A thread, with so many frames at each end, where that is said."""
    first, last = ends_of(tree["frames"], most)
    frames, between = tuple(frame_of(it) for it in first + last), len(tree["frames"]) - len(first) - len(last)
    return Thread(tree["thread_id"], frames, tree["os_thread_id"], tree["thread_name"], is_holder(tree), False, len(first), between)


def report_by_dump(trees: List[Tree], known: Known, core: str, most: Optional[int] = None) -> Report:
    """The report by the JSON of one core, which has no head: the signal and the process are what the core's notes tell, and which Python
    it was isn't known. The text's threads stand in the reverse of the JSON's order, and so they do here. So many frames are shown at each
    end of a stack, where that is said."""
    try:
        threads = tuple(thread_of(it, most) for it in reversed(trees))
    except (KeyError, TypeError) as error:
        raise Unexpected(f"its JSON: {error!r}") from None
    process = None if known.pid is None else (known.pid, known.arguments)
    return Report((Interpreter(threads),), "", known.signal, process, core=core)


# ---- as `pysalvage` has it


def local_tree(tree: Tree) -> Tree:
    """A local."""
    kind = "argument" if tree["arg"] else "local"
    return {"address": hex(tree["addr"]), "arg": tree["arg"], "kind": kind, "name": tree["name"], "repr": tree["repr"], "type": None,
            "value": None}


def member_tree(tree: Tree) -> Tree:
    """A frame."""
    rows = tree["locals"]
    shown = None if rows is None else [local_tree(it) for it in rows]
    return {"filename": tree["filename"], "line": tree["line"], "locals": shown, "locals_fault": None, "name": tree["name"]}


def thread_tree(tree: Tree, most: Optional[int]) -> Tree:
    """A thread. Which one got the signal isn't told."""
    first, last = ([member_tree(it) for it in rows] for rows in ends_of(tree["frames"], most))
    between = len(tree["frames"]) - len(first) - len(last)
    frames = {"between": between, "end": {"kind": "whole"}, "first": first, "last": last, "met": None}
    return {
        "address": None, "crashed": None, "frames": frames, "gil": is_holder(tree), "os_thread_id": tree["os_thread_id"],
        "thread_id": tree["thread_id"], "thread_name": tree["thread_name"],
    }


def tree_of(report: Report, threads: List[Tree], most: Optional[int] = None) -> Tree:
    """A report in the form of `pysalvage`'s JSON. What `dump` doesn't tell is null."""
    rows = [thread_tree(it, most) for it in reversed(threads)]
    interpreter = {"address": None, "lock": None, "searched": None, "threads": rows, "threads_end": {"kind": "whole"}}
    process = None if report.process is None else {"arguments": report.process[1], "pid": report.process[0]}
    return {
        "heap": None, "interpreters": [interpreter], "layout_check": None, "missing": None, "more": None, "names": None, "native": None,
        "process": process, "registers": None, "search_ended": None, "signal": report.signal,
        "signal_info": None, "stacks": None, "tasks": None, "exceptions": None, "version": report.version or None, "version_by_names": False,
        "waits": None,
    }
