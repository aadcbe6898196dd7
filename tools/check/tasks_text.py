"""The text of the tasks of asyncio, as docs/USAGE.md has it, by what `pysalvage` told of them as JSON."""

from typing import Any, Dict, Iterator, List, Optional

Tree = Dict[str, Any]

ORDER = ("running", "ready", "not started", "waiting")
NOT_READ = {"curio": "Tasks of curio are not read", "greenlet": "Greenlets are not read", "trio": "Tasks of trio are not read"}


def escaped(text: str) -> str:
    """A name: control characters, what separates lines, quotes and backslashes by their codes."""
    return "".join(f"\\u{{{ord(it):x}}}" if ord(it) < 32 or 127 <= ord(it) < 160 or it in "\u2028\u2029\"\\" else it for it in text)


def name_text(text: Optional[str]) -> str:
    """A name, or a question mark."""
    return "?" if text is None else escaped(text)


def fault_text(tree: Tree) -> str:
    """Why something isn't told."""
    return {"unreadable": "unreadable at {address}, {length} bytes", "too many": "there are more than are looked at",
            "malformed": "something on the way is not what it has to be", "not described": "not described for this version",
            "another size": "they have {size} bytes, which is not described"}[tree["kind"]].format(**tree)


def end_lines(tree: Tree) -> List[str]:
    """How a chain breaks off, where it does."""
    words = {"not stored": "what it awaits is not stored", "object": "awaits an object at {address}",
             "unreadable": "unreadable at {address}, {length} bytes", "cycle": "awaits the one at {address} again",
             "cut": "and more, from {address} on"}
    return [f"    ... {words[tree['kind']].format(**tree)}"] if tree["kind"] in words else []


def frame_line(tree: Tree) -> str:
    """The line of a member's frame."""
    own = tree["frame"]
    if own is None:
        return "    ? no frame"
    line = f":{own['line']}" if own["line"] else ""
    return f"    {name_text(own['name'])} ({name_text(own['filename'])}{line})"


def condition_text(task: Tree) -> str:
    """What a task does."""
    kind, cancel = task["condition"], ", to be cancelled" if task["must_cancel"] else ""
    if kind == "running" and task["thread_id"] is not None:
        kind = f"running in thread 0x{task['thread_id']:X}"
    if kind == "waiting":
        kind = "ready" if task["waiter"] is None else f"waits for {name_text(task['waiter']['type'])}"
    return kind + cancel


def entry_lines(entry: Tree) -> Iterator[str]:
    """The lines of what is registered; none of a task that is done."""
    if entry["kind"] == "lost":
        yield f"Task {entry['address']} is not told: {fault_text(entry['fault'])}"
    elif entry["kind"] == "other":
        yield f"Registered, and no task: <{name_text(entry['type'])} at {entry['address']}>"
    elif entry["condition"] != "done":
        name = entry["address"] if entry["name"] is None else f'"{escaped(entry["name"])}"'
        yield f"Task {name} ({condition_text(entry)})"
        yield from end_lines(entry["chain"]["end"])
        yield from (frame_line(it) for it in entry["chain"]["members"] if it["kind"] != "between")


def summary_line(entries: List[Tree]) -> str:
    """How many there are, by what they do."""
    kinds = [it["condition"] for it in entries if it["kind"] == "task"]
    done = kinds.count("done")
    parts = ", ".join(f"{kinds.count(it)} {it}" for it in ORDER if it in kinds) or "none that isn't done"
    more = f"; {done} finished {'is' if done == 1 else 'are'}n't shown" if done else ""
    return f"Tasks {len(kinds) - done} ({parts}{more})"


def own_lines(told: Optional[Tree]) -> Iterator[str]:
    """The lines of an interpreter's tasks."""
    if told is not None and told["kind"] != "read":
        yield f"Tasks are not told: {fault_text(told)}"
    elif told is not None:
        yield summary_line(told["entries"])
        yield from (line for it in told["entries"] for line in entry_lines(it))


def task_lines(trees: List[Tree]) -> Iterator[str]:
    """The lines of the tasks of some interpreters."""
    for it in trees:
        front = f"Interpreter {it['interpreter']}: " if len(trees) > 1 else ""
        for at, line in enumerate(own_lines(it["tasks"])):
            yield line if at else front + line
        has = it["frameworks"] or {}
        yield from (front + line for name, line in NOT_READ.items() if has.get(name))
