"""What `pysalvage --exceptions` told of the exceptions of threads, and of the last one that no code handled."""

from typing import Dict, Iterator, List, NamedTuple, Optional, Tuple

from pystacks_tool.ask.dump import Tree
from pystacks_tool.model import Interpreter, Report, Thread
from pystacks_tool.show.escape import in_line

FLAG = "--exceptions"
"""The section's flag."""

KEY = "exceptions"
"""Its key in the JSON."""

CAUSE = "The above exception was the direct cause of the following exception:"
CONTEXT = "During handling of the above exception, another exception occurred:"
"""What Python has between two exceptions."""

LAST = "Last exception that no code handled"
"""What stands before the one that `sys` has."""

DEEPEST, MOST = 16, 2000
"""How deep members are indented at most, and the most lines of a thread."""

SHOWN_MEMBERS = 64
"""The most members of a group that are shown."""


class Todo(NamedTuple):
    """What is to be shown: an exception by its address, or a line."""

    depth: int
    address: Optional[str]
    line: str = ""


def type_of(entry: Tree) -> str:
    """The name of an exception's class, in quotes where it has what could stand behind a name."""
    name = in_line(entry["type"] or "?")
    return f'"{name}"' if " " in name or ":" in name else name


def said_of(entry: Tree) -> str:
    """An exception's own line: its class, and what it says, or its arguments, said to be these."""
    if entry["message"] is not None:
        message = in_line(entry["message"])
        return f"{type_of(entry)}: {message}" if message else type_of(entry)
    args = entry["args"]
    if args is None:
        return f"{type_of(entry)} with arguments that can't be read"
    more = f", and {args['left_out']} more" if args["left_out"] else ""
    return f"{type_of(entry)} with the arguments ({', '.join(map(in_line, args['values']))}{more})"


def unreadable(tree: Tree) -> str:
    """A range that isn't in memory."""
    return f"unreadable at {tree['address']}, {tree['length']} bytes"


def end_of(tree: Optional[Tree]) -> str:
    """How a chain breaks off, where it does."""
    if tree is None:
        return ""
    words = {"cycle": "and again from", "cut": "and more from"}
    return unreadable(tree) if tree["kind"] == "unreadable" else f"{words[tree['kind']]} {tree['address']}"


def frame_line(tree: Optional[Tree]) -> str:
    """A frame of a traceback."""
    if tree is None:
        return "? unreadable"
    line = f":{tree['line']}" if tree["line"] else ""
    return f"{in_line(tree['name'] or '?')} ({in_line(tree['filename'] or '?')}{line})"


def trace_lines(entry: Tree) -> Iterator[str]:
    """The traceback of an exception, the oldest call first."""
    frames, left_out = entry["frames"], entry["frames_left_out"]
    if frames is None:
        yield "... its traceback is unreadable"
        return
    first = 128 if left_out else len(frames)
    yield from map(frame_line, frames[:first])
    if left_out:
        yield f"... {left_out} more frames"
    yield from map(frame_line, frames[first:])
    if entry["end"] is not None:
        yield f"... {end_of(entry['end'])}"


def note_lines(entry: Tree) -> Iterator[str]:
    """The notes of an exception, in quotes."""
    notes = entry["notes"]
    if notes is None:
        yield "... its notes are unreadable"
        return
    yield from (f'Note: "{in_line(it)}"' for it in notes["values"])
    if notes["left_out"]:
        yield f"... {notes['left_out']} more notes"


def own_lines(entry: Tree, depth: int) -> List[str]:
    """The lines of an object of its own."""
    lead = " " * (8 + 8 * depth)
    if entry["kind"] != "exception":
        why = {"other": "is no exception", "unreadable": "is not in memory"}.get(entry["kind"], "is not told")
        return [f"{lead}... the object at {entry['address']} {why}"]
    return [lead + said_of(entry), *(f"{lead}    {it}" for it in (*note_lines(entry), *trace_lines(entry)))]


def around(entry: Tree, depth: int) -> Tuple[List[Todo], List[Todo]]:
    """What is to be shown before an exception and behind it: its cause, or its context, and the members of a group."""
    if entry["kind"] != "exception":
        return [], []
    lead, inner = " " * (8 + 8 * depth), min(depth + 1, DEEPEST)
    before: List[Todo] = []
    if entry["cause"] is not None:
        before = [Todo(depth, entry["cause"]), Todo(depth, None, lead + CAUSE)]
    elif entry["context"] is not None and not entry["suppress_context"]:
        before = [Todo(depth, entry["context"]), Todo(depth, None, lead + CONTEXT)]
    members = (entry["members"] or {"values": []})["values"]
    more = [Todo(depth, None, f"{lead}    ... {len(members) - SHOWN_MEMBERS} more members")] if len(members) > SHOWN_MEMBERS else []
    return before, [*(Todo(inner, it) for it in members[:SHOWN_MEMBERS]), *more]


def shown(tree: Tree, roots: List[Todo]) -> Iterator[str]:
    """The lines of what is to be shown: each exception once, and by its class and its address elsewhere."""
    entries: Dict[str, Tree] = {it["address"]: it for it in tree["exceptions"]}
    left, seen = roots[::-1], set()
    while left:
        todo = left.pop()
        entry = entries.get(todo.address or "")
        if todo.address is None:
            yield todo.line
        elif entry is None:
            yield f"{' ' * (8 + 8 * todo.depth)}... the object at {todo.address} is not told"
        elif todo.address in seen:
            name = type_of(entry) if entry["kind"] == "exception" else "?"
            yield f"{' ' * (8 + 8 * todo.depth)}... {name} at {todo.address} again"
        else:
            seen.add(todo.address)
            before, behind = around(entry, todo.depth)
            own = [Todo(todo.depth, None, it) for it in own_lines(entry, todo.depth)]
            left += [*before, *own, *behind][::-1]


def raised_roots(tree: Tree) -> List[Todo]:
    """What C code has set and Python hasn't seen."""
    raised = tree["raised"]
    if raised is None:
        return []
    title = Todo(0, None, "    Raised:")
    if raised["kind"] == "unreadable":
        return [title, Todo(0, None, f"        ... {unreadable(raised)}")]
    if raised["kind"] == "exception":
        return [title, Todo(0, raised["address"])]
    told = {it["address"] for it in tree["exceptions"] if it["kind"] == "exception"}
    lines = [Todo(0, None, f"        {raised_line(raised)}")] if raised.get("address") not in told else [Todo(0, raised["address"])]
    trace = list(trace_lines({"frames_left_out": 0, "end": None, **raised})) if "frames" in raised else []
    return [title, *lines, *(Todo(0, None, f"            {it}") for it in trace)]


def raised_line(raised: Tree) -> str:
    """What is raised by its type and what it is made of."""
    return f"{type_of(raised)}: {in_line(raised['value'])}" if "type" in raised else f"an exception made of the object at {raised['address']}"


def item_roots(item: Tree) -> List[Todo]:
    """What an item handles, where it names an exception."""
    running = f", in the generator or coroutine at {item['running']}" if item["running"] else ""
    title = Todo(0, None, f"    Handling{running}:")
    if item["fault"] is not None:
        return [title, Todo(0, None, f"        ... {unreadable(item['fault'])}")]
    return [] if item["address"] is None else [title, Todo(0, item["address"])]


def lines_of(tree: Tree) -> Tuple[str, ...]:
    """The lines of a thread; none of one that neither raises nor handles any."""
    roots = [*raised_roots(tree), *(it for item in tree["handled"] for it in item_roots(item))]
    if tree["end"] is not None:
        roots.append(Todo(0, None, f"    ... {end_of(tree['end'])}"))
    return tuple(first_lines(list(shown(tree, roots))))


def first_lines(lines: List[str]) -> List[str]:
    """The first lines, and how many more there are."""
    return lines if len(lines) <= MOST else [*lines[:MOST], f"    ... {len(lines) - MOST} more lines"]


def last_lines_of(tree: Optional[Tree]) -> Tuple[str, ...]:
    """The lines of the last exception that no code handled; none where there is none."""
    if tree is None:
        return ()
    if tree["kind"] == "unreadable":
        return (f"{LAST}: sys.{tree['name']} can't be read",)
    return (f"{LAST} (sys.{tree['name']}):", *first_lines(list(shown(tree, [Todo(0, tree["address"])]))))


def last_said_of(tree: Optional[Tree]) -> str:
    """The last exception that no code handled, in a line; nothing where there is none."""
    if tree is None or tree["kind"] == "unreadable":
        return ""
    entry = next((it for it in tree["exceptions"] if it["address"] == tree["address"] and it["kind"] == "exception"), None)
    return "" if entry is None else f"{said_of(entry)}, the last that no code handled (sys.{tree['name']})"


def head_of(tree: Tree) -> Tuple[str, str]:
    """What a thread raises, or the newest that it handles, and which of both; nothing where there is none."""
    entries = {it["address"]: it for it in tree["exceptions"] if it["kind"] == "exception"}
    raised = tree["raised"]
    if raised is not None and raised["kind"] != "unreadable":
        entry = entries.get(raised["address"])
        return (raised_line(raised) if entry is None and "type" in raised else said_of(entry) if entry else "", "raised")
    for item in tree["handled"]:
        if item["address"] in entries:
            return said_of(entries[item["address"]]), "handled"
    return "", ""


def with_exceptions(interpreter: Interpreter, tree: Optional[Tree]) -> Interpreter:
    """The same, with what its threads raise and handle, and the last exception that no code handled."""
    if tree is None:
        return interpreter
    told, last = {row["thread_id"]: row for row in tree["threads"] or ()}, tree.get("last")
    threads = []
    for it in interpreter.threads:
        own = told.get(it.number)
        threads.append(it if own is None else it._replace(exceptions=lines_of(own), exception=head_of(own)))
    return interpreter._replace(threads=tuple(threads), last=last_lines_of(last), last_said=last_said_of(last))


def all_with(interpreters: Tuple[Interpreter, ...], trees: Optional[List[Tree]]) -> Tuple[Interpreter, ...]:
    """Interpreters, with what their threads raise and handle, and the last exceptions that no code handled."""
    told = {int(it["interpreter"], 16): it for it in trees or ()}
    return tuple(with_exceptions(it, told.get(it.address or 0)) for it in interpreters)


def summary_lines(report: Report) -> Iterator[str]:
    """What is said first: each exception that a thread raises, or the newest that it handles, and the last that no code handled."""
    def line(thread: Thread) -> str:
        """A thread's."""
        name = "" if thread.name is None else f' "{in_line(thread.name)}"'
        text, word = thread.exception
        ends = {"raised": f"raised by C code in {thread.label}{name}", "handled": f"while {thread.label}{name} handled it"}
        return f"{text} {ends[word]}"

    found = [it for it in report.threads if it.exception[0]]
    found.sort(key=lambda it: not it.is_crashed)
    yield from map(line, found[:3])
    if len(found) > 3:
        yield f"... and exceptions of {len(found) - 3} more threads"
    yield from (it.last_said for it in report.interpreters if it.last_said)
