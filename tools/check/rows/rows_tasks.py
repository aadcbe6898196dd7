"""Rows of `pysalvage --tasks`: what tasks do, how their chains end, what is registered beside them, and why they aren't told."""

import json
from typing import Callable, Dict, Iterator, Optional, Tuple

from made_tasks import CANCEL, CORO, NAME, RECORDS, STATE, WAITER, Made
from row import Row
from rows_salvage import GOOD, broken_tree, named, salvage
from small_core import HEAP, TEXT, heap

TASKS = f"{GOOD} --records records --tasks"

FRAMES = "    g (a.py:7)\n    f (a.py:3)\n"
"""The lines of the task's chain."""

FRAMEWORKS = ("curio", "greenlet", "trio")

Change = Callable[[Made], object]


def tree_of(tasks: object, *frameworks: str) -> Dict[str, object]:
    """All that is told of the small core, whose chain of frames is whole."""
    found = broken_tree(0, [])
    interpreters = found["interpreters"]
    assert isinstance(interpreters, list)
    interpreters[0]["threads"][0]["frames"]["end"] = {"kind": "whole"}
    return {**found, "missing": None, "tasks": [{"frameworks": {it: it in frameworks for it in FRAMEWORKS}, "interpreter": hex(HEAP), "tasks": tasks}]}


def changed(change: Change, **other: int) -> Tuple[Made, Dict[str, bytes]]:
    """The files of a core whose objects are changed."""
    made = Made(**other)
    change(made)
    return made, {**named(made.objects), "records": RECORDS}


def word(at: str, place: int, number: int) -> Change:
    """A change of a word of one of the objects."""
    return lambda made: made.objects.word(getattr(made, at) + place, number)


def led(at: str, place: int, to: str) -> Change:
    """The same, to the address of another one."""
    return lambda made: made.objects.word(getattr(made, at) + place, getattr(made, to))


def head(number: str = "1 waiting", does: str = "waits for _asyncio.Future", name: str = '"worker"') -> str:
    """The line that counts, and the task's."""
    return f"Tasks 1 ({number})\nTask {name} ({does})\n"


CONDITIONS: Tuple[Tuple[str, Change, str], ...] = (
    ("waiting", lambda made: None, head() + FRAMES),
    ("ready: for nothing", word("task", WAITER, 0), head("1 ready", "ready") + FRAMES),
    ("ready: for what is done", word("future", STATE, 2), head("1 ready", "ready") + FRAMES),
    ("ready: for what is cancelled", word("future", STATE, 1), head("1 ready", "ready") + FRAMES),
    ("not started", word("inner_frame", 32, 0xFFFFFFFF), head("1 not started", "not started") + FRAMES),
    ("running", lambda made: made.objects.write(made.outer + 24, b"\1"), head("1 running", "running") + "    f (a.py:3)\n"),
    ("finished", word("task", STATE, 2), "Tasks 0 (none that isn't done; 1 finished isn't shown)\n"),
    ("cancelled", word("task", STATE, 1), "Tasks 0 (none that isn't done; 1 finished isn't shown)\n"),
    ("to be cancelled", lambda made: made.objects.write(made.task + CANCEL, b"\1"), head(does="waits for _asyncio.Future, to be cancelled") + FRAMES),
    ("for what is no future", led("task", WAITER, "thing"), head(does="waits for T") + FRAMES),
)
"""What a task does."""

ENDS: Tuple[Tuple[str, Change, str], ...] = (
    ("an object", led("inner_frame", 80, "thing"), "    ... awaits an object at 0x%x\n"),
    ("a cycle", led("inner_frame", 80, "outer"), "    ... awaits the one at 0x%x again\n"),
    ("an address that is not there", word("inner_frame", 80, 0x90000), "    ... unreadable at 0x90008, 8 bytes\n"),
)
"""How a chain breaks off: where, by the address of an object."""


def conditions() -> Iterator[Row]:
    """What tasks do, and names."""
    for what, change, text in CONDITIONS:
        yield salvage(f"tasks: {what}", TASKS, changed(change)[1], TEXT + text)
    yield salvage("tasks: a name that could end the line", TASKS, changed(lambda made: made.objects.word(made.task + NAME, made.text('a"\n(b)')))[1],
                  TEXT + head(name='"a\\u{22}\\u{a}(b)"') + FRAMES)
    made, files = changed(word("task", NAME, 0x90000))
    yield salvage("tasks: a name that can't be read", TASKS, files, TEXT + head(name=hex(made.task)) + FRAMES)


def ends() -> Iterator[Row]:
    """How chains end."""
    for (what, change, text), name in zip(ENDS, ("thing", "outer", "")):
        made, files = changed(change)
        yield salvage(f"tasks: a chain that ends at {what}", TASKS, files, TEXT + head() + (text % getattr(made, name) if name else text) + FRAMES)
    yield salvage("tasks: a chain that ends in a yield", TASKS, changed(word("inner_frame", 32, 2))[1], TEXT + head() + FRAMES)
    yield salvage("tasks: a chain that ends at one that is done", TASKS, changed(word("inner", 16, 0))[1],
                  TEXT + head() + "    ? no frame\n    f (a.py:3)\n")
    yield salvage("tasks: a task without a coroutine", TASKS, changed(word("task", CORO, 0))[1], TEXT + head() + "    ... unreadable at 0x8, 8 bytes\n")


def registered() -> Iterator[Row]:
    """What is registered, and what is none."""
    none = "Tasks 0 (none that isn't done)\n"
    for what, change in (
        ("a dead weak reference", lambda made: made.set_to(made.reference_to(made.none))), ("a member that was taken away", lambda made: made.set_to(
            more=((made.reference_to(made.task), 2 ** 64 - 1),))), ("no member", lambda made: made.set_to()),
    ):
        yield salvage(f"tasks: {what}", TASKS, changed(change)[1], TEXT + none)
    made, files = changed(lambda made: made.set_to(made.reference_to(made.task), made.reference_to(made.task)))
    yield salvage("tasks: one that is registered twice", TASKS, files, TEXT + head() + FRAMES)
    made, files = changed(lambda made: made.set_to(made.reference_to(made.thing), made.reference_to(made.task)))
    yield salvage("tasks: an object that is none", TASKS, files, TEXT + f"Tasks 1 (1 waiting)\nRegistered, and no task: <T at 0x{made.thing:x}>\n"
                  + head().split("\n", 1)[1] + FRAMES)
    yield salvage("tasks: one that is not there", TASKS, changed(lambda made: made.set_to(made.reference_to(0x90000)))[1],
                  TEXT + none + "Task 0x90000 is not told: unreadable at 0x90008, 8 bytes\n")


def untold() -> Iterator[Row]:
    """Why no task is told."""
    whole = changed(lambda made: None)[1]
    for what, words, files, line in (
        ("no module", TASKS, changed(lambda made: made.set_to(module="asyncio"))[1], ""),
        ("no records", f"{GOOD} --tasks", whole, "Tasks are not told: not described for this version\n"),
        ("without the flag", f"{GOOD} --records records", whole, ""),
        ("another size", TASKS, changed(lambda made: None, size=192)[1], "Tasks are not told: they have 192 bytes, which is not described\n"),
        ("no modules", TASKS, {**named(heap()), "records": RECORDS}, ""),
        ("as many entries of all sets as there may be", TASKS, changed(lambda made: made.set_to(masks=(2 ** 19 - 1, 2 ** 19 - 1)))[1],
         "Tasks are not told: unreadable at 0x90000, 8 bytes\n"),
        ("more entries of all sets than there may be", TASKS, changed(lambda made: made.set_to(masks=(2 ** 19 - 1, 2 ** 19 - 1, 0)))[1],
         "Tasks are not told: there are more than are looked at\n"),
        ("a set with more", TASKS, changed(lambda made: made.set_to(masks=(2 ** 20,)))[1], "Tasks are not told: there are more than are looked at\n"),
    ):
        yield salvage(f"tasks: {what}", words, files, TEXT + line)


def others() -> Iterator[Row]:
    """Other frameworks, whose tasks are not read."""
    text = lambda it: json.dumps(it, indent=2, ensure_ascii=False) + "\n"
    lines = ("Tasks of curio are not read\n", "Greenlets are not read\n", "Tasks of trio are not read\n")
    for name, line in zip(FRAMEWORKS, lines):
        files = changed(lambda made, name=name: made.set_to(module="asyncio", others=[name]))[1]
        yield salvage(f"tasks: {name}", TASKS, files, TEXT + line)
        yield salvage(f"tasks: JSON: {name}", f"{TASKS} -j", files, text(tree_of(None, name)))
    made, files = changed(lambda made: made.set_to(made.reference_to(made.task), others=["trio", "trio.abc", "greenlet", "Trio"]))
    yield salvage("tasks: beside other frameworks", TASKS, files, TEXT + head() + FRAMES + lines[1] + lines[2])


def task_tree(made: Made) -> Dict[str, object]:
    """The JSON of the task."""
    frame = lambda name, line: {"filename": "a.py", "line": line, "name": name}
    members = [{"address": hex(made.inner), "frame": frame("g", 7), "kind": "coroutine"}, {"address": hex(made.outer), "frame": frame("f", 3), "kind": "coroutine"}]
    return {"address": hex(made.task), "chain": {"end": {"address": hex(made.future), "kind": "future"}, "members": members}, "condition": "waiting",
            "kind": "task", "loop": hex(made.loop), "must_cancel": False, "name": "worker", "state": "pending", "thread_id": None,
            "waiter": {"address": hex(made.future), "state": "pending", "type": "_asyncio.Future"}}


def trees() -> Iterator[Row]:
    """JSON."""
    text = lambda it: json.dumps(it, indent=2, ensure_ascii=False) + "\n"
    made, files = changed(lambda made: made.set_to(made.reference_to(made.thing), made.reference_to(made.task), made.reference_to(0x90000)))
    lost = {"address": "0x90000", "fault": {"address": "0x90008", "kind": "unreadable", "length": 8}, "kind": "lost"}
    entries = [{"address": hex(made.thing), "kind": "other", "type": "T"}, task_tree(made), lost]
    yield salvage("tasks: JSON", f"{TASKS} -j", files, text(tree_of({"entries": entries, "kind": "read"})))
    rows: Tuple[Tuple[str, str, Dict[str, bytes], Optional[Dict[str, object]]], ...] = (
        ("no module", TASKS, changed(lambda made: made.set_to(module="asyncio"))[1], None),
        ("no records", f"{GOOD} --tasks", files, {"kind": "not described"}),
        ("another size", TASKS, changed(lambda made: None, size=192)[1], {"kind": "another size", "size": 192}),
        ("no modules", TASKS, {**named(heap()), "records": RECORDS}, None),
    )
    for what, words, held, told in rows:
        yield salvage(f"tasks: JSON: {what}", f"{words} -j", held, text(tree_of(told)))


def rows() -> Iterator[Row]:
    """All of them."""
    for part in (conditions, ends, registered, untold, trees, others):
        yield from part()
