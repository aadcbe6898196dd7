"""Rows of `pysalvage --names`: the names that an interpreter keeps, and why there are none."""

import json
from typing import Dict, Iterator, Optional

from named_threads import named_threads
from row import Row
from rows_salvage import GOOD, broken_tree, named, salvage
from small_core import HEAP, TEXT, heap

NAMES = f"{GOOD} --names"


def told(number: int, name: Optional[str], fault: Optional[str] = None, lost: Optional[str] = None, unread: int = 0) -> Dict[str, object]:
    """What is told of the small core's interpreter."""
    return {"fault": fault, "interpreter": hex(HEAP), "threads": [{"fault": lost, "name": name, "thread_id": number}], "unread": unread}


def tree_of(names: Dict[str, object], name: Optional[str] = None) -> Dict[str, object]:
    """All that is told of the small core, whose chain of frames is whole and whose thread has such a name."""
    found = broken_tree(0, [])
    interpreters = found["interpreters"]
    assert isinstance(interpreters, list)
    interpreters[0]["threads"][0]["frames"]["end"] = {"kind": "whole"}
    interpreters[0]["threads"][0]["name"] = name
    return {**found, "missing": None, "names": [names]}


def headed(name: str) -> str:
    """The small core's text whose thread has a name."""
    return TEXT.replace("Thread 0x7F00\n", f'Thread 0x7F00: "{name}"\n')


def rows() -> Iterator[Row]:
    """All of them."""
    text = lambda it: json.dumps(it, indent=2, ensure_ascii=False) + "\n"
    line = "Name of thread 0x7F00: MainThread\n"
    yield salvage("names: of a thread", NAMES, named(named_threads()), headed("MainThread") + line)
    yield salvage("names: without the flag the text has none", GOOD, named(named_threads()), TEXT)
    yield salvage("names: of the last thread of an id", NAMES, named(named_threads(ids=(0x7F00, 0x7F00))),
                  headed("Worker") + "Name of thread 0x7F00: Worker\n")
    yield salvage("names: of a thread that has none", NAMES, named(named_threads(own=0x7F02)), TEXT.replace("0x7F00", "0x7F02"))
    yield salvage("names: no module of threads", NAMES, named(named_threads(("sys", "_active"))), TEXT)
    unreadable = f"No names of the interpreter at 0x{HEAP:x}: unreadable\n"
    yield salvage("names: no modules", NAMES, named(heap()), TEXT + unreadable)
    yield salvage("names: a key that is no text", NAMES, named(named_threads((5000, "threading"))), TEXT + unreadable)
    lost = "No name of thread 0x7F00: unreadable\n"
    yield salvage("names: a thread whose class is not there", NAMES, named(named_threads(smashed=0)), TEXT + lost)
    yield salvage("names: another thread whose class is not there", NAMES, named(named_threads(smashed=1)), headed("MainThread") + line)
    one = f"Names not read of the interpreter at 0x{HEAP:x}: 1\n"
    yield salvage("names: an id that is no number", NAMES, named(named_threads(nameless=1)), headed("MainThread") + line + one)
    yield salvage("names: JSON", f"{NAMES} -j", named(named_threads()), text(tree_of(told(0x7F00, "MainThread"), "MainThread")))
    yield salvage("names: JSON of a fault", f"{NAMES} -j", named(heap()), text(tree_of(told(0x7F00, None, "unreadable"))))
    yield salvage("names: JSON of a thread's fault", f"{NAMES} -j", named(named_threads(smashed=0)),
                  text(tree_of(told(0x7F00, None, lost="unreadable"))))
    yield salvage("names: JSON of an id that is no number", f"{NAMES} -j", named(named_threads(nameless=1)),
                  text(tree_of(told(0x7F00, "MainThread", unread=1), "MainThread")))
