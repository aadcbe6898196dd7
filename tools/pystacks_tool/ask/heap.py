"""What `pysalvage --heap` told of what heaps hold: how many objects of each class the collector tracks, and their bytes."""

import json
from typing import Dict, List, Optional, Sequence, Tuple

from pystacks_tool.ask.dump import Tree
from pystacks_tool.faults import BAD_WORDS, Fault, shown
from pystacks_tool.model import Growth, Heap, HeapClass

FLAG = "--heap"
"""The section's flag."""

KEY = "heap"
"""Its key in the JSON."""

LISTS = (("youngest", "generation 0"), ("middle", "generation 1"), ("oldest", "generation 2"), ("permanent", "the permanent generation"))
"""The lists of the collector, with their names."""

UNNAMED = "class at 0x"
"""What stands for the name of a class that can't be read, before its address."""

ENDS = {"torn": "is torn at", "unreadable": "can't be read at", "cut": "has more, from"}
"""How a list ends that isn't whole."""


def class_of(tree: Tree) -> HeapClass:
    """A class of which there are objects."""
    largest = tuple((it["address"], it["bytes"]) for it in tree.get("largest") or ())
    return HeapClass(tree["name"] or f"class at {tree['address']}", tree["objects"], tree["bytes"], tree["more"], tree["unknown"],
                     tree.get("unread", 0), largest)


def marks_of(tree: Tree) -> Tuple[str, ...]:
    """What is said of a heap that isn't whole."""
    marks = ["a collection ran"] if tree["collecting"] else []
    for key, name in LISTS:
        end = tree["lists"][key]["end"]
        if end["kind"] != "whole":
            marks.append(f"{name} {ENDS[end['kind']]} {end['address']}")
    if tree.get("more_classes"):
        marks.append(f"{tree['more_classes']:,} more classes aren't told")
    if tree.get("sets") is False:
        marks.append("tables of sets aren't counted: no symbol names their classes")
    if tree["unreadable"]:
        marks.append(f"{tree['unreadable']:,} objects whose class can't be read")
    return tuple(marks)


def heap_of(tree: Tree) -> Heap:
    """The heap of an interpreter, or of the runtime."""
    owner = tree["interpreter"] or ""
    if tree["kind"] != "heap":
        faults = {"no lists": "the collector's lists aren't where they are looked for", "no runtime": "no symbol tells where the runtime is"}
        return Heap(owner, fault=faults[tree["kind"]])
    classes = sorted(map(class_of, tree["classes"]), key=lambda it: -it.total)
    return Heap(owner, tuple(classes), tuple((name, tree["lists"][key]["objects"]) for key, name in LISTS),
                marks_of(tree))


def heaps_of(trees: Optional[List[Tree]]) -> Tuple[Heap, ...]:
    """The heaps of a process; of a version that isn't described one that says so."""
    if trees is None:
        return (Heap("", fault="not described for this version of Python"),)
    return tuple(heap_of(it) for it in trees)


def counts_of(heaps: Sequence[Heap]) -> Dict[str, Tuple[int, int]]:
    """How many objects and bytes the classes of a name have, in all heaps. (An address names another class in another process.)"""
    found: Dict[str, Tuple[int, int]] = {}
    for it in (one for heap in heaps for one in heap.classes if not one.name.startswith(UNNAMED)):
        objects, size = found.get(it.name, (0, 0))
        found[it.name] = objects + it.objects, size + it.total
    return found


def growth_of(before: Sequence[Heap], now: Sequence[Heap]) -> Tuple[Growth, ...]:
    """How the classes grew, what grew most first; what shrank stands last."""
    old, new = counts_of(before), counts_of(now)
    rows = []
    for name in {**old, **new}:
        (objects, size), (objects_now, size_now) = old.get(name, (0, 0)), new.get(name, (0, 0))
        rows.append(Growth(name, objects_now - objects, size_now - size))
    return tuple(sorted((it for it in rows if it.objects or it.size), key=lambda it: (-it.size, -it.objects, it.name)))


EARLIER = "--diff names what -j --heap wrote of an earlier core"
"""What is said of a file that is none."""


def is_counted(heap: Heap) -> bool:
    """Whether each class has a name and numbers, as the tool writes them."""
    return not heap.fault and all(isinstance(it.name, str) and all(isinstance(number, int) for number in it[1:6]) for it in heap.classes)


def earlier_heaps(path: str) -> Tuple[Heap, ...]:
    """The heaps of an earlier core, by the JSON that the tool wrote of it."""
    name = shown(path.encode("utf-8", "surrogateescape"))
    try:
        with open(path, encoding="utf-8") as file:
            heaps = heaps_of(json.load(file)[KEY])
    except OSError as error:
        raise Fault(f"cannot read {name}: {error.strerror}", BAD_WORDS, EARLIER) from None
    except (ValueError, KeyError, TypeError, AttributeError, RecursionError):
        raise Fault(f"{name} has no heaps", BAD_WORDS, EARLIER) from None
    if not heaps or not all(map(is_counted, heaps)):
        raise Fault(f"{name} has no heaps", BAD_WORDS, EARLIER)
    return heaps
