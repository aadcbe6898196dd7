#!/usr/bin/env python3
"""Asks for the values of locals in cores of real Pythons, and compares them with what the processes said.

    tools/check/real/real_values.py --salvage crates/pysalvage/out/pysalvage [PYTHON..]

In each Python that is installed a process dies that keeps some hundred values in the locals of a frame, of every kind, objects with
attributes too (values_child.py), and has said of each its `repr`, its tree, the name of its type and whether it is an argument. By one `-l`, by two and by three, in a core with all of memory and
in one as they are usually written, each value is told equal, or shorter with its count: in the tree each part that is shown is the
process's own, and what is left out is counted; in the text that has no count `repr` itself stands. What more is shown by more `l`
leaves nothing out that was shown. Values of kinds that are told as objects of their types alone are counted. The status is 0 exactly
where nothing that was tried failed.
"""

import argparse
import json
import sys
import tempfile
from pathlib import Path
from typing import Any, Dict, Iterator, List, Optional, Sequence

from rooms import ROOT  # (first: it makes the other rooms known)

from child_cores import ALL_PRIVATE, USUAL, Failure, Skip, aborted, core_names
from derive_layout import Build, DeriveError, build_of
from each_python import tell_each
from find_pythons import pythons
from real_core import images_of, ran
from real_tasks import words_of

CHILD = Path(__file__).with_name("values_child.py")

TIMES = (1, 2, 3)
"""How often `-l` is given."""

CONTAINERS = {"list", "tuple", "set", "frozenset", "range", "slice", "cell", "dict", "method", "instance"}

PAIRS = ("dict", "instance")
"""Kinds of values whose parts are pairs."""

BARE = {"object", "function", "builtin", "module", "method", "class"}
"""Kinds of objects that may be told by their types alone, or by more than the process said of them."""

PAUSED = {"coroutine", "generator", "async generator"}
"""Kinds of values whose names and states are told from 3.6 on."""

OLD = {"unicode", "dict", "set", "frozenset", "bytearray", "range", "slice", "cell", "instance"}
"""Kinds of Python 2's whose records may not be read: such values are objects of their types."""

Tree = Dict[str, Any]


def asked(salvage: Path, core: Path, build: Build, *more: str) -> str:
    """What is told of a core."""
    run = ran([salvage, core, *words_of(build.machine), *more, *images_of(core)])
    if run.status != 0:
        raise Failure(f"status {run.status}: {run.err}")
    return run.out


def frames_in(tree: Tree) -> Iterator[Tree]:
    """All members that are shown."""
    for interpreter in tree["interpreters"]:
        for thread in interpreter["threads"]:
            yield from thread["frames"]["first"]
            yield from thread["frames"]["last"]


def locals_in(text: str) -> Dict[str, Tree]:
    """The locals of the frame that keeps the values, by their names."""
    tree = json.loads(text)
    found = [it for it in frames_in(tree) if it.get("name") == "keep"]
    if len(found) != 1 or found[0]["locals"] is None:
        raise Failure(f"{len(found)} frames keep values")
    if tree["values_left_out"] != 0:
        raise Failure(f"{tree['values_left_out']} values are left out")
    return {it["name"]: it for it in found[0]["locals"]}


# ---- a value, against what the process said


def parts_of(told: Tree) -> List[Any]:
    """What is shown of a value: its items, or the pairs of names and values that it has."""
    return list(told.get("attributes" if told["kind"] == "instance" else "items", []))


def within(told: Tree) -> List[Tree]:
    """The values that are shown in another."""
    items = parts_of(told)
    return [it for pair in items for it in pair] if told["kind"] in PAIRS else items


def is_cut(told: Tree) -> bool:
    """Whether something of a value is left out."""
    kind = told["kind"]
    if kind in ("str", "unicode"):
        return len(told["value"]) != told["length"]
    if kind in ("bytes", "bytearray", "byte string"):
        return len(told["hex"]) != 2 * told["length"]
    if kind not in CONTAINERS:
        return kind in ("int", "long") and told["value"] is None
    return told["more"] > 0 or any(is_cut(it) for it in within(told))


def others_in_text(told: Tree, wanted: Tree) -> Iterator[str]:
    """How a text, or bytes, differ from what is wanted, of which a front is enough with how many there are."""
    key, own = ("value", "length") if "value" in wanted else ("hex", "length")
    if told[own] != wanted[own]:
        yield f"there are {wanted[own]}, and {told[own]} are told"
    if not wanted[key].startswith(told[key]):
        yield f"{told[key]!r} is no front of {wanted[key]!r}"


def others_in_items(told: Tree, wanted: Tree, is_2: bool) -> Iterator[str]:
    """How a container differs, of which a front is enough with how many more there are."""
    shown, all_of = parts_of(told), parts_of(wanted)
    if wanted["kind"] == "instance" and (told["address"], told["type"]) != (wanted["address"], wanted["type"]):
        yield f"{told['type']} at {told['address']} is told of {wanted['type']} at {wanted['address']}"
    if len(shown) + told["more"] != len(all_of):
        yield f"{len(shown)} and {told['more']} more are told of {len(all_of)}"
    for one, other in zip(shown, all_of):
        pairs = zip(one, other) if wanted["kind"] in PAIRS else [(one, other)]
        for own, its in pairs:
            yield from others(own, its, is_2)


def others(told: Tree, wanted: Optional[Tree], is_2: bool = False) -> Iterator[str]:
    """How a value differs from what is wanted."""
    if wanted is None:
        yield "it goes deeper than it should"
    elif is_bare(told, wanted, is_2):
        return
    elif told["kind"] != wanted["kind"]:
        yield f"{told} is of another kind than {wanted}"
    elif wanted["kind"] in CONTAINERS:
        yield from others_in_items(told, wanted, is_2)
    elif "length" in wanted:
        yield from others_in_text(told, wanted)
    elif told != wanted:
        yield f"{told} in place of {wanted}"


def is_bare(told: Tree, wanted: Tree, is_2: bool) -> bool:
    """Whether a value is told as an object of its type, as it may be."""
    own = wanted["kind"]
    if own == "object":
        return told["kind"] in BARE and told["address"] == wanted["address"] and told.get("type", wanted["type"]) == wanted["type"]
    if is_2 and own in PAUSED:
        return told["kind"] in (own, "object") and told["address"] == wanted["address"] and told.get("state") is None
    return is_2 and own in OLD and told["kind"] == "object"


def has_bare(told: Tree) -> bool:
    """Whether a value within another is told as an object of its type."""
    return told["kind"] == "object" or any(has_bare(it) for it in within(told))


def check_value(name: str, told: Tree, wanted: Tree, is_2: bool) -> str:
    """Fails where a local is told otherwise than the process said; answers how it is told: equal, shorter or bare."""
    tree = told["value"]
    if tree is None or told["repr"] is None:
        raise Failure(f"{name} has no value: {told}")
    if told["type"] is None or told["type"].rsplit(".", 1)[-1] != wanted["type"]:
        raise Failure(f"{name} is of the type {told['type']}, and the process said {wanted['type']}")
    if told["kind"] != ("argument" if wanted["is_argument"] else "local") or told["arg"] != wanted["is_argument"]:
        raise Failure(f"{name} is {told['kind']}, and the process has it otherwise")
    if is_bare(tree, wanted["tree"], is_2):
        return "bare"
    for line in others(tree, wanted["tree"], is_2):
        raise Failure(f"{name}: {line}")
    if "\n" in told["repr"]:
        raise Failure(f"{name} has a line's end: {told['repr']!r}")
    if is_cut(tree):
        if ".. " not in told["repr"] and " digits of 30 bits>" not in told["repr"]:
            raise Failure(f"{name} is shorter with no count: {told['repr']!r}")
        return "shorter"
    if wanted["text"] is not None and told["repr"] != wanted["text"] and not has_bare(tree):
        raise Failure(f"{name} is {told['repr']!r}, and the process said {wanted['text']!r}")
    return "equal"


def check_more(name: str, less: Tree, more: Tree) -> None:
    """Fails where less is shown of a value by more `l`."""
    if less["kind"] != more["kind"]:
        raise Failure(f"{name} is {more} by more `l`, and was {less}")
    for line in others(less, more) if less["kind"] not in CONTAINERS else fewer(less, more):
        raise Failure(f"{name} by more `l`: {line}")


def fewer(less: Tree, more: Tree) -> Iterator[str]:
    """How a container shows less by more `l`."""
    front, whole = parts_of(less), parts_of(more)
    if len(front) + less["more"] != len(whole) + more["more"] or len(front) > len(whole):
        yield f"{len(whole)} are shown, and {len(front)} were"
    for one, other in zip(front, whole):
        for own, its in zip(one, other) if less["kind"] in PAIRS else [(one, other)]:
            if own["kind"] in CONTAINERS:
                yield from fewer(own, its)
            else:
                yield from others(own, its)


def check_text(text: str, told: Dict[str, Tree]) -> None:
    """Fails where the text has another line for a local."""
    lines = text.splitlines()
    for name, its in told.items():
        if f"        {name}: {its['repr']}" not in lines:
            raise Failure(f"the text has no line {name}: {its['repr']}")


# ---- each Python


def in_core(salvage: Path, build: Build, names: str, room: Path, holds: str) -> Dict[str, int]:
    """How many values are told equal, shorter, and as objects of their types alone."""
    room.mkdir()
    child = aborted([build.executable, *build.alone, "-B", str(CHILD), holds], room)
    core, wanted = child.core(names), json.loads(child.out)
    counts = {"equal": 0, "shorter": 0, "bare": 0}
    before: Dict[str, Tree] = {}
    for times in TIMES:
        words: Sequence[str] = ["-l"] * times
        told = locals_in(asked(salvage, core, build, "-j", *words))
        for name, its in wanted.items():
            if name not in told:
                raise Failure(f"there is no local {name}")
            how = check_value(name, told[name], its, build.minor < (3, 0))
            counts[how] += times == 1
            if before and how != "bare":
                check_more(name, before[name]["value"], told[name]["value"])
        check_text(asked(salvage, core, build, *words), told)
        before = told
    core.unlink()
    return counts


def tried(salvage: Path, python: str, names: str) -> str:
    """What comes of one Python."""
    build = build_of(python)
    done: List[str] = []
    with tempfile.TemporaryDirectory(prefix="real-values-") as name:
        for place, holds in (("all", ALL_PRIVATE), ("usual", USUAL)):
            counts = in_core(salvage, build, names, Path(name) / place, holds)
            done.append(", ".join(f"{count} {how}" for how, count in counts.items()))
    return f"{build.dotted}: {'; as usual '.join(done)}"


def main() -> int:
    """The command."""
    parser = argparse.ArgumentParser(description=__doc__.splitlines()[0])
    parser.add_argument("python", nargs="*", help="the interpreters (default: those that are found)")
    parser.add_argument("--salvage", default=str(ROOT / "crates" / "pysalvage" / "out" / "pysalvage"), help="the built `pysalvage`")
    words = parser.parse_args()
    salvage = Path(words.salvage).resolve()
    if not salvage.is_file():
        print(f"real_values: skipped: there is no {salvage}")
        return 0
    try:
        names = core_names()
    except Skip as reason:
        print(f"real_values: skipped: {reason}")
        return 0
    return 1 if tell_each("real_values", lambda it: tried(salvage, it, names), words.python or pythons(), (Skip, DeriveError)) else 0


if __name__ == "__main__":
    sys.exit(main())
