"""What the dead process told of the layout by which it was read: `pysalvage --check-layout`.

Where it agrees nothing is said. Where a number is another one than the process itself names, its stacks would be made up: none is
shown, unless that is asked for.
"""

import json
from typing import List, Optional

from pystacks_tool.ask.dump import Tree, Unexpected
from pystacks_tool.ask.run import Answer
from pystacks_tool.faults import NO_STACKS, Called
from pystacks_tool.model import LayoutTold, Number

FLAG = "--check-layout"
"""The section's flag."""

KEY = "layout_check"
"""Its key in the JSON."""

MOST = 8
"""How many numbers that differ have a line of their own."""

AGREES, DIFFERS, DOUBTFUL, SILENT = "agrees", "differs", "doubtful", "silent"
"""What may come of it. (Another word is that of a version that doesn't describe itself in a form that is known.)"""


FRAMES = "frames"
"""What a doubt is called that comes of the known answers."""


def number_of(tree: Tree) -> Number:
    """A number that is told."""
    return Number(tree["key"], tree["layout"], tree["process"])


def layout_told(tree: Optional[Tree]) -> Optional[LayoutTold]:
    """What is told of the layout, if anything is."""
    if tree is None:
        return None
    known = tree["known"]
    return LayoutTold(
        tree["verdict"], tuple(number_of(it) for it in tree["told"]), tuple(number_of(it) for it in tree["differ"]),
        tuple(str(it) for it in tree["not_told"]), tree["build"] or "", (known["right"], known["of"]) if known else None,
        tree.get("doubt") or "")


def layout_in(text: str) -> Optional[LayoutTold]:
    """The same of the JSON of a core."""
    try:
        return layout_told(json.loads(text).get(KEY))
    except (ValueError, KeyError, TypeError, AttributeError) as error:
        raise Unexpected(f"its JSON: {error!r}") from None


def guesses_in(text: str) -> int:
    """How many known answers may be of no interpreter of Python's, by the JSON of a core: where one was found otherwise, those of each
    that search alone found, its modules and the id of each of its threads."""
    found = json.loads(text).get("interpreters") or []
    if all(it["searched"] for it in found):
        return 0
    return sum(1 + len(it["threads"]) for it in found if it["searched"])


def line_of(it: Number) -> str:
    """A number that differs."""
    return f"{it.key} is {it.layout}, the process says {it.process}"


def layout_lines(told: Optional[LayoutTold]) -> List[str]:
    """What is said of a layout: nothing where the process agrees, or wasn't asked."""
    if told is None or told.verdict == AGREES:
        return []
    if told.verdict == DIFFERS:
        build = [f"layout: the process is of a {told.build} build"] if told.build else []
        more = len(told.differ) - MOST
        rest = [f"layout: {more} more number{'s differ' if more > 1 else ' differs'}"] if more > 0 else []
        return build + [f"layout: {line_of(it)}" for it in told.differ[:MOST]] + rest
    if told.verdict == DOUBTFUL:
        known = told.known if told.doubt == FRAMES else None
        why = f"{known[0]} of {known[1]} known answers are right" if known else "`type` tells of itself what isn't known"
        return [f"layout: doubtful, {why}"]
    if told.verdict == SILENT:
        return ["layout: unconfirmed, since the process tells too little"]
    return ["layout: unconfirmed, since it isn't known where a process of this version tells it"]


def refusal(told: LayoutTold) -> Answer:
    """The answer in place of stacks that a wrong layout would give."""
    build = f"the process is of a {told.build} build, " if told.build else ""
    count = len(told.differ)
    number = line_of(told.differ[0]) if told.differ else "it is another one"
    more = f", and {count - 1} more number{'s differ' if count > 2 else ' differs'}" if count > 1 else ""
    line = f"layout: {build}{number}{more}: no stack is shown"
    return Answer(NO_STACKS, b"", f"{Called.name}: {line}\n".encode("utf-8", "replace"))
