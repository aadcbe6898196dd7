"""What `pysalvage --native` told of native stacks: frames, guesses and ends."""

import os
from itertools import zip_longest
from typing import Dict, Optional, Sequence, Tuple

from pystacks_tool.ask.dump import Tree
from pystacks_tool.model import NativeFrame, NativeStack, PairedItem

FLAG = "--native"
"""The section's flag."""

KEY = "native"
"""Its key in the JSON."""

PAIRED_KEY = "stacks"
"""The key of one stack of Python's frames and the native ones of each."""

ENDS = {
    "no table": "{at} is in no table of its file", "no file": "{at} is in a file that isn't at hand", "unreadable": "unreadable at {at}",
    "bad table": "its file's table is damaged", "bad record": "its file's table is damaged", "bad rules": "the rules for a frame are damaged",
    "no frame address": "the frame's address can't be told", "no return address": "the return address can't be told",
    "not above": "the next frame doesn't lie above", "cut at frames": "cut after 1048576 frames", "cut at signals": "cut after 64 signal frames",
    "cut at rules": "cut, since rules are too long",
}
"""How a stack ends, by the kind of its end; nothing of a whole one."""

NOWHERE = "{at} is in no file"
"""How one ends at an address that was mapped from no file."""


def number_in(value: Optional[str]) -> Optional[int]:
    """An address, where there is one."""
    return None if value is None else int(value, 16)


def frame_of(tree: Tree, is_guess: bool, names: Dict[str, str]) -> NativeFrame:
    """A frame. Of its function's name the readable form is taken, where there is one."""
    function = tree["function"]
    return NativeFrame(int(tree["pc"], 16), names.get(function, function), tree["offset"], tree["file"], number_in(tree["address"]), tree["signal"],
                       is_guess, tree.get("mark") or "")


def end_of(tree: Tree) -> str:
    """How a stack ends; nothing of a whole one."""
    line = NOWHERE if tree["kind"] == "no file" and not tree["file"] else ENDS.get(tree["kind"], "")
    line = line.format(at=tree["at"])
    return f"{line} ({os.path.basename(tree['file'])})" if line and tree["file"] else line


def part_of(tree: Optional[Tree], is_guess: bool, names: Dict[str, str]) -> Tuple[Tuple[NativeFrame, ...], int, Tuple[NativeFrame, ...], str]:
    """The first frames of a part of a stack, how many aren't shown, the last ones, and how it ends."""
    if tree is None:
        return (), 0, (), ""
    first, last = (tuple(frame_of(it, is_guess, names) for it in tree[part]) for part in ("frames", "last"))
    return first, tree["between"], last, end_of(tree["end"])


def item_of(tree: Tree) -> PairedItem:
    """An item of one stack of both."""
    return PairedItem(tree["kind"], tree.get("frame", 0), tree.get("hidden", False))


def with_items(stack: NativeStack, tree: Optional[Tree]) -> NativeStack:
    """A stack with Python's frames among its own, where the program told that."""
    if tree is None:
        return stack
    return stack._replace(pairing=tree["pairing"], thread=tree["thread"], items=tuple(map(item_of, tree["items"])))


def stacks_of(told: Sequence[Tree], paired: Sequence[Optional[Tree]], names: Dict[str, str]) -> Tuple[NativeStack, ...]:
    """The native stacks, each with Python's frames where that is told: an earlier program doesn't."""
    return tuple(with_items(stack_of(it, names), one) for it, one in zip_longest(told, paired[:len(told)]))


def stack_of(tree: Tree, names: Optional[Dict[str, str]] = None) -> NativeStack:
    """The stack of a thread. What follows from a guess stands behind what is sure."""
    first, between, last, end = part_of(tree["stack"], False, names or {})
    guessed, more, rest, then = part_of(tree["guessed"], True, names or {})
    return NativeStack(tree["system_id"], tree["python"].get("thread_id"), tree["crashed"], first, between, last, end, tree["stack"] is not None,
                       guessed + rest, more, then, (tree["guessed"] or {}).get("guess") or "")
