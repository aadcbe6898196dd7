"""Wrong layouts: those in which one number is another."""

import re
from dataclasses import dataclass
from typing import Dict, Iterator, List, Optional, Tuple

import rooms  # (first: it makes the other rooms known)
from layout_plan import Version, plan_of

FARTHEST = 6
"""How many steps up and down a wrong number may lie from the right one."""

MEANS_MORE = ("keys", "object")
"""The groups whose size says where something else begins."""


@dataclass(frozen=True)
class Number:
    """A number of a layout file."""

    group: str
    key: str
    value: int
    start: int
    end: int
    """Where its digits stand in the text."""

    @property
    def name(self) -> str:
        """As in thread.next."""
        return f"{self.group}.{self.key}"


def numbers_in(text: str) -> List[Number]:
    """The numbers of a layout's groups, in their order."""
    found = []
    for group in re.finditer(r"^(\w+) = \{(.*)\}$", text, re.MULTILINE):
        for it in re.finditer(r"(\w+)=(\d+)", group.group(2)):
            start, end = (group.start(2) + at for at in it.span(2))
            found.append(Number(group.group(1), it.group(1), int(it.group(2)), start, end))
    return found


def lengths_of(version: Version) -> Dict[str, int]:
    """How many bytes a field takes in its record, by key; those that are missing are no fields of a record."""
    return {it.key: it.length for it in plan_of(version).wanted if it.length}


def steps_of(version: Version) -> Dict[str, int]:
    """How far from a number the next place for its field lies, by key, where that isn't a word of 8 bytes."""
    bits = {it.key: 1 for it in plan_of(version).wanted if it.is_bit}
    return {**lengths_of(version), **bits, "frame.code_tag_bits": 1}


def with_number(text: str, number: Number, value: int) -> str:
    """The text with this value in the place of a number."""
    return f"{text[: number.start]}{value}{text[number.end :]}"


def with_room(text: str, number: Number, value: int, size: Optional[Number], length: int) -> str:
    """The same, with a record that is as long as the field then asks for. (The size of a record stands before the
    fields.)"""
    changed = with_number(text, number, value)
    if size and length and value + length > size.value:
        changed = with_number(changed, size, value + length)
    return changed


def swaps(text: str, version: Version) -> Iterator[Tuple[str, Tuple[List[str], List[str]]]]:
    """For each number its name, and the wrong texts above and below, nearest first. Not all of them are sound."""
    numbers, steps, lengths = numbers_in(text), steps_of(version), lengths_of(version)
    sizes = {it.group: it for it in numbers if it.key == "size" and it.group not in MEANS_MORE}
    for it in numbers:
        step, length, size = steps.get(it.name, 8), lengths.get(it.name, 0), sizes.get(it.group)
        values = [[it.value + sign * step * count for count in range(1, FARTHEST + 1)] for sign in (1, -1)]
        above, below = ([with_room(text, it, value, size, length) for value in side if value >= 0] for side in values)
        yield it.name, (above, below)
