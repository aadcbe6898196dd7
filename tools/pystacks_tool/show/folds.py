"""Recursions: a run of one frame, of a pair or of a triple of frames is folded into one line, which counts how often it comes again.

The newest of a run stands as it is, above that line, so that nothing is lost but what is the same: `... descend, begin: 451 times
(lines 9, 10)` stands for 451 more times these two frames. With locals the line counts those that it leaves out.
"""

from typing import Iterator, List, NamedTuple, Optional, Sequence, Tuple, Union

from pystacks_tool.model import Frame
from pystacks_tool.show.escape import as_name

LONGEST = 3
"""The most frames of what is repeated."""

LEAST = 4
"""How often it has to stand there."""


class Fold(NamedTuple):
    """Frames that stand for a line."""

    unit: Tuple[Frame, ...]
    """What they repeat, which stands above them."""
    frames: Tuple[Frame, ...]

    @property
    def times(self) -> int:
        """How often it is repeated."""
        return len(self.frames) // len(self.unit)

    @property
    def left_out(self) -> int:
        """How many locals are others than those above."""
        own = [it.locals or () for it in self.unit]
        return sum(len(it.locals or ()) for at, it in enumerate(self.frames) if (it.locals or ()) != own[at % len(own)])

    @property
    def line(self) -> str:
        """The line for them."""
        lines = ", ".join(str(it.line or "?") for it in self.unit)
        where = f" (line{'s' if len(self.unit) > 1 else ''} {lines})" if any(it.line for it in self.unit) else ""
        rest = f", {self.left_out} locals left out" if self.left_out else ""
        return f"... {', '.join(as_name(it.name) for it in self.unit)}: {self.times} times{where}{rest}"


Item = Union[Frame, Fold]


def keys_of(frames: Sequence[Frame]) -> List[object]:
    """What frames are compared by. One without names is like no other."""
    return [(at, it.why) if it.why else (it.place, it.fault) for at, it in enumerate(frames)]


def runs_of(keys: Sequence[object], length: int) -> List[int]:
    """For each place how often what begins there, of this length, stands there without a gap."""
    same = [0] * (len(keys) + 1)
    for at in range(len(keys) - length - 1, -1, -1):
        same[at] = same[at + 1] + 1 if keys[at] == keys[at + length] else 0
    return [1 + it // length for it in same[:-1]]


def best_at(runs: Sequence[Sequence[int]], at: int) -> Optional[Tuple[int, int]]:
    """The length and the number of what is repeated at a place, if anything is: of several the one that covers most."""
    found = [(length * own[at], -length) for length, own in enumerate(runs, 1) if own[at] >= LEAST]
    if not found:
        return None
    length = -max(found)[1]
    return length, runs[length - 1][at]


def folded(frames: Sequence[Frame]) -> Iterator[Item]:
    """Frames, with what is repeated folded."""
    keys = keys_of(frames)
    runs = [runs_of(keys, length) for length in range(1, LONGEST + 1)]
    at = 0
    while at < len(frames):
        best = best_at(runs, at)
        if best is None:
            yield frames[at]
            at += 1
            continue
        length, count = best
        unit = tuple(frames[at : at + length])
        yield from unit
        yield Fold(unit, tuple(frames[at + length : at + length * count]))
        at += length * count
