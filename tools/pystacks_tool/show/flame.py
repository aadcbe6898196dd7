"""A flame graph as SVG, from collapsed stacks: a bar for each place of a stack, above the one that it was called from, as wide
as the number of threads that have it.
"""

from html import escape
from typing import Dict, List, NamedTuple, Sequence, Tuple

from pystacks_tool.show.escape import in_page

WIDTH, BAR = 1200, 17
"""The width of the whole, and the height of a place, in units of the picture."""

GLYPH, MARGIN = 6.6, 3
"""The width of a character, and the blank before the first."""

SHORTEST = 4
"""The fewest characters that are written into a bar."""

COLOURS = 8
"""How many classes of colours there are."""

LARGEST = 400_000
"""The most bytes of a picture, if nothing else is said."""


class Bar:
    """A place of some stacks."""

    def __init__(self, label: str, count: int = 0) -> None:
        self.label = label
        self.start = 0
        """How many threads stand left of it."""
        self.count = count
        """How many threads have it."""
        self.below: Dict[str, "Bar"] = {}
        """The places that it called."""


class Flame(NamedTuple):
    """A picture, and the order of threads in it."""

    svg: str
    order: Tuple[int, ...]
    """The threads' places in the list that was handed in, from left to right. Those without frames aren't there."""
    is_whole: bool
    """Whether no place is left out for want of room."""


def tree_of(stacks: Sequence[Tuple[str, ...]]) -> Bar:
    """All places, below one that stands for all threads."""
    top = Bar("all threads", sum(bool(it) for it in stacks))
    for stack in stacks:
        bar = top
        for label in stack:
            bar = bar.below.setdefault(label, Bar(label))
            bar.count += 1
    return top


def levels_of(top: Bar) -> List[List[Bar]]:
    """The bars level by level, each with its start: the wider ones of a place stand left."""
    levels, level = [], [top]
    while level:
        levels.append(level)
        after: List[Bar] = []
        for bar in level:
            at = bar.start
            for it in sorted(bar.below.values(), key=lambda it: (-it.count, it.label)):
                it.start, at = at, at + it.count
                after.append(it)
        level = after
    return levels


def order_of(stacks: Sequence[Tuple[str, ...]], top: Bar) -> Tuple[int, ...]:
    """The threads from left to right: those that end at a place stand right of those that go on from it."""

    def key(number: int) -> Tuple[Tuple[int, int], ...]:
        bar, found = top, []
        for label in stacks[number]:
            bar = bar.below[label]
            found.append((0, bar.start))
        return (*found, (1, 0))

    return tuple(sorted((number for number, it in enumerate(stacks) if it), key=key))


def number(value: float) -> str:
    """A number of the picture, short."""
    return f"{value:.2f}".rstrip("0").rstrip(".")


def fitted(label: str, width: float) -> str:
    """As much of a label as a bar has room for. One that is cut ends in a parenthesis where the whole does, as each frame's
    does and no other's."""
    room = int((width - 2 * MARGIN) / GLYPH)
    if room < SHORTEST:
        return ""
    end = "..)" if label.endswith(")") else ".."
    return label if len(label) <= room else label[: room - len(end)] + end


def bar_svg(bar: Bar, total: int, bottom: int) -> str:
    """A bar, whose foot is at this height."""
    x, width = WIDTH * bar.start / total, WIDTH * bar.count / total
    shown = in_page(bar.label)
    colour = sum(bar.label.encode("utf-8", "replace")) % COLOURS
    text = fitted(shown, width)
    label = f'<text x="{number(x + MARGIN)}" y="{bottom - 5}">{escape(text)}</text>' if text else ""
    return (
        f'<g data-a="{bar.start}" data-n="{bar.count}"><title>{escape(shown)}: {counted(bar.count)}</title>'
        f'<rect class="c{colour}" x="{number(x)}" y="{bottom - BAR}" width="{number(width)}" height="{BAR - 1}"/>{label}</g>')


def counted(count: int) -> str:
    """A number of threads."""
    return "1 thread" if count == 1 else f"{count} threads"


def flame_of(stacks: Sequence[Tuple[str, ...]], largest: int = LARGEST) -> Flame:
    """The picture of some threads, each by its places, the outermost first. Where it would have more bytes than this the
    upper levels are left out."""
    top = tree_of(stacks)
    levels = levels_of(top)
    order = order_of(stacks, top)
    if not top.count:
        return Flame("", order, True)
    parts: List[List[str]] = []
    height, size = BAR * len(levels), 0
    for depth, level in enumerate(levels):
        rows = [bar_svg(bar, top.count, height - BAR * depth) for bar in level]
        size += sum(len(it.encode("utf-8", "replace")) for it in rows)
        if size > largest and parts:
            break
        parts.append(rows)
    front = BAR * (len(levels) - len(parts))
    head = f'<svg id="graph" viewBox="0 {front} {WIDTH} {height - front}" role="group" aria-label="Flame graph of {counted(top.count)}">'
    body = "\n".join(it for rows in parts for it in rows)
    return Flame(f"{head}\n{body}\n</svg>", order, len(parts) == len(levels))
