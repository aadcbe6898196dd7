"""How wide texts are on a terminal, and paths in as many characters as there is room for."""

import unicodedata

GAP = "..."
"""What stands for the middle of a path."""

LEAST = 12
"""The fewest characters that are left of a path."""


def width_of(text: str) -> int:
    """How many columns of a terminal a text takes."""
    return sum(0 if unicodedata.combining(it) else 2 if unicodedata.east_asian_width(it) in "WF" else 1 for it in text)


def front_of(text: str, room: int) -> str:
    """The longest front of a text that takes at most so many columns."""
    taken = 0
    for at, it in enumerate(text):
        taken += width_of(it)
        if taken > room:
            return text[:at]
    return text


def shortened(path: str, rest: str, width: int) -> str:
    """A path without its middle, so that it and the rest of its line take so many columns: the end of it, which names the file,
    is kept longest. A name without a folder stays as it is."""
    room = max(width - width_of(rest), LEAST)
    if width_of(path) <= room or "/" not in path:
        return path
    file = width_of(path[path.rindex("/") :])
    end = front_of(path[::-1], max(file, (room - len(GAP)) * 2 // 3))[::-1]
    front = front_of(path, room - len(GAP) - width_of(end))
    return front + GAP + end if len(front) + len(end) < len(path) else path
