"""What cores are grouped by: keys of a report, which are the same for the same bug.

The key of a crash has the signal and the stack of the thread that got it, newest frame first. A stack is taken without what
differs from run to run: a recursion stands once, however deep it was, and only the newest frames have lines.
"""

import hashlib
import json
import re
from dataclasses import dataclass
from typing import List, Optional, Sequence, Tuple

from pystacks_tool.model import Frame, Report, Thread

LINED = 10
"""How many of the newest frames are compared by their lines too."""

LONGEST = 3
"""The most frames of what a recursion repeats."""

Place = Tuple[object, ...]
"""What a frame is compared by."""

LIBRARY = re.compile(r"^(?:.*/)?lib(?:64)?/python[0-9.]+t?/(?!(?:site|dist)-packages/)")
"""The front of a file's name in Python's own library."""

PACKAGES = re.compile(r"^(?:.*/)?(?:site|dist)-packages/")
"""The front of a file's name among the packages that were installed."""

FORM = 1
"""The form of keys. Keys of another form are never equal to these."""


def same_from(places: Sequence[Place], length: int) -> List[int]:
    """For each place how many of those from there on are equal to the one so far behind them."""
    same = [0] * (len(places) + 1)
    for at in range(len(places) - length - 1, -1, -1):
        same[at] = same[at + 1] + 1 if places[at] == places[at + length] else 0
    return same[:-1]


def once(places: Sequence[Place]) -> List[Place]:
    """Some places, where what is repeated at once stands once: of several the one that covers most, then the shortest."""
    runs = [same_from(places, length) for length in range(1, LONGEST + 1)]
    found: List[Place] = []
    at = 0
    while at < len(places):
        times = [(length * (1 + own[at] // length), -length) for length, own in enumerate(runs, 1) if own[at] >= length]
        covered, length = max(times) if times else (1, -1)
        found += places[at : at - length]
        at += covered
    return found


def place_of(frame: Frame) -> Place:
    """A frame by function, file and line, or by nothing where it has no names: why is not the same in each core.

    A file of Python's library has no line, and neither it nor an installed package's has its folder: these differ by version."""
    if frame.why:
        return ("?",)
    if frame.filename.startswith("<frozen ") or LIBRARY.match(frame.filename):
        return frame.name, LIBRARY.sub("lib/python/", frame.filename), 0
    return frame.name, PACKAGES.sub("site-packages/", frame.filename), frame.line


def lined(places: Sequence[Place]) -> List[Place]:
    """The same places, of which all but the newest have no line."""
    return [it if at < LINED else it[:2] for at, it in enumerate(places)]


def stack_places(thread: Thread) -> List[Place]:
    """The frames of a thread, in which a recursion stands once.

    Of a stack that is shown in parts the oldest ones begin in any frame of a recursion: as many of them are left out, fewer
    than a recursion's longest, as make it meet the newest ones."""
    split = thread.first if thread.between and thread.first is not None else len(thread.frames)
    first, last = ([place_of(it) for it in part] for part in (thread.frames[:split], thread.frames[split:]))
    tries = [once([*first, *last[left:]]) for left in range(LONGEST if last else 1)]
    return once(lined(min(tries, key=len)))


@dataclass(frozen=True)
class Chosen:
    """The thread by which a core is grouped."""

    thread: Thread
    why: str
    """`crashed`, or what it is where no thread that is shown got the signal: `gil` or `main`."""


def chosen(report: Report) -> Optional[Chosen]:
    """The thread that got the signal; else the one that held the lock; else the oldest of the first interpreter."""
    threads = [it for it in report.threads if it.frames]
    for why, marked in (("crashed", [it for it in threads if it.is_crashed]), ("gil", [it for it in threads if it.is_holder])):
        if marked:
            return Chosen(marked[0], why)
    for one in report.interpreters:
        own = [it for it in one.threads if it.frames]
        if own:
            return Chosen(own[-1], "main")
    return None


def digest(parts: object) -> str:
    """A short text for a key, which is the same for the same key on every machine."""
    return hashlib.sha256(json.dumps([FORM, parts], separators=(",", ":")).encode()).hexdigest()[:32]


def crash_key(report: Report) -> str:
    """The key of a crash: the signal, and the thread that got it."""
    one = chosen(report)
    places = stack_places(one.thread) if one else []
    return digest(["crash", report.signal, one.why if one else "", places])


def stacks_key(report: Report) -> str:
    """The key of all threads: which stacks there are, by lines, and how many frames of each aren't shown."""
    stacks = {json.dumps([[place_of(it) for it in thread.frames], thread.between, bool(thread.end)]) for thread in report.threads if thread.frames}
    return digest(["stacks", sorted(stacks)])


def cause_key(cause: str, process: str) -> str:
    """The key of a core that has no stacks."""
    return digest(["cause", cause, process])
