"""What the tool says: a line, and where that isn't plain from it a second one with what to do next; and its statuses."""

import sys

from pystacks_tool.pages import with_places

NO_STACKS = 1
BAD_WORDS = 2
CANNOT_READ = 3
CANNOT_WRITE = 4
NO_ROOM = 5
NO_PROGRAM = 127


class Fault(Exception):
    """Why there is no answer: the line, the status, and what to do next."""

    def __init__(self, line: str, status: int, then: str = "") -> None:
        super().__init__(line)
        self.status = status
        self.then = then


class Called:
    """The name under which the tool was called."""

    name = "dump_core"


def call(name: str) -> None:
    """Lets lines begin with the name under which the tool was called."""
    own = name.rsplit("/", 1)[-1]
    Called.name = own[:-3] if own.endswith(".py") else own


def say(line: str, then: str = "", who: str = "") -> None:
    """Says a line on the standard error, and what to do next, by this name, or the tool's."""
    print(f"{who or Called.name}: {line}", file=sys.stderr, flush=True)
    say_next(then, who)


def say_next(then: str, who: str = "") -> None:
    """Says what to do next, if there is something, behind a line that was said. (It has no name of the user's or a core's in it, and
    so what looks like a page of docs is one; it stands there with its place.)"""
    if then:
        print(f"{who or Called.name}: next: {with_places(then)}", file=sys.stderr, flush=True)


def shown(name: bytes) -> str:
    """A name within a line."""
    text = name.decode("utf-8", "backslashreplace")
    return "".join(it if it.isprintable() else f"\\u{{{ord(it):x}}}" for it in text)
