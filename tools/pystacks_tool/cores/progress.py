"""A line of progress on a terminal, while a large core is prepared."""

import sys
import time
from contextlib import contextmanager
from typing import Iterator, Optional

from pystacks_tool.faults import Called

LARGE = 500_000_000
"""The least bytes of a core at which there is such a line."""

EVERY = 0.2
"""How many seconds pass between two of them at least."""


class Progress:
    """How many bytes were read so far, of a core of which this many are known. (One that is packed has more.)"""

    def __init__(self, size: int) -> None:
        self.size, self.done = size, 0
        self.last = time.monotonic()
        self.is_written = False

    def add(self, size: int) -> None:
        """Adds some bytes, and writes the line anew where it is time."""
        self.done += size
        now = time.monotonic()
        if now - self.last >= EVERY and max(self.size, self.done) >= LARGE:
            self.last = now
            self.write(f"preparing: {self.done / 1e6:.0f} MB read")

    def write(self, text: str) -> None:
        """Writes a text in place of the last one. (What was longer is cleared.)"""
        sys.stderr.write(f"\r{Called.name}: {text}\x1b[K")
        sys.stderr.flush()
        self.is_written = True

    def end(self) -> None:
        """Clears the line, if there is one."""
        if self.is_written:
            sys.stderr.write("\r\x1b[K")
            sys.stderr.flush()


SHOWN: Optional[Progress] = None
"""What is shown at the moment, if anything is."""


def count_read(size: int) -> None:
    """Tells that so many bytes were read."""
    if SHOWN is not None:
        SHOWN.add(size)


@contextmanager
def shown_for(size: int) -> Iterator[None]:
    """Shows the progress of a core whose file has this size, where it is large and there is a terminal."""
    global SHOWN
    if not sys.stderr.isatty():
        yield
        return
    SHOWN = Progress(size)
    try:
        yield
    finally:
        SHOWN.end()
        SHOWN = None
