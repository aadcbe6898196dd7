"""What the tool writes: lines on the standard output, pages into files, and what a program said where there is no report."""

import os
import sys
from typing import Iterable, List, Optional

from pystacks_tool.ask.advice import next_of
from pystacks_tool.ask.reports import decoded
from pystacks_tool.ask.run import Answer, end_as, write_all
from pystacks_tool.cores.known import Known
from pystacks_tool.cores.opened import OpenedCore
from pystacks_tool.faults import BAD_WORDS, CANNOT_WRITE, NO_STACKS, Fault, say, say_next, shown
from pystacks_tool.options import ALL_FRAMES, Options
from pystacks_tool.show.escape import in_line
from pystacks_tool.show.sources import Sources
from pystacks_tool.show.text import Style

PAGE = b"<!DOCTYPE html>"
"""How a page begins. A file that begins otherwise is never written over."""


def put(lines: Iterable[str]) -> None:
    """Writes lines on the standard output."""
    parts: List[bytes] = []
    size = 0
    for line in lines:
        parts.append(line.encode("utf-8", "backslashreplace") + b"\n")
        size += len(parts[-1])
        if size > 1 << 16:
            write_all(1, b"".join(parts))
            parts, size = [], 0
    write_all(1, b"".join(parts))


def written(lines: Iterable[str]) -> int:
    """Writes lines on the standard output, and returns the status that comes of it."""
    try:
        put(lines)
    except BrokenPipeError:
        # (`| head` has what it wanted)
        return CANNOT_WRITE
    except OSError as error:
        raise Fault(f"cannot write the text: {error.strerror}", CANNOT_WRITE, "is the disk full?") from None
    return 0


def page_written(path: str, page: str) -> int:
    """Writes a page into its file, and returns 0. A file that is no page is never written over."""
    try:
        if os.path.exists(path):
            with open(path, "rb") as file:
                if file.read(len(PAGE)) != PAGE:
                    raise Fault(f"{shown(os.fsencode(path))} is no page, and isn't written over", BAD_WORDS, "name another file by --html")
        with open(path, "wb") as file:
            file.write(page.encode("utf-8", "backslashreplace"))
    except OSError as error:
        line = f"cannot write {shown(os.fsencode(path))}: {error.strerror}"
        raise Fault(line, CANNOT_WRITE, "name another file by --html") from None
    say(f"the page is in {shown(os.fsencode(path))}")
    return 0


def one_line(said: bytes) -> bytes:
    """The program's line, with control characters escaped: it may name a path of the core. Nothing stays nothing."""
    text = said.decode("utf-8", "backslashreplace")
    return in_line(text[:-1] if text.endswith("\n") else text).encode("utf-8") + b"\n" if text else b""


def refused(answer: Answer, core: Optional[OpenedCore] = None) -> int:
    """Says what is known of the process, what the program said where there is no report, and what to do next, and returns the program's
    status."""
    known = core.known if core and answer.status == NO_STACKS else Known()
    if known.line:
        say(known.line)
    write_all(2, one_line(answer.said))
    is_cut = core is not None and any(it.startswith("core is cut") for it in core.done)
    say_next(next_of(decoded(answer.said), is_cut, known.other, lambda: core is None or core.has_interpreter))
    return end_as(answer.status)


# ---- how a report is shown


def has_colours() -> bool:
    """Whether the text is coloured: on a terminal that knows colours, where the user doesn't want none."""
    return sys.stdout.isatty() and not os.environ.get("NO_COLOR") and os.environ.get("TERM", "dumb") != "dumb"


def columns() -> Optional[int]:
    """How wide the terminal is, where the text goes to one that tells it."""
    try:
        return os.get_terminal_size(sys.stdout.fileno()).columns or None
    except (OSError, ValueError):
        return None


def sources_of(options: Options) -> Optional[Sources]:
    """Where source lines come from, if they are shown. A page has them always."""
    if options.source is None and not options.html:
        return None
    when = None
    if len(options.cores) == 1 and os.path.isfile(options.cores[0]):
        when = os.path.getmtime(options.cores[0])
    return Sources(options.root, options.source or "", when)


def style_of(options: Options) -> Style:
    """How a report is shown."""
    is_whole = options.shows_stacks or options.locals > 0 or options.source is not None
    return Style(has_colours(), options.shows_all, sources_of(options), is_whole, options.frames == ALL_FRAMES, columns(), options.all_native)
