"""Frames on a page. Everything from the core is escaped."""

from html import escape
from typing import Iterator, Sequence

from pystacks_tool.model import Frame, Local
from pystacks_tool.show.escape import as_function, as_name, in_page
from pystacks_tool.show.folds import Fold
from pystacks_tool.show.text import Style, place_of, value_of


def text(value: str) -> str:
    """A text of a core within the page."""
    return escape(in_page(value))


def local_row(it: Local) -> str:
    """A local."""
    return f"<dt>{text(as_name(it.name))}{' (argument)' if it.is_argument else ''}</dt><dd>{text(value_of(it))}</dd>"


def frame_item(frame: Frame, style: Style) -> str:
    """A frame, its source line and its locals, which are folded."""
    if frame.why:
        return f"<li class=\"end\">{text(place_of(frame))}"
    place = f"({as_name(frame.filename)}{f':{frame.line}' if frame.line else ''})"
    source = style.sources.line(frame.filename, frame.line) if style.sources else None
    parts = [f"<li>{text(as_function(frame.name))} <i>{text(place)}</i>"]
    if source:
        parts.append(f"<pre>{text(source)}</pre>")
    if frame.locals:
        rows = "".join(local_row(it) for it in frame.locals)
        parts.append(f"<details><summary>{len(frame.locals)} locals</summary><dl>{rows}</dl></details>")
    if frame.fault:
        parts.append(f"<br><span class=\"end\">... {text(frame.fault)}</span>")
    return "".join(parts)


def items_of(frames: Sequence[Frame], style: Style) -> Iterator[str]:
    """Some frames; those of a recursion below one line, which opens."""
    for it in style.items(frames):
        if isinstance(it, Fold):
            rows = "\n".join(frame_item(frame, style) for frame in it.frames)
            yield f"<li class=\"fold\"><details><summary>{text(it.line)}</summary><ol>\n{rows}\n</ol></details>"
        else:
            yield frame_item(it, style)
