"""One stack of a thread's Python frames and its native ones, as the program paired them. A native frame has ` [C]` behind it."""

from typing import Dict, Iterator, List, NamedTuple, Optional, Sequence, Tuple, Union

from pystacks_tool.model import Frame, NativeFrame, NativeStack, Report, Thread

MERGED = ("address", "order")
"""The pairings by which both stand in one stack."""

NOT_FOUND = "native frames not found for these"
"""The mark in front of Python's frames that no native frame was found to run."""


class Gap(NamedTuple):
    """Frames that aren't shown."""

    count: int


Row = Union[Frame, NativeFrame, Gap, str]
"""What stands in one stack: a frame, a gap, or a mark."""


def merged_stacks(report: Report) -> Dict[str, NativeStack]:
    """The native stacks in which Python's frames stand, where native stacks are shown, by the addresses of the threads' records."""
    if not report.shows_native:
        return {}
    # (the first one of an address counts)
    return {it.thread: it for it in reversed(report.native) if it.thread and it.pairing in MERGED and not it.guessed_between}


def stack_under(report: Report, thread: Thread) -> Optional[NativeStack]:
    """The native stack in which a thread's frames stand, where that is told."""
    return merged_stacks(report).get(thread.address)


def python_frame(thread: Thread, number: int) -> Optional[Frame]:
    """The Python frame of a number; nothing of one that isn't shown."""
    first = thread.first if thread.between and thread.first is not None else len(thread.frames)
    if number < first:
        return thread.frames[number]
    return None if number < first + thread.between else thread.frames[number - thread.between]


def native_frame(stack: NativeStack, number: int) -> Optional[NativeFrame]:
    """The native frame of a number; nothing of one that isn't shown."""
    first, behind = len(stack.frames), len(stack.frames) + stack.between + len(stack.last)
    if number < first:
        return stack.frames[number]
    if number >= behind:
        return stack.guessed[number - behind]
    return None if number < first + stack.between else stack.last[number - first - stack.between]


def kept_rows(thread: Thread, stack: NativeStack, shows_hidden: bool) -> Iterator[Row]:
    """What stands in one stack, each frame that isn't shown as a gap of its own."""
    for it in stack.items:
        if it.kind == "python":
            yield python_frame(thread, it.frame) or Gap(1)
        elif it.kind == "native" and (shows_hidden or not it.is_hidden):
            yield native_frame(stack, it.frame) or Gap(1)
        elif it.kind == "not found":
            yield NOT_FOUND


def rows_of(thread: Thread, stack: NativeStack, shows_hidden: bool) -> List[Row]:
    """What stands in one stack, with gaps that follow one another as one."""
    rows: List[Row] = []
    for it in kept_rows(thread, stack, shows_hidden):
        if isinstance(it, Gap) and rows and isinstance(rows[-1], Gap):
            rows[-1] = Gap(rows[-1].count + it.count)
        else:
            rows.append(it)
    return rows


def row_text(row: Union[Gap, str]) -> str:
    """What a gap or a mark says."""
    return f"... {row.count} more frames" if isinstance(row, Gap) else f"... {row}"


def runs_of(rows: Sequence[Row]) -> Iterator[Tuple[List[Frame], Union[NativeFrame, Gap, str, None]]]:
    """The Python frames that follow one another, and what stands behind them."""
    frames: List[Frame] = []
    for it in rows:
        if isinstance(it, Frame):
            frames.append(it)
        else:
            yield frames, it
            frames = []
    yield frames, None
