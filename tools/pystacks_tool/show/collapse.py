"""The stacks of a core in the form that flame graph tools and speedscope read: for each stack its frames, the outermost
first, joined by semicolons, a blank, and how many threads have it.

A frame is written as py-spy writes it, `f (a.py:5)`. Semicolons and control characters in names are escaped, as `\\u{3b}`,
so that a line is a stack. Threads without frames have no line. Of a chain that is broken the outermost place says how it
ends, and of one that is shown in parts a place between them how many frames aren't there.
"""

from typing import Counter, Iterator, List, Mapping, Optional, Sequence, Tuple

from pystacks_tool.model import Frame, NativeFrame, NativeStack, Report, Thread
from pystacks_tool.show.escape import in_place
from pystacks_tool.show.folds import Fold, folded
from pystacks_tool.show.merged import merged_stacks, row_text, rows_of
from pystacks_tool.show.native import place_of

def label(frame: Frame) -> str:
    """A frame in a line; or why it has no names, which doesn't end in a parenthesis, as each frame does."""
    if frame.why:
        return in_place(f"? {frame.why}")
    line = f":{frame.line}" if frame.line else ""
    return in_place(f"{frame.name} ({frame.filename}{line})")


def labels(frames: Sequence[Frame], is_folded: bool) -> List[str]:
    """Some frames, each in a line; a recursion in one, where they are folded."""
    if not is_folded:
        return [label(it) for it in frames]
    rows = [(it.line, True) if isinstance(it, Fold) else (label(it), False) for it in folded(frames)]
    # (no frame's begins as a line does that tells a gap)
    return [f"\\u{{2e}}{text[1:]}" if text.startswith("...") and not is_line else text for text, is_line in rows]


def merged_labels(thread: Thread, stack: NativeStack) -> Iterator[str]:
    """A thread's frames and its native ones in one stack, each in a line, the newest first."""
    for row in rows_of(thread, stack, False):
        if isinstance(row, Frame):
            yield label(row)
        elif isinstance(row, NativeFrame):
            yield in_place(f"{place_of(row)} [C]")
        else:
            yield in_place(row_text(row))
    yield from (in_place(f"... {it}") for it in (stack.end, stack.guessed_end, thread.end) if it)


def places(thread: Thread, is_folded: bool = False, stack: Optional[NativeStack] = None) -> Tuple[str, ...]:
    """A thread's frames, the outermost first; with its native ones, where these stand in one stack with them."""
    if stack is not None:
        return tuple(reversed(list(merged_labels(thread, stack))))
    first = thread.first if thread.between else None
    rows = labels(thread.frames[:first], is_folded)
    if first is not None:
        rows += [f"... {thread.between} more frames", *labels(thread.frames[first:], is_folded)]
    if thread.end:
        rows.append(in_place(f"... {thread.end}"))
    return tuple(reversed(rows))


def counts_of(threads: Sequence[Thread], report: Optional[Report] = None) -> Counter[Tuple[str, ...]]:
    """How many threads have each stack, in the order of the first thread of each: of a report with native stacks, with these."""
    merged = merged_stacks(report) if report else {}
    stacks = (places(it, False, merged.get(it.address)) for it in threads)
    return Counter(stack for stack in stacks if stack)


def collapsed_lines(counts: Mapping[Tuple[str, ...], int]) -> Iterator[str]:
    """The lines of some stacks."""
    return (f"{';'.join(stack)} {count}" for stack, count in counts.items())


def collapsed(threads: Sequence[Thread]) -> List[str]:
    """The lines of some threads."""
    return list(collapsed_lines(counts_of(threads)))
