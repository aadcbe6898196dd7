"""The lines of native stacks, and the line that says where in native code a process died."""

import os
import re
from typing import Dict, Iterator, List, Optional, Sequence

from pystacks_tool.model import NativeFrame, NativeStack, Report, Thread
from pystacks_tool.show.escape import as_function, as_name, in_line

LIBRARY = r"(libc|libffi|libpthread|ld-linux[^/]*|libm|libdl|librt|ld-musl[^/]*|linux-vdso)[-.][^/]*$|\[vdso\]$"
"""Files of the C library, the system's own, and libffi, which passes the calls of ctypes on."""

PYTHON = r"(lib)?python[0-9.]*[a-z]*(\.so[0-9.]*)?$"
"""Files of Python itself: the program and its library."""


def base_of(frame: NativeFrame) -> str:
    """The name of a frame's file, without its folder."""
    return os.path.basename(frame.file or "")


def place_of(frame: NativeFrame) -> str:
    """Where a frame stands: its function, or else its address in its file, and the file."""
    if frame.file is None:
        return f"0x{frame.pc:x} (in no file)"
    inside = f"{as_function(frame.function)}+0x{frame.offset or 0:x}" if frame.function else f"0x{frame.address or 0:x}"
    return f"{inside} ({as_name(base_of(frame))})"


def marks_of(frame: NativeFrame) -> str:
    """A frame's marks: that the system called it, by what else than a table its caller was found, and that it follows from a guess."""
    return f"{' <signal>' if frame.is_signal else ''}{f' <{in_line(frame.mark)}>' if frame.mark else ''}{' <guess>' if frame.is_guess else ''}"


def frame_line(frame: NativeFrame) -> str:
    """A frame's line."""
    return f"    {place_of(frame)}{marks_of(frame)}"


def part_lines(first: Sequence[NativeFrame], between: int, last: Sequence[NativeFrame], end: str) -> Iterator[str]:
    """The lines of a part of a stack."""
    yield from map(frame_line, first)
    if between:
        yield f"    ... {between} more frames"
    yield from map(frame_line, last)
    if end:
        yield f"    ... {in_line(end)}"


def stack_title(stack: NativeStack, name: Optional[str]) -> str:
    """The line that says whose a native stack is."""
    if stack.number is None:
        return f"Native thread {stack.native}{' (crashed)' if stack.is_crashed else ''}{'' if stack.is_told else ': no registers'}"
    called = "" if name is None else f' "{as_name(name)}"'
    whose = f" (0x{stack.number:X}{called})"
    return f"Native stack of thread {stack.native}{whose}{' (crashed)' if stack.is_crashed else ''}{'' if stack.is_told else ': no registers'}"


def end_lines(stack: NativeStack) -> Iterator[str]:
    """How a native stack ends, where it doesn't end as a whole one does, and what stands behind a guess."""
    yield from (f"    ... {in_line(it)}" for it in (stack.end, stack.guessed_end) if it)


def own_lines(stack: NativeStack) -> Iterator[str]:
    """The lines of a native stack."""
    yield from part_lines(stack.frames, stack.between, stack.last, stack.end)
    if stack.guess and stack.guessed:
        yield f"    ... guess: {in_line(stack.guess)}"
    yield from part_lines(stack.guessed, stack.guessed_between, (), stack.guessed_end)


def stack_lines(stack: NativeStack, name: Optional[str]) -> Iterator[str]:
    """The lines of a native stack, below the one that says whose it is."""
    yield stack_title(stack, name)
    yield from own_lines(stack)


def lines_under(report: Report, thread: Thread) -> Iterator[str]:
    """The lines of the native stack of a Python thread, below its own: that of the first thread that has its id, since in other
    interpreters a thread keeps the id of the one that made it."""
    stack = next((it for it in report.native if it.number == thread.number), None) if report.shows_native else None
    first = next((it for it in report.threads if it.number == thread.number), None)
    if stack is not None and first is thread:
        yield f"    Native, thread {stack.native}:{'' if stack.is_told else ' no registers'}"
        yield from own_lines(stack)


def crashed_first(report: Report) -> List[NativeStack]:
    """All native stacks, that of the thread that got the signal first."""
    return sorted(report.native, key=lambda it: not it.is_crashed)


def thread_names(report: Report) -> Dict[Optional[int], Optional[str]]:
    """The names of Python's threads, by their ids."""
    return {it.number: it.name for it in report.threads}


def native_lines(report: Report, is_each: bool) -> Iterator[str]:
    """The lines of the native stacks that don't stand under the heads of Python's threads: of each, or of the threads that are none of
    Python's."""
    names = thread_names(report)
    for stack in crashed_first(report):
        if is_each or stack.number not in names:
            yield from stack_lines(stack, names.get(stack.number))


# ---- where it died


def is_own(frame: NativeFrame) -> bool:
    """Whether a frame is of the C library, of the system, or of libffi."""
    return frame.file is not None and re.search(LIBRARY, base_of(frame)) is not None


def is_python(frame: NativeFrame) -> bool:
    """Whether a frame is of Python itself."""
    return frame.file is not None and re.match(PYTHON, base_of(frame)) is not None


def where_line(report: Report) -> str:
    """Where the thread that got the signal was in native code: its newest frame, and the newest of another file than the C library's
    and libffi's. Nothing where Python itself was what died, or called what did, unless that is in no file."""
    found = next((it for it in report.native if it.is_crashed), None)
    frames = [] if found is None else [it for it in (*found.frames, *found.guessed) if not it.is_signal]
    caller = next((it for it in frames if it.file is not None and not is_own(it)), None)
    is_nowhere = bool(frames) and frames[0].file is None
    if not is_nowhere and (caller is None or is_python(caller)):
        return ""
    called = "" if caller is None or caller is frames[0] else f", called by {place_of(caller)}"
    mark = " <guess>" if caller is not None and caller.is_guess else ""
    return f"In {place_of(frames[0])}{called}{mark}"
