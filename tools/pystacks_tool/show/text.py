"""The text of a report: the answer first. `PARTS` has what stands in it, in order: the signal and the process, the stacks of the
threads that got the signal, a table of the others, their stacks, and the registers.

It has what the program told: no frame is added, dropped or moved. Equal stacks of many threads stand once, a recursion is folded, and
what is left out has its number. Of many threads all but the first stacks and what is asked for is at most LINES long.
"""

from typing import Callable, Dict, Iterator, List, NamedTuple, Optional, Sequence, Set, Tuple, Union

from pystacks_tool.model import Frame, Interpreter, Local, NativeFrame, NativeStack, Report, Stack, Thread, stacks_of, whole_or_cut
from pystacks_tool.show.escape import as_function, as_name, in_line, signal_name, with_decimals
from pystacks_tool.show.folds import Fold, Item, folded
from pystacks_tool.show.heap import heaps_lines
from pystacks_tool.show.merged import Gap, row_text, rows_of, runs_of, stack_under
from pystacks_tool.show.native import end_lines, frame_line, lines_under, native_lines, where_line
from pystacks_tool.show.sources import Sources
from pystacks_tool.show.tasks import others_of, summary_of, task_blocks
from pystacks_tool.ask.exceptions import summary_lines
from pystacks_tool.show.widths import shortened

MANY = 8
"""Above so many threads there is a table of them, and equal stacks stand once."""

LINES = 40
"""The most lines of the text of many threads, beside the stacks of those that got the signal."""

ROWS = 10
"""The most rows of their table."""

NEWEST = 6
"""How many lines of a stack are shown where it is one of many threads', and longer."""

NAMED = 2
"""How many threads of one stack are named, where there are more."""

FIRST = ("rip", "rsp", "rbp", "pc", "sp")
"""The registers that say where a thread stood, on x86-64 and on aarch64."""

BOLD, DIM, RED, YELLOW = "1", "2", "1;31", "33"


class Style(NamedTuple):
    """How a report is shown."""

    has_colours: bool = False
    shows_all: bool = False
    """Whether each thread has its own stack, and each frame its line, however many there are."""
    sources: Optional[Sources] = None
    """Where source lines come from, if they are shown."""
    shows_stacks: bool = False
    """Whether each stack is shown whole, however many there are."""
    shows_frames: bool = False
    """Whether each frame has its line."""
    width: Optional[int] = None
    """How many characters a line may have, where paths are shortened."""
    shows_hidden: bool = False
    """Whether the interpreter's own native frames are shown between Python's."""

    def paint(self, text: str, colour: str) -> str:
        """A text in a colour, where there are colours."""
        return f"\x1b[{colour}m{text}\x1b[0m" if self.has_colours else text

    def items(self, frames: Sequence[Frame]) -> Iterator[Item]:
        """Frames, with recursions folded, where they are."""
        return iter(frames) if self.shows_all or self.shows_frames else folded(frames)


# ---- parts of lines


def place_of(frame: Frame, style: Style = Style(), before: int = 4) -> str:
    """A frame's function, file and line, or why there are none: this doesn't end in a parenthesis, as each frame does. So many
    characters stand before it in its line."""
    if frame.why:
        return f"? {in_line(frame.why)}"
    name, file, line = as_function(frame.name), as_name(frame.filename), f":{frame.line}" if frame.line else ""
    if style.width:
        file = shortened(file, f"{name} ({line})", style.width - before)
    return f"{style.paint(name, BOLD)} ({file}{line})"


def marks_of(thread: Thread, style: Style) -> str:
    """A thread's marks, each behind a blank."""
    return "".join(f" {style.paint(f'({it})', RED if it == 'crashed' else YELLOW)}" for it in thread.marks)


def name_of(thread: Thread) -> str:
    """A thread's name, or its id where it has none."""
    return thread.label if thread.name is None else as_name(thread.name)


def each(threads: Sequence[Thread]) -> str:
    """What stands before a word that is said of several threads."""
    return "each " if len(threads) > 1 else ""


def wait_of(threads: Sequence[Thread], style: Style = Style()) -> str:
    """What threads wait for, behind a blank: of several that wait for different things of a kind, the kind."""
    one = threads[0]
    if one.wait is None:
        return ""
    what = one.waits if all(it.waits == one.waits for it in threads) else f"a {one.wait.kind}"
    return f" {style.paint(f'({each(threads)}waits for {what})', YELLOW)}"


def title_of(thread: Thread, style: Style = Style()) -> str:
    """A thread's line."""
    name = "" if thread.name is None else f': "{as_name(thread.name)}"'
    return f"Thread {thread.label}{marks_of(thread, style)}{name}{wait_of([thread], style)}"


def titles_of(stack: Stack) -> str:
    """The line of several threads of one stack."""
    names, count = [name_of(it) for it in stack.threads[:NAMED]], len(stack.threads)
    more = f" and {count - NAMED} more" if count > NAMED else ""
    return f"{count} threads: {', '.join(names)}{more}{wait_of(stack.threads)}"


def newest_of(thread: Thread, style: Style = Style(), before: int = 4) -> str:
    """A thread's newest frame, behind so many characters."""
    return place_of(thread.frames[0], style, before) if thread.frames else f"... {thread.end}" if thread.end else "no frames"


def crash_line(report: Report) -> str:
    """What is said where not one thread has the mark of the signal, if it is known which ones have it."""
    if not report.is_salvaged or not report.signal:
        return ""
    count = sum(it.is_crashed for it in report.threads)
    if count > 1:
        why = "in other interpreters a thread keeps the id of the one that made it"
        return f"One of {count} threads got the signal: {why}"
    if count:
        return ""
    other = "another thread of the process did, or its record is lost" if report.other is None else f"thread {report.other} of the process did"
    return f"No Python thread got the signal: {other}"


def is_many(report: Report) -> bool:
    """Whether there are many threads."""
    return len(report.threads) > MANY


def is_brief(report: Report, style: Style) -> bool:
    """Whether the text is to be short: where there are many threads, and no more is asked for."""
    return is_many(report) and not (style.shows_all or style.shows_stacks)


def names_in(threads: Sequence[Thread]) -> str:
    """The names of some threads, of which the first are said."""
    more = f" and {len(threads) - NAMED} more" if len(threads) > NAMED else ""
    return ", ".join(name_of(it) for it in threads[:NAMED]) + more


def empty_line(threads: Sequence[Thread]) -> str:
    """The line of threads of which nothing is told."""
    return f"{len(threads)} thread{'s' if len(threads) > 1 else ''} without frames: {names_in(threads)}"


# ---- stacks


def value_of(it: Local) -> str:
    """A local's value: as Python writes it, or as `dump` does, whose floats are bits."""
    return "?" if it.value is None else it.value if it.is_python else with_decimals(it.value)


def local_lines(rows: List[Local], title: str) -> Iterator[str]:
    """Locals below their title."""
    if rows:
        yield f"        {title}:"
    for it in rows:
        value = in_line(value_of(it))
        yield f"            {as_name(it.name)}: {value}"


def frame_lines(frame: Frame, style: Style) -> Iterator[str]:
    """A frame, its source line and its locals."""
    yield f"    {place_of(frame, style)}"
    source = style.sources.line(frame.filename, frame.line) if style.sources else None
    if source:
        yield style.paint(f"        > {in_line(source)}", DIM)
    rows = frame.locals or ()
    yield from local_lines([it for it in rows if it.is_argument], "Arguments")
    yield from local_lines([it for it in rows if not it.is_argument], "Locals")
    if frame.fault:
        yield f"        ... {frame.fault}"


def items_lines(frames: Sequence[Frame], style: Style) -> Iterator[Tuple[List[str], int]]:
    """The lines of some frames, each frame's or recursion's with how many frames it stands for."""
    for it in style.items(frames):
        if isinstance(it, Fold):
            yield [style.paint(f"    {it.line}", DIM)], len(it.frames)
        else:
            yield list(frame_lines(it, style)), 1


def thread_lines(thread: Thread, style: Style) -> Iterator[Tuple[List[str], int]]:
    """The lines of a thread's stack, part by part, each with how many frames it stands for."""
    first = thread.first if thread.between else None
    yield from items_lines(thread.frames[:first], style)
    if first is not None:
        yield [f"    ... {thread.between} more frames"], thread.between
        yield from items_lines(thread.frames[first:], style)
    if thread.end:
        yield [style.paint(f"    ... {thread.end}", RED)], 0


def stack_lines(thread: Thread, style: Style) -> Iterator[str]:
    """The frames of a thread, how they end, and what it raises and handles."""
    yield from (line for lines, _ in thread_lines(thread, style) for line in lines)
    yield from thread.exceptions


def newest_lines(thread: Thread, style: Style) -> Iterator[str]:
    """The newest frames of a thread, how many there are below them, and how they end."""
    parts = list(thread_lines(thread, style))
    if len(parts) <= NEWEST + 1:
        yield from (line for lines, _ in parts for line in lines)
        yield from thread.exceptions
        return
    yield from (line for lines, _ in parts[:NEWEST] for line in lines)
    yield f"    ... {sum(count for _, count in parts[NEWEST:])} more frames"
    yield from parts[-1][0] if thread.end else ()
    yield from thread.exceptions


def heading_of(it: Interpreter) -> str:
    """An interpreter's line."""
    return f"Interpreter 0x{it.address or 0:x}{' (found by search)' if it.is_searched else ''}"


def fault_lines(it: Interpreter, style: Style) -> List[str]:
    """What can't be read of an interpreter."""
    return [style.paint(f"... {line}", RED) for line in (it.lock, it.end) if line]


# ---- the parts of the text


def signal_line(signal: int) -> str:
    """A signal in words. (A debugger's `gcore` writes the core of a process that lives on, with none.)"""
    name = signal_name(signal)
    return f"Signal {signal}{f' ({name})' if name else ''}" if signal else "No signal, as a core has that `gcore` took of a living process"


def told_lines(report: Report, style: Style) -> Iterator[str]:
    """The signal, the process, the version, and what is said of its layout."""
    if report.signal is not None:
        yield style.paint(signal_line(report.signal), BOLD) + f": {in_line(report.core)}"
    if report.signal_told:
        yield style.paint(in_line(report.signal_told), RED)
    yield from (style.paint(it, RED) for it in (*report.deadlocks, *summary_lines(report)))
    if report.process is not None:
        yield f"Process {report.process[0]}: {in_line(whole_or_cut(report.process[1]))}"
    if report.version:
        yield f"Python v{in_line(report.version)}"
    yield from (style.paint(it, RED) for it in (*map(in_line, report.layout), where_line(report), crash_line(report)) if it)


def head_lines(report: Report, style: Style, _: int) -> Iterator[str]:
    """The same, where anything is told, above a line without text."""
    lines = list(told_lines(report, style))
    yield from [*lines, ""] if lines else []


def row_line(row: Union[NativeFrame, Gap, str], style: Style) -> str:
    """The line of a native frame, of a gap, or of a mark."""
    if isinstance(row, NativeFrame):
        return style.paint(f"{frame_line(row)} [C]", DIM)
    return f"    {row_text(row)}" if isinstance(row, Gap) else style.paint(f"    {row_text(row)}", RED)


def merged_lines(thread: Thread, stack: NativeStack, style: Style) -> Iterator[str]:
    """The Python frames of a thread and its native ones in one stack, and how both end."""
    for frames, row in runs_of(rows_of(thread, stack, style.shows_hidden)):
        yield from (line for lines, _ in items_lines(frames, style) for line in lines)
        if row is not None:
            yield row_line(row, style)
    yield from end_lines(stack)
    if thread.end:
        yield style.paint(f"    ... {thread.end}", RED)
    yield from thread.exceptions


def frames_lines(report: Report, thread: Thread, style: Style, is_short: bool = False) -> Iterator[str]:
    """The frames of a thread, with its native ones where they are asked for: in one stack, or below its own. Of many threads the native ones
    stand apart, but for one that got the signal."""
    stack = None if is_many(report) and not thread.is_crashed else stack_under(report, thread)
    if stack is not None:
        yield from merged_lines(thread, stack, style)
        return
    yield from newest_lines(thread, style) if is_short else stack_lines(thread, style)
    if not is_many(report):
        yield from lines_under(report, thread)


def crashed_lines(report: Report, style: Style, _: int) -> Iterator[str]:
    """The stacks of the threads that got the signal, below their interpreters' lines."""
    for one in report.interpreters:
        found = [it for it in one.threads if it.is_crashed]
        if found:
            if is_titled(report, one):
                yield heading_of(one)
            yield from fault_lines(one, style)
        for it in found:
            yield title_of(it, style)
            yield from frames_lines(report, it, style)
    if is_many(report) and any(it.is_crashed for it in report.threads):
        yield ""


def is_titled(report: Report, it: Interpreter) -> bool:
    """Whether an interpreter has its line."""
    return len(report.interpreters) > 1 and it.address is not None


def row_of(threads: Sequence[Thread], count: int, style: Style) -> str:
    """The row of some threads of one newest frame, of so many in all."""
    one = threads[0]
    name = "" if one.name is None else f' "{as_name(one.name)}"'
    front = f"    {one.label}{name}" if len(threads) == 1 else f"    {len(threads)} of {count}"
    marks = "".join(f" ({it})" for it in one.marks)
    return f"{front}{marks_of(one, style)}: {newest_of(one, style, len(front) + len(marks) + 2)}"


def table_lines(report: Report, style: Style, _: int) -> Iterator[str]:
    """Many threads by their newest frames, but for those that got the signal: those that have a mark first, and then those of
    the frame that most have."""
    threads = [it for it in report.threads if not it.is_crashed]
    if not is_many(report) or not threads:
        return
    count = len(report.threads)
    yield f"{len(threads)} {'other ' if len(threads) < count else ''}thread{'s' if len(threads) > 1 else ''}"
    rows: Dict[object, List[Thread]] = {}
    for at, it in enumerate(threads):
        newest = it.frames[0].place if it.frames else it.end
        rows.setdefault(at if it.marks or style.shows_all else newest, []).append(it)
    found = list(rows.values()) if style.shows_all else sorted(rows.values(), key=lambda it: (not it[0].marks, -len(it)))
    shown = found[:ROWS] if is_brief(report, style) else found
    yield from (row_of(it, count, style) for it in shown)
    if len(shown) < len(found):
        rest = found[len(shown):]
        yield f"    ... {sum(map(len, rest))} more at {len(rest)} other places: --all shows each thread"
    yield ""


class Block(NamedTuple):
    """A stack with the line of its threads, or the line of those without frames."""

    place: int
    """Its interpreter's place."""
    lines: Sequence[str]
    threads: int
    """How many threads it stands for."""
    is_stack: bool = True
    is_marked: bool = False


def blocks_of(place: int, one: Interpreter, is_short: bool, report: Report, style: Style) -> Iterator[Block]:
    """What stands of an interpreter's threads, but for those that got the signal."""
    threads = [it for it in one.threads if not it.is_crashed]
    is_each = style.shows_all or report.shows_native and not is_many(report)
    empty = [] if is_each else [it for it in threads if it.is_empty]
    for stack in stacks_of([it for it in threads if is_each or not it.is_empty], is_many(report) and not style.shows_all):
        thread, count = stack.one, len(stack.threads)
        lines = frames_lines(report, thread, style, is_short)
        yield Block(place, [titles_of(stack) if count > 1 else title_of(thread, style), *lines], count, True, bool(thread.marks))
    if empty:
        yield Block(place, [empty_line(empty)], len(empty), False)


def fitting(blocks: Sequence[Block], fixed: Sequence[int], room: int) -> Set[int]:
    """The places of those blocks for which there is room: marked threads first, and then what stands for most. Each interpreter has
    so many lines of its own."""
    left = room - 1
    seen: Set[int] = set()
    found: Set[int] = set()
    for at, it in sorted(enumerate(blocks), key=lambda row: (not row[1].is_marked, -row[1].threads)):
        cost = len(it.lines) + (0 if it.place in seen else fixed[it.place])
        if cost <= left:
            left -= cost
            seen.add(it.place)
            found.add(at)
    return found


def own_lines(report: Report, place: int, style: Style) -> List[str]:
    """The lines that an interpreter has of its own above its other threads. Of few threads the first ones stand just above."""
    one = report.interpreters[place]
    has_crashed = any(it.is_crashed for it in one.threads)
    if place == 0 and has_crashed and not is_many(report) and not any(it.is_crashed for other in report.interpreters[1:] for it in other.threads):
        return []
    return ([heading_of(one)] if is_titled(report, one) else []) + ([] if has_crashed else fault_lines(one, style))


def rest_line(left: Sequence[Block]) -> str:
    """What is said of stacks that aren't shown."""
    stacks = sum(it.is_stack for it in left)
    more = f"{stacks} more stack{'s' if stacks != 1 else ''}" if stacks else "more"
    return f"... {more} of {sum(it.threads for it in left)} threads: --stacks shows each stack, --all each thread"


def others_lines(report: Report, style: Style, room: int) -> Iterator[str]:
    """The stacks of the other threads, those of one stack together where there are many."""
    is_short = is_brief(report, style)
    rows = [list(blocks_of(at, one, is_short, report, style)) for at, one in enumerate(report.interpreters)]
    owns = [own_lines(report, at, style) for at in range(len(rows))]
    blocks = [it for row in rows for it in row]
    shown = fitting(blocks, [len(it) for it in owns], room) if is_short else set(range(len(blocks)))
    for at, (row, own) in enumerate(zip(rows, owns)):
        its = [it for number, it in enumerate(blocks) if it.place == at and number in shown]
        has_crashed = any(it.is_crashed for it in report.interpreters[at].threads)
        if not its and (has_crashed or row and is_short):
            continue
        if own and len(its) == len(row) == 1 and not its[0].is_stack and len(own) == 1:
            yield f"{own[0]}: {its[0].lines[0]}"
            continue
        yield from own
        yield from (line for it in its for line in it.lines)
    left = [it for number, it in enumerate(blocks) if number not in shown]
    if left:
        yield style.paint(rest_line(left), DIM)
    if report.has_more:
        yield "... more than 16 interpreters"
    yield from (f"... {it}" for it in (report.ended, report.left_out) if it)


def register_lines(report: Report, _: Style, __: int) -> Iterator[str]:
    """The registers of each thread, four a line: where it stood first, and then by name."""
    names = {it.number: f' "{as_name(it.name)}"' for it in report.threads if it.name is not None}
    for it in report.registers:
        whose = "" if it.number is None else f" (0x{it.number:X}{names.get(it.number, '')})"
        yield f"Registers of thread {it.native}{whose}{'' if it.values else ': none'}"
        rows = sorted(it.values, key=lambda row: (FIRST.index(row[0]) if row[0] in FIRST else len(FIRST), row[0]))
        for at in range(0, len(rows), 4):
            yield "    " + "  ".join(f"{name:>8} {value:016x}" for name, value in rows[at : at + 4])


def last_lines(report: Report, style: Style, _: int) -> Iterator[str]:
    """The last exception of each interpreter that no code handled."""
    for it in report.interpreters:
        if it.last and is_titled(report, it):
            yield heading_of(it)
        yield from (style.paint(line, BOLD) if at == 0 else line for at, line in enumerate(it.last))


def task_lines(report: Report, style: Style, _: int) -> Iterator[str]:
    """The tasks of asyncio, those that stand at one place together: as many lines as a screen has, unless more is asked for."""
    is_short = not (style.shows_all or style.shows_stacks)
    for tasks in report.tasks:
        if tasks.has_asyncio:
            yield style.paint(summary_of(tasks, len(report.tasks) > 1), RED if tasks.fault else BOLD)
        left, kept = LINES, list(task_blocks(tasks, not style.shows_all))
        for at, (its, title) in enumerate(kept):
            lines = [line for lines, _ in items_lines(its[0].frames, style) for line in lines]
            end = [style.paint(f"    ... {in_line(its[0].end)}", RED)] if its[0].end else []
            if is_short and at and left < len(lines) + len(end) + 1:
                rest = kept[at:]
                yield style.paint(f"... {sum(len(it) for it, _ in rest)} more tasks at {len(rest)} other places: --all shows each", DIM)
                break
            left -= len(lines) + len(end) + 1
            yield from [title, *end, *lines]
        yield from (in_line(it) for it in others_of(tasks, len(report.tasks) > 1))


def native_stack_lines(report: Report, _: Style, __: int) -> Iterator[str]:
    """The native stacks that don't stand under the heads of Python's threads, where they are asked for: of many threads each."""
    return native_lines(report, is_many(report)) if report.shows_native else iter(())


def heap_part(report: Report, style: Style, _: int) -> Iterator[str]:
    """What the heaps hold, where that is asked for."""
    return heaps_lines(report, style.shows_all)


# ---- the whole


class Part(NamedTuple):
    """A part of the text."""

    lines: Callable[[Report, Style, int], Iterator[str]]
    """Its lines, by how many there is room for."""
    is_free: bool = False
    """Whether it may be as long as it is: what was asked for, and the stacks of the threads that got the signal."""
    kept: int = 0
    """How many lines are kept for it, where those before it would take all."""


STACKS = (Part(crashed_lines, is_free=True), Part(table_lines), Part(others_lines))
"""What is shown of threads."""

PARTS = (Part(head_lines), *STACKS, Part(last_lines, is_free=True), Part(task_lines, is_free=True), Part(native_stack_lines, is_free=True),
         Part(register_lines, is_free=True), Part(heap_part, is_free=True))
"""What the text has, in order. A further section is a line here."""


def lines_of(parts: Sequence[Part], report: Report, style: Style) -> Iterator[str]:
    """The lines of some parts."""
    left = LINES
    for at, part in enumerate(parts):
        for line in part.lines(report, style, left - sum(it.kept for it in parts[at + 1:])):
            left -= not part.is_free
            yield line


def stacks_lines(report: Report, style: Style) -> Iterator[str]:
    """All threads."""
    return lines_of(STACKS, report, style)


def report_lines(report: Report, style: Style) -> Iterator[str]:
    """The whole text, line by line."""
    return lines_of(PARTS, report, style)
