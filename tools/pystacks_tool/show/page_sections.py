"""What a page shows beside the stacks of Python: the tasks of asyncio, and native stacks. Everything from the core is escaped."""

from typing import Iterator, List, NamedTuple, Optional, Sequence, Tuple

from pystacks_tool.model import Growth, Heap, HeapClass, Mapped, NativeFrame, NativeStack, Report, Task, Tasks
from pystacks_tool.show.escape import in_line
from pystacks_tool.show.heap import counts_of, growth_head, head_of, largest_of, name_of as class_name
from pystacks_tool.show.native import crashed_first, frame_line, part_lines, stack_title, thread_names
from pystacks_tool.show.page_frames import items_of, text
from pystacks_tool.show.tasks import name_of, others_of, summary_of, task_blocks
from pystacks_tool.show.text import Style
from pystacks_tool.show.treemap import treemap_of

NAMED = 1000
"""The most tasks of one place that are named."""

OPEN = 8
"""How many places of tasks are open from the first on, and how many native stacks."""

CLASSES = 2048
"""The most classes of a heap that have a row."""


class Section(NamedTuple):
    """A section of a page."""

    anchor: str
    title: str
    body: str


def foldable(anchor: str, title: str, body: str, is_open: bool) -> str:
    """A section that opens by its title."""
    opened = " open" if is_open else ""
    return f"<section id=\"{anchor}\">\n<details{opened}><summary><b>{title}</b></summary>\n{body}\n</details>\n</section>"


# ---- tasks


def names_part(tasks: Sequence[Task]) -> str:
    """The names of the tasks of one place, which are folded."""
    if len(tasks) == 1:
        return ""
    more = f" and {len(tasks) - NAMED} more" if len(tasks) > NAMED else ""
    names = ", ".join(text(name_of(it)) for it in tasks[:NAMED])
    return f"<details><summary>all of them</summary><p>{names}{more}</p></details>\n"


def task_section(anchor: str, tasks: Sequence[Task], title: str, style: Style, is_open: bool) -> str:
    """The tasks of one place, and the frames of what they await."""
    items = list(items_of(tasks[0].frames, style))
    if tasks[0].end:
        items.insert(0, f"<li class=\"end\">... {text(tasks[0].end)}")
    rows = "\n".join(items)
    frames = f"<ol>\n{rows}\n</ol>" if items else "<p>no frames</p>"
    return foldable(anchor, text(title), names_part(tasks) + frames, is_open)


def tasks_of(tasks: Tasks, front: str, is_titled: bool, style: Style) -> Iterator[str]:
    """The tasks of an interpreter, those of one place together."""
    mark = " class=\"end\"" if tasks.fault else ""
    if tasks.has_asyncio:
        yield f"<p{mark}>{text(summary_of(tasks, is_titled))}</p>"
    for at, (its, title) in enumerate(task_blocks(tasks, not style.shows_all)):
        yield task_section(f"{front}{at}", its, title, style, at < OPEN)
    yield from (f"<p class=\"end\">{text(in_line(it))}</p>" for it in others_of(tasks, is_titled))


# ---- native stacks


def native_items(frames: Sequence[NativeFrame], between: int, last: Sequence[NativeFrame], end: str) -> List[str]:
    """The frames of a part of a stack, and how it ends."""
    lines = [it.strip() for it in part_lines(frames, between, last, end)]
    shown = {frame_line(it).strip() for it in (*frames, *last)}
    return [f"<li>{text(it)}" if it in shown else f"<li class=\"end\">{text(it)}" for it in lines]


def native_section(anchor: str, stack: NativeStack, title: str, is_open: bool) -> str:
    """The native stack of a thread."""
    items = native_items(stack.frames, stack.between, stack.last, stack.end)
    if stack.guess and stack.guessed:
        items.append(f"<li class=\"end\">... guess: {text(in_line(stack.guess))}")
    items += native_items(stack.guessed, stack.guessed_between, (), stack.guessed_end)
    rows = "\n".join(items)
    return foldable(anchor, text(title), f"<ol>\n{rows}\n</ol>" if items else "<p>no frames</p>", is_open)


def native_of(report: Report) -> Iterator[str]:
    """All native stacks, that of the thread that got the signal first."""
    names = thread_names(report)
    for at, it in enumerate(crashed_first(report)):
        yield native_section(f"n{at}", it, stack_title(it, names.get(it.number)), at < OPEN)


# ---- heaps


def table_of(titles: Sequence[str], rows: Sequence[Sequence[str]]) -> str:
    """A table, in which all columns but the last are numbers."""
    heads = "".join(f"<th>{text(it)}</th>" for it in titles)
    lines = "\n".join("<tr>" + "".join(f"<td>{text(it)}</td>" for it in row) + "</tr>" for row in rows)
    return f"<table>\n<tr>{heads}</tr>\n{lines}\n</table>"


def mapped_table(mapped: Sequence[Mapped]) -> str:
    """The memory of the process, by kinds of mappings."""
    rows = [(f"{it.size:,}", f"{it.held:,}", f"{in_line(it.kind)} ({it.count})") for it in mapped]
    return table_of(("bytes", "in the core", "mappings"), rows)


def rest_part(count: int) -> Iterator[str]:
    """How many of so many classes have no row, where there are any."""
    if count > CLASSES:
        yield f"<p class=\"end\">... {count - CLASSES:,} more classes</p>"


def growth_part(growth: Optional[Sequence[Growth]]) -> Iterator[str]:
    """How the classes grew since an earlier core."""
    if growth is None:
        return
    yield f"<p>{text(growth_head(growth))}</p>"
    yield table_of(("more objects", "more bytes", "class"), [(f"{it.objects:+,}", f"{it.size:+,}", in_line(it.name)) for it in growth[:CLASSES]])
    yield from rest_part(len(growth))


def class_row(one: HeapClass) -> Tuple[str, str, str, str]:
    """The row of a class."""
    return f"{one.objects:,}", f"{one.total:,}", class_name(one), largest_of(one)


def heap_part(heap: Heap) -> Iterator[str]:
    """What a heap holds."""
    mark = " class=\"end\"" if heap.fault else ""
    yield f"<p{mark}>{text(head_of(heap))}</p>"
    if heap.fault:
        return
    yield f"<p>{text(counts_of(heap).strip())}</p>"
    yield from (f"<p class=\"end\">{text(in_line(it))}</p>" for it in heap.marks)
    picture = treemap_of(heap.classes)
    yield from [picture] * bool(picture)
    yield table_of(("objects", "bytes", "class", "the largest"), [class_row(it) for it in heap.classes[:CLASSES]])
    yield from rest_part(len(heap.classes))


def sections_of(report: Report, style: Style) -> List[Section]:
    """The further sections of a page: none of what isn't there, or isn't asked for."""
    found = []
    if report.tasks:
        rows = [row for at, it in enumerate(report.tasks) for row in tasks_of(it, f"t{at}x", len(report.tasks) > 1, style)]
        found.append(Section("tasks", "Tasks", "\n".join(rows)))
    if report.shows_native and report.native:
        found.append(Section("native", "Native stacks", "\n".join(native_of(report))))
    if report.heaps:
        rows = [mapped_table(report.mapped)] * bool(report.mapped) + [row for it in report.heaps for row in heap_part(it)]
        rows += growth_part(report.growth)
        found.append(Section("heap", "Memory", "\n".join(rows)))
    return found
