"""What heaps hold, in lines: the memory of the process by kinds of mappings, and the classes with the most bytes."""

from typing import Iterator, List, Optional, Sequence

from pystacks_tool.model import Growth, Heap, HeapClass, Mapped, Report
from pystacks_tool.show.escape import in_line

CLASSES = 40
"""How many classes have a line, unless more is asked for."""


def plural(count: int, one: str) -> str:
    """A number with its word."""
    return f"{count:,} {one}{'' if count == 1 else 'es' if one.endswith('s') else 's'}"


def head_of(heap: Heap) -> str:
    """Whose heap it is, and how much it has in all."""
    owner = f"Heap of the interpreter at {heap.interpreter}" if heap.interpreter else "Heap"
    if heap.fault:
        return f"{owner}: {heap.fault}"
    objects, size = sum(it.objects for it in heap.classes), sum(it.total for it in heap.classes)
    return f"{owner}: {plural(objects, 'object')} that the collector tracks, {size:,} bytes, without what isn't tracked"


def name_of(one: HeapClass) -> str:
    """A class's name, and of how many of its objects the size isn't known, or that of their other blocks."""
    lost = [f"{one.unknown:,} of unknown size"] * bool(one.unknown) + [f"{one.unread:,} of unknown other blocks"] * bool(one.unread)
    return in_line(one.name) + (f" ({', '.join(lost)})" if lost else "")


def largest_of(one: HeapClass) -> str:
    """The largest objects of a class, each with its bytes."""
    return ", ".join(f"{size:,} at {address}" for address, size in one.largest)


def rows_of_class(one: HeapClass) -> List[str]:
    """The line of a class, and that of its largest objects, where they are told."""
    row = f"    {one.objects:>12,} {one.total:>16,}  {name_of(one)}"
    return [row] + [f"{'':>35}the largest: {largest_of(one)}"] * bool(one.largest)


def rest_of(left: Sequence[HeapClass]) -> str:
    """What is said of classes without a line."""
    objects, size = sum(it.objects for it in left), sum(it.total for it in left)
    return f"    {objects:>12,} {size:>16,}  {plural(len(left), 'more class')}: --all shows each"


def rows_of(heap: Heap, shows_all: bool) -> List[str]:
    """The lines of the classes, those with the most bytes first."""
    shown = heap.classes if shows_all else heap.classes[:CLASSES]
    rows = [row for it in shown for row in rows_of_class(it)]
    return rows + ([rest_of(heap.classes[len(shown):])] if len(shown) < len(heap.classes) else [])


def counts_of(heap: Heap) -> str:
    """How many objects each list has."""
    return "    " + ", ".join(f"{name} {count:,}" for name, count in heap.lists)


def heap_lines(heap: Heap, shows_all: bool) -> Iterator[str]:
    """The lines of a heap."""
    yield head_of(heap)
    if heap.fault:
        return
    yield counts_of(heap)
    yield from (f"    ... {in_line(it)}" for it in heap.marks)
    if heap.classes:
        yield f"    {'objects':>12} {'bytes':>16}  class"
    yield from rows_of(heap, shows_all)


def mapped_row(one: Mapped) -> str:
    """The line of a kind of mappings."""
    return f"    {one.size:>16,} {one.held:>16,}  {in_line(one.kind)} ({one.count})"


def memory_lines(mapped: Sequence[Mapped]) -> Iterator[str]:
    """The memory of the process, by kinds of mappings."""
    if not mapped:
        return
    size, held = sum(it.size for it in mapped), sum(it.held for it in mapped)
    yield f"Memory: {size:,} bytes mapped, {held:,} of them in the core"
    yield f"    {'bytes':>16} {'in the core':>16}  mappings"
    yield from (mapped_row(it) for it in mapped)


def growth_row(one: Growth) -> str:
    """The line of how a class grew."""
    return f"    {one.objects:>+12,} {one.size:>+16,}  {in_line(one.name)}"


def growth_head(growth: Sequence[Growth]) -> str:
    """How much all classes grew."""
    return f"Grown since the earlier core: {sum(it.objects for it in growth):+,} objects, {sum(it.size for it in growth):+,} bytes"


def growth_lines(growth: Optional[Sequence[Growth]], shows_all: bool) -> Iterator[str]:
    """How the classes grew since an earlier core: those that grew most, and then how many others changed."""
    if growth is None:
        return
    shown = growth if shows_all else growth[:CLASSES]
    yield growth_head(growth)
    yield from map(growth_row, shown)
    if len(shown) < len(growth):
        yield f"    ... {len(growth) - len(shown)} other classes: --all shows each"


def heaps_lines(report: Report, shows_all: bool) -> Iterator[str]:
    """All of it, where it is asked for."""
    yield from memory_lines(report.mapped)
    for it in report.heaps:
        yield from heap_lines(it, shows_all)
    yield from growth_lines(report.growth, shows_all)
