"""A treemap as SVG: a tile for each class of a heap, as large as its share of the bytes. What has no tile of its own has one together."""

from html import escape
from typing import Iterator, List, NamedTuple, Sequence, Tuple

from pystacks_tool.model import HeapClass
from pystacks_tool.show.escape import in_line, in_page
from pystacks_tool.show.flame import COLOURS, MARGIN, fitted, number

WIDTH, HEIGHT = 1200, 420
"""The picture, in its own units."""

TILES = 40
"""The most classes that have a tile of their own."""

LEAST = 400
"""A class has one where its share is at least 1 of this."""

LINE = 14
"""The height of a line of text."""


class Tile(NamedTuple):
    """A tile: what it is of, its bytes, and where it stands."""

    label: str
    size: int
    x: float = 0.0
    y: float = 0.0
    width: float = 0.0
    height: float = 0.0


def tiles_of(classes: Sequence[HeapClass]) -> List[Tile]:
    """The classes that have a tile, the largest first, and last one for the others together."""
    total, left, found = sum(it.total for it in classes), list(classes), []
    for it in sorted(classes, key=lambda it: -it.total)[:TILES]:
        if not it.total or it.total * LEAST < total:
            break
        found.append(Tile(in_line(it.name), it.total))
        left.remove(it)
    rest = sum(it.total for it in left)
    return found + ([Tile(f"{len(left):,} other class{'es' if len(left) > 1 else ''}", rest)] if rest else [])


def worst(sizes: Sequence[float], side: float) -> float:
    """How much longer than wide the longest tile is of a row along a side."""
    area = sum(sizes)
    return max(max(side * side * it / (area * area), area * area / (side * side * it)) for it in sizes)


def row_of(sizes: Sequence[float], side: float) -> int:
    """How many tiles the next row has: as many as make none longer."""
    count = 1
    while count < len(sizes) and worst(sizes[: count + 1], side) <= worst(sizes[:count], side):
        count += 1
    return count


def places_of(sizes: Sequence[float]) -> Iterator[Tuple[float, float, float, float]]:
    """Where tiles of these areas stand, which fill the picture: x, y, width and height. Rows stand along its shorter side."""
    x, y, width, height, at = 0.0, 0.0, float(WIDTH), float(HEIGHT), 0
    while at < len(sizes):
        side = min(width, height)
        row = sizes[at : at + row_of(sizes[at:], side)]
        deep, along = sum(row) / side, 0.0
        for it in row:
            long = it / deep
            yield (x, y + along, deep, long) if width >= height else (x + along, y, long, deep)
            along += long
        if width >= height:
            x, width = x + deep, max(width - deep, 1e-9)
        else:
            y, height = y + deep, max(height - deep, 1e-9)
        at += len(row)


def placed(tiles: Sequence[Tile]) -> List[Tile]:
    """The tiles in their places. They are put in order by their bytes, the largest first."""
    row = sorted(tiles, key=lambda it: -it.size)
    total = sum(it.size for it in row)
    areas = [WIDTH * HEIGHT * it.size / total for it in row]
    return [Tile(it.label, it.size, *place) for it, place in zip(row, places_of(areas))]


def share_of(size: int, total: int) -> str:
    """A share of the whole, in hundredths."""
    return f"{100 * size / total:.1f} %"


def texts_of(tile: Tile, total: int) -> Iterator[str]:
    """The lines in a tile that it has room for: its name, its share, its bytes."""
    lines = (in_page(tile.label), share_of(tile.size, total), f"{tile.size:,} bytes")
    for at, it in enumerate(lines):
        shown = fitted(it, tile.width)
        if not shown or tile.height < LINE * (at + 1) + MARGIN:
            return
        yield f'<text x="{number(tile.x + MARGIN)}" y="{number(tile.y + LINE * (at + 1) - 2)}">{escape(shown)}</text>'


def tile_svg(tile: Tile, total: int) -> str:
    """A tile, whose title says all of it."""
    shown, colour = in_page(tile.label), sum(tile.label.encode("utf-8", "replace")) % COLOURS
    said = f"{shown}: {share_of(tile.size, total)}, {tile.size:,} bytes"
    # (a gap of one unit parts it from the next one)
    width, height = max(tile.width - 1, 0.0), max(tile.height - 1, 0.0)
    return (
        f'<g><title>{escape(said)}</title><rect class="c{colour}" x="{number(tile.x)}" y="{number(tile.y)}" '
        f'width="{number(width)}" height="{number(height)}"/>{"".join(texts_of(tile, total))}</g>')


def treemap_of(classes: Sequence[HeapClass]) -> str:
    """The picture of some classes; nothing where none has a byte."""
    tiles = placed(tiles_of(classes)) if any(it.total for it in classes) else []
    if not tiles:
        return ""
    total = sum(it.size for it in tiles)
    rows = "\n".join(tile_svg(it, total) for it in tiles)
    return f'<svg class="tree" viewBox="0 0 {WIDTH} {HEIGHT}" role="group" aria-label="Classes by their bytes, {total:,} in all">\n{rows}\n</svg>'
