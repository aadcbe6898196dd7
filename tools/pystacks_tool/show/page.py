"""A page to share: one file of HTML with all that was seen of a core, which asks for nothing from elsewhere. It can be read
without scripts; sorting and searching need them. Everything from the core is escaped, and the page itself runs no script
but its own.
"""

import base64
import hashlib
from typing import Dict, Iterator, List, Mapping, Optional, Sequence

from pystacks_tool.ask.exceptions import summary_lines
from pystacks_tool.groups.triage import Group
from pystacks_tool.model import Interpreter, NativeFrame, NativeStack, Report, Stack, Thread, stacks_of, whole_or_cut
from pystacks_tool.show.collapse import places
from pystacks_tool.show.escape import as_name, signal_name
from pystacks_tool.show.flame import Flame, counted, flame_of
from pystacks_tool.show.merged import merged_stacks, row_text, rows_of, runs_of
from pystacks_tool.show.native import frame_line, where_line
from pystacks_tool.show.page_frames import items_of, text
from pystacks_tool.show.page_parts import SCRIPT, STYLE
from pystacks_tool.show.page_sections import Section, sections_of
from pystacks_tool.show.text import Style, crash_line, newest_of, titles_of

LARGEST = 1_000_000
"""How many bytes a page should have at most. Where it would have more, source lines and the upper levels of the graph are
left out; threads and frames never."""

LEAST_GRAPH = 50_000
"""How many bytes of a page the graph may have in any case."""

NOT_ALL = "For want of room the upper levels are left out."
NO_SOURCES = "For want of room the source lines are left out."


def digest(part: str) -> str:
    """What the page's own rule says of its style or script."""
    return "'sha256-" + base64.b64encode(hashlib.sha256(part.encode("utf-8")).digest()).decode("ascii") + "'"


def page_of(title: str, body: str) -> str:
    """The whole page."""
    rule = f"default-src 'none'; style-src {digest(STYLE)}; script-src {digest(SCRIPT)}; base-uri 'none'; form-action 'none'"
    return (
        "<!DOCTYPE html>\n<html lang=\"en\">\n<head>\n<meta charset=\"utf-8\">\n"
        f"<meta http-equiv=\"Content-Security-Policy\" content=\"{rule}\">\n"
        "<meta name=\"viewport\" content=\"width=device-width, initial-scale=1\">\n<meta name=\"referrer\" content=\"no-referrer\">\n"
        f"<title>{text(title)}</title>\n<style>{STYLE}</style>\n</head>\n<body>\n{body}\n<script>{SCRIPT}</script>\n</body>\n</html>\n")


# ---- stacks


def text_lines(lines: Sequence[str]) -> str:
    """Some lines, each escaped."""
    return "\n".join(map(text, lines))


def merged_items(thread: Thread, stack: NativeStack, style: Style) -> Iterator[str]:
    """The frames of a thread and its native ones in one stack, and how both end."""
    for frames, row in runs_of(rows_of(thread, stack, style.shows_hidden)):
        yield from items_of(frames, style)
        if isinstance(row, NativeFrame):
            yield f"<li><i>{text(frame_line(row).strip())} [C]</i>"
        elif row is not None:
            yield f"<li class=\"end\">{text(row_text(row))}"
    yield from (f"<li class=\"end\">... {text(it)}" for it in (stack.end, stack.guessed_end, thread.end) if it)
    if thread.exceptions:
        yield f"<li><pre>{text_lines(thread.exceptions)}</pre>"


def frame_items(thread: Thread, style: Style, merged: Optional[NativeStack] = None) -> Iterator[str]:
    """The frames of a thread, and how they end; with its native ones, where these stand in one stack with them."""
    if merged is not None:
        yield from merged_items(thread, merged, style)
        return
    first = thread.first if thread.between else None
    yield from items_of(thread.frames[:first], style)
    if first is not None:
        yield f"<li class=\"end\">... {thread.between} more frames"
        yield from items_of(thread.frames[first:], style)
    if thread.end:
        yield f"<li class=\"end\">... {text(thread.end)}"
    if thread.exceptions:
        yield f"<li><pre>{text_lines(thread.exceptions)}</pre>"


def marks_of(thread: Thread) -> str:
    """A thread's marks."""
    return " ".join(f"<b class=\"bad\">{it}</b>" if it == "crashed" else it for it in thread.marks)


def name_of(thread: Thread) -> str:
    """A thread's name in quotes, where it has one."""
    return "" if thread.name is None else text(f'"{as_name(thread.name)}"')


def wait_part(thread: Thread, anchors: Mapping[int, str]) -> str:
    """What a thread waits for, with a link to the stack of the thread that holds it."""
    if thread.wait is None:
        return ""
    what = text(f" (waits for {thread.waits})")
    anchor = None if thread.wait.owner is None else anchors.get(thread.wait.owner)
    return what if anchor is None else f"{what} <a href=\"#{anchor}\">its stack</a>"


def stack_section(stack: Stack, anchor: str, style: Style, anchors: Mapping[int, str], merged: Optional[NativeStack] = None) -> str:
    """The threads of one stack, and its frames."""
    one = stack.one
    if len(stack.threads) == 1:
        title = f"Thread {text(one.label)} {name_of(one)} {marks_of(one)}".rstrip() + wait_part(one, anchors)
        rest = ""
    else:
        title = text(titles_of(stack))
        names = ", ".join(f"{text(it.label)} {name_of(it)}".rstrip() for it in stack.threads)
        rest = f"<details><summary>all of them</summary><p>{names}</p></details>\n"
    items = "\n".join(frame_items(one, style, merged))
    frames = f"<ol>\n{items}\n</ol>" if items else "<p>no frames</p>"
    return f"<section id=\"{anchor}\">\n<h3>{title}</h3>\n{rest}{frames}\n</section>"


def interpreter_part(it: Interpreter, is_titled: bool) -> str:
    """What stands before an interpreter's threads."""
    lines = []
    if is_titled and it.address is not None:
        lines.append(f"<h3>Interpreter 0x{it.address:x}{' (found by search)' if it.is_searched else ''}</h3>")
    lines += [f"<p class=\"end\">... {text(line)}</p>" for line in (it.lock, it.end) if line]
    return "\n".join(lines)


def stacks_part(report: Report, front: str, style: Style) -> str:
    """All stacks, each once, with anchors that begin so."""
    parts, count, merged_of = [], 0, merged_stacks(report)
    for it in report.interpreters:
        parts.append(interpreter_part(it, len(report.interpreters) > 1))
        stacks = stacks_of(it.threads, not style.shows_all)
        anchors = {thread.number: f"{front}{count + at}" for at, stack in enumerate(stacks) for thread in stack.threads}
        for stack in stacks:
            merged = merged_of.get(stack.one.address) if len(stack.threads) == 1 else None
            parts.append(stack_section(stack, f"{front}{count}", style, anchors, merged))
            count += 1
        parts += [f"<pre>{text_lines(it.last)}</pre>"] if it.last else []
    if report.has_more:
        parts.append("<p class=\"end\">... more than 16 interpreters</p>")
    parts += [f"<p class=\"end\">... {text(it)}</p>" for it in (report.ended, report.left_out) if it]
    return "\n".join(it for it in parts if it)


# ---- the overview


def anchors_of(report: Report, front: str, style: Style) -> List[str]:
    """The anchor of each thread's stack."""
    found: List[str] = []
    count = 0
    for it in report.interpreters:
        own: Dict[int, str] = {}
        for stack in stacks_of(it.threads, not style.shows_all):
            own.update((id(thread), f"{front}{count}") for thread in stack.threads)
            count += 1
        found += [own[id(thread)] for thread in it.threads]
    return found


def overview_row(thread: Thread, anchor: str, place: Optional[int]) -> str:
    """A thread's line. `data-f` is its place in the graph."""
    data = "" if place is None else f" data-f=\"{place}\""
    newest = text(newest_of(thread))
    count = len(thread.frames) + thread.between
    number = thread.number if thread.native is None else thread.native
    return (
        f"<tr{data}><td data-v=\"{number}\"><a href=\"#{anchor}\">{text(thread.label)}</a></td><td>{name_of(thread)}</td>"
        f"<td>{marks_of(thread)}</td><td>{newest}</td><td>{count}</td></tr>")


def overview_part(report: Report, flame: Flame, anchors: Sequence[str]) -> str:
    """The table of all threads."""
    places_in = {number: place for place, number in enumerate(flame.order)}
    rows = [overview_row(it, anchors[at], places_in.get(at)) for at, it in enumerate(report.threads)]
    return table_part(f"{counted(len(rows))}, with the newest frame of each", ("Id", "Name", "Marks", "Newest frame", "Frames"), rows)


def table_part(caption: str, heads: Sequence[str], rows: Sequence[str]) -> str:
    """A table that the script lets be sorted and searched."""
    if not rows:
        return "<p>There are none.</p>"
    columns = "".join(f"<th scope=\"col\">{it}</th>" for it in heads)
    return (
        "<p id=\"find\" hidden><label>Search <input id=\"word\" type=\"search\" placeholder=\"names, frames, values\"></label>"
        " <span id=\"count\" role=\"status\"></span></p>\n"
        "<div class=\"box\" tabindex=\"0\" role=\"region\" aria-label=\"Overview\">\n"
        f"<table>\n<caption>{caption}</caption>\n<thead><tr>{columns}</tr></thead>\n<tbody>\n" + "\n".join(rows) + "\n</tbody>\n</table>\n</div>")


# ---- a core


def signal_of(report: Report) -> str:
    """The signal, by number and name; nothing where none is told."""
    if not report.signal:
        return "" if report.signal is None else "none: `gcore` took the core of a living process"
    name = signal_name(report.signal)
    return f"{report.signal}{f' ({name})' if name else ''}"


def head_part(report: Report) -> str:
    """The signal, the process, the version, and which thread crashed."""
    rows = []
    if report.signal is not None:
        how = f"; {text(report.signal_told)}" if report.signal_told else ""
        rows.append(("Signal", f"<b class=\"bad\">{signal_of(report)}</b>{how}"))
    if report.deadlocks:
        rows.append(("Deadlock", "<br>".join(f"<b class=\"bad\">{text(it)}</b>" for it in report.deadlocks)))
    raised = list(summary_lines(report))
    if raised:
        rows.append(("Exception", "<br>".join(f"<b class=\"bad\">{text(it)}</b>" for it in raised)))
    if report.process is not None:
        rows.append(("Process", f"{report.process[0]}: {text(whole_or_cut(report.process[1]))}"))
    if report.version:
        rows.append(("Python", "<br>".join([text(report.version), *(f"<b class=\"bad\">{text(it)}</b>" for it in report.layout)])))
    crashed = [f"{text(it.label)} {name_of(it)} in {text(newest_of(it))}" for it in report.threads if it.is_crashed]
    told = [", ".join(crashed), text(crash_line(report))]
    if any(told):
        rows.append(("Crashed", "; ".join(it for it in told if it)))
    where = where_line(report)
    if where:
        rows.append(("Native", text(where)))
    rows.append(("Core", text(report.core)))
    return "<dl class=\"head\">\n" + "\n".join(f"<dt>{key}</dt><dd>{value}</dd>" for key, value in rows) + "\n</dl>"


def title_of(report: Report) -> str:
    """What a page is called."""
    what = report.process[1] if report.process and report.process[1] else "a Python process"
    name = signal_name(report.signal) if report.signal else None
    return f"{what}: {name}" if name else what


def graph_part(flame: Flame) -> str:
    """The graph of all threads."""
    if not flame.svg:
        return "<p>No thread has frames.</p>"
    more = "" if flame.is_whole else f"<p>{NOT_ALL}</p>\n"
    return (
        "<p>Each bar is a frame, above the one that called it, as wide as the number of threads that have it. A click, or Enter, "
        f"shows these threads; arrows go from bar to bar.</p>\n{more}{flame.svg}\n<p id=\"picked\" role=\"status\"></p>")


def section_part(it: Section) -> str:
    """A further section."""
    return f"<section id=\"{it.anchor}\">\n<h2>{it.title}</h2>\n{it.body}\n</section>\n"


def report_body(report: Report, style: Style, note: str, largest: int) -> str:
    """The body of a core's page, whose graph may have so many bytes."""
    stacks, sections = stacks_part(report, "s", style), sections_of(report, style)
    more = "".join(map(section_part, sections))
    links = "".join(f" · <a href=\"#{it.anchor}\">{it.title}</a>" for it in sections)
    flame = flame_of([places(it, True) for it in report.threads], max(LEAST_GRAPH, largest - len((stacks + more).encode("utf-8", "replace"))))
    overview = overview_part(report, flame, anchors_of(report, "s", style))
    notes = f"<p>{note}</p>\n" if note else ""
    return (
        f"<header>\n<h1>{text(title_of(report))}</h1>\n{head_part(report)}\n</header>\n"
        f"<nav><p><a href=\"#overview\">Threads</a> · <a href=\"#flame\">Flame graph</a> · <a href=\"#stacks\">Stacks</a>{links}</p></nav>\n<main>\n"
        f"<section id=\"overview\">\n<h2>Threads</h2>\n{overview}\n</section>\n"
        f"<section id=\"flame\">\n<h2>Flame graph</h2>\n{graph_part(flame)}\n</section>\n"
        f"<section id=\"stacks\">\n<h2>Stacks</h2>\n{notes}{stacks}\n</section>\n{more}</main>")


def report_page(report: Report, style: Style) -> str:
    """The page of a core."""
    plain = style._replace(has_colours=False)
    room = LARGEST - len(STYLE) - len(SCRIPT) - 300 * len(report.threads) - 4000
    page = page_of(title_of(report), report_body(report, plain, "", room))
    if style.sources and len(page.encode("utf-8", "replace")) > LARGEST:
        page = page_of(title_of(report), report_body(report, plain._replace(sources=None), NO_SOURCES, room))
    return page


# ---- groups


def group_row(number: int, it: Group, report: Optional[Report]) -> str:
    """A group's line: how many cores it has, and where the one that is shown stood."""
    threads = report.threads if report else []
    one = next((thread for thread in threads if thread.marks), threads[0] if threads else None)
    newest = text(newest_of(one)) if one else ""
    signal, version = (signal_of(report), text(report.version)) if report else ("", "")
    process = text(report.process[1]) if report and report.process else ""
    return (
        f"<tr><td data-v=\"{number}\"><a href=\"#g{number}\">Group {number}</a></td><td>{len(it.cores)}</td><td>{signal}</td>"
        f"<td>{process}</td><td>{version}</td><td>{newest}</td><td>{len(threads)}</td></tr>")


def group_section(number: int, it: Group, report: Optional[Report], style: Style) -> str:
    """A group with its cores, and the stacks of the first."""
    cores = "\n".join(f"<li>{text(line[4:])}" for line in it.lines[1:])
    shown = f"{head_part(report)}\n{stacks_part(report, f'g{number}s', style)}" if report else ""
    return f"<section id=\"g{number}\">\n<h2>{text(it.lines[0])}</h2>\n<ol>\n{cores}\n</ol>\n{shown}\n</section>"


def group_page(groups: Sequence[Group], reports: Mapping[bytes, Optional[Report]], style: Style) -> str:
    """The page of groups of cores."""
    plain = style._replace(has_colours=False)
    pairs = [(it, reports.get(it.first)) for it in groups if it.is_group]
    rows = [group_row(number, it, report) for number, (it, report) in enumerate(pairs, 1)]
    sections = [group_section(number, it, report, plain) for number, (it, report) in enumerate(pairs, 1)]
    for it in groups:
        if not it.is_group:
            cores = "\n".join(f"<li class=\"end\">{text(line[4:])}" for line in it.lines[1:])
            sections.append(f"<section id=\"refused\">\n<h2>{text(it.lines[0])}</h2>\n<ol>\n{cores}\n</ol>\n</section>")
    table = table_part("Cores of one group have the same key", ("Group", "Cores", "Signal", "Process", "Python", "Newest frame", "Threads"), rows)
    body = (
        f"<header>\n<h1>Cores in groups</h1>\n</header>\n<main>\n<section id=\"overview\">\n<h2>Groups</h2>\n{table}\n</section>\n"
        + "\n".join(sections) + "\n</main>")
    return page_of("Cores in groups", body)
