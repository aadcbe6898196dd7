"""A line for a core: its keys, and what people want to know of it, as one object of JSON.

Lines of many machines are grouped by `--group --from`. A core that can't be read has its line too, with the cause.
"""

import datetime
import json
import os
from typing import Dict, List, Optional

from pystacks_tool.ask.reports import Outcome, decoded, report_on
from pystacks_tool.cores.known import known_at
from pystacks_tool.cores.opened import open_core
from pystacks_tool.faults import Called, Fault
from pystacks_tool.groups.keys import Chosen, cause_key, chosen, crash_key, stacks_key
from pystacks_tool.model import Report, whole_or_cut
from pystacks_tool.options import Options
from pystacks_tool.show.escape import in_line, signal_name
from pystacks_tool.show.text import Style, name_of, place_of, stack_lines

Line = Dict[str, object]
"""The object of a line."""

SHOWN = 40
"""The most lines of a stack that a core's line has."""

LONGEST = 300
"""The most characters of a text in it."""


def brief(text: str) -> str:
    """A text that isn't longer than a line has it."""
    return text if len(text) <= LONGEST else text[: LONGEST - 2] + ".."


def time_of(path: str) -> Optional[str]:
    """When a core was written, by its file."""
    try:
        when = os.stat(path).st_mtime
    except OSError:
        return None
    return datetime.datetime.fromtimestamp(int(when), datetime.timezone.utc).strftime("%Y-%m-%dT%H:%M:%SZ")


def base_line(options: Options, name: str) -> Line:
    """What each line has."""
    return {
        "core": name, "host": options.host or None, "time": time_of(name), "signal": None, "signal_name": None, "told": "",
        "process": "", "version": "", "thread": None, "frames": [], "stack": [], "cause": None, "keys": {},
    }


def line_without_stacks(line: Line, signal: Optional[int], process: str, cause: str) -> Line:
    """A line, as of a core without stacks."""
    key = cause_key(cause, process)
    own = {"signal": signal, "signal_name": signal_name(signal or 0), "process": brief(in_line(process))}
    return {**line, **own, "cause": brief(in_line(cause)), "keys": {"crash": key, "stacks": key}}


def refused_line(options: Options, name: str, cause: str) -> Line:
    """The line of a core without stacks."""
    known = known_at(name)
    return line_without_stacks(base_line(options, name), known.signal, known.arguments, cause)


def stack_of(one: Chosen) -> List[str]:
    """The frames of the thread that is shown, as its text has them."""
    lines = [brief(line[4:]) for line in stack_lines(one.thread, Style())]
    more = len(lines) - SHOWN
    return lines if more <= 0 else [*lines[:SHOWN], f"... {more} more lines"]


def told_line(options: Options, name: str, report: Report) -> Line:
    """The line of a core of which there is a report."""
    one = chosen(report)
    if one is None:
        return refused_line(options, name, "no thread has frames")
    frames = [brief(place_of(it)) for it in one.thread.frames[:10]]
    process = whole_or_cut(report.process[1] if report.process else known_at(name).arguments).strip()
    return {
        **base_line(options, name), "signal": report.signal, "signal_name": signal_name(report.signal or 0),
        "told": in_line(report.signal_told), "process": brief(in_line(process)), "version": report.version,
        "thread": {"id": one.thread.label, "name": brief(name_of(one.thread)), "why": one.why}, "frames": frames,
        "stack": stack_of(one), "keys": {"crash": crash_key(report), "stacks": stacks_key(report)},
    }


def cause_of(found: Outcome) -> str:
    """Why there is no report, by the program's line."""
    said = decoded(found.answer.said).split("\n")[0]
    name, colon, line = said.partition(": ")
    return line if colon and name in ("pystacks", "pysalvage", Called.name) else said or f"the program ended with status {found.answer.status}"


def line_of(options: Options, name: str) -> Line:
    """A core's line, whatever comes of it."""
    try:
        # (what a line has none of isn't asked for)
        found = report_on(options._replace(tasks=False, native=False, where=False), open_core(options, name))
    except Fault as fault:
        return refused_line(options, name, str(fault))
    except OSError as error:
        return refused_line(options, name, f"cannot be read: {error.strerror}")
    except MemoryError:
        return refused_line(options, name, "out of memory")
    return told_line(options, name, found.report) if found.report else refused_line(options, name, cause_of(found))


def text_of(line: Line) -> str:
    """A line as it is written."""
    return json.dumps(line, sort_keys=True)
