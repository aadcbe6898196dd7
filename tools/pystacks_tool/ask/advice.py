"""What to do next where a program refuses a core, by the front of its line. docs/MESSAGES.md says more of each."""

from typing import Callable

from pystacks_tool.faults import Called

NEXT = {
    "no interpreter found": "docs/MESSAGES.md has the usual causes, and how to tell them, below `No interpreter found`",
    "no layout for Python": "docs/LAYOUTS.md says how a layout is derived from that build; --layouts names it",
    "bad program headers": "copy the core anew: its headers are cut or damaged",
    "bad note": "copy the core anew; `readelf -n` shows where its notes break off",
    "no note segment": "see that it is a core: `readelf -h` says CORE of one",
    "no named executable map": "--maps names a copy of the process's /proc/PID/maps",
    "bad image": "--root names the folder below which the files are that were mapped",
    "version unreadable": "take the next core with all private mappings: echo 0x3f > /proc/PID/coredump_filter",
    "no Python version found": "see that it is a Python process; docs/COMMANDS.md has walk, for programs that embed Python",
    "cannot read": "see by `ls -l` who may read it",
    "file too long": "cores of at most 64 GiB are read, without their zero pages",
    "out of memory": "read it where there is more memory, or see `ulimit -v`",
    "layouts: ": "docs/LAYOUTS.md says what a layout file has",
    "layout: ": "`pystacks-layout --from-core CORE` writes a layout by what the process says; --any-layout shows the stacks all the same",
    "records: ": "docs/LAYOUTS.md says what a file of records has; without --records the tool hands over its own",
}


CUT = "the end of the core is missing, where Python's records may have stood: copy the core anew, or take the next one with more room"
"""What to do where a core was cut."""


NOT_RUNNING = "Python wasn't running: its own record names no interpreter, as before its start and after `Py_Finalize`; `bt` of gdb says where it was"
"""What to do where no interpreter was there."""


def next_by_core(line: str, is_cut: bool, other: str, is_running: Callable[[], bool]) -> str:
    """What to do behind the line of a program, by what is known of the core; nothing where that tells nothing."""
    if not line.startswith(("no interpreter found", "version unreadable", "no Python version found", "image not given")):
        return ""
    if other:
        return f"the process is {other}, by the names of its files: cores of CPython are read"
    if line.startswith("no interpreter found") and not is_running():
        return NOT_RUNNING
    return CUT if is_cut else ""


def next_of(said: str, is_cut: bool = False, other: str = "", is_running: Callable[[], bool] = lambda: True) -> str:
    """What to do behind the line of a program; nothing where the line says it, or the tool's own line before it."""
    name, _, line = said.partition(": ")
    if name not in ("pystacks", "pysalvage", Called.name):
        return ""
    return next_by_core(line, is_cut, other, is_running) or next((then for front, then in NEXT.items() if line.startswith(front)), "")
