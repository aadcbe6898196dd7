"""What the words ask for, done. What a run doesn't need isn't imported: groups, pages and stacks for flame graphs only where they are asked for."""

import json
import os
from typing import Counter, Tuple

from pystacks_tool.ask.programs import dump_command
from pystacks_tool.ask.reports import Outcome, report_on
from pystacks_tool.ask.run import run_over, write_all
from pystacks_tool.cores.opened import OpenedCore, open_core
from pystacks_tool.faults import BAD_WORDS, NO_PROGRAM, Fault, shown
from pystacks_tool.options import Options
from pystacks_tool.output import one_line, page_written, refused, style_of, written
from pystacks_tool.places import NOT_RUN, PROGRAM, program_at
from pystacks_tool.show.text import report_lines

# ---- one core


def plain(options: Options, core: OpenedCore) -> int:
    """Becomes `pystacks dump`, or runs it over the core that was prepared, and returns its status."""
    command = dump_command(options, core, *["-l"] * options.locals, *["-j"] * options.json)
    if core.prepared:
        return run_over(command, core.prepared.fileno(), os.fsencode(core.name))
    os.execv(command[0], command)


def show(options: Options, name: str) -> int:
    """Shows a core as the words ask for it, and returns the status."""
    core = open_core(options, name)
    if options.plain:
        return plain(options, core)
    found = report_on(options, core)
    if found.report is None:
        return refused(found.answer, core)
    if options.json:
        return written([json.dumps(found.tree, indent=2, sort_keys=True, ensure_ascii=False)])
    if options.html:
        from pystacks_tool.show.page import report_page

        return page_written(options.html, report_page(found.report, style_of(options)))
    return written(report_lines(found.report, style_of(options)))


# ---- several cores


def collapse(options: Options) -> int:
    """Prints the stacks of all cores together, and returns the status: of several the first that isn't 0."""
    from pystacks_tool.show.collapse import collapsed_lines, counts_of

    counts: Counter[Tuple[str, ...]] = Counter()
    statuses = []
    for name in options.cores:
        found = report_on(options, open_core(options, name))
        if found.report is not None:
            counts.update(counts_of(found.report.threads, found.report))
        elif len(options.cores) == 1:
            return refused(found.answer)
        else:
            statuses.append(refused_among(name, found))
    written(collapsed_lines(counts))
    return statuses[0] if statuses else 0


def refused_among(name: str, found: Outcome) -> int:
    """Says of which of several cores there is no report, and returns the status."""
    write_all(2, one_line(os.fsencode(name) + b": " + found.answer.said))
    return found.answer.status


def show_kept(options: Options) -> int:
    """Shows what the kernel's handler kept, and returns the status."""
    from pystacks_tool.handler.listing import list_lines, show_lines

    if options.kept_list:
        return written(list_lines(options.kept_list))
    lines, status = show_lines(options.kept_one)
    return written(lines) or status


# ---- the whole


def run_over_many(options: Options) -> int:
    """Makes lines of cores, or groups them, and returns the status."""
    from pystacks_tool.groups.command import group, group_by_key
    from pystacks_tool.groups.jobs import own_line, write_lines

    if options.key_line:
        return own_line(options)
    if options.keys:
        return write_lines(options)
    return group(options) if options.by == "exact" else group_by_key(options)


def run(options: Options) -> int:
    """Does what the words ask for, and returns the status."""
    if options.kept_list or options.kept_one:
        return show_kept(options)
    program = program_at(options.program, PROGRAM)
    for folder, option in ((options.root, "--root"), (options.source, "--source")):
        if folder and not os.path.isdir(folder):
            then = f"{option} names the folder below which the files are"
            raise Fault(f"there is no folder {shown(os.fsencode(folder))}", BAD_WORDS, then)
    try:
        if options.key_line or options.keys or options.group:
            return run_over_many(options)
        return collapse(options) if options.collapsed else show(options, options.cores[0])
    except OSError as error:
        raise Fault(f"cannot run {shown(os.fsencode(program))}: {error.strerror}", NO_PROGRAM, NOT_RUN) from None
