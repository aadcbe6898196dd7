"""Cores grouped by `pystacks triage`, with the stacks of each group's first core."""

import os
from typing import Dict, Iterable, Iterator, List, Optional

from pystacks_tool.ask.programs import command_of
from pystacks_tool.ask.reports import report_on
from pystacks_tool.ask.run import end_as, write_all
from pystacks_tool.cores.images import image_words, opened
from pystacks_tool.cores.opened import OpenedCore, open_core, prepare_core
from pystacks_tool.faults import BAD_WORDS, Fault, shown
from pystacks_tool.groups.gathered import Counted, Gathered, gathered, lines_from, say_counted
from pystacks_tool.groups.jobs import lines_of
from pystacks_tool.groups.lines import Line
from pystacks_tool.groups.shown import json_of, title_of
from pystacks_tool.groups.shown import lines_of as text_lines
from pystacks_tool.groups.triage import Apart, Core, Group, group_answer, groups_of, read_core_of_group, renamed_text, shared_files, shared_machine
from pystacks_tool.model import Report
from pystacks_tool.options import Options
from pystacks_tool.output import one_line, page_written, refused, style_of, written
from pystacks_tool.places import PROGRAM, layouts_of, program_at, records_of
from pystacks_tool.show.page import group_page
from pystacks_tool.show.text import stacks_lines


def cores_of(options: Options) -> List[Core]:
    """The cores, each prepared where it has to be."""
    cores = []
    for name in options.cores:
        if "=" in name or "\n" in name:
            line = f"a core's path with an equals sign or a newline can't be grouped: {shown(os.fsencode(name))}"
            raise Fault(line, BAD_WORDS, "rename it, or make a link of another name to it")
        file = opened(name)
        new = prepare_core(options, name, file)
        cores.append(read_core_of_group(os.fsencode(name), file, new.file if new else None))
    return cores


def group(options: Options) -> int:
    """Groups cores, names each group's stacks once, and returns the status."""
    cores = cores_of(options)
    try:
        machine, files = shared_machine(cores), shared_files(cores)
    except Apart as reason:
        raise Fault(f"{reason}: group them apart", BAD_WORDS) from None
    layouts = options.layouts or layouts_of(machine)
    command = command_of([program_at(options.program, PROGRAM), "triage", layouts], options.cores)
    images = image_words(files, os.fsencode(options.root), machine)
    answer = group_answer([*command, *(core.word for core in cores), *images], cores)
    if answer.status != 0 and not options.plain:
        return refused(answer)
    write_all(2, answer.said if options.plain else one_line(answer.said))
    if answer.status != 0:
        return end_as(answer.status)
    text = renamed_text(answer.out, cores)
    if options.plain:
        write_all(1, text)
        return 0
    records = options.records or records_of(machine) or ""
    by_name = {core.name: OpenedCore(os.fsdecode(core.name), core.prepared, layouts, images, records=records) for core in cores}
    return show_groups(options, groups_of(text, list(by_name)), by_name)


def group_by_key(options: Options) -> int:
    """Groups cores, or lines of cores, by one of their keys, and returns the status."""
    counted = Counted()
    groups = gathered(lines_from(options.lines, counted) if options.lines else lines_by(options), options.by)
    say_counted(counted)
    if options.html:
        return page_written(options.html, page_of_gathered(options, groups))
    return written(json_of(groups) if options.json else text_lines(groups))


def lines_by(options: Options) -> Iterator[Line]:
    """The lines of cores, or of the crashes that the kernel's handler kept in a folder."""
    if len(options.cores) == 1 and os.path.isdir(options.cores[0]):
        from pystacks_tool.handler.listing import kept_lines

        if options.html:
            raise Fault("a page of groups is made of cores, and not of a folder of crashes", BAD_WORDS, "--group FOLDER shows them as text, with -j as JSON")
        return kept_lines(options.cores[0])
    return lines_of(options)


def page_of_gathered(options: Options, gathered_groups: List[Gathered]) -> str:
    """The page of such groups, each with the stacks of its first core."""
    groups, reports = [], {}
    refused = Group(f"Without stacks: {sum(it.count for it in gathered_groups if not it.has_stacks)}", [], False)
    for number, it in enumerate(gathered_groups, 1):
        names = [os.fsencode(name) for name in it.cores]
        if it.has_stacks:
            groups.append(Group(title_of(number, it), names))
            reports[names[0]] = report_of(options, open_core(options, it.cores[0]))
        else:
            refused.cores += [name + b": " + str(it.line["cause"]).encode("utf-8", "backslashreplace") for name in names]
    return group_page([*groups, *[refused] * bool(refused.cores)], reports, style_of(options))


def report_of(options: Options, core: OpenedCore) -> Optional[Report]:
    """The report on a group's first core; where there is none the line says why."""
    found = report_on(options, core)
    if found.report is None:
        write_all(2, one_line(os.fsencode(core.name) + b": " + found.answer.said))
    return found.report


def show_groups(options: Options, groups: List[Group], by_name: Dict[bytes, OpenedCore]) -> int:
    """Shows groups as the words ask for it, and returns the status."""
    if options.html:
        shown_groups = [it for it in groups if it.is_group and it.first in by_name]
        reports = {it.first: report_of(options, by_name[it.first]) for it in shown_groups}
        return page_written(options.html, group_page(groups, reports, style_of(options)))
    return written(group_lines(options, groups, by_name))


def group_lines(options: Options, groups: List[Group], by_name: Dict[bytes, OpenedCore]) -> Iterable[str]:
    """The program's text of groups, and behind each group the stacks of its first core."""
    style = style_of(options)
    for it in groups:
        yield from it.lines
        if it.is_group and it.first in by_name:
            report = report_of(options, by_name[it.first])
            for line in stacks_lines(report, style) if report else ():
                yield f"        {line}" if line else ""
