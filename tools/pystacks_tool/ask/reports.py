"""The report on a core, by what the programs tell of it.

Where `pysalvage` is there it is asked, since it shows what is left of a broken process. Of one that tells no values of locals, or
no names, these are those of `pystacks dump`, if that gives a report. Where `pysalvage` isn't there `pystacks dump` is asked alone.
"""

import json
import os
from functools import lru_cache, partial
from typing import List, NamedTuple, Optional, Tuple

from pystacks_tool.ask.dump import Tree, Unexpected, report_by_dump, tree_of
from pystacks_tool.ask.heap import FLAG as HEAP, KEY as HEAP_KEY, earlier_heaps, growth_of, heaps_of
from pystacks_tool.ask.layout import DIFFERS, layout_in, refusal
from pystacks_tool.ask.names import add_names, missing_files, readable_names
from pystacks_tool.ask.native import FLAG as NATIVE, KEY as NATIVE_KEY, PAIRED_KEY, stacks_of as native_stacks_of
from pystacks_tool.ask.parts import ask_growing, ask_over
from pystacks_tool.ask.programs import NAMES, ask, dump_command, native_command, tasks_command, tells_tasks_as_text
from pystacks_tool.ask.run import Answer, knows
from pystacks_tool.ask.salvage import NamesAndValues, names_and_values, report_by_salvage, with_system_ids
from pystacks_tool.ask.task_frames import with_running_frames
from pystacks_tool.ask.tasks import FLAG as TASKS
from pystacks_tool.ask.values import hide_in_frames, tells_values
from pystacks_tool.ask.waits import KEY as WAITS, with_all_waits
from pystacks_tool.cores.images import OTHER_FILE
from pystacks_tool.cores.known import Known
from pystacks_tool.cores.memory import mapped_of
from pystacks_tool.cores.opened import OpenedCore
from pystacks_tool.faults import NO_PROGRAM, NO_ROOM, Fault, say, shown
from pystacks_tool.model import Report, Tasks, arranged
from pystacks_tool.options import Options
from pystacks_tool.places import PROGRAM, salvage_program


class Outcome(NamedTuple):
    """What came of a core: a report with its JSON, or the program's answer where there is none."""

    answer: Answer
    report: Optional[Report] = None
    tree: Optional[Tree] = None


def decoded(text: bytes) -> str:
    """What a program wrote, as text."""
    return text.decode("utf-8", "replace")


def ask_for_names_and_values(options: Options, core: OpenedCore, salvage: str, told: Tree) -> NamesAndValues:
    """With -l the values of locals, where `pystacks dump` has a report, and the names of threads; nothing where what `pysalvage` told has
    all that is asked for."""
    if not os.path.isfile(options.program or PROGRAM) or knows(salvage, NAMES) and (not options.locals or tells_values(told)):
        return NamesAndValues()
    answer = ask(core, dump_command(options, core, "-j", *["-l"] * options.locals))
    try:
        return names_and_values(json.loads(decoded(answer.out) or "[]"))
    except (ValueError, KeyError, TypeError):
        return NamesAndValues()


def asked_once(options: Options, core: OpenedCore, program: str) -> Tuple[Answer, bool]:
    """What `pysalvage` answers, and whether native stacks are in it: so they are of a core that is handed over whole and has no more than
    `MANY` threads, where they are wanted by its signal."""
    known = core.known if core.part is None else Known()
    if known.threads <= MANY and wants_native(options, program, known.signal):
        answer = asked_with_native(options, core, program)
        if answer is not None:
            return answer, True
    return ask_over(options, core, program), False


def asked_with_native(options: Options, core: OpenedCore, program: str) -> Optional[Answer]:
    """The same with native stacks; nothing where there was no room, or a signal ended the program: what they alone need takes nothing from
    the others."""
    try:
        answer = ask_over(options, core, program, True)
    except Fault:
        return None
    return None if answer.status == NO_ROOM or answer.status < 0 else answer


def ask_salvage(options: Options, core: OpenedCore, program: str) -> Outcome:
    """What `pysalvage` tells, with names and values."""
    answer, has_native = asked_once(options, core, program)
    if answer.status != 0:
        return Outcome(answer)
    told = layout_in(decoded(answer.out))
    if told is not None and told.verdict == DIFFERS and not options.any_layout:
        return Outcome(refusal(told))
    added = partial(ask_for_names_and_values, options, core, program)
    tree, report = report_by_salvage(decoded(answer.out), core.name, added, options.hidden)
    report = with_running_frames(with_tasks(options, core, program, waiting(with_system_ids(report), tree)))
    report = with_heaps(options, core, program, report, tree)
    if not options.registers:
        # (they were asked for the ids of threads alone)
        tree["registers"], report = None, report._replace(registers=())
    if core.part is not None:
        # (that is between the program and the tool)
        tree["missing"] = None
    return Outcome(answer, arranged(with_native(options, core, program, report, tree, has_native)), tree)


def waiting(report: Report, tree: Tree) -> Report:
    """The report with what threads wait for, where the program told it."""
    try:
        return with_all_waits(report, tree.get(WAITS))
    except (ValueError, KeyError, TypeError) as error:
        raise Unexpected(f"its JSON: {error!r}") from None


def with_heaps(options: Options, core: OpenedCore, program: str, report: Report, tree: Tree) -> Report:
    """The report with what the heaps hold, where that is asked for and the program tells it."""
    if not options.heap or not knows(program, HEAP):
        return report
    earlier = earlier_heaps(options.diff) if options.diff else None
    try:
        heaps = heaps_of(tree[HEAP_KEY])
    except (KeyError, TypeError) as error:
        raise Unexpected(f"its JSON: {error!r}") from None
    stacks = [value for it in report.registers for name, value in it.values if name in ("rsp", "sp")]
    with open(core.word, "rb") as file:
        mapped = mapped_of(file, stacks)
    growth = None if earlier is None else growth_of(earlier, heaps)
    return report._replace(heaps=heaps, mapped=mapped, growth=growth)


def say_missing(files: List[str]) -> None:
    """Says once which files weren't at hand, so that native stacks end in them."""
    if files:
        names = ", ".join(shown(it.encode()) for it in files[:MISSING]) + (f" and {len(files) - MISSING} more" if len(files) > MISSING else "")
        say(f"native stacks end early, as what was mapped isn't at hand: {names}", OTHER_FILE)


MISSING = 4
"""How many files that weren't at hand are named."""


def with_tasks(options: Options, core: OpenedCore, program: str, report: Report) -> Report:
    """The report with the tasks of asyncio, where they are asked for in a run of its own."""
    if not options.tasks or not knows(program, TASKS) or not tells_tasks_as_text(options, core):
        return report
    answer = ask(core, tasks_command(options, program, core))
    if answer.status != 0:
        return report._replace(tasks=(Tasks("", fault=f"pysalvage ended with status {answer.status}"),))
    from pystacks_tool.ask.task_text import tasks_in

    return report._replace(tasks=tasks_in(decoded(answer.out)))


DEATHS = {4, 5, 6, 7, 8, 11, 31}
"""The signals of faults and of `abort`: native code may be where the process died."""


MANY = 1000
"""Of more threads native stacks are asked for in a run of its own: their JSON is long, and what it lacks is lost alone."""


def wants_native(options: Options, program: str, signal: Optional[int]) -> bool:
    """Whether native stacks are asked for, or may tell where the process died."""
    return (options.native or options.where and signal in DEATHS) and knows(program, NATIVE)


class NativeTold(NamedTuple):
    """What a program told of native stacks."""

    stacks: List[Tree]
    paired: List[Optional[Tree]]
    """Of each how Python's frames stand among them; none where an earlier program doesn't tell it."""


def taken(tree: Tree) -> NativeTold:
    """What is told of native stacks, which the tree then no longer has."""
    stacks, tree[NATIVE_KEY] = tree[NATIVE_KEY], None
    paired = tree.get(PAIRED_KEY)
    if PAIRED_KEY in tree:
        tree[PAIRED_KEY] = None
    return NativeTold(list(stacks), list(paired or ()))


def native_told(options: Options, core: OpenedCore, program: str, tree: Tree, has_native: bool) -> Optional[NativeTold]:
    """The native stacks that a core's JSON has, which keeps them only where they are asked for, or those of a run of its own; nothing
    where that has none."""
    if has_native:
        return taken(tree)
    answer = ask_growing(core, lambda: native_command(options, program, core), options.native)
    return taken(json.loads(decoded(answer.out))) if answer.status == 0 else None


def with_native(options: Options, core: OpenedCore, program: str, report: Report, tree: Tree, has_native: bool) -> Report:
    """The report with native stacks, where these are wanted. Where they can't be had it is as it was: they are told beside the stacks."""
    if not wants_native(options, program, report.signal):
        if has_native:
            taken(tree)
        return report
    try:
        told = native_told(options, core, program, tree, has_native)
        if told is None:
            return report
        add_names(told.stacks, [*core.images, *core.other_images()], core.root)
        stacks = native_stacks_of(told.stacks, told.paired, readable_names(told.stacks))
    except (Fault, ValueError, KeyError, TypeError) as error:
        if options.native:
            raise error if isinstance(error, Fault) else Unexpected(f"its JSON: {error!r}") from None
        return report
    if options.native:
        tree[NATIVE_KEY] = told.stacks
        if PAIRED_KEY in tree:
            tree[PAIRED_KEY] = told.paired
        say_missing(missing_files(told.stacks))
    return report._replace(native=stacks, shows_native=options.native)


@lru_cache(maxsize=1)
def say_what_is_missing() -> None:
    """Says once that `pystacks dump` is shown alone."""
    say("pysalvage isn't there, so that the stacks are whole or missing, and neither the version of Python nor how the signal came about is told",
        "tools/build makes it")


def ask_dump(options: Options, core: OpenedCore) -> Outcome:
    """What `pystacks dump` tells."""
    answer = ask(core, dump_command(options, core, "-j", *["-l"] * options.locals))
    if answer.status != 0:
        return Outcome(answer)
    say_what_is_missing()
    try:
        trees = json.loads(decoded(answer.out))
    except ValueError as error:
        raise Unexpected(f"its JSON: {error!r}") from None
    try:
        hide_in_frames((frame for thread in trees for frame in thread["frames"]), options.hidden)
    except (AttributeError, KeyError, TypeError) as error:
        raise Unexpected(f"its JSON: {error!r}") from None
    report = report_by_dump(trees, core.known, core.name, options.frames)
    return Outcome(answer, arranged(report), tree_of(report, trees, options.frames))


def report_on(options: Options, core: OpenedCore) -> Outcome:
    """What is told of a core, by `pysalvage` where it is there."""
    program = salvage_program(options.salvage, options.program)
    try:
        return ask_salvage(options, core, program) if program else ask_dump(options, core)
    except Unexpected as reason:
        raise Fault(f"the program wrote what isn't read here: {reason}", NO_PROGRAM, "--plain passes its own text on") from None
