"""The programs that are asked of a core, and their words."""

import os
from typing import List, Sequence

from pystacks_tool.ask.exceptions import FLAG as EXCEPTIONS
from pystacks_tool.ask.layout import FLAG
from pystacks_tool.ask.heap import FLAG as HEAP
from pystacks_tool.ask.native import FLAG as NATIVE
from pystacks_tool.ask.tasks import FLAG as TASKS
from pystacks_tool.ask.waits import FLAG as WAITS
from pystacks_tool.ask.run import Answer, answer_of, knows
from pystacks_tool.cores.opened import OpenedCore, check_text
from pystacks_tool.faults import NO_PROGRAM, Fault, shown
from pystacks_tool.options import Options
from pystacks_tool.places import NOT_RUN, PROGRAM, program_at


NAMES = "--names"
"""The flag of `pysalvage` for the names of threads."""

REGISTERS = "--registers"
"""Its flag for the threads of the process, by their status records: their ids, whose they are, and their registers."""


def ask(core: OpenedCore, command: Sequence[bytes]) -> Answer:
    """What a program answers of a core."""
    try:
        return answer_of(command, core.fds, os.fsencode(core.word), os.fsencode(core.name))
    except OSError as error:
        raise Fault(f"cannot run {shown(command[0])}: {error.strerror}", NO_PROGRAM, NOT_RUN) from None


def command_of(words: Sequence[str], names: Sequence[str]) -> List[bytes]:
    """The words of a command, the program first. They and the user's names for cores have to be text."""
    parts = [os.fsencode(it) for it in words]
    check_text([*(os.fsencode(it) for it in names), *parts[1:]])
    return parts


def dump_command(options: Options, core: OpenedCore, *more: str) -> List[bytes]:
    """The words of `pystacks dump`."""
    words = [program_at(options.program, PROGRAM), "dump", f"--core={core.word}", f"--layouts={core.layouts}"]
    return [*command_of(words, [core.name]), *(os.fsencode(it) for it in more), *core.images]


LARGE = 24_000_000
"""Of a core of so many bytes there may be tasks by the ten thousands, whose JSON is five times as long as their text."""


def size_of(core: OpenedCore) -> int:
    """How many bytes a core has, where it can be told."""
    try:
        return os.stat(core.word).st_size
    except OSError:
        return 0


def tells_tasks_as_text(options: Options, core: OpenedCore) -> bool:
    """Whether tasks are asked for as text, in a run of its own: of a large core, which costs more than the run does. JSON is needed where it is
    written, and over a part of a core, since it alone tells what that lacks."""
    return not options.json and core.part is None and size_of(core) >= LARGE


def tasks_command(options: Options, program: str, core: OpenedCore) -> List[bytes]:
    """The words of `pysalvage` for tasks as text."""
    records = [f"--records={core.records}"] if core.records else []
    words = [program, f"--layouts={core.layouts}", *records, "--frames=1", TASKS, "--", core.word]
    return [*command_of(words, [core.name]), *core.images]


CRASHED = "--crashed"
"""The flag of `pysalvage` for the native stack of the thread that got the signal alone."""


def native_words(options: Options, program: str) -> List[str]:
    """The flags for native stacks: for that of the thread that got the signal alone, where no other is shown. (An earlier program tells
    all.)"""
    return [NATIVE, *["--strict"] * options.strict, *[CRASHED] * (not options.native and knows(program, CRASHED))]


def salvage_command(options: Options, program: str, core: OpenedCore, with_native: bool = False) -> List[bytes]:
    """The words of `pysalvage`, which is asked for JSON by the layouts and the records of the core's machine, for the sections that are
    shown, for what the process says of the layout, for the names and the system's ids of threads, and over a part of a core for what it missed.
    With native stacks each file goes with them that the process had mapped: any may be on a stack."""
    sections = ["--signal"] * options.signal + ["--missing"] * (core.part is not None)
    sections += [it for it in (REGISTERS, FLAG, NAMES) if knows(program, it)]
    sections += [TASKS] * (options.tasks and knows(program, TASKS) and not tells_tasks_as_text(options, core))
    sections += [EXCEPTIONS] * (options.exceptions and knows(program, EXCEPTIONS))
    sections += [WAITS] * (options.waits and knows(program, WAITS))
    sections += [HEAP] * (options.heap and knows(program, HEAP))
    sections += native_words(options, program) * with_native
    records = [f"--records={core.records}"] if core.records else []
    ends = [f"--frames={options.frames}"] if options.frames is not None else []
    asked = ["-j", *ends, *["-l"] * options.locals, *sections, "--", core.word]
    words = [program, f"--layouts={core.layouts}", *records, *asked]
    return [*command_of(words, [core.name]), *core.images, *(core.other_images() if with_native else [])]


def native_command(options: Options, program: str, core: OpenedCore) -> List[bytes]:
    """The words of `pysalvage` for native stacks alone, with each file that the process had mapped."""
    ends = [f"--frames={options.frames}"] if options.frames is not None else []
    sections = [*native_words(options, program), *["--missing"] * (core.part is not None)]
    words = [program, f"--layouts={core.layouts}", "-j", *ends, *sections, "--", core.word]
    return [*command_of(words, [core.name]), *core.images, *core.other_images()]
