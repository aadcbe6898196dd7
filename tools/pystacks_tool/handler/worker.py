"""The worker: it alone looks at the bytes of a core. It runs as a user without rights, and writes into files that it was handed."""

import json
import os
import shutil
import tempfile
import traceback
from dataclasses import dataclass
from typing import Dict, Iterator, Mapping, NoReturn, Tuple

from pystacks_tool.ask.programs import command_of
from pystacks_tool.ask.reports import Outcome, report_on
from pystacks_tool.ask.slim import located, written
from pystacks_tool.cores.opened import open_core
from pystacks_tool.faults import Fault, say
from pystacks_tool.groups.lines import Line, cause_of, refused_line, text_of, told_line
from pystacks_tool.handler.confine import confine
from pystacks_tool.handler.crash import Crash
from pystacks_tool.handler.finder import Found
from pystacks_tool.handler.settings import Settings
from pystacks_tool.options import Options
from pystacks_tool.places import PROGRAM, program_at
from pystacks_tool.show.text import Style, report_lines

TEXT, JSON, LINE, SLIM, SAID = "report.txt", "report.json", "line", "slim", "said"
"""The files of a crash: the report, the line by which it is grouped, the small core, and what the tool said."""

OUTPUTS = (TEXT, JSON, LINE, SLIM, SAID)


class Handed(Mapping[bytes, bytes]):
    """The mapped files, by names. One that this user may not open by itself is copied when it is asked for."""

    def __init__(self, found: Found) -> None:
        self.found = found

    def __getitem__(self, name: bytes) -> bytes:
        fd = self.found[name]
        path = f"/proc/self/fd/{fd}"
        try:
            os.close(os.open(path, os.O_RDONLY | os.O_CLOEXEC))
        except OSError:
            with open(fd, "rb", closefd=False) as file, tempfile.TemporaryFile() as copy:
                shutil.copyfileobj(file, copy)
                copy.flush()
                os.dup2(copy.fileno(), fd, inheritable=False)
        return os.fsencode(path)

    def __iter__(self) -> Iterator[bytes]:
        return iter(self.found)

    def __len__(self) -> int:
        return len(self.found)


@dataclass(frozen=True)
class Task:
    """What the worker is to do."""

    name: str
    """The crash's."""
    crash: Crash
    core: int
    found: Found
    out: Dict[str, int]
    """Its files, by `OUTPUTS`."""
    host: str

    @property
    def kept(self) -> Tuple[int, ...]:
        """The descriptors that it keeps."""
        return (self.core, *self.found.values(), *self.out.values())


def put(fd: int, text: str) -> None:
    """Writes a text into a file."""
    with open(fd, "wb", closefd=False) as file:
        file.write(text.encode("utf-8", "backslashreplace"))


def options_of(task: Task, settings: Settings) -> Options:
    """How the core is asked for: without values, since what is kept may be read later."""
    path = f"/proc/self/fd/{task.core}"
    return Options(
        cores=(path,), images=Handed(task.found), handed=(task.core, *task.found.values()), host=task.host,
        program=settings.program or None, salvage=settings.salvage or None, memory=min(512, settings.memory // 3))


def asked(task: Task, options: Options) -> Tuple[Outcome, Line]:
    """What the programs tell, and the crash's line."""
    path = options.cores[0]
    found = report_on(options, open_core(options, path))
    line = told_line(options, path, found.report) if found.report else refused_line(options, path, cause_of(found))
    return found, line


def put_report(task: Task, found: Outcome) -> None:
    """Writes the report, or what the program said where there is none."""
    if found.report is None:
        os.write(task.out[SAID], found.answer.said[: 1 << 16])
        return
    report = found.report._replace(core=task.name)
    put(task.out[TEXT], "".join(f"{it}\n" for it in report_lines(report, Style())))
    put(task.out[JSON], json.dumps(found.tree, indent=2, sort_keys=True, ensure_ascii=False) + "\n")


def put_line(task: Task, line: Line) -> None:
    """Writes the crash's line, under its own name and time."""
    when = task.crash.when
    line["core"] = task.name
    line["time"] = f"{when[:4]}-{when[4:6]}-{when[6:11]}:{when[11:13]}:{when[13:]}"
    put(task.out[LINE], text_of(line) + "\n")


def put_slim(task: Task, options: Options) -> None:
    """Writes the small core, where one can be made."""
    program = program_at(options.program, PROGRAM)
    core = open_core(options._replace(whole=True), options.cores[0])
    command = command_of([program, core.word, core.layouts], [core.name])
    located(command, core)
    written(command, core, 0, task.out[SLIM])


def work(task: Task, settings: Settings) -> None:
    """Asks for the report, and writes what is kept."""
    options = options_of(task, settings)
    try:
        found, line = asked(task, options)
    except Fault as fault:
        say(str(fault), fault.then)
        put_line(task, refused_line(options, options.cores[0], str(fault)))
        return
    put_report(task, found)
    put_line(task, line)
    if found.report is not None:
        try:
            put_slim(task, options)
        except (Fault, OSError) as reason:
            say(f"no small core: {reason}")


def child(task: Task, settings: Settings, ids: Tuple[int, int]) -> NoReturn:
    """What the worker's process does."""
    status = 1
    try:
        confine(settings, ids, task.kept, task.out[SAID])
        work(task, settings)
        status = 0
    except MemoryError:
        say("out of memory")
    except BaseException:
        traceback.print_exc()
    finally:
        os._exit(status)
