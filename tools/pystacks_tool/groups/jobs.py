"""The lines of cores, each made by a process of its own, several at a time: one that is damaged, slow or huge costs itself alone."""

import json
import os
import resource
import signal
import subprocess
import sys
from concurrent.futures import ThreadPoolExecutor
from pathlib import Path
from typing import Dict, Iterator, List

from pystacks_tool.faults import say
from pystacks_tool.groups.lines import Line, line_of, refused_line, text_of
from pystacks_tool.options import Options
from pystacks_tool.output import written
from pystacks_tool.places import salvage_program

PACKAGES = Path(__file__).resolve().parents[2]
"""The folder of the package."""

LEAST_ROOM = 1 << 30
"""How many bytes of memory a process has beside three times what --memory says: the programs keep the part of the core, its files and
their answer."""

WORDS = (("root", "--root"), ("layouts", "--layouts"), ("records", "--records"), ("program", "--program"), ("salvage", "--salvage"), ("host", "--host"))
"""The words that are passed on as they are."""

Environment = Dict[str, str]


def words_of(options: Options) -> List[str]:
    """The words by which a process makes a core's line."""
    own = [f"{word}={getattr(options, name)}" for name, word in WORDS if getattr(options, name)]
    return ["--key-line", f"--memory={options.memory}", *["--any-layout"] * options.any_layout, *own]


def own_line(options: Options) -> int:
    """Writes the line of the one core, within the memory that a core may have. Returns 0: the line says what happened."""
    room = 3 * options.memory * 1_000_000 + LEAST_ROOM
    resource.setrlimit(resource.RLIMIT_AS, (room, room))
    return written([text_of(line_of(options, options.cores[0]))])


def ended_early(status: int) -> str:
    """Why a process has no line."""
    if status >= 0:
        return f"its process ended with status {status}"
    try:
        return f"its process was ended by {signal.Signals(-status).name}"
    except ValueError:
        return f"its process was ended by signal {-status}"


def environment() -> Environment:
    """The environment of a process: that of this one, in which the package is found first."""
    paths = [os.fspath(PACKAGES), os.environ.get("PYTHONPATH", "")]
    return {**os.environ, "PYTHONPATH": os.pathsep.join(it for it in paths if it)}


def line_by_process(options: Options, name: str) -> Line:
    """A core's line by a process of its own, which has so many seconds."""
    command = [sys.executable, "-B", "-m", "pystacks_tool", *words_of(options), "--", name]
    process = subprocess.Popen(command, stdin=subprocess.DEVNULL, stdout=subprocess.PIPE, stderr=subprocess.DEVNULL, env=environment(), start_new_session=True)
    try:
        out, _ = process.communicate(timeout=options.timeout)
    except subprocess.TimeoutExpired:
        # (the programs that it runs, too)
        os.killpg(process.pid, signal.SIGKILL)
        process.communicate()
        return refused_line(options, name, f"took longer than {options.timeout} s")
    try:
        line = json.loads(out)
        return line if isinstance(line, dict) else refused_line(options, name, ended_early(process.returncode))
    except ValueError:
        return refused_line(options, name, ended_early(process.returncode))


def say_progress(done: int, all_of_them: int, refused: int) -> None:
    """Says on a terminal how far it is."""
    if sys.stderr.isatty():
        more = f", {refused} without stacks" if refused else ""
        end = "\n" if done == all_of_them else ""
        print(f"\r{done} of {all_of_them} cores{more}{end}", end="", file=sys.stderr, flush=True)


def lines_of(options: Options) -> Iterator[Line]:
    """The lines of all cores, in their order, as many at a time as are asked for."""
    refused = 0
    if salvage_program(options.salvage, options.program) is None:
        say("pysalvage isn't there, so it isn't known which thread got the signal: the one that held the lock stands for it",
            "build pysalvage, or name it by --salvage")
    with ThreadPoolExecutor(options.jobs or os.cpu_count() or 1) as pool:
        for done, line in enumerate(pool.map(lambda name: line_by_process(options, name), options.cores), 1):
            refused += line["cause"] is not None
            say_progress(done, len(options.cores), refused)
            yield line


def write_lines(options: Options) -> int:
    """Writes a line for each core. Returns 0: each line says what happened."""
    return written(text_of(it) for it in lines_of(options))
