"""The command: its words, its help and its version, and how a run ends."""

import argparse
import os
import re
import sys
from functools import lru_cache
from typing import List, Sequence, Tuple

from pystacks_tool.ask.values import SECRETS
from pystacks_tool.command import run
from pystacks_tool.faults import NO_ROOM, Fault, call, say
from pystacks_tool.options import ALL_FRAMES, BY, Options
from pystacks_tool.output import written
from pystacks_tool.pages import ROOT, with_places
from pystacks_tool.places import LAYOUTS, MACHINES, PROGRAM, SALVAGE, beside, version_line

LARGEST = 1 << 26
"""The most MB that --memory takes."""

WHAT = "Shows where a Python process stood when it died: the stacks of its threads, by its core."

EXAMPLES = """\
examples:
  {0} core                          the stacks of a core; the thread that got the signal first
  {0} core -l --source              with locals and source lines
  {0} core --root /mnt/image        of a container, whose files are below that folder

Where the program pysalvage is there, stacks of broken processes are shown as far as they go; else `pystacks dump` alone
is run, which shows whole stacks or none. docs/MESSAGES.md has each line of the standard error, and what to do next."""


def add_shown(parser: argparse.ArgumentParser) -> None:
    """Adds what is shown of a core."""
    parser.add_argument("-l", "--locals", action="count", default=0, help="show locals; twice, longer ones")
    parser.add_argument("--hide", metavar="WORD", action="append", default=[], help="hide the values of names and keys that hold this word; repeatable")
    parser.add_argument("--show-secrets", action="store_true", help=f"with --html: hide no values but by --hide (else those of {', '.join(SECRETS)})")
    parser.add_argument("--no-signal", action="store_true", help="without the line that says how the signal came about")
    parser.add_argument("--registers", action="store_true", help="show the registers of each thread")
    parser.add_argument("--native", action="store_true", help="show the native stack of each thread")
    parser.add_argument("--all-native", action="store_true", help="with --native: the interpreter's own native frames too")
    parser.add_argument("--strict", action="store_true", help="with --native: nothing that follows from a guess")
    parser.add_argument("--no-where", action="store_true", help="without the line that says where in native code the process died")
    parser.add_argument("--no-tasks", action="store_true", help="without the tasks of asyncio")
    parser.add_argument("--no-waits", action="store_true", help="without what threads wait for")
    parser.add_argument("--heap", action="store_true", help="show what fills the memory: the objects of each class, and the mappings")
    parser.add_argument("--diff", metavar="FILE", default="", help="with --heap: what grew since an earlier core, whose JSON (-j --heap) is in this file")
    parser.add_argument("--no-exceptions", action="store_true", help="without the exceptions that threads raise and handle")
    parser.add_argument("--stacks", action="store_true", help="each stack whole, once, however many there are")
    parser.add_argument("--all", action="store_true", help="each thread with its own stack, and each frame with its line")
    parser.add_argument("--frames", metavar="N", type=frames_at_end, default=None,
                        help="how many frames of a stack are shown at each end, from 1 to 4096 (default: 100); all: 4096, and each has its line")
    parser.add_argument("--source", metavar="FOLDER", nargs="?", const="", default=None,
                        help="show source lines, where the files are there: as they are named, or below this folder")
    parser.add_argument("-j", "--json", action="store_true", help="as JSON: one object")
    parser.add_argument("--collapsed", action="store_true", help="as flame graph tools and speedscope read stacks; of several cores together")
    parser.add_argument("--html", metavar="FILE", default="", help="write a page to share; with --group a page of the groups")
    parser.add_argument("--group", action="store_true", help="group several cores by the stack of the thread that got the signal")
    parser.add_argument("--plain", action="store_true", help="the text (with -j the JSON) and the status of `pystacks dump` (with --group `triage`) as they are")


def add_many(parser: argparse.ArgumentParser) -> None:
    """Adds what is done with many cores."""
    parser.add_argument("--by", choices=BY, default=None,
                        help="group by the crash (signal and stack of the thread that got it; the default), by all threads' stacks, or exactly as `pystacks triage` does")
    parser.add_argument("--keys", action="store_true", help="print one JSON object a line for each core: its keys, signal, process, time and newest frames")
    parser.add_argument("--from", metavar="FILE", nargs="+", dest="lines", default=(), help="with --group: group such lines, from anywhere; - is the standard input")
    parser.add_argument("--timeout", metavar="SECONDS", type=seconds, default=60, help="how long one core of --group and --keys may take (default: 60)")
    parser.add_argument("--jobs", metavar="N", type=processes, default=0, help="how many cores are looked at at a time (default: as many as there are processors)")
    parser.add_argument("--list", metavar="FOLDER", default="", help="list the crashes that the kernel's handler kept in this folder")
    parser.add_argument("--show", metavar="ID", default="", help="show the report of one of them, by its name, or its path")
    parser.add_argument("--host", metavar="NAME", default="", help="the host that the lines of --keys name")
    parser.add_argument("--key-line", action="store_true", help=argparse.SUPPRESS)


def add_taken(parser: argparse.ArgumentParser) -> None:
    """Adds where files are found, and how a core is taken."""
    parser.add_argument("--root", metavar="FOLDER", default="", help="look for the mapped files, and for sources, below this folder")
    parser.add_argument("--maps", metavar="FILE", default="", help="the process's maps, for a core without a file table")
    parser.add_argument("--keep", metavar="FILE", default="", help="keep the core that was prepared in this new file")
    parser.add_argument("--memory", metavar="MB", type=megabytes, default=512, help="how much of a core may be read (default: 512); of a longer one a part is")
    parser.add_argument("--layouts", metavar="FILE", help="the layout file (default: the core's machine's in layouts/)")
    parser.add_argument("--any-layout", action="store_true", help="show stacks by a layout that the dead process itself says is wrong")
    parser.add_argument("--records", metavar="FILE", help="the file of records, for pysalvage (default: the core's machine's in layouts/, where it is there)")
    parser.add_argument("--program", metavar="FILE", help="the program pystacks (default: the one that was built or installed)")
    parser.add_argument("--salvage", metavar="FILE", help="the program pysalvage (default: the one beside it)")


def megabytes(word: str) -> int:
    """How many MB a word says."""
    if not word.isdecimal() or not 0 < int(word) <= LARGEST:
        raise argparse.ArgumentTypeError(f"{word} is no number of MB from 1 to {LARGEST}")
    return int(word)


def number_to(word: str, largest: int, what: str) -> int:
    """A number from 1 on."""
    if not (word.isascii() and word.isdecimal()) or not 1 <= int(word) <= largest:
        raise argparse.ArgumentTypeError(f"{word} is no number of {what} from 1 to {largest}")
    return int(word)


def seconds(word: str) -> int:
    """How many seconds a word says."""
    return number_to(word, 86_400, "seconds")


def processes(word: str) -> int:
    """How many processes a word says."""
    return number_to(word, 1024, "processes")


def frames_at_end(word: str) -> int:
    """How many frames a word says."""
    if word == "all":
        return ALL_FRAMES
    if not (word.isascii() and word.isdecimal()) or not 1 <= int(word) <= ALL_FRAMES:
        raise argparse.ArgumentTypeError(f"{word} is neither a number of frames from 1 to {ALL_FRAMES} nor `all`")
    return int(word)


class Help(argparse.RawDescriptionHelpFormatter):
    """The form of the help, as wide as the terminal. It is made for each word, and finds that width itself, since `argparse` imports what
    does so for it."""

    def __init__(self, prog: str) -> None:
        super().__init__(prog, width=width() - 2)


@lru_cache(maxsize=1)
def width() -> int:
    """How wide the terminal is, as the standard library has it."""
    said = os.environ.get("COLUMNS", "")
    if said.isdecimal() and int(said) > 0:
        return int(said)
    try:
        return os.get_terminal_size(1).columns or 80
    except OSError:
        return 80


def parser_for(name: str) -> argparse.ArgumentParser:
    """The parser of the tool's words."""
    parser = argparse.ArgumentParser(prog=name, description=WHAT, epilog=with_places(EXAMPLES.format(name)), formatter_class=Help)
    parser.add_argument("core", metavar="CORE", nargs="*", help="the core's file, or - for the standard input; several with --group, --keys and --collapsed")
    add_shown(parser)
    add_many(parser)
    add_taken(parser)
    parser.add_argument("--version", action="store_true", help="the project's version, its commit, and those of its layouts")
    return parser


def hidden_by(words: argparse.Namespace) -> Tuple[str, ...]:
    """The words by which values are hidden: those that are said, and for a page, which is shared, those of secrets."""
    own = tuple(it.lower() for it in words.hide if it)
    return own + SECRETS if words.html and not words.show_secrets else own


def options_of(words: argparse.Namespace) -> Options:
    """The words, each with its type."""
    return Options(
        cores=tuple("/dev/stdin" if it == "-" else it for it in words.core), locals=words.locals, hidden=hidden_by(words), signal=not words.no_signal, registers=words.registers, tasks=not words.no_tasks,
        exceptions=not words.no_exceptions,
        waits=not words.no_waits, heap=words.heap, diff=words.diff,
        native=words.native or words.all_native, all_native=words.all_native, strict=words.strict, where=not words.no_where, shows_all=words.all, shows_stacks=words.stacks, frames=words.frames, source=words.source, json=words.json,
        collapsed=words.collapsed, html=words.html, group=words.group, plain=words.plain, root=words.root, maps=words.maps,
        keep=words.keep, memory=words.memory, any_layout=words.any_layout, layouts=words.layouts, records=words.records, program=words.program, salvage=words.salvage,
        version=words.version, by=words.by or ("exact" if words.plain else "crash"), keys=words.keys, key_line=words.key_line,
        lines=tuple(words.lines), timeout=words.timeout, jobs=words.jobs, host=words.host, kept_list=words.list, kept_one=words.show)


def clash_of_many(options: Options) -> str:
    """What is wrong with the words for many cores, if anything is."""
    word = "--group" if options.group else "--keys"
    if options.group and options.keys:
        return "of --group and --keys one is taken"
    if options.locals or options.collapsed or options.keep or options.maps:
        return f"{word} takes no -l, --collapsed, --keep and --maps"
    if options.keys and (options.json or options.html or options.plain):
        return "--keys takes no -j, --html and --plain"
    if options.plain and options.by != "exact":
        return "--plain groups exactly, as `pystacks triage` does"
    if options.json and options.by == "exact":
        return "--group takes no -j where it groups exactly"
    if options.lines and (options.by == "exact" or options.html or options.cores):
        return "--from takes no cores, no --html, and no exact groups"
    return ""


def clash_of_hidden(words: argparse.Namespace) -> str:
    """What is wrong with the words for values that are hidden, if anything is."""
    if words.show_secrets and not words.html:
        return "--show-secrets is taken with --html: elsewhere no value is hidden unasked"
    if words.hide and (words.group or words.keys or words.collapsed or words.list or words.show):
        return "--hide is taken where the values of one core are shown"
    return ""


def clash(options: Options) -> str:
    """What is wrong with the words, if anything is."""
    if options.kept_list or options.kept_one:
        return "--list and --show take no cores, and one of them is taken" if options.cores or options.kept_list and options.kept_one else ""
    forms = [it for it in ("json", "collapsed", "html", "plain") if getattr(options, it)]
    fault = clash_of_many(options) if options.group or options.keys else "--from is taken with --group" if options.lines else ""
    if fault:
        return fault
    if options.heap and (options.group or options.keys or options.lines or options.collapsed or options.plain):
        return "--heap is taken where one core is shown: as text, as JSON or as a page"
    if options.diff and not options.heap:
        return "--diff is taken with --heap"
    if options.collapsed and options.locals:
        return "--collapsed takes no -l"
    if options.plain and options.hidden:
        return "--plain takes no --hide: the program's text is passed on"
    if options.plain and options.frames is not None:
        return "--plain takes no --frames: the program shows whole stacks"
    if len(forms) > 1 and forms != ["json", "plain"]:
        return "of --json, --collapsed, --html and --plain one is taken, or --json with --plain"
    if not options.cores and not options.lines:
        hint = f": --source took {options.source} for its folder, so name it behind the core" if options.source else ""
        return f"no core is named{hint}"
    if "/dev/stdin" in options.cores and (len(options.cores) > 1 or options.group or options.keys):
        return "- is one core, and taken alone"
    if len(options.cores) > 1 and not (options.group or options.keys or options.collapsed and not options.keep):
        return "several cores are taken with --group, --keys and --collapsed alone"
    return ""


def read_options(name: str, given: Sequence[str]) -> Options:
    """What is asked for. Wrong words end the tool, with their line and status 2."""
    parser = parser_for(name)
    words = parser.parse_args(given)
    options = options_of(words)
    fault = "" if options.version else clash_of_hidden(words) or clash(options)
    if fault:
        parser.error(fault)
    return options


def versions_in(path: str) -> str:
    """The versions of Python that a layout file covers, from its own keys."""
    with open(path, encoding="utf-8", errors="replace") as file:
        text = file.read()
    numbers = [re.findall(rf"^{key} = (\d+)$", text, re.MULTILINE) for key in ("major", "first_minor", "last_minor")]
    rows = [f"{major}.{first}" if first == last else f"{major}.{first} to {major}.{last}" for major, first, last in zip(*numbers)]
    return ", ".join(rows)


def version_lines() -> List[str]:
    """The project's version, which is the layouts' too; the programs that are there; and what layouts there are."""
    lines = [version_line()]
    for name, program in (("pystacks", PROGRAM), ("pysalvage", SALVAGE)):
        lines.append(f"{name}: {program}" if os.path.isfile(program) else f"{name}: not built")
    for machine in MACHINES.values():
        path = beside(LAYOUTS, f"cpython-{machine}.toml")
        lines.append(f"layouts for {machine}: CPython {versions_in(path)}" if os.path.isfile(path) else f"layouts for {machine}: none")
    return lines


def stand_streams() -> None:
    """Puts nothing in the place of standard streams that are closed, so that no file of the core takes their number."""
    for fd in range(3):
        try:
            os.fstat(fd)
        except OSError:
            os.open(os.devnull, os.O_RDWR)


def main(name: str, given: Sequence[str]) -> int:
    """The command by its name and words. Returns the status."""
    stand_streams()
    call(name.split()[-1])
    if given[:1] == ["--handle"]:
        # (the kernel's program, which runs by itself)
        os.execv(sys.executable, [sys.executable, "-I", os.path.join(ROOT, "tools", "core_handle.py"), *given[1:]])
    options = read_options(name, given)
    try:
        return written(version_lines()) if options.version else run(options)
    except Fault as fault:
        say(str(fault), fault.then)
        return fault.status
    except MemoryError:
        say("out of memory", "--plain passes the program's text on, and reads none of it")
        return NO_ROOM
    except KeyboardInterrupt:
        return 130
