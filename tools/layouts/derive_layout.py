#!/usr/bin/env python3
"""Writes the layout file of an installed CPython, from its own headers and debug information; or that of one which left a core.

    tools/layouts/derive_layout.py /usr/bin/python3.9 -o layouts/cpython-3.9-x86_64.toml
    tools/layouts/derive_layout.py --from-core core -o own.toml

The interpreter is asked which build it is and where its headers are. Each number is then looked up in the headers,
by a C program that is compiled against them, and in the debug information of the binary, by gdb. One of the two must
tell it, and where both do they must agree: else nothing is written, and the error names the field. Of a core the dead process is asked
what it tells of itself (layout_from_core.py).
"""

import argparse
import json
import re
import shlex
import subprocess
import sys
from dataclasses import dataclass
from pathlib import Path
from typing import Any, Dict, List, Optional, Sequence, Tuple

# (the package of the tool stands beside this folder; nothing is left behind)
sys.dont_write_bytecode = True
sys.path.append(str(Path(__file__).resolve().parent.parent))

from layout_from_core import layout_of_core
from layout_plan import VERSIONS, Field, Group, Plan, Version, plan_of
from layout_sources import Answers, from_debug_information, from_headers
from pystacks_tool.faults import Fault, say
from pystacks_tool.options import Options
from pystacks_tool.places import version_line

ASK = """
import json, os, platform, re, struct, sys, sysconfig
with open("/proc/self/maps") as maps:
    libraries = re.findall(r"(/.*/libpython[23][.][0-9].*)", maps.read())
told = {
    "implementation": platform.python_implementation(),
    "version": list(sys.version_info[:3]),
    "level": sys.version_info[3],
    "build": " ".join(sys.version.split()),
    "executable": os.path.realpath(sys.executable),
    "libraries": libraries,
    "machine": platform.machine(),
    "pointer": struct.calcsize("P"),
    "order": sys.byteorder,
    "options": [name for name in ("Py_DEBUG", "Py_TRACE_REFS", "Py_GIL_DISABLED") if sysconfig.get_config_var(name)],
    "includes": [sysconfig.get_paths()[name] for name in ("include", "platinclude")],
    "flags": [sysconfig.get_config_var(name) or "" for name in ("CPPFLAGS", "CFLAGS")],
}
print(json.dumps(told))
"""
"""What an interpreter is asked: a program for Python 2 and 3 that prints one line of JSON."""

ALONE = {2: ("-E", "-s"), 3: ("-I",)}
"""The words that keep an interpreter from what the user has set and installed, by its major."""

OPTIONS = {"Py_DEBUG": "debug", "Py_TRACE_REFS": "trace refs", "Py_GIL_DISABLED": "free threads"}
"""The options of a build that change records, as the head of a file names them."""


class DeriveError(Exception):
    """Why there is no layout: one line, or, where fields are at fault, one for each, whose keys are `keys`."""

    def __init__(self, why: str, keys: Sequence[str] = ()):
        super().__init__(why)
        self.keys = tuple(keys)

    @property
    def brief(self) -> str:
        """The first line, and how many more there are."""
        first, *others = str(self).splitlines()
        return f"{first} (and {len(others)} more fields)" if others else first


@dataclass(frozen=True)
class Build:
    """An installed CPython, as it tells of itself."""

    executable: str
    version: Tuple[int, int, int]
    build: str
    binary: str
    """The file that has the interpreter's code: its library, where it has one, else the executable."""
    machine: str
    includes: Tuple[str, ...]
    options: Tuple[str, ...]
    """What was configured that may change records, and `shared` where its code is in a library."""
    flags: Tuple[str, ...]
    """What its C code was told by -D and -U."""

    @property
    def minor(self) -> Version:
        """The version without its last number."""
        return self.version[:2]

    @property
    def alone(self) -> Tuple[str, ...]:
        """The words by which it runs a program, whatever the user has set."""
        return ALONE[self.version[0]]

    @property
    def dotted(self) -> str:
        """The version, as in 3.9.18."""
        return ".".join(map(str, self.version))


@dataclass(frozen=True)
class Derived:
    """A layout that was derived."""

    build: Build
    text: str
    numbers: Dict[str, int]
    """The layout's numbers, by keys such as thread.next; also interpreter.next, and runtime.head and runtime.current,
    places in _PyRuntime, where something tells them."""
    lock: str
    with_dicts: bool


@dataclass(frozen=True)
class How:
    """How a layout is derived: by which commands (an empty one is not used), and what its head says of it."""

    cc: str = "cc"
    gdb: str = "gdb"
    with_dicts: bool = True
    tried: str = ""


def told_of(python: str) -> Dict[str, Any]:
    """What an interpreter tells of itself."""
    # (Python 2 has no -I, and ends with status 2)
    for words in (ALONE[3], ALONE[2]):
        try:
            ran = subprocess.run([python, *words, "-c", ASK], stdin=subprocess.DEVNULL, capture_output=True, text=True, timeout=60)
        except (OSError, subprocess.TimeoutExpired) as error:
            raise DeriveError(f"it can't be run ({error})") from error
        if ran.returncode == 0:
            break
    try:
        told: Dict[str, Any] = json.loads(ran.stdout)
        return told
    except ValueError as error:
        last = (ran.stderr.strip().splitlines() or ["it told nothing of itself"])[-1]
        raise DeriveError(f"it is no Python that runs ({last})") from error


def build_of(python: str) -> Build:
    """Asks an interpreter which build it is. An error says why no layout can describe it."""
    told = told_of(python)
    major, minor, patch = told["version"]
    version = (major, minor, patch)
    name = f"{told['implementation']} {told['build']}"
    if told["implementation"] != "CPython" or version[:2] not in VERSIONS or told["level"] != "final":
        raise DeriveError(f"it is {name}, and layouts are derived for CPython 2.7 and 3.6 to 3.13")
    if told["pointer"] != 8 or told["order"] != "little":
        raise DeriveError("it isn't a 64-bit little-endian build")
    if "Py_GIL_DISABLED" in told["options"]:
        raise DeriveError("it is a free-threaded build, for which there is no plan")
    return Build(
        executable=told["executable"],
        version=version,
        build=told["build"],
        binary=(told["libraries"] or [told["executable"]])[0],
        machine=told["machine"],
        includes=tuple(dict.fromkeys(told["includes"])),
        options=tuple(OPTIONS[it] for it in told["options"]) + (("shared",) if told["libraries"] else ()),
        flags=macros_in(" ".join(told["flags"])),
    )


def macros_in(flags: str) -> Tuple[str, ...]:
    """The -D and -U of a compiler's flags, but for FORTIFY, which wants optimizing and changes no struct."""
    try:
        words = shlex.split(flags)
    except ValueError:
        words = flags.split()
    found = [it for it in words if it[:2] in ("-D", "-U") and len(it) > 2 and "FORTIFY" not in it]
    return tuple(dict.fromkeys(found))


def same_version(build: Build) -> Optional[str]:
    """Why the headers are not this build's, where their version is another."""
    for folder in build.includes:
        header = Path(folder) / "patchlevel.h"
        if header.is_file():
            defined = re.search(r'^#define PY_VERSION\s+"(.*)"', header.read_text(), re.MULTILINE)
            told = defined.group(1) if defined else "no version"
            return None if told.rstrip("+") == build.dotted else f"the headers in {folder} are of {told}"
    return None


def asked(fields: Sequence[Field], build: Build, how: How) -> List[Answers]:
    """What the sources that are at hand tell."""
    headers, debug = Answers("headers"), Answers("debug information")
    other = same_version(build)
    if not how.cc:
        headers.none(fields, "not asked")
    elif other:
        headers.none(fields, other)
    else:
        headers = from_headers(fields, build.includes, build.flags, how.cc)
    if not how.gdb:
        debug.none(fields, "not asked")
    else:
        debug = from_debug_information(fields, build.binary, how.gdb)
    return [headers, debug]


def fault_of(it: Field, answers: Sequence[Answers]) -> Optional[str]:
    """What is wrong with the answers for a field, if anything is."""
    told = [(source.name, source.places[it.key]) for source in answers if it.key in source.places]
    spelled = f"{it.key} ({it.what})"
    if not told:
        return f"{spelled}: " + "; ".join(f"{source.name}: {source.reasons[it.key]}" for source in answers)
    if len({place.number for _, place in told}) > 1:
        return f"{spelled}: " + ", ".join(f"{name} say {place.number}" for name, place in told)
    for name, place in told:
        if it.width and place.width != it.width:
            return f"{spelled}: by {name} it is {place.width} wide, and a layout has {it.width}"
    return None


def settled(plan: Plan, answers: Sequence[Answers]) -> Dict[str, int]:
    """The numbers that the sources tell. An error names each field that none does, or on which they differ."""
    found = {it.key: fault_of(it, answers) for it in plan.wanted}
    faults = {key: why for key, why in found.items() if why}
    if faults:
        raise DeriveError("\n".join(faults.values()), list(faults))
    extra = [it for it in plan.extra if fault_of(it, answers) is None]
    numbers = {}
    for it in [*plan.wanted, *extra]:
        place = next(source.places[it.key].number for source in answers if it.key in source.places)
        numbers[it.key] = it.number_of(place)
    return numbers


def values_of(it: Group, numbers: Dict[str, int]) -> List[Tuple[str, int]]:
    """A group's keys and numbers, its size first: up to the end of its last field, unless a field says it."""
    values = [(field.key.partition(".")[2], numbers[field.key]) for field in it.fields]
    if it.has_size:
        ends = [numbers[field.key] + field.length for field in it.fields if field.length]
        values.insert(0, ("size", numbers[it.size.key] if it.size else max(ends)))
    return values + list(it.constants)


def told_by(plan: Plan, answers: Sequence[Answers]) -> List[str]:
    """Lines that say which source told which numbers."""
    lines, headers, debug = [], answers[0], answers[1]
    both = [it.key for it in plan.wanted if it.key in headers.places and it.key in debug.places]
    for name, source, other in (("headers", headers, debug), ("debug information", debug, headers)):
        alone = [it.key for it in plan.wanted if it.key in source.places and it.key not in other.places]
        if alone:
            lines.append(f"by the {name} alone: {'all' if len(alone) == len(plan.wanted) else ', '.join(alone)}")
    if both:
        lines.insert(0, f"by headers and debug information, which agree: {'all' if not lines else 'all but these'}")
    return lines


def version_of(command: str) -> str:
    """The first line of what a compiler says of its version."""
    ran = subprocess.run([command, "--version"], stdout=subprocess.PIPE, stderr=subprocess.DEVNULL, text=True)
    return (ran.stdout.splitlines() or ["unknown"])[0]


def chain_told(plan: Plan, numbers: Dict[str, int]) -> List[str]:
    """Lines that say where interpreters are found, and which one is."""
    newest, current = "the newest interpreter's address", "that of the current thread"
    if dict(plan.families)["head"] == "symbol":
        lines = [f"the symbol interp_head names {newest}", f"the symbol _PyThreadState_Current names {current}"]
    else:
        held = {"runtime.head": newest, "runtime.current": current}
        lines = [f"_PyRuntime holds {what} at {numbers[key]}" for key, what in held.items() if key in numbers]
    if "interpreter.next" in numbers:
        next_at = numbers["interpreter.next"]
        lines.append(f"an interpreter has the address of the next at {next_at}: the last in that chain is the main one")
    return lines


def comments(build: Build, plan: Plan, numbers: Dict[str, int], answers: Sequence[Answers], how: How) -> List[str]:
    """The head of the file: which build it was read from, and how."""
    lines = [
        f"The layout of CPython {build.dotted} on {build.machine}, written by tools/layouts/derive_layout.py.",
        f"build: {build.build}",
        f"options that change records: {', '.join(build.options) or 'none'}",
    ]
    if answers[0].places:
        lines.append(f"headers of the build, by {version_of(how.cc)}")
    if answers[1].places:
        lines.append("debug information of the build")
    lines += told_by(plan, answers)
    if not how.with_dicts:
        lines.append("without dicts, since that was asked for")
    small = "" if any(it.key == "small.value" for it in plan.wanted) else ", and small (there is no PyIntObject)"
    lines.append(f"by neither: frame.code_tag_bits (no address of code has a tag){small}")
    lines += [
        f"{it.key} is {it.what}, a pointer: 0 always, as members that are not shown mark where C called"
        for it in plan.wanted
        if it.is_last
    ]
    lines += chain_told(plan, numbers)
    lines.append(f"tried on cores of this build: {how.tried or 'nothing'}")
    return [f"# {' '.join(line.split())}" for line in lines]


def derive(build: Build, how: How = How()) -> Derived:
    """Derives the layout of a build."""
    plan = plan_of(build.minor, how.with_dicts)
    answers = asked([*plan.wanted, *plan.extra], build, how)
    numbers = settled(plan, answers)
    lines = comments(build, plan, numbers, answers, how)
    families = dict(plan.families)
    major, minor = build.minor
    lines += ["", "[[layout]]", f"major = {major}", f"first_minor = {minor}", f"last_minor = {minor}"]
    lines.append(f"bytes_text = {'true' if major == 2 else 'false'}")
    lines += [f'{name} = "{word}"' for name, word in families.items()]
    for it in plan.groups:
        inside = ", ".join(f"{key}={number}" for key, number in values_of(it, numbers))
        lines.append(f"{it.name} = {{{inside}}}")
    return Derived(build, "\n".join(lines) + "\n", numbers, families["lock"], families["dicts"] != "none")


def parser_of() -> argparse.ArgumentParser:
    """The words of the command."""
    parser = argparse.ArgumentParser(description=__doc__.splitlines()[0])
    parser.add_argument("python", nargs="?", default=sys.executable, help="the interpreter (default: this one)")
    parser.add_argument("--from-core", metavar="CORE", help="the core of a process, which is asked in place of an interpreter")
    parser.add_argument("--root", metavar="FOLDER", default="", help="of a core: look for the mapped files below this folder")
    parser.add_argument("--layouts", metavar="FILE", help="of a core: the file of layouts with one of which it is begun (default: its machine's)")
    parser.add_argument("--salvage", metavar="FILE", help="of a core: the program pysalvage (default: the one that was built or installed)")
    parser.add_argument("-o", "--output", help="the file to write (default: the standard output)")
    parser.add_argument("--without-dicts", action="store_true", help='leave dicts out: dicts = "none"')
    parser.add_argument("--tried", default="", help="what the head says was tried on cores (default: nothing)")
    parser.add_argument("--cc", default="cc", help="the C compiler, or '' to ask no headers (default: cc)")
    parser.add_argument("--gdb", default="gdb", help="the debugger, or '' to ask no debug information (default: gdb)")
    parser.add_argument("--version", action="version", version=version_line(), help="the project's version, and its commit")
    return parser


def put(text: str, output: Optional[str]) -> int:
    """Writes a layout file, or prints it where no file is named, and returns 0."""
    if output:
        Path(output).write_text(text, encoding="utf-8")
    else:
        print(text, end="")
    return 0


def from_core(words: argparse.Namespace) -> int:
    """Writes the layout of a core, and returns the status."""
    try:
        options = Options(signal=False, root=words.root, layouts=words.layouts, salvage=words.salvage)
        return put(layout_of_core(words.from_core, options), words.output)
    except Fault as fault:
        say(f"{words.from_core}: {fault}", fault.then, "derive_layout")
        return fault.status


def main() -> int:
    """The command."""
    words = parser_of().parse_args()
    if words.from_core:
        return from_core(words)
    try:
        how = How(words.cc, words.gdb, not words.without_dicts, words.tried)
        derived = derive(build_of(words.python), how)
    except DeriveError as error:
        for line in str(error).splitlines():
            print(f"derive_layout: {words.python}: {line}", file=sys.stderr)
        return 1
    return put(derived.text, words.output)


if __name__ == "__main__":
    sys.exit(main())
