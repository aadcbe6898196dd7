#!/usr/bin/env python3
"""Writes the records of an installed CPython, from its headers, its debug information and its own running memory.

    tools/layouts/derive_records.py /usr/bin/python3.11 -o layouts/records-3.11.2-x86_64.toml

A record is what a layout doesn't have: how objects of common types, coroutines, tasks, exceptions and the collector's
lists are laid out. Each number is looked up in the headers, by a C program, and in the debug information, by gdb, as
derive_layout.py does; and the interpreter itself is run, which finds the fields of its objects by what they must hold.
One of the three must tell a number, and all that do must agree: else nothing is written, and the error names the field.
"""

import argparse
import json
import subprocess
import sys
import textwrap
from dataclasses import dataclass
from pathlib import Path
from typing import Dict, Iterable, List, Sequence, Tuple

# (the package of the tool stands beside this folder; nothing is left behind)
sys.dont_write_bytecode = True
sys.path.append(str(Path(__file__).resolve().parent.parent))

from derive_layout import Build, DeriveError, build_of, same_version, version_of
from layout_plan import Field
from layout_sources import HEADERS, Answers, Place, from_debug_information, from_headers
from pystacks_tool.places import version_line
from records_plan import RECORD_HEADERS, Held, Record, records_of, without

PROBE = Path(__file__).resolve().with_name("probe_records.py")

WHERE = """
import importlib, json, sys
names = sys.argv[1:]
found = {}
for name in names:
    try:
        found[name] = getattr(importlib.import_module(name), "__file__", None)
    except ImportError:
        pass
print(json.dumps(found))
"""
"""What an interpreter is asked: the files of its extension modules, or null of those that are built in."""

TIMEOUT = 300
"""How many seconds an interpreter is given: an emulated one needs some."""

SOURCES = ("headers", "debug information", "live probe")
"""The three that tell, in their order."""

Numbers = Dict[str, Dict[str, int]]
"""The groups of a table of records, each with its keys and numbers."""


@dataclass(frozen=True)
class Told:
    """What the sources tell of one number: by each, the number and the width (0: not told)."""

    field: Field
    by: Tuple[Tuple[str, Place], ...]
    reasons: Tuple[Tuple[str, str], ...]

    @property
    def sources(self) -> Tuple[str, ...]:
        """Those that tell it."""
        return tuple(name for name, _ in self.by)

    def fault(self) -> str:
        """What is wrong with it, if anything is."""
        spelled = f"{self.field.key} ({self.field.what})"
        if len({place.number for _, place in self.by}) > 1:
            return f"{spelled}: " + ", ".join(f"{name}: {place.number}" for name, place in self.by)
        for name, place in self.by:
            if self.field.width and place.width and place.width != self.field.width:
                return f"{spelled}: by the {name} it is {place.width} wide, and a record has {self.field.width}"
        return ""


@dataclass(frozen=True)
class Records:
    """The records of a build."""

    build: Build
    numbers: Numbers
    told: Tuple[Told, ...]
    lacking: Tuple[str, ...]
    """The groups of its version of which no source tells every number."""
    text: str = ""

    @property
    def left_out(self) -> List[str]:
        """A line for each number that no source tells, with the reasons."""
        untold = [it for it in self.told if not it.by]
        return [f"{it.field.key}: {'; '.join(map(': '.join, it.reasons))}" for it in untold]


@dataclass(frozen=True)
class Asked:
    """An interpreter that is asked: its build, and the command that runs it."""

    python: str
    build: Build

    def printed(self, *words: str) -> str:
        """What it prints, run by itself."""
        command = [self.python, *self.build.alone, "-B", "-W", "ignore", *words]
        try:
            ran = subprocess.run(
                command, stdin=subprocess.DEVNULL, capture_output=True, text=True, errors="replace", timeout=TIMEOUT)
        except (OSError, subprocess.TimeoutExpired) as error:
            raise DeriveError(f"it can't be run ({error})") from error
        return ran.stdout


def by_running(fields: Sequence[Field], asked: Asked) -> Answers:
    """What the interpreter's own memory tells, while it runs."""
    answers, keys = Answers(SOURCES[2]), {it.key for it in fields}
    answers.take("\n".join(line for line in asked.printed(str(PROBE)).splitlines() if line.split(" ")[0] in keys))
    known = {*answers.places, *answers.reasons}
    return answers.none([it for it in fields if it.key not in known], "not asked")


def binaries_of(asked: Asked, records: Sequence[Record]) -> Dict[str, str]:
    """The files whose debug information has the structs of each extension module, and of none."""
    names = sorted({it.module for it in records if it.module})
    files = json.loads(asked.printed("-c", WHERE, *names) or "{}")
    own = asked.build.binary
    return {"": own, **{name: files.get(name) or own for name in names}}


def by_debug_information(records: Sequence[Record], asked: Asked, gdb: str) -> Answers:
    """What the debug information of the interpreter and of its extension modules tells."""
    answers = Answers(SOURCES[1])
    for module, binary in binaries_of(asked, records).items():
        fields = [field for it in records if it.module == module for field in looked_up(it)]
        told = from_debug_information(fields, binary, gdb) if fields else Answers("")
        answers.places.update(told.places)
        answers.reasons.update(told.reasons)
    return answers


def looked_up(record: Record) -> List[Field]:
    """What headers and debug information are asked of a group."""
    return [it for it in record.fields() if not isinstance(it, Held)] + [field for _, field in record.same()]


def by_headers(records: Sequence[Record], build: Build, cc: str) -> Answers:
    """What the headers tell."""
    fields = [field for it in records for field in looked_up(it)]
    other = same_version(build)
    if other:
        return Answers(SOURCES[0]).none(fields, other)
    return from_headers(fields, build.includes, build.flags, cc, (*HEADERS, *RECORD_HEADERS))


def told_of_all(records: Sequence[Record], headers: Answers, debug: Answers, running: Answers) -> List[Told]:
    """What the three tell of each number. The live probe tells the number as a record has it, the others the member's
    place."""
    found = []
    for field in [field for it in records for field in it.fields()]:
        by, reasons = [], []
        for name, answers in zip(SOURCES, (headers, debug, running)):
            place = answers.places.get(field.key)
            if place:
                number = place.number if answers is running else field.number_of(place.number)
                by.append((name, Place(number, 0 if field.is_bit else place.width)))
            elif field.key in answers.reasons:
                reasons.append((name, answers.reasons[field.key]))
        found.append(Told(field, tuple(by), tuple(reasons)))
    return found


def faults_of(records: Sequence[Record], told: Sequence[Told], others: Sequence[Answers]) -> List[str]:
    """What is wrong with what is told: a line for each field."""
    faults = [fault for fault in (it.fault() for it in told) if fault]
    numbers = {it.field.key: it.by[0][1].number for it in told if it.by}
    for key, field in [pair for it in records for pair in it.same()]:
        for answers in others:
            place = answers.places.get(field.key)
            if place and place.number != numbers.get(key):
                faults.append(f"{key} is {numbers.get(key)}, and {field.what} {place.number} by the {answers.name}")
    return faults


def settled(records: Sequence[Record], told: Sequence[Told], fixed: Dict[str, int]) -> Tuple[Numbers, List[str]]:
    """The groups of which each number is told, and the names of the others."""
    known = {it.field.key: it.by[0][1].number for it in told if it.by}
    numbers, lacking = {}, []
    for it in records:
        keys = [field.key for field in it.fields()]
        if all(key in known for key in keys):
            more = [key for key in fixed if key.startswith(f"{it.name}.")]
            numbers[it.name] = {key.partition(".")[2]: {**known, **fixed}[key] for key in keys + more}
        else:
            lacking.append(it.name)
    return numbers, lacking


def wrapped(line: str) -> List[str]:
    """A comment, in lines of at most 120 characters."""
    text = " ".join(line.split())
    return [f"# {it}" for it in textwrap.wrap(text, 116, subsequent_indent="    ", break_on_hyphens=False)]


def by_group(keys: Iterable[str], all_keys: Iterable[str]) -> str:
    """Keys, where a whole group is named by its name alone."""
    whole: Dict[str, List[str]] = {}
    for key in all_keys:
        whole.setdefault(key.partition(".")[0], []).append(key)
    chosen = set(keys)
    found = []
    for group, members in whole.items():
        some = [key for key in members if key in chosen]
        found += [group] if len(some) == len(members) else some
    return ", ".join(found)


def told_by(told: Sequence[Told], fixed: Dict[str, int]) -> List[str]:
    """Lines that say which sources told which numbers, those of the most sources first."""
    sets: Dict[Tuple[str, ...], List[str]] = {}
    for it in told:
        sets.setdefault(it.sources, []).append(it.field.key)
    lines = []
    for sources, keys in sorted(sets.items(), key=lambda it: (-len(it[0]), [SOURCES.index(name) for name in it[0]])):
        if sources:
            agree = ", which agree" if len(sources) > 1 else " alone"
            named = by_group(keys, [it.field.key for it in told])
            lines.append(f"by the {' and the '.join(sources)}{agree}: {len(keys)} numbers: {named}")
    return lines + [f"by none: {', '.join(fixed)}"] * bool(fixed)


def table_of(version: Tuple[int, int], first: int, last: int, numbers: Numbers) -> str:
    """A table of records."""
    lines = ["[[records]]", f"major = {version[0]}", f"minor = {version[1]}"]
    lines += [f"first_patch = {first}", f"last_patch = {last}"]
    for name, group in numbers.items():
        lines.append(f"{name} = {{{', '.join(f'{key}={number}' for key, number in group.items())}}}")
    return "\n".join(lines) + "\n"


def comments(build: Build, told: Sequence[Told], fixed: Dict[str, int], lacking: Sequence[str], cc: str) -> List[str]:
    """The head of the file: which build it was read from, and how."""
    lines = [
        f"The records of CPython {build.dotted} on {build.machine}, written by tools/layouts/derive_records.py.",
        f"build: {build.build}",
        f"options that change records: {', '.join(build.options) or 'none'}",
    ]
    if any(SOURCES[0] in it.sources for it in told):
        lines.append(f"headers of the build, by {version_of(cc)}")
    lines += told_by(told, fixed)
    if lacking:
        lines.append(f"left out, since nothing tells them here: {', '.join(lacking)}")
    return [part for line in lines for part in wrapped(line)]


def derive_records(python: str, cc: str = "cc", gdb: str = "gdb") -> Records:
    """Derives the records of an interpreter."""
    build = build_of(python)
    asked = Asked(python, build)
    records = records_of(build.minor)
    fields = [field for it in records for field in it.fields()]
    nothing = [field for it in records for field in looked_up(it)]
    headers = by_headers(records, build, cc) if cc else Answers(SOURCES[0]).none(nothing, "not asked")
    debug = by_debug_information(records, asked, gdb) if gdb else Answers(SOURCES[1]).none(nothing, "not asked")
    told = told_of_all(records, headers, debug, by_running(fields, asked))
    faults = faults_of(records, told, (headers, debug))
    if faults:
        raise DeriveError("\n".join(faults))
    fixed = without(build.minor)
    numbers, lacking = settled(records, told, fixed)
    shown = [it for it in told if it.field.key.partition(".")[0] in numbers]
    patch = build.version[2]
    head = "\n".join(comments(build, shown, fixed, lacking, cc))
    text = f"{head}\n\n{table_of(build.minor, patch, patch, numbers)}"
    return Records(build, numbers, tuple(told), tuple(lacking), text)


def main() -> int:
    """The command."""
    parser = argparse.ArgumentParser(description=__doc__.splitlines()[0])
    parser.add_argument("python", nargs="?", default=sys.executable, help="the interpreter (default: this one)")
    parser.add_argument("-o", "--output", help="the file to write (default: the standard output)")
    parser.add_argument("--cc", default="cc", help="the C compiler, or '' to ask no headers (default: cc)")
    parser.add_argument("--gdb", default="gdb", help="the debugger, or '' to ask no debug information (default: gdb)")
    parser.add_argument(
        "--version", action="version", version=version_line(), help="the project's version, and its commit")
    words = parser.parse_args()
    try:
        derived = derive_records(words.python, words.cc, words.gdb)
    except DeriveError as error:
        for line in str(error).splitlines():
            print(f"derive_records: {words.python}: {line}", file=sys.stderr)
        return 1
    for line in derived.left_out:
        print(f"derive_records: left out: {line}", file=sys.stderr)
    if words.output:
        Path(words.output).write_text(derived.text, encoding="utf-8")
    else:
        print(derived.text, end="")
    return 0


if __name__ == "__main__":
    sys.exit(main())
