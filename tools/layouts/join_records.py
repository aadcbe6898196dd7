#!/usr/bin/env python3
"""Joins the records of one machine's builds into one file, so that nobody has to pick one.

    tools/layouts/join_records.py -o layouts/records-x86_64.toml

A group that is the same in patch releases of one minor version which follow each other among those at hand stands in
one table, which covers these and what is between them. Where it is another in the next one, each has its own table.
"""

import argparse
import re
import sys
from dataclasses import dataclass
from pathlib import Path
from typing import Dict, List, Tuple

from derive_records import Numbers, table_of
from find_pythons import version_key
from join_layouts import LAYOUTS, put
from layout_plan import Version

HEAD = """\
# The records of CPython on {machine} in this folder, joined by tools/layouts/join_records.py: {names}.
# Each table covers the patch releases from first_patch to last_patch, both of which were read. All tables of a release
# together are what is known of it. A group that is another in the next release that was read covers none between them.
"""

Patches = Tuple[int, int]
"""The first patch release of a table, and the last."""


@dataclass(frozen=True)
class Stored:
    """The records of one build, as a file has them."""

    version: Tuple[int, int, int]
    head: str
    numbers: Numbers

    @property
    def minor(self) -> Version:
        """The version without its last number."""
        return self.version[:2]


def stored_of(text: str) -> Stored:
    """What a file of one build has."""
    head, _, body = text.partition("\n[[records]]")
    told = dict(re.findall(r"^(major|minor|first_patch) = (\d+)$", body, re.MULTILINE))
    major, minor, patch = (int(told[key]) for key in ("major", "minor", "first_patch"))
    return Stored((major, minor, patch), head.strip("\n"), groups_in(body))


def groups_in(text: str) -> Numbers:
    """The groups of one table, each with its numbers."""
    groups = re.findall(r"^(\w+) = \{(.*)\}$", text, re.MULTILINE)
    return {name: {key: int(number) for key, number in re.findall(r"(\w+)=(\d+)", inside)} for name, inside in groups}


def runs_of(name: str, builds: List[Stored]) -> List[Tuple[Patches, Dict[str, int]]]:
    """The numbers of a group, with the patches which they cover: builds of one minor version that follow each other."""
    found: List[Tuple[Patches, Dict[str, int]]] = []
    before = None
    for build in builds:
        numbers, patch = build.numbers.get(name), build.version[2]
        if numbers is not None and numbers == before:
            found[-1] = ((found[-1][0][0], patch), numbers)
        elif numbers is not None:
            found.append(((patch, patch), numbers))
        before = numbers
    return found


def tables_of(builds: List[Stored]) -> List[Tuple[Patches, Numbers]]:
    """The tables of one minor version's builds, in the order of their first patches, the longest of these first."""
    tables: Dict[Patches, Numbers] = {}
    for name in dict.fromkeys(name for build in builds for name in build.numbers):
        for patches, numbers in runs_of(name, builds):
            tables.setdefault(patches, {})[name] = numbers
    return sorted(tables.items(), key=lambda it: (it[0][0], -it[0][1]))


def joined_builds(builds: List[Stored]) -> List[str]:
    """The texts of the joined file: for each minor version, the heads of its builds and its tables."""
    texts = []
    for minor in sorted({build.minor for build in builds}):
        mine = sorted((build for build in builds if build.minor == minor), key=lambda build: build.version)
        heads = "\n#\n".join(build.head for build in mine)
        tables = [table_of(minor, *patches, numbers) for patches, numbers in tables_of(mine)]
        texts.append("\n\n".join([heads, "\n".join(tables)]))
    return texts


def record_files(folder: Path, machine: str = "*") -> List[Path]:
    """The files of one build each, by version. (The name of a joined file has no version.)"""
    return sorted(folder.glob(f"records-*.*-{machine}.toml"), key=lambda path: version_key(path.name))


def joined_records(files: List[Path], machine: str) -> str:
    """The text of the joined file."""
    head = HEAD.format(machine=machine, names=", ".join(path.name for path in files))
    return "\n".join([head] + joined_builds([stored_of(path.read_text(encoding="utf-8")) for path in files]))


def main() -> int:
    """The command."""
    parser = argparse.ArgumentParser(description=__doc__.splitlines()[0])
    parser.add_argument("-o", "--output", metavar="FILE", help="the file to write (default: the standard output)")
    parser.add_argument("--machine", default="x86_64", help="the machine (default: x86_64)")
    words = parser.parse_args()
    files = record_files(LAYOUTS, words.machine)
    if not files:
        print(f"join_records: there are no records of {words.machine} in {LAYOUTS}", file=sys.stderr)
        return 1
    put(joined_records(files, words.machine), words.output)
    return 0


if __name__ == "__main__":
    sys.exit(main())
