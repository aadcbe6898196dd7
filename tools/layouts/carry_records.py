#!/usr/bin/env python3
"""Writes the joined records of another machine: those of its own builds as they stand, and those of x86-64 with the
numbers that the headers of the same build give for that machine.

    tools/layouts/carry_records.py --cc "$PWD/cc" -o layouts/records-aarch64.toml

Each Python from which records of x86-64 were read has to be installed, from 3.7 on, but for those patch releases of
which the machine has its own. Its headers are compiled twice, by this machine's compiler and by `--cc`, whose programs
have to run here. What headers tell stands as they tell it for the other machine; the rest is carried over as it is, and
the file says which.
"""

import argparse
import sys
from typing import List, Tuple

from carry_layouts import FIRST, FROM, OWN, CarryError, installed
from derive_layout import version_of
from derive_records import Numbers, by_group, by_headers, wrapped
from join_layouts import LAYOUTS, put
from join_records import Stored, joined_builds, record_files, stored_of
from records_plan import records_of

HEAD = """\
# The records of CPython on {machine}, written by tools/layouts/carry_records.py. No records but these were read from a
# build of {machine}: {own}.
# The others were read from builds of x86_64, as their lines say. What headers tell is what they tell for {machine}, by
# the pyconfig.h of x86_64; what none tells stands here as it is on x86_64.
# Each table covers the patch releases from first_patch to last_patch, both of which were read. All tables of a release
# together are what is known of it. A group that is another in the next release that was read covers none between them.
"""


def carried(stored: Stored, machine: str, cc: str) -> Stored:
    """The records of a build of x86-64 for the other machine, with a head that says what of them is known there."""
    dotted = ".".join(map(str, stored.version))
    build = installed(dotted)
    records = [it for it in records_of(stored.minor) if it.name in stored.numbers]
    own, other = (by_headers(records, build, it) for it in (OWN, cc))
    fields = [field for it in records for field in it.fields()]
    both = [it for it in fields if it.key in own.places and it.key in other.places]
    if not both:
        raise CarryError(next(iter(other.reasons.values()), "nothing was told"))
    numbers: Numbers = {name: dict(group) for name, group in stored.numbers.items()}
    differing, wrong = [], []
    for it in both:
        group, _, key = it.key.partition(".")
        here, there = (it.number_of(answers.places[it.key].number) for answers in (own, other))
        if numbers[group][key] != here:
            wrong.append(it.key)
        if here != there:
            differing.append(f"{it.key} {there}, not {here}")
        numbers[group][key] = there
    if wrong:
        raise CarryError(f"the headers give other numbers than the stored records: {', '.join(wrong)}")
    keys = [it.key for it in fields]
    left = [it.key for it in fields if it not in both]
    by = f"{version_of(OWN)} for {FROM} and {version_of(cc)} for {machine}"
    but = f" but for these: {'; '.join(differing)}" if differing else ""
    lines = [
        f"The records of CPython {dotted} on {FROM}, which stand here for {machine}",
        f"build: {build.build}",
        f"headers of that build, by {by}: {len(both)} numbers, which agree{but}",
        f"carried over, since no header tells them: {len(left)} numbers: {by_group(left, keys)}",
    ]
    return Stored(stored.version, "\n".join(part for line in lines for part in wrapped(line)), numbers)


def builds_of(machine: str, cc: str) -> Tuple[List[Stored], List[str], List[str]]:
    """The records of the machine, the names of the files that are its own, and why others are lacking."""
    own = {stored_of(path.read_text(encoding="utf-8")).version: path for path in record_files(LAYOUTS, machine)}
    builds = [stored_of(path.read_text(encoding="utf-8")) for path in own.values()]
    lacking = []
    for path in record_files(LAYOUTS, FROM):
        stored = stored_of(path.read_text(encoding="utf-8"))
        if stored.minor >= FIRST and stored.version not in own:
            try:
                builds.append(carried(stored, machine, cc))
            except CarryError as reason:
                lacking.append(f"{path.name}: {reason}")
    return builds, [path.name for path in own.values()], lacking


def main() -> int:
    """The command."""
    parser = argparse.ArgumentParser(description=__doc__.splitlines()[0])
    parser.add_argument("-o", "--output", metavar="FILE", help="the file to write (default: the standard output)")
    parser.add_argument("--machine", default="aarch64", help="the machine (default: aarch64)")
    parser.add_argument("--cc", required=True, help="the C compiler for it, whose programs run here")
    words = parser.parse_args()
    builds, own, lacking = builds_of(words.machine, words.cc)
    for reason in lacking:
        print(f"carry_records: {reason}", file=sys.stderr)
    if lacking:
        return 1
    head = HEAD.format(machine=words.machine, own=", ".join(own) or "none")
    put("\n".join([head, *joined_builds(builds)]), words.output)
    return 0


if __name__ == "__main__":
    sys.exit(main())
