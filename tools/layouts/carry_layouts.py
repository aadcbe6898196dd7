#!/usr/bin/env python3
"""Writes the joined layouts of another machine: those of its own builds as they stand, and those of x86-64 where the
headers of the same build give the same numbers for both machines.

    tools/layouts/carry_layouts.py --cc "$PWD/cc" -o layouts/cpython-aarch64.toml

For each version from 3.7 on that has no layout of that machine, the Python from which that of x86-64 was read has to be
installed. Its headers are compiled twice, by this machine's compiler and by `--cc`, whose programs have to run here
(README.md shows one). Where a number differs, or nothing is compared, nothing is written, and a line says why.
"""

import argparse
import re
import sys
from dataclasses import dataclass
from typing import Dict, List, Tuple

from derive_layout import Build, DeriveError, build_of, chain_told, same_version, version_of
from find_pythons import pythons
from join_layouts import LAYOUTS, put
from layout_plan import VERSIONS, Plan, Version, plan_of
from layout_sources import Answers, from_headers

FROM = "x86_64"
"""The machine whose layouts are carried."""

OWN = "cc"
"""The compiler of this machine."""

FIRST: Version = (3, 7)
"""The first version for which the program knows the places of another machine."""

HEAD = """\
# The layouts of CPython on {machine}, written by tools/layouts/carry_layouts.py. No layout but these was read from a
# build of {machine}: {own}.
# Each other one was read from a build of x86_64, as its lines say, and stands here since the headers of that build give
# the same numbers for both machines. The pyconfig.h among them is that of x86_64, as none of {machine} is at hand.
"""


class CarryError(Exception):
    """Why a layout can't stand for another machine."""


@dataclass(frozen=True)
class Compared:
    """What the headers of a build tell for two machines."""

    plan: Plan
    own: Answers
    other: Answers

    @property
    def both(self) -> List[str]:
        """The keys of the layout that both tell."""
        return [it.key for it in self.plan.wanted if it.key in self.own.places and it.key in self.other.places]

    @property
    def differing(self) -> List[str]:
        """Those of them that differ."""
        return [key for key in self.both if self.own.places[key] != self.other.places[key]]

    @property
    def left(self) -> List[str]:
        """The keys that are not compared."""
        both = set(self.both)
        return [it.key for it in self.plan.wanted if it.key not in both]


def numbers_by_key(text: str) -> Dict[str, int]:
    """The numbers of a layout's groups as a stored file has them, by keys such as thread.next."""
    groups = re.findall(r"^(\w+) = \{(.*)\}$", text, re.MULTILINE)
    fields = [(name, field) for name, inside in groups for field in re.findall(r"(\w+)=(\d+)", inside)]
    return {f"{name}.{key}": int(number) for name, (key, number) in fields}


def installed(dotted: str) -> Build:
    """The installed Python of a version, whose headers are there."""
    for python in pythons():
        try:
            build = build_of(python)
        except DeriveError:
            continue
        if build.dotted == dotted and build.machine == FROM and not same_version(build):
            return build
    raise CarryError(f"no Python {dotted} of {FROM} is installed")


def compared(build: Build, cc: str) -> Compared:
    """What the headers of a build tell for this machine and by the other compiler."""
    plan = plan_of(build.minor)
    fields = [*plan.wanted, *plan.extra]
    own, other = (from_headers(fields, build.includes, build.flags, it) for it in (OWN, cc))
    return Compared(plan, own, other)


def check(found: Compared, text: str) -> None:
    """Refuses what is not compared at all, what differs, and headers that give other numbers than the stored layout."""
    if not found.both:
        raise CarryError(next(iter(found.other.reasons.values()), "nothing was told"))
    if found.differing:
        raise CarryError(f"these numbers differ: {', '.join(found.differing)}")
    stored = numbers_by_key(text)
    told = {it.key: it.number_of(found.own.places[it.key].number) for it in found.plan.wanted if it.key in found.both}
    wrong = [key for key, number in told.items() if stored.get(key) != number]
    if wrong:
        raise CarryError(f"the headers give other numbers than the stored layout: {', '.join(wrong)}")


def carried(text: str, machine: str, cc: str) -> str:
    """A stored layout of x86-64 with a head that says why it stands for this machine."""
    head, _, body = text.partition("\n[[layout]]")
    dotted = head.splitlines()[0].split()[5]
    build = installed(dotted)
    found = compared(build, cc)
    check(found, text)
    places = {it.key: found.other.places[it.key].number for it in found.plan.extra if it.key in found.other.places}
    said = "all" if not found.left else "all but these"
    by = f"{version_of(OWN)} for {FROM} and {version_of(cc)} for {machine}"
    lines = [
        f"The layout of CPython {dotted} on {FROM}, which stands here for {machine}",
        f"build: {build.build}",
        f"headers of that build, by {by}, which agree: {said}",
    ]
    if found.left:
        lines.append(f"not compared, since no header tells them: {', '.join(found.left)}")
    lines += [f"{line}, by these headers for {machine}" for line in chain_told(found.plan, places)]
    lines.append(f"tried on cores of {machine}: nothing")
    return "\n".join(f"# {' '.join(line.split())}" for line in lines) + f"\n\n[[layout]]{body}"


def texts_of(machine: str, cc: str) -> Tuple[List[str], List[str], List[str]]:
    """The layouts in the order of versions, the names of those that are this machine's own, and why others are
    lacking."""
    texts, own, lacking = [], [], []
    for major, minor in [it for it in VERSIONS if it >= FIRST]:
        path = LAYOUTS / f"cpython-{major}.{minor}-{machine}.toml"
        if path.is_file():
            own.append(path.name)
            texts.append(path.read_text(encoding="utf-8"))
            continue
        try:
            stored = LAYOUTS / f"cpython-{major}.{minor}-{FROM}.toml"
            texts.append(carried(stored.read_text(encoding="utf-8"), machine, cc))
        except (OSError, CarryError) as reason:
            lacking.append(f"{major}.{minor}: {reason}")
    return texts, own, lacking


def main() -> int:
    """The command."""
    parser = argparse.ArgumentParser(description=__doc__.splitlines()[0])
    parser.add_argument("-o", "--output", metavar="FILE", help="the file to write (default: the standard output)")
    parser.add_argument("--machine", default="aarch64", help="the machine (default: aarch64)")
    parser.add_argument("--cc", required=True, help="the C compiler for it, whose programs run here")
    words = parser.parse_args()
    texts, own, lacking = texts_of(words.machine, words.cc)
    for reason in lacking:
        print(f"carry_layouts: {reason}", file=sys.stderr)
    if lacking:
        return 1
    text = "\n".join([HEAD.format(machine=words.machine, own=", ".join(own) or "none"), *texts])
    put(text, words.output)
    return 0


if __name__ == "__main__":
    sys.exit(main())
