#!/usr/bin/env python3
"""Looks for built-in types in cores of real Pythons, and compares their addresses with what the processes said.

    tools/check/real/real_types.py --program crates/listing/out/listing [PYTHON..]

For each Python of 3.6 to 3.13 that is installed: a process dies with objects of all kinds (types_child.py), among them
objects of classes that have the names of built-in types and are none. Of the types that are found by the code of a
frame and in their modules' dicts, without a symbol, each is where the process said that it is. Then the same is asked of
copies of the core in which each such type states another size of its objects, or is no type: none of them is found. The
file of records is the stored one. The status is 0 exactly where nothing that was tried failed.
"""

import argparse
import json
import subprocess
import sys
import tempfile
from pathlib import Path
from typing import Callable, Dict, Sequence, Tuple

from rooms import ROOT  # (first: it makes the other rooms known)

from child_cores import ALL_PRIVATE, SECONDS, Failure, Skip, aborted, core_names
from derive_layout import DeriveError, build_of
from each_python import tell_each
from find_pythons import pythons
from pystacks_tool.cores.maps import segments_of
from real_core import images_of

CHILD = Path(__file__).with_name("types_child.py")
LAYOUTS = ROOT / "layouts"

BY_CODE = ("code", "type", "str", "bytes", "tuple", "dict")
"""Those that a frame's code and the dict of modules lead to. (`object` is of no object that the process has.)"""

BY_MODULE = ("deque", "defaultdict", "OrderedDict", "lock", "RLock", "date", "time", "datetime", "timedelta", "Decimal", "partial")
"""Those that their modules have, and with asyncio's records these two more."""

OF_ASYNCIO = ("Future", "Task")

LOAD, CLASS, BASIC_SIZE = 1, 8, 32
"""The kind of segments that are memory; where an object has its class, and a type the size of its objects, in bytes."""


def listed(listing: Path, core: Path, machine: str) -> Dict[str, Tuple[int, str]]:
    """What the program `listing` finds in a core: the address and the way, by the names of types."""
    files = [LAYOUTS / f"cpython-{machine}.toml", LAYOUTS / f"records-{machine}.toml"]
    words = [listing, "types", *files, core, *images_of(core)]
    run = subprocess.run(words, stdin=subprocess.DEVNULL, stdout=subprocess.PIPE, timeout=SECONDS)
    lines = [line.split(" ") for line in run.stdout.decode("ascii", "replace").splitlines()]
    if run.returncode != 0 or not lines:
        raise Failure(f"listing tells no types: status {run.returncode}, {lines[:1]}")
    places = [line for line in lines if len(line) == 3 and line[2] in ("code", "module")]
    if not places:
        raise Failure(f"listing tells no types: {' '.join(lines[0])}")
    return {name: (int(address, 16), how) for name, address, how in places}


def compared(found: Dict[str, Tuple[int, str]], told: Dict[str, Dict[str, int]], version: Tuple[int, int]) -> int:
    """How many types stand where the process said. A failure names those that don't, and those that weren't found."""
    wrong = [name for name, (address, _) in found.items() if name in told and told[name]["address"] != address]
    wanted = [*BY_CODE, *BY_MODULE, *(OF_ASYNCIO if version >= (3, 7) else ())]
    missing = [name for name in wanted if name not in found]
    if wrong or missing:
        raise Failure(f"elsewhere than it says: {', '.join(wrong) or 'none'}; not found: {', '.join(missing) or 'none'}")
    return len(found)


def changed(core: Path, places: Sequence[int], word: int) -> bytes:
    """The bytes of a core with this word at each of these addresses."""
    with open(core, "rb") as file:
        loads = [it for it in segments_of(file) if it.kind == LOAD]
    new = bytearray(core.read_bytes())
    for place in places:
        for it in loads:
            if it.start <= place and place + 8 <= it.start + it.size:
                at = it.offset + place - it.start
                new[at : at + 8] = word.to_bytes(8, "little")
    return bytes(new)


def check_changed(listing: Path, core: Path, machine: str, addresses: Sequence[int], no_type: int) -> None:
    """Of types that state another size of their objects, or whose class is no type, none is found in its module."""
    copy = core.with_name("changed")
    for what, place, word in (("another size", BASIC_SIZE, 8), ("a class that is none", CLASS, no_type)):
        copy.write_bytes(changed(core, [it + place for it in addresses], word))
        found = [name for name, (_, how) in listed(listing, copy, machine).items() if how == "module"]
        copy.unlink()
        if found:
            raise Failure(f"with {what}: found all the same: {', '.join(found)}")


def tried_with(listing: Path) -> Callable[[str], str]:
    """What tries one Python."""

    def tried(python: str) -> str:
        build = build_of(python)
        if build.version < (3, 6):
            raise Skip("its types have no module of C that has them")
        names = core_names()
        with tempfile.TemporaryDirectory(prefix="real-types-") as name:
            ended = aborted([python, *build.alone, "-B", "-W", "ignore", str(CHILD), ALL_PRIVATE], Path(name))
            told = json.loads(ended.out)
            core = ended.core(names)
            count = compared(listed(listing, core, build.machine), told["types"], build.version[:2])
            addresses = [told["types"][it]["address"] for it in (*BY_MODULE, *OF_ASYNCIO) if it in told["types"]]
            check_changed(listing, core, build.machine, addresses, told["types"]["list"]["address"])
        return f"{build.dotted}: {count} types are where they are, and no class with such a name is taken for one"

    return tried


def main() -> int:
    """The check."""
    parser = argparse.ArgumentParser(description=__doc__.splitlines()[0])
    parser.add_argument("--program", type=Path, required=True, help="the built program `listing`")
    parser.add_argument("python", nargs="*", help="the interpreters (default: all that are found)")
    words = parser.parse_args()
    failed = tell_each("real_types", tried_with(words.program), words.python or pythons(), (Skip, DeriveError))
    return 1 if failed else 0


if __name__ == "__main__":
    sys.exit(main())
