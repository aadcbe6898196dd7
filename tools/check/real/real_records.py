#!/usr/bin/env python3
"""Sees that the stored records of layouts/ are what each installed Python tells, by its headers and its own memory.

    tools/check/real/real_records.py [--all] [PYTHON ..]

Of each Python whose patch release has stored records, of its machine, every number is derived anew and compared. What
nothing tells here, as where there is no compiler, is left out. With --all the debug information is asked too. Of one
process of each, from 3.6 on, there is a core: the size that each type states there must be that of its records.
"""

import argparse
import json
import struct
import sys
import tempfile
from pathlib import Path
from typing import Callable, Dict, List, Sequence, Tuple

import rooms  # (first: it makes the other rooms known)
from child_cores import ALL_PRIVATE, Failure, Skip, aborted, core_names
from core_reader import reader
from derive_layout import Build, DeriveError, build_of
from derive_records import Numbers, derive_records
from each_python import tell_each
from find_pythons import pythons
from join_layouts import LAYOUTS
from join_records import Stored, record_files, stored_of

CHILD = Path(__file__).with_name("types_child.py")

NAMES = {
    "builtin": "builtin_function_or_method", "ordered_dict": "OrderedDict", "default_dict": "defaultdict",
    "decimal": "Decimal", "rlock": "RLock", "lock_mutex": "lock", "simple_queue": "SimpleQueue",
    "simple_queue_parked": "SimpleQueue", "slots": "member_descriptor", "future": "Future", "task": "Task",
    "future_iter": "FutureIter", "task_step": "TaskStepMethWrapper", "task_wakeup": "TaskWakeupMethWrapper",
    "handle": "Handle", "timer_handle": "TimerHandle", "asend": "async_generator_asend",
    "athrow": "async_generator_athrow", "frame_object": "frame", "exception": "BaseException", "os_error": "OSError",
    "syntax_error": "SyntaxError", "import_error": "ImportError", "unicode_error": "UnicodeDecodeError",
}
"""The names by which the child tells of types, where they are others than those of the groups."""

NO_TYPE = ("type", "values")
"""Groups with the name of a type whose objects are something else, or more."""

LOCAL = "shared"
"""What of a build's options changes no record."""


def stored_by_release(machine: str) -> Dict[Tuple[int, int, int], Stored]:
    """The stored records of a machine's builds, by their versions."""
    found = [stored_of(path.read_text(encoding="utf-8")) for path in record_files(LAYOUTS, machine)]
    return {it.version: it for it in found}


def differences(stored: Numbers, derived: Numbers, lacking: Sequence[str]) -> List[str]:
    """What of the stored numbers is told otherwise. Groups of which not every number is told here are left out."""
    lines = []
    for name in sorted({*stored, *derived} - set(lacking)):
        one, other = stored.get(name, {}), derived.get(name, {})
        for key in sorted({*one, *other}):
            if one.get(key) != other.get(key):
                is_stored, is_told = one.get(key, "nothing"), other.get(key, "nothing")
                lines.append(f"{name}.{key} is stored as {is_stored}, and told as {is_told}")
    return lines


def stored_for(build: Build) -> Stored:
    """The stored records of a build's release."""
    if set(build.options) - {LOCAL}:
        raise Skip(f"it is built with {', '.join(build.options)}")
    stored = stored_by_release(build.machine).get(build.version)
    if stored is None:
        raise Skip(f"there are no records of {build.dotted} for {build.machine}")
    return stored


def sizes_in_core(python: str, build: Build, numbers: Numbers, names: str) -> int:
    """How many types of a core state the size that their records have. A failure names those that don't."""
    with tempfile.TemporaryDirectory(prefix="real-records-") as name:
        ended = aborted([python, *build.alone, "-B", "-W", "ignore", str(CHILD), ALL_PRIVATE], Path(name))
        told = json.loads(ended.out)["types"]
        core = reader(ended.core(names).read_bytes())
    seen, wrong = 0, []
    for group, numbers_of in numbers.items():
        kind = told.get(NAMES.get(group, group))
        if kind and "size" in numbers_of and group not in NO_TYPE:
            stated = core.read(kind["address"] + numbers["type"]["basicsize"], 8)
            seen += 1
            if stated is None or struct.unpack("<Q", stated) != (numbers_of["size"],):
                wrong.append(group)
    if wrong or not seen:
        raise Failure(f"in a core these types state other sizes: {', '.join(wrong) or 'none was seen'}")
    return seen


def cores_told(python: str, build: Build, stored: Stored) -> str:
    """What is told of a core of it, if one can be had."""
    if build.minor < (3, 6):
        return ""
    try:
        return f"; {sizes_in_core(python, build, stored.numbers, core_names())} types of a core have their sizes"
    except Skip as reason:
        return f"; no core: {reason}"


def tried_with(gdb: str) -> Callable[[str], str]:
    """What tells of one Python, whose debug information this command reads."""

    def tried(python: str) -> str:
        build = build_of(python)
        stored = stored_for(build)
        try:
            derived = derive_records(python, gdb=gdb)
        except DeriveError as error:
            raise Failure(error.brief) from error
        lines = differences(stored.numbers, derived.numbers, derived.lacking)
        if lines:
            raise Failure("; ".join(lines))
        count = sum(len(group) for group in derived.numbers.values())
        left = f", without {', '.join(derived.lacking)}" if derived.lacking else ""
        seen = cores_told(python, build, stored)
        return f"{build.dotted}: {count} numbers of {len(derived.numbers)} groups are as they are stored{left}{seen}"

    return tried


def main() -> int:
    """The check."""
    parser = argparse.ArgumentParser(description=__doc__.splitlines()[0])
    parser.add_argument("python", nargs="*", help="the interpreters (default: all that are found)")
    parser.add_argument("--all", action="store_true", help="ask the debug information too")
    words = parser.parse_args()
    found = words.python or pythons()
    failed = tell_each("real_records", tried_with("gdb" if words.all else ""), found, (Skip, DeriveError))
    return 1 if failed else 0


if __name__ == "__main__":
    sys.exit(main())
