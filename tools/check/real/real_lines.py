#!/usr/bin/env python3
"""Asks for the lines of frames in cores of real Pythons whose line tables are long, and compares them with what the processes said.

    tools/check/real/real_lines.py --salvage crates/pysalvage/out/pysalvage [PYTHON..]

For each Python of 2.7 and of 3.6 on that is installed: a generated module of 90,000 lines, whose own frame stands on its last one,
by a table that passes 65,535 bytes from 3.10 on; and a function whose lines stand 100, 128, 200, 255 and 300 apart, forth and, from
3.6 on, back too. Each frame has the line that the process said. The status is 0 exactly where nothing that was tried failed.
"""

import argparse
import json
import sys
import tempfile
from pathlib import Path
from typing import List, Tuple

from rooms import ROOT  # (first: it makes the other rooms known)

from child_cores import Failure, Skip, core_names
from derive_layout import DeriveError, build_of
from each_python import tell_each
from find_pythons import pythons
from real_core import derived_for
from real_salvage import left, left_by, members, threads

LONG = """
import json, os, sys
with open("generated.py", "w") as out:
    out.write("import json, os, sys\\n")
    for number in range(89998):
        out.write("x = %d\\n" % (number % 200))
    out.write("last()\\n")
def last():
    lines, frame = [], sys._getframe()
    while frame is not None:
        if not frame.f_code.co_filename.startswith("<frozen"):
            lines.append((frame.f_code.co_name, frame.f_lineno))
        frame = frame.f_back
    code = sys._getframe(1).f_code
    table = getattr(code, "co_linetable", None) or code.co_lnotab
    print(json.dumps({"lines": lines, "table": len(table)}))
    sys.stdout.flush()
    os.abort()
exec(compile(open("generated.py").read(), "generated.py", "exec"), {"last": last})
"""
"""A module of 90,000 lines, of which the last is a call that ends the process."""

STEPS = """
import json, os, sys
def last():
    lines, frame = [], sys._getframe()
    while frame is not None:
        lines.append((frame.f_code.co_name, frame.f_lineno))
        frame = frame.f_back
    print(json.dumps({"lines": lines, "table": 0}))
    sys.stdout.flush()
    os.abort()
steps = (100, 128, 200, 255, 300)
source = ["def call(left):", "    return step(left - 1) if left else last()", "def step(left):", "    x = 1"]
for number, apart in enumerate(steps):
    source += [""] * (apart - 1) + ["    if left == %d: return call(left)" % number]
source += ["    return (call(", "        left))"] + [""] * 150 + ["    y = 2"]
names = {"last": last}
exec(compile("\\n".join(source) + "\\n", "steps.py", "exec"), names)
names["call"](len(steps) + 1)
"""
"""Calls of one function from lines that stand far apart."""


def said(text: str) -> Tuple[List[Tuple[str, int]], int]:
    """The functions and lines that the process said, and how long the table of the longest code is."""
    told = json.loads(text)
    return [(name, line) for name, line in told["lines"]], told["table"]


def compared(salvage: Path, core: Path, layouts: Path, wanted: List[Tuple[str, int]]) -> None:
    """Fails where the frames have other lines than the process said. (The innermost function's is that of its last call.)"""
    found = [(it["name"], it["line"]) for it in members(next(threads(left(salvage, core, layouts))))]
    if [name for name, _ in found] != [name for name, _ in wanted]:
        raise Failure(f"the frames are {found}, and the process said {wanted}")
    wrong = [(one, other) for one, other in zip(found[1:], wanted[1:]) if one != other]
    if wrong:
        raise Failure(f"{len(wrong)} lines are wrong: told and said {wrong[0]}")


def tried(salvage: Path, python: str, names: str) -> str:
    """What comes of one Python."""
    build = build_of(python)
    if (3, 0) <= build.minor < (3, 6) or build.minor < (2, 7):
        raise Skip(f"version {build.dotted}")
    derived = derived_for(build)
    with tempfile.TemporaryDirectory(prefix="real-lines-") as name:
        room = Path(name)
        layouts = room / "layout.toml"
        layouts.write_text(derived.text, encoding="utf-8")
        core, told = left_by(python, names, room / "long", LONG)
        wanted, table = said(told)
        if build.minor >= (3, 10) and table < 65536:
            raise Failure(f"a table of {table} bytes alone")
        compared(salvage, core, layouts, wanted)
        core.unlink()
        core, told = left_by(python, names, room / "steps", STEPS)
        wanted, _ = said(told)
        compared(salvage, core, layouts, wanted)
        core.unlink()
    return f"{build.dotted}: a table of {table} bytes; {len(wanted)} frames over long steps"


def main() -> int:
    """The command."""
    parser = argparse.ArgumentParser(description=__doc__.splitlines()[0])
    parser.add_argument("python", nargs="*", help="the interpreters (default: those that are found)")
    parser.add_argument("--salvage", default=str(ROOT / "crates" / "pysalvage" / "out" / "pysalvage"), help="the built `pysalvage`")
    words = parser.parse_args()
    salvage = Path(words.salvage).resolve()
    if not salvage.is_file():
        print(f"real_lines: skipped: there is no {salvage}")
        return 0
    try:
        names = core_names()
    except Skip as reason:
        print(f"real_lines: skipped: {reason}")
        return 0
    return 1 if tell_each("real_lines", lambda it: tried(salvage, it, names), words.python or pythons(), (Skip, DeriveError)) else 0


if __name__ == "__main__":
    sys.exit(main())
