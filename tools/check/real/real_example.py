#!/usr/bin/env python3
"""Runs examples/bank.py, shows its core by the tool, and compares what is shown with what README.md has.

    tools/check/real/real_example.py --program crates/pystacks/out/pystacks --salvage crates/pysalvage/out/pysalvage [PYTHON..]

Of README.md it is the block behind a line `<!-- examples/bank.py -->`: what stands below its line `$ pystacks-core core ..`, whose
words are those that the tool gets. Both texts are compared as `alike` has them, for each Python of 3.8 to 3.13 that is installed.
The status is 0 exactly where nothing that was tried failed.
"""

import argparse
import re
import shlex
import shutil
import subprocess
import sys
import tempfile
from itertools import zip_longest
from pathlib import Path
from typing import Dict, List, Sequence, Tuple

from rooms import ROOT, TOOLS  # (first: it makes the other rooms known)

from child_cores import SECONDS, Failure, Skip, aborted, core_names
from derive_layout import DeriveError, build_of
from each_python import tell_each
from find_pythons import pythons
from pystacks_tool.ask.run import knows

PAGE = ROOT / "README.md"

EXAMPLE = ROOT / "examples" / "bank.py"

TOOL = TOOLS / "dump_core.py"

BLOCK = re.compile(r"<!-- examples/bank\.py -->\n\n```\n(?:.*\n)*?\$ pystacks-core (core.*)\n((?:.*\n)*?)```\n")

FIRST, LAST = (3, 8), (3, 13)
"""The Pythons for which the example is written."""


def alike(text: str) -> str:
    """A text without what differs from run to run.

    A path is its last name, the interpreter `python`, the version of Python `v`; a file of another name than the example's has no
    line, and a line no blanks at its end. Addresses and the ids of threads and processes are numbered in the order in which they first
    stand there.
    """
    numbers: Dict[str, str] = {}
    text = re.sub(r"[^\s(]*/", "", text)
    text = re.sub(r"\bpython[0-9.]*", "python", text)
    text = re.sub(r"^Python v.*$", "Python v", text, flags=re.MULTILINE)
    text = re.sub(rf"\((?!{EXAMPLE.name})(\S+):\d+\)", r"(\1)", text)
    text = re.sub(r" +$", "", text, flags=re.MULTILINE)
    return re.sub(r"0x[0-9A-Fa-f]+|(?<=hread )\d+|(?<=Process )\d+", lambda it: numbers.setdefault(it.group(), f"<{len(numbers) + 1}>"), text)


def block_of(page: str) -> Tuple[List[str], str]:
    """The tool's words in README.md, and what is shown there."""
    found = BLOCK.findall(page)
    if len(found) != 1:
        raise Failure(f"README.md has {len(found)} blocks of examples/bank.py")
    return shlex.split(found[0][0]), found[0][1]


def shown_by(words: argparse.Namespace, python: str, names: str, given: Sequence[str]) -> str:
    """What the tool shows of the core that the example leaves."""
    with tempfile.TemporaryDirectory(prefix="real-example-") as name:
        room = Path(name)
        (room / "examples").mkdir()
        shutil.copy(EXAMPLE, room / "examples")
        # (by its place in this folder, since Linux keeps 79 bytes of a command)
        core = aborted([python, f"examples/{EXAMPLE.name}"], room).core(names)
        shutil.move(str(core), str(room / given[0]))
        command = [sys.executable, str(TOOL), *given, "--program", words.program, "--salvage", words.salvage]
        run = subprocess.run(command, cwd=room, capture_output=True, text=True, timeout=SECONDS, check=False)
    if run.returncode != 0:
        raise Failure(f"the tool ended with status {run.returncode}: {run.stderr[:200]}")
    return run.stdout


def tried(words: argparse.Namespace, python: str, names: str) -> str:
    """What comes of one Python."""
    build = build_of(python)
    if not FIRST <= build.minor <= LAST:
        raise Skip(f"version {build.dotted}")
    given, quoted = block_of(PAGE.read_text(encoding="utf-8"))
    wanted, got = alike(quoted).splitlines(), alike(shown_by(words, build.executable, names, given)).splitlines()
    for at, (one, other) in enumerate(zip_longest(wanted, got, fillvalue="the end")):
        if one != other:
            raise Failure(f"line {at + 1} of README.md's text is {one!r}, and shown is {other!r}")
    return f"{build.dotted}: README.md has what the tool shows"


def main() -> int:
    """The command."""
    parser = argparse.ArgumentParser(description=__doc__.splitlines()[0])
    parser.add_argument("python", nargs="*", help="the interpreters (default: those that are found)")
    parser.add_argument("--program", default=str(ROOT / "crates" / "pystacks" / "out" / "pystacks"), help="the built `pystacks`")
    parser.add_argument("--salvage", default=str(ROOT / "crates" / "pysalvage" / "out" / "pysalvage"), help="the built `pysalvage`")
    words = parser.parse_args()
    words.program, words.salvage = (str(Path(it).resolve()) for it in (words.program, words.salvage))
    if not Path(words.salvage).is_file() or not knows(words.salvage, "--waits"):
        print(f"real_example: skipped: there is no {words.salvage} that tells waits")
        return 0
    try:
        names = core_names()
    except Skip as reason:
        print(f"real_example: skipped: {reason}")
        return 0
    return 1 if tell_each("real_example", lambda it: tried(words, it, names), words.python or pythons(), (Skip, DeriveError)) else 0


if __name__ == "__main__":
    sys.exit(main())
