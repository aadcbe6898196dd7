#!/usr/bin/env python3
"""Joins the layout files of one machine into one, so that nobody has to pick one.

    tools/layouts/join_layouts.py -o layouts/cpython-x86_64.toml
"""

import argparse
import sys
from pathlib import Path
from typing import List, Optional

from find_pythons import version_key

LAYOUTS = Path(__file__).resolve().parent.parent.parent / "layouts"

HEAD = """\
# The layouts of CPython on {machine} in this folder, joined by tools/layouts/join_layouts.py: {names}.
# Each covers a minor version, and was read from one build of it, which the lines above it name.
"""


def single_files(folder: Path, machine: str = "*") -> List[Path]:
    """The files of one layout each, by version. (The name of a joined file has no version.)"""
    return sorted(folder.glob(f"cpython-*-{machine}.toml"), key=lambda path: version_key(path.name))


def joined(files: List[Path], machine: str) -> str:
    """The text of the joined file: a head, and each file as it stands."""
    head = HEAD.format(machine=machine, names=", ".join(path.name for path in files))
    return "\n".join([head] + [path.read_text(encoding="utf-8") for path in files])


def put(text: str, output: Optional[str]) -> None:
    """Writes a layout file, or prints it where no file is named."""
    if output:
        Path(output).write_text(text, encoding="utf-8")
    else:
        print(text, end="")


def main() -> int:
    """The command."""
    parser = argparse.ArgumentParser(description=__doc__.splitlines()[0])
    parser.add_argument("-o", "--output", metavar="FILE", help="the file to write (default: the standard output)")
    parser.add_argument("--machine", default="x86_64", help="the machine (default: x86_64)")
    words = parser.parse_args()
    files = single_files(LAYOUTS, words.machine)
    if not files:
        print(f"join_layouts: there is no layout of {words.machine} in {LAYOUTS}", file=sys.stderr)
        return 1
    text = joined(files, words.machine)
    put(text, words.output)
    return 0


if __name__ == "__main__":
    sys.exit(main())
