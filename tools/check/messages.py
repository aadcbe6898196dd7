#!/usr/bin/env python3
"""Sees that docs/MESSAGES.md has each line of the program and of the tool.

    tools/check/messages.py

Of the program the texts are those of the specs from which its lines are proved; of the tool those of its own sources, by
their syntax trees: what is raised as a fault, what is said of a core that was prepared, and what is printed on the
standard error. A text with a hole in it is there where the page has each of its parts.
"""

import ast
import re
import sys
from pathlib import Path
from typing import Iterator, List

ROOT = Path(__file__).resolve().parent.parent.parent
PAGE = ROOT / "docs" / "MESSAGES.md"

SPECS = [
    ROOT / "crates" / name
    for name in (
        "fault_lines/specs/Lines.antt",
        "program_run/specs/Ends.antt",
        "core_report/specs/Lines.antt",
        "core_report/specs/Run.antt",
        "salvage_report/specs/Lines.antt",
        "salvage_report/specs/Run.antt",
    )
]
"""The definitions that have the texts of the program's lines."""

FAULTS = {"Fault", "Missing", "Unprepared", "NoUnpacker", "NoSpace", "NoCore", "Apart", "Unexpected", "say"}
"""What the tool raises, makes or calls with a line in it, and with what to do next."""

SHORT = 4
"""Parts shorter than this tell nothing: they stand everywhere."""


def texts_of_specs(source: str) -> Iterator[str]:
    """The texts of the program's lines, part by part."""
    return (part.encode().decode("unicode_escape") for part in re.findall(r'codes "([^"]*)"', source))


def parts_of(value: ast.expr) -> Iterator[str]:
    """The parts of a text between its holes. (A text within a hole stands for itself.)"""
    for node in ast.walk(value):
        if isinstance(node, ast.Constant) and isinstance(node.value, str):
            yield node.value


def is_said(call: ast.Call) -> bool:
    """Whether a call says a line: it makes a fault, adds to what was done, or writes on the standard error."""
    function = call.func
    if isinstance(function, ast.Name):
        return function.id in FAULTS or (function.id == "print" and any(it.arg == "file" for it in call.keywords))
    if isinstance(function, ast.Attribute) and function.attr == "write":
        return "stderr" in ast.dump(function.value)
    return isinstance(function, ast.Attribute) and function.attr == "append" and "said" in ast.dump(function.value)


def is_line(node: ast.Assign) -> bool:
    """Whether a text gets a name by which it is said later."""
    return any(isinstance(it, ast.Name) and it.id in ("line", "then", "NEXT") for it in node.targets)


def texts_of_tool(source: str) -> Iterator[str]:
    """The texts of the tool's lines, part by part, and of what to do next."""
    for node in ast.walk(ast.parse(source)):
        if isinstance(node, ast.Call) and is_said(node):
            for value in [*node.args, *(it.value for it in node.keywords if it.arg == "then")]:
                yield from parts_of(value)
        elif isinstance(node, ast.Assign) and is_line(node):
            yield from parts_of(node.value)


def missing(page: str, texts: List[str]) -> List[str]:
    """The texts that the page lacks."""
    parts = [part for text in texts for part in re.split(r"%[sd]|\\x1b\[K|\n|\r", text)]
    trimmed = [re.sub(r"^((dump_core|install|next): )+", "", part).strip(" ;:,()\x1b[K") for part in parts]
    return [text for text in trimmed if len(text) >= SHORT and text not in page]


def main() -> int:
    """The check."""
    page = PAGE.read_text(encoding="utf-8")
    lacks = 0
    for path in SPECS + sorted([*(ROOT / "tools").glob("*.py"), *(ROOT / "tools/pystacks_tool").rglob("*.py")]):
        source = path.read_text(encoding="utf-8")
        texts = list(texts_of_specs(source) if path.suffix == ".antt" else texts_of_tool(source))
        for text in missing(page, texts):
            lacks += 1
            print(f"messages: docs/MESSAGES.md lacks {text!r} of {path.relative_to(ROOT)}")
    if lacks == 0:
        print("messages: docs/MESSAGES.md has each line of the program and of the tool")
    return 1 if lacks else 0


if __name__ == "__main__":
    sys.exit(main())
