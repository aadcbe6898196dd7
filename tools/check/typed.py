#!/usr/bin/env python3
"""Sees that the tool's types are right, and that nothing in tools/ is imported in vain or has no name.

    tools/check/typed.py

mypy reads the package pystacks_tool, and the scripts beside it and of layouts/, under --strict, for the first Python that they run by; pyflakes
reads all of tools/. Both are Debian's (packages mypy and python3-pyflakes); what isn't there is skipped.
"""

import os
import subprocess
import sys
from typing import List, Optional

from rooms import TOOLS

FIRST = "3.8"
"""The first Python that the tool runs by."""

SCRIPTS = ("dump_core", "core_handle", "slim_core", "native_addresses", "install", "debian_package", "derive_layout", "layout_from_core", "join_layouts", "carry_layouts",
           "derive_records", "join_records", "carry_records")

FOR_WHAT_IT_DOES = "'rooms' imported but unused"
"""What pyflakes says of a module that is imported so that others are found."""


def python_with(module: str) -> Optional[str]:
    """A Python that has a module: this one, or Debian's."""
    for python in (sys.executable, "/usr/bin/python3"):
        try:
            ran = subprocess.run([python, "-c", f"import {module}"], stdin=subprocess.DEVNULL, stderr=subprocess.DEVNULL, check=False)
        except OSError:
            continue
        if ran.returncode == 0:
            return python
    return None


def lines_of(command: List[str]) -> List[str]:
    """What a program says, run in tools/: nothing where it finds nothing."""
    ran = subprocess.run(
        command, cwd=TOOLS, env={**os.environ, "MYPYPATH": "layouts"}, stdin=subprocess.DEVNULL, stdout=subprocess.PIPE,
        stderr=subprocess.STDOUT, text=True, check=False)
    lines = ran.stdout.splitlines()
    return lines if ran.returncode == 0 or lines else [f"{command[2]} ended with status {ran.returncode}"]


def wrong_types(python: str) -> List[str]:
    """What mypy finds."""
    parts = [part for name in SCRIPTS for part in ("-m", name)]
    words = ["--strict", f"--python-version={FIRST}", "--cache-dir=/dev/null", "--no-error-summary", "-p", "pystacks_tool", *parts]
    return [line for line in lines_of([python, "-m", "mypy", *words]) if not line.startswith("Success: ")]


def wrong_names(python: str) -> List[str]:
    """What pyflakes finds."""
    return [line for line in lines_of([python, "-B", "-m", "pyflakes", "."]) if not line.endswith(FOR_WHAT_IT_DOES)]


def main() -> int:
    """The check."""
    failed = 0
    for module, package, found in (("mypy", "mypy", wrong_types), ("pyflakes", "python3-pyflakes", wrong_names)):
        python = python_with(module)
        if python is None:
            print(f"typed: skipped: there is no {module}: Debian's package {package} has it")
            continue
        lines = found(python)
        failed += len(lines)
        print("\n".join([*(f"typed: {line}" for line in lines), f"typed: {module} finds {len(lines) or 'nothing'}"]))
    return 1 if failed else 0


if __name__ == "__main__":
    sys.exit(main())
