#!/usr/bin/env python3
"""Runs what the gate tries beside `rt ci`, one check after another, and says how each ended and how long it took.

    tools/check/gate.py [--only WORD] [--all] [--verdict FILE]

Each check runs by itself, as `tools/check/PLACE.py`, and what it prints is passed on. A line `NAME: skipped: ..` is what it could
not try on this machine; it fails nothing. Behind all of them stands a summary: each check with its seconds, what was
skipped, and, of the output of `rt ci` in FILE, the verdict. The last line has all that passed and failed, those of `rt ci` too.
With --all each check tries all that it has, at any length, which is for a run by hand. The status is 0 exactly where no check failed.
"""

import argparse
import re
import subprocess
import sys
import time
from dataclasses import dataclass, field
from pathlib import Path
from typing import List, Sequence, Tuple

from rooms import CHECK, ROOT

PROGRAM = str(ROOT / "crates" / "pystacks" / "out" / "pystacks")
SALVAGE = str(ROOT / "crates" / "pysalvage" / "out" / "pysalvage")
LISTING = str(ROOT / "crates" / "listing" / "out" / "listing")

OF_PROGRAM = ("--program", PROGRAM)
OF_BOTH = ("--program", PROGRAM, "--salvage", SALVAGE)
OF_LISTING = ("--program", LISTING)
OF_SALVAGE = ("--salvage", SALVAGE)


@dataclass(frozen=True)
class Check:
    """A check: its place in this folder, its words in the gate, and those by which it tries all that it has, where that is more."""

    place: str
    words: Tuple[str, ...] = ()
    more: Tuple[str, ...] = ()

    @property
    def name(self) -> str:
        """What it is called where it is told of."""
        return Path(self.place).name


CHECKS = (
    Check("messages"),
    Check("quotes"),
    Check("definitions", ("--strict",)),
    Check("../layouts/records_table"),
    Check("links"),
    Check("typed"),
    Check("versions"),
    Check("tests/test_gate"),
    Check("tests/test_typed"),
    Check("tests/test_glossary"),
    Check("tests/test_real_core"),
    Check("tests/test_dump_core"),
    Check("tests/test_records"),
    Check("tests/test_prepare"),
    Check("tests/test_parts"),
    Check("tests/test_collapse"),
    Check("tests/test_exceptions"),
    Check("tests/test_values"),
    Check("tests/test_waits"),
    Check("tests/test_heap"),
    Check("tests/test_merged"),
    Check("tests/test_core_text"),
    Check("tests/test_layout_check"),
    Check("tests/test_layout_from_core"),
    Check("tests/test_tool"),
    Check("tests/test_groups"),
    Check("tests/test_handler"),
    Check("tests/test_real_tool"),
    Check("tests/test_wide"),
    Check("tests/test_page"),
    Check("tests/test_pages"),
    Check("tests/test_symbols"),
    Check("tests/test_install"),
    Check("tests/test_slim_core"),
    Check("tests/test_fuzz"),
    Check("tests/test_slim_reader"),
    Check("rows/rows", OF_PROGRAM),
    Check("rows/slim_cores", OF_PROGRAM),
    Check("rows/sample_cores", OF_PROGRAM),
    Check("fuzz", OF_BOTH, (*OF_BOTH, "--count", "5000")),
    Check("worst", (*OF_BOTH, "--judged")),
    Check("growths", (*OF_BOTH, "--step", "100", "--most", "6"), OF_BOTH),
    Check("real/real_core", OF_PROGRAM, (*OF_PROGRAM, "--all")),
    Check("real/real_records", (), ("--all",)),
    Check("real/real_broken", OF_PROGRAM),
    Check("real/pages", OF_PROGRAM),
    Check("real/real_merge", OF_PROGRAM),
    Check("real/real_salvage", OF_BOTH),
    Check("real/real_parts", OF_BOTH, (*OF_BOTH, "--all")),
    Check("real/real_layout", OF_BOTH, (*OF_BOTH, "--all")),
    Check("real/real_fleet", OF_BOTH, (*OF_BOTH, "--all", "--fleet")),
    Check("real/real_handler", OF_BOTH, (*OF_BOTH, "--all")),
    Check("real/real_sections", OF_SALVAGE, (*OF_SALVAGE, "--all")),
    Check("real/arm_core", OF_PROGRAM),
    Check("real/compare_elf", OF_LISTING),
    Check("real/compare_frames", OF_LISTING, (*OF_LISTING, "--all")),
    Check("real/compare_maps", OF_LISTING),
    Check("real/real_types", OF_LISTING),
    Check("real/real_coroutines", OF_LISTING),
    Check("real/real_names", OF_SALVAGE),
    Check("real/real_lines", OF_SALVAGE),
    Check("real/real_cuts", OF_SALVAGE),
    Check("real/real_native", OF_SALVAGE, (*OF_SALVAGE, "--all")),
    Check("real/real_tasks", OF_SALVAGE),
    Check("real/real_exceptions", OF_SALVAGE),
    Check("real/real_values", OF_SALVAGE),
    Check("real/real_waits", OF_BOTH),
    Check("real/real_heap", OF_BOTH),
    Check("real/real_example", OF_BOTH),
    Check("real/real_refusals", OF_BOTH),
    Check("real/real_pairs", OF_SALVAGE),
)
"""What is run, in order."""


@dataclass
class Ended:
    """How a check ended."""

    name: str
    status: int
    seconds: float
    skipped: List[str] = field(default_factory=list)

    def line(self) -> str:
        """The check in a line of the summary."""
        return f"    {self.name:<17} {self.seconds:6.1f} s{'' if self.status == 0 else f'  FAILED, with status {self.status}'}"


def ran(check: Check, has_all: bool) -> Ended:
    """Runs a check, and passes on what it prints."""
    words = [sys.executable, "-B", str(CHECK / f"{check.place}.py"), *(check.more if has_all and check.more else check.words)]
    begun = time.monotonic()
    skipped = []
    # (a check may write bytes that are no text, as names of files)
    with subprocess.Popen(words, cwd=ROOT, stdin=subprocess.DEVNULL, stdout=subprocess.PIPE, stderr=subprocess.STDOUT) as process:
        assert process.stdout is not None
        for row in process.stdout:
            line = row.decode("utf-8", "replace").rstrip("\n")
            print(line, flush=True)
            if is_skipped(line):
                skipped.append(line)
    return Ended(check.name, process.returncode, time.monotonic() - begun, skipped)


def is_skipped(line: str) -> bool:
    """Whether a line says what a check, or a test, could not try here."""
    return re.match(r"\w+: skipped: ", line) is not None or re.match(r"OK \(skipped=", line) is not None


def verdict_in(text: str) -> Tuple[List[str], int, int]:
    """The verdict in what `rt ci` wrote: its lines, and how much passed and failed. Without one nothing passed, and that is a failure."""
    lines = [line for line in text.splitlines() if re.match(r"(rt: ok|rt: FAILED)|\d+ passed, \d+ failed", line)]
    counts = re.match(r"(\d+) passed, (\d+) failed", lines[-1]) if lines else None
    if counts is None:
        return ["rt ci: no verdict"], 0, 1
    return [f"rt ci: {line}" for line in lines[-2:]], int(counts.group(1)), int(counts.group(2))


def summary(ended: Sequence[Ended], verdict: str) -> List[str]:
    """The lines of the summary. The last one has all that passed and failed."""
    failed = sum(it.status != 0 for it in ended)
    lines = [f"checks: {len(ended) - failed} passed, {failed} failed, {sum(it.seconds for it in ended):.0f} s"]
    lines += [it.line() for it in ended]
    lines += [f"    {it.name}: {line}" if line.startswith("OK ") else f"    {line}" for it in ended for line in it.skipped]
    said, passed, lost = verdict_in(verdict)
    if verdict:
        lines += said
    else:
        passed, lost = 0, 0
    return [*lines, f"{passed + len(ended) - failed} passed, {lost + failed} failed"]


def main() -> int:
    parser = argparse.ArgumentParser(description=__doc__, formatter_class=argparse.RawDescriptionHelpFormatter)
    parser.add_argument("--only", default="", help="the checks in whose place this stands")
    parser.add_argument("--all", action="store_true", help="all that each check has, at any length")
    parser.add_argument("--verdict", help="a file with what `rt ci` wrote")
    words = parser.parse_args()
    ended = [ran(it, words.all) for it in CHECKS if words.only in it.place]
    verdict = Path(words.verdict).read_text(encoding="utf-8", errors="replace") or "nothing" if words.verdict else ""
    print("\n".join(["", *summary(ended, verdict)]), flush=True)
    return 1 if any(it.status for it in ended) else 0


if __name__ == "__main__":
    sys.exit(main())
