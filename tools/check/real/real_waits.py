#!/usr/bin/env python3
"""Asks what the threads of real Pythons wait for, and compares it with what the processes said.

    tools/check/real/real_waits.py --program crates/pystacks/out/pystacks --salvage crates/pysalvage/out/pysalvage [PYTHON..]

For each Python of 3.6 on that is installed: threads that wait for a lock, a reentrant lock, a condition, an event, a queue, a
semaphore, a barrier, another thread and the interpreter's lock, with and without a time limit, beside one that sleeps and one that
reads; three that wait for each other's reentrant locks; and sixty that wait for the interpreter's lock. Each edge is told as the
process knew it, with its owner, and none more; the tool says the ring, and at each thread what it waits for. 3.13 tells no thread that
joins another one, 3.6 not the interpreter's lock. The status is 0 exactly where nothing that was tried failed.
"""

import argparse
import json
import subprocess
import sys
import tempfile
from pathlib import Path
from typing import Any, Dict, List, Optional

from rooms import ROOT, TOOLS  # (first: it makes the other rooms known)

from child_cores import SECONDS, Failure, Skip, aborted, core_names
from derive_layout import DeriveError, build_of
from each_python import tell_each
from find_pythons import pythons
from pystacks_tool.ask.run import knows
from real_core import derived_for
from real_salvage import Tree, left

CHILD = Path(__file__).resolve().with_name("waits_child.py")

RECORDS = ROOT / "layouts" / "records-x86_64.toml"

TOOL = TOOLS / "dump_core.py"

Waits = Dict[int, Dict[str, Any]]


def waits_in(tree: Tree) -> Waits:
    """What each thread waits for, by its id."""
    found: Waits = {}
    for it in tree["waits"]:
        for row in it["threads"]:
            wait = row["for"]
            address = None if wait is None or "address" not in wait else int(wait["address"], 16)
            found[row["thread_id"]] = {"kind": "none" if wait is None else wait["kind"], "address": address,
                                       "owner": None if wait is None else wait.get("owner")}
    return found


def said(text: str) -> Waits:
    """What the process said."""
    return {int(number): row for number, row in json.loads(text.strip().splitlines()[-1]).items()}


def compared(got: Waits, wanted: Waits, has_gil: bool) -> int:
    """Fails where an edge differs. How many there are."""
    if set(got) != set(wanted):
        raise Failure(f"threads {sorted(got)} are told, and the process said {sorted(wanted)}")
    for number, row in wanted.items():
        if row["kind"] == "gil" and not has_gil:
            row = {"kind": "none", "address": None, "owner": None}
        if got[number] != row:
            raise Failure(f"thread {number:#x} waits for {got[number]}, and the process said {row}")
    return sum(it["kind"] != "none" for it in got.values())


def shown(program: str, salvage: Path, core: Path, layouts: Path) -> str:
    """The tool's text."""
    command = [sys.executable, str(TOOL), str(core), "--program", program, "--salvage", str(salvage), "--layouts", str(layouts)]
    run = subprocess.run(command, capture_output=True, text=True, timeout=SECONDS, check=False)
    if run.returncode != 0:
        raise Failure(f"the tool ended with status {run.returncode}: {run.stderr[:200]}")
    return run.stdout


def check_tool(text: str, wanted: Waits, kind: str) -> None:
    """Fails where the tool's text lacks a reentrant lock's owner, or the ring."""
    rings = [it for it in text.splitlines() if it.startswith("Deadlock: ")]
    if (len(rings) == 1) != (kind == "ring"):
        raise Failure(f"the tool says {rings}")
    if kind == "ring" and rings[0].count("waits for RLock ") != 3:
        raise Failure(f"the tool says {rings[0]}")
    for row in wanted.values():
        if row["kind"] in ("lock", "rlock") and len(wanted) < 9 and f"0x{row['address']:x}" not in text:
            raise Failure(f"the tool's text lacks the {row['kind']} at 0x{row['address']:x}")


def tried(program: str, salvage: Path, python: str, names: str) -> str:
    """What comes of one Python."""
    build = build_of(python)
    if build.minor < (3, 6):
        raise Skip(f"version {build.dotted}")
    derived = derived_for(build)
    counts: List[str] = []
    with tempfile.TemporaryDirectory(prefix="real-waits-") as name:
        room = Path(name)
        layouts = room / "layout.toml"
        layouts.write_text(derived.text, encoding="utf-8")
        for kind in ("simple", "ring", "many"):
            folder = room / kind
            folder.mkdir()
            child = aborted([build.executable, *build.alone, str(CHILD), kind], folder)
            core = child.core(names)
            wanted = said(child.out)
            count = compared(waits_in(left(salvage, core, layouts, "--waits", f"--records={RECORDS}")), wanted, build.minor >= (3, 7))
            check_tool(shown(program, salvage, core, layouts), wanted, kind)
            counts.append(f"{count} {kind}")
            core.unlink()
    return f"{build.dotted}: {', '.join(counts)}"


def main() -> int:
    """The command."""
    parser = argparse.ArgumentParser(description=__doc__.splitlines()[0])
    parser.add_argument("python", nargs="*", help="the interpreters (default: those that are found)")
    parser.add_argument("--program", default=str(ROOT / "crates" / "pystacks" / "out" / "pystacks"), help="the built `pystacks`")
    parser.add_argument("--salvage", default=str(ROOT / "crates" / "pysalvage" / "out" / "pysalvage"), help="the built `pysalvage`")
    words = parser.parse_args()
    salvage = Path(words.salvage).resolve()
    if not salvage.is_file() or not knows(str(salvage), "--waits"):
        print(f"real_waits: skipped: there is no {salvage} that tells waits")
        return 0
    try:
        names: Optional[str] = core_names()
    except Skip as reason:
        print(f"real_waits: skipped: {reason}")
        return 0
    return 1 if tell_each("real_waits", lambda it: tried(words.program, salvage, it, names or ""), words.python or pythons(), (Skip, DeriveError)) else 0


if __name__ == "__main__":
    sys.exit(main())
