#!/usr/bin/env python3
"""Follows what coroutines await in cores of real Pythons, and compares it with what the processes said.

    tools/check/real/real_coroutines.py --program crates/listing/out/listing [PYTHON..]

For each Python of 3.7 to 3.13 that is installed: a process dies with coroutines, generators and async generators that
await all kinds of things (coroutines_child.py), and tells before of each what it awaits, by `cr_await`, `gi_yieldfrom`
and `ag_await`. Each chain is to have these members, with their kinds, states, functions, files and lines, and to end
so. The file of records is the stored one. The status is 0 exactly where nothing that was tried failed.
"""

import argparse
import json
import subprocess
import sys
import tempfile
from pathlib import Path
from typing import Any, Callable, Dict, List, Sequence, Tuple

from rooms import ROOT  # (first: it makes the other rooms known)

from child_cores import ALL_PRIVATE, SECONDS, Failure, Skip, aborted, core_names
from derive_layout import DeriveError, build_of
from each_python import tell_each
from find_pythons import pythons
from real_core import images_of

CHILD = Path(__file__).with_name("coroutines_child.py")
LAYOUTS = ROOT / "layouts"

Line = Tuple[str, ...]
Chain = List[Line]


def chains_in(lines: Sequence[str]) -> Dict[int, Chain]:
    """The lines of each chain, by the address from which on it goes."""
    found: Dict[int, Chain] = {}
    head = 0
    for line in lines:
        words = line.split(" ", 6)
        if words[0] == "chain":
            head = int(words[1], 16)
            found[head] = []
        else:
            found.setdefault(head, []).append(tuple(words))
    return found


def listed(listing: Path, core: Path, machine: str, heads: Sequence[int]) -> Dict[int, Chain]:
    """What the program `listing` tells of the chains from some addresses on."""
    files = [LAYOUTS / f"cpython-{machine}.toml", LAYOUTS / f"records-{machine}.toml"]
    words = [str(it) for it in (listing, "coroutines", *files, ",".join(f"{it:x}" for it in heads), core, *images_of(core))]
    run = subprocess.run(words, stdin=subprocess.DEVNULL, stdout=subprocess.PIPE, timeout=SECONDS)
    lines = run.stdout.decode("utf-8", "replace").splitlines()
    if run.returncode != 0 or not lines or not lines[0].startswith("chain "):
        raise Failure(f"listing tells no chains: status {run.returncode}, {lines[:1]}")
    return chains_in(lines)


def member_line(member: Dict[str, Any]) -> Line:
    """The words of a member as they are to be."""
    begins = ("member", f"{member['address']:x}", member["kind"])
    if member["kind"] == "holder":
        return begins
    if "line" not in member:
        return (*begins, member["state"], "-")
    return (*begins, member["state"], str(member["line"]), member["function"], member["file"])


def wanted(chain: Dict[str, Any]) -> Chain:
    """The lines of a chain as they are to be."""
    how, *addresses = chain["end"]
    return [*map(member_line, chain["members"]), ("end", how, *(f"{it:x}" for it in addresses))]


def compared(found: Dict[int, Chain], chains: Dict[str, Dict[str, Any]]) -> int:
    """How many members are as the process said. A failure names the first chain that isn't, and its first line."""
    count = 0
    for name, chain in chains.items():
        lines, right = found.get(chain["head"], []), wanted(chain)
        for place, line in enumerate(right):
            other = lines[place] if place < len(lines) else ("none",)
            if other != line:
                raise Failure(f"{name}: {' '.join(other)} in place of {' '.join(line)}")
        if len(lines) != len(right):
            raise Failure(f"{name}: {' '.join(lines[len(right)])} behind its end")
        count += len(chain["members"])
    return count


def tried_with(listing: Path) -> Callable[[str], str]:
    """What tries one Python."""

    def tried(python: str) -> str:
        build = build_of(python)
        if build.version < (3, 7):
            raise Skip("its coroutines are not described")
        names = core_names()
        with tempfile.TemporaryDirectory(prefix="real-coroutines-") as name:
            ended = aborted([python, *build.alone, "-B", "-W", "ignore", str(CHILD), ALL_PRIVATE], Path(name))
            chains = json.loads(ended.out)["chains"]
            heads = [chain["head"] for chain in chains.values()]
            count = compared(listed(listing, ended.core(names), build.machine, heads), chains)
        return f"{build.dotted}: {len(chains)} chains with {count} members end where they end"

    return tried


def main() -> int:
    """The check."""
    parser = argparse.ArgumentParser(description=__doc__.splitlines()[0])
    parser.add_argument("--program", type=Path, required=True, help="the built program `listing`")
    parser.add_argument("python", nargs="*", help="the interpreters (default: all that are found)")
    words = parser.parse_args()
    failed = tell_each("real_coroutines", tried_with(words.program), words.python or pythons(), (Skip, DeriveError))
    return 1 if failed else 0


if __name__ == "__main__":
    sys.exit(main())
