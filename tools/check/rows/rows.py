#!/usr/bin/env python3
"""Runs the built program on rows: the words, the files, and what it must print, say and answer, byte by byte.

    tools/check/rows/rows.py --program crates/pystacks/out/pystacks [--listing FILE] [--salvage FILE] [--only WORD] [--list]

Each row runs in a folder of its own that holds its files. The rows of `listing`, those of programs whose cores it writes,
and those of `pysalvage` run where these are built. The status is 0 exactly where each row came out as it says.
"""

import argparse
import os
import resource
import subprocess
import sys
import tempfile
from concurrent.futures import ThreadPoolExecutor
from pathlib import Path
from typing import List, Optional

from rooms import ROOT  # (first: it makes the other rooms known)

import rows_built
import rows_dump
import rows_heap
import rows_heap_search
import rows_layout_check
import rows_listing
import rows_merge
import rows_names
import rows_native
import rows_programs
import rows_reach
import rows_salvage
import rows_sample
import rows_search
import rows_slim
import rows_tasks
import rows_triage
import rows_values
import rows_walk
from row import Row

SECONDS = 60


def limits(row: Row) -> None:
    """Sets the limits of a row in the process that becomes the program."""
    if row.memory is not None:
        resource.setrlimit(resource.RLIMIT_AS, (row.memory, row.memory))
    if row.file_size is not None:
        resource.setrlimit(resource.RLIMIT_FSIZE, (row.file_size, row.file_size))


def put_files(row: Row, folder: Path) -> None:
    """Writes the files of a row into its folder, and lengthens those of which a length is said by a hole."""
    for name, data in row.files.items():
        (folder / name).write_bytes(data)
    for name, length in row.lengths.items():
        os.truncate(folder / name, length)


def difference(program: str, row: Row) -> Optional[str]:
    """What comes out otherwise than a row says, if anything does."""
    with tempfile.TemporaryDirectory(prefix="row-") as name:
        folder = Path(name)
        put_files(row, folder)
        streams = {"stdin": subprocess.DEVNULL, "stdout": subprocess.PIPE, "stderr": subprocess.PIPE}
        try:
            ran = subprocess.run(
                [program, *row.words], cwd=folder, env={}, timeout=SECONDS, preexec_fn=lambda: limits(row), **streams)
        except subprocess.TimeoutExpired:
            return f"no end within {SECONDS} seconds"
    if ran.returncode != row.status:
        return f"status {ran.returncode} where {row.status} is wanted: {shown(ran.stderr)}"
    if ran.stdout != row.out:
        return f"prints {shown(ran.stdout)} where {shown(row.out)} is wanted"
    return None if ran.stderr == row.said else f"says {shown(ran.stderr)} where {shown(row.said)} is wanted"


def shown(data: bytes) -> str:
    """Some bytes in a line, the first of them where there are many."""
    return repr(data if len(data) <= 400 else data[:400] + b"..")


def failures(program: str, rows: List[Row]) -> int:
    """How many rows come out otherwise; each has a line."""
    count = 0
    with ThreadPoolExecutor(os.cpu_count()) as pool:
        for row, answer in zip(rows, pool.map(lambda row: difference(program, row), rows)):
            if answer is not None:
                count += 1
                print(f"rows: {row.what}: {answer}")
    return count


def main() -> int:
    parser = argparse.ArgumentParser(description=__doc__, formatter_class=argparse.RawDescriptionHelpFormatter)
    parser.add_argument("--program", required=True, help="the built program")
    parser.add_argument("--listing", default=str(ROOT / "crates" / "listing" / "out" / "listing"), help="the built `listing`")
    parser.add_argument("--salvage", default=str(ROOT / "crates" / "pysalvage" / "out" / "pysalvage"), help="the built `pysalvage`")
    parser.add_argument("--only", default="", help="the rows in whose name this stands")
    parser.add_argument("--list", action="store_true", help="print the names of the rows, and run none")
    words = parser.parse_args()
    lists = [(words.program, [*rows_walk.rows(), *rows_dump.rows(), *rows_search.rows(), *rows_triage.rows(), *rows_reach.rows(), *rows_merge.rows(), *rows_slim.rows(), *rows_sample.rows()]), (words.listing, rows_listing.rows()), (words.salvage, [*rows_salvage.rows(), *rows_layout_check.rows(), *rows_names.rows(), *rows_native.rows(), *rows_tasks.rows(), *rows_values.rows(), *rows_heap.rows(), *rows_heap_search.rows()])]
    if os.path.isfile(words.listing):
        listing = os.path.abspath(words.listing)
        lists += [(words.program, [*rows_built.rows(listing), *rows_programs.rows(listing)]),
                  (words.listing, [*rows_built.listing_rows(listing), *rows_programs.listing_rows(listing)])]
    else:
        print(f"rows: skipped: those of built programs: there is no {words.listing}")
    chosen = [(program, [row for row in rows if words.only in row.what]) for program, rows in lists]
    names = [row.what for _, rows in chosen for row in rows]
    assert len(set(names)) == len(names), "two rows of one name"
    if words.list:
        print("\n".join(names))
        return 0
    count = 0
    for program, rows in chosen:
        if not os.path.isfile(program):
            print(f"rows: skipped: {len(rows)} rows: there is no {program}")
            continue
        failed = failures(os.path.abspath(program), rows)
        print(f"rows: {len(rows) - failed} of {len(rows)} of {os.path.basename(program)} come out as they say")
        count += failed
    return 1 if count else 0


if __name__ == "__main__":
    sys.exit(main())
