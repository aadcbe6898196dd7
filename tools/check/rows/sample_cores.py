#!/usr/bin/env python3
"""Compares what is shown of made-up programs with the rule by which they are made.

    tools/check/rows/sample_cores.py --program crates/pystacks/out/pystacks [--count N]

`sample N` must print the seed and how many threads and frames its program has; `sample N core` writes a core, over which
`walk` must print the threads and frames that the rule gives. All residues of 16 are among the seeds, and the greatest one.
"""

import argparse
import subprocess
import sys
import tempfile
from concurrent.futures import ThreadPoolExecutor
from pathlib import Path
from typing import List, Optional

THREADS = 256
LARGEST = 2 ** 64 - 1


def frames_of(seed: int, thread: int) -> int:
    """How many frames a thread has."""
    return 1 + (seed % 16 + thread) % 16


def walk_text(seed: int) -> str:
    """What a walk prints of the program of a seed: its threads from the last to the first."""
    lines = ["Python v3.9.0", ""]
    for thread in reversed(range(THREADS)):
        lines.append(f"Thread 0x{1000 + 16 * thread:X}")
        lines += [f"    f{(seed % 1000 + 31 * thread + frame) % 1000} (m{frame}.py)" for frame in range(frames_of(seed, thread))]
    return "".join(f"{line}\n" for line in lines)


def counts_text(seed: int) -> str:
    """What is printed of it."""
    frames = sum(frames_of(seed, thread) for thread in range(THREADS))
    return f"seed {seed}\nthreads {THREADS}\nframes {frames}\n"


def ran(program: Path, room: Path, *words: str) -> bytes:
    """What the program prints; a line that says why not, where it fails."""
    done = subprocess.run([program, *words], cwd=room, stdout=subprocess.PIPE, stderr=subprocess.PIPE, check=False, timeout=60)
    return done.stdout if done.returncode == 0 else b"status %d: %s" % (done.returncode, done.stderr)


def difference(program: Path, seed: int) -> Optional[str]:
    """What comes out otherwise than the rule says, if anything does."""
    with tempfile.TemporaryDirectory(prefix="sample-") as name:
        room = Path(name)
        counts = ran(program, room, "sample", str(seed)).decode()
        (room / "core").write_bytes(ran(program, room, "sample", str(seed), "core"))
        walked = ran(program, room, "walk", "core", "sample", "3.9.0", "0x600000", "0").decode()
    if counts != counts_text(seed):
        return f"seed {seed}: printed is {counts!r}"
    if walked != walk_text(seed):
        pairs = zip(walk_text(seed).splitlines(), walked.splitlines())
        return f"seed {seed}: {next((pair for pair in pairs if pair[0] != pair[1]), 'another number of lines')}"
    return None


def seeds_of(count: int) -> List[int]:
    """So many seeds: the greatest, and others that differ in all their bits."""
    return [LARGEST] + [(number * 0x9E3779B97F4A7C15 + number) % 2 ** 64 // 16 * 16 + number % 16 for number in range(count - 1)]


def main() -> int:
    """The command."""
    parser = argparse.ArgumentParser(description=__doc__.splitlines()[0])
    parser.add_argument("--program", required=True, help="the built program")
    parser.add_argument("--count", type=int, default=100, help="how many seeds (default: 100)")
    words = parser.parse_args()
    program = Path(words.program).resolve()
    with ThreadPoolExecutor(2) as pool:
        found = [it for it in pool.map(lambda seed: difference(program, seed), seeds_of(words.count)) if it]
    for it in found:
        print(f"sample_cores: FAILED: {it}")
    print(f"sample_cores: {words.count - len(found)} of {words.count} seeds agree with the rule")
    return 1 if found else 0


if __name__ == "__main__":
    sys.exit(main())
