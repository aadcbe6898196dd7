#!/usr/bin/env python3
"""Makes the lines of many cores by the workers of dask.distributed, and prints them in the order of the cores.

    tools/core_fleet.py --names FILE [--scheduler ADDRESS | --local N] [--program FILE] [--batch N] [TOOL WORD..]

FILE has a core's path a line, as the workers see it. Each worker runs `tools/dump_core.py --keys` over some of them, by its own
copy of this folder, so that cores stay where they are and lines alone are sent. `tools/dump_core.py --group --from` groups what
this prints. With --local N workers are started on this machine. docs/CORES.md has the whole way.
"""

import argparse
import subprocess
import sys
from pathlib import Path

TOOL = Path(__file__).resolve().with_name("dump_core.py")
NO_PROGRAM = 127


def lines_of(words, names):
    """The lines of some cores, by the tool of the worker that runs this."""
    done = subprocess.run([sys.executable, "-B", str(TOOL), "--keys", *words, "--", *names], stdout=subprocess.PIPE, stderr=subprocess.PIPE,
                          stdin=subprocess.DEVNULL, check=False)
    if done.returncode != 0:
        raise RuntimeError(done.stderr.decode("utf-8", "replace").strip())
    return done.stdout.decode("utf-8", "replace")


def batches(names, size):
    """Some names at a time."""
    return [names[at : at + size] for at in range(0, len(names), size)]


def main():
    """The command. Returns the status."""
    parser = argparse.ArgumentParser(description=__doc__.split("\n")[0])
    parser.add_argument("--names", required=True, help="a file with a core's path a line")
    parser.add_argument("--scheduler", help="the address of dask's scheduler, as tcp://host:8786")
    parser.add_argument("--local", type=int, default=2, metavar="N", help="without a scheduler: so many workers of this machine (default: 2)")
    parser.add_argument("--program", help="the program pystacks, as the workers see it")
    parser.add_argument("--batch", type=int, default=20, metavar="N", help="how many cores are handed over at a time (default: 20)")
    words, more = parser.parse_known_args()
    try:
        from distributed import Client
    except ImportError:
        sys.stderr.write("core_fleet: dask.distributed isn't there: Debian's package is python3-distributed\n")
        return NO_PROGRAM
    names = Path(words.names).read_text(encoding="utf-8", errors="surrogateescape").split("\n")
    own = [f"--program={words.program}"] if words.program else []
    client = Client(words.scheduler) if words.scheduler else Client(n_workers=words.local, threads_per_worker=1, dashboard_address=None)
    with client:
        # (a batch whose worker is lost is handed to another one)
        made = client.map(lines_of, [[*own, *more]] * len(batches([it for it in names if it], words.batch)), batches([it for it in names if it], words.batch), retries=2, pure=False)
        for future in made:
            sys.stdout.write(future.result())
    return 0


if __name__ == "__main__":
    sys.exit(main())
