#!/usr/bin/env python3
"""Prints the native addresses of a thread of a core, the newest first, one a line, as `pystacks merge` takes them.

    tools/native_addresses.py CORE THREAD [--program FILE] [--root DIR]

gdb unwinds the thread (`gdb -batch`; it needs a gdb with Python). THREAD is the id that `dump` prints: the system's, in
decimal, or the interpreter's, with 0x. The program is the first executable file that the core had mapped, below
`--root` where that is given, or `--program`. Of a frame that called another the address of the call is printed, which
is the one before that to which the callee returns: so it lies in the function that called.
"""

import argparse
import re
import subprocess
import sys
from pathlib import Path
from typing import List, Optional

# (what only looks at a core leaves nothing behind)
sys.dont_write_bytecode = True

from pystacks_tool.cores.headers import headers_of
from pystacks_tool.cores.maps import EXECUTABLE, maps_of
from pystacks_tool.cores.tables import entries_of
from pystacks_tool.places import version_line

STACK = """
import gdb
def addresses(wanted):
    for thread in gdb.selected_inferior().threads():
        thread.switch()
        if wanted not in (thread.ptid[1], pthread(thread)):
            continue
        frame, called = gdb.newest_frame(), False
        while frame is not None and (frame.pc() or not called):
            if frame.type() != gdb.INLINE_FRAME:
                print("address 0x%x" % (frame.pc() - (1 if called else 0)))
                called = frame.type() != gdb.SIGTRAMP_FRAME
            frame = frame.older()
        return
def pthread(thread):
    try:
        return int.from_bytes(thread.handle(), "little")
    except gdb.error:
        return None
addresses(THREAD)
"""
"""What gdb runs. (A signal's frame called nothing: the frame behind it stands where it was interrupted. Where the address to which a frame
returns is 0 its stack ends.)"""

ADDRESS = re.compile("address (0x[0-9a-f]{1,16})")
"""A line of it."""


class Fault(Exception):
    """What is said on the standard error."""


def program_of(core: str, root: str) -> str:
    """The program's file, below a folder: the first of the core's file table by addresses, below which the kernel maps no other one; else
    the first executable file that the core had mapped. (gdb's `gcore` leaves the program's own code out of the segments.)"""
    with open(core, "rb") as file:
        entries = sorted(entries_of(file, headers_of(file) or []), key=lambda it: it.start)
        maps = [it.name for it in maps_of(file) if it.segment.flags & EXECUTABLE]
    names = [it for it in [*(it.name for it in entries), *maps] if it.startswith(b"/")]
    if not names:
        raise Fault(f"{core} has no named executable map: name the program by --program")
    return str(Path(root) / names[0].decode("utf-8", "surrogateescape").lstrip("/"))


def addresses_of(core: str, thread: int, program: str, root: str) -> List[str]:
    """The addresses that gdb finds."""
    command = ["gdb", "-batch", "-nx", "-q", "-ex", f"set sysroot {root}", program, core, "-ex", "python exec(" + repr(STACK.replace("THREAD", str(thread))) + ")"]
    try:
        done = subprocess.run(command, stdout=subprocess.PIPE, stderr=subprocess.DEVNULL, stdin=subprocess.DEVNULL, check=False, text=True)
    except OSError as error:
        raise Fault(f"cannot run gdb: {error.strerror}") from error
    lines = [line for line in done.stdout.split("\n") if line.startswith("address ")]
    found = [ADDRESS.fullmatch(line) for line in lines]
    if not found:
        raise Fault(f"gdb finds no thread {thread} in {core}")
    bad = [line for line, it in zip(lines, found) if it is None]
    if bad:
        raise Fault(f"gdb unwinds thread {thread} of {core} to what is no address, {bad[0][8:]}: is {program} the program?")
    return [it.group(1) for it in found if it]


def main(words: Optional[List[str]] = None) -> int:
    """The tool."""
    parser = argparse.ArgumentParser(description=__doc__, formatter_class=argparse.RawDescriptionHelpFormatter)
    parser.add_argument("core", help="the core's file")
    parser.add_argument("thread", type=lambda text: int(text, 0), help="the thread's id, as `dump` prints it")
    parser.add_argument("--program", help="the program's file")
    parser.add_argument("--root", default="/", help="the folder below which the files of the process lie")
    parser.add_argument("--version", action="version", version=version_line(), help="the project's version, and its commit")
    given = parser.parse_args(words)
    try:
        program = given.program or program_of(given.core, given.root)
        print("\n".join(addresses_of(given.core, given.thread, program, given.root)))
    except (Fault, OSError) as fault:
        print(f"native_addresses: {fault}", file=sys.stderr)
        return 2
    return 0


if __name__ == "__main__":
    sys.exit(main())
