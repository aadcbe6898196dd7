#!/usr/bin/env python3
"""Compares how the library reads the maps of running processes with how Python reads them.

    tools/check/real/compare_maps.py --program crates/listing/out/listing

The maps are those of this process and of all others whose maps can be read, and some lines with names that few have.
All of it is bytes, which are cut at line feeds alone. The status is 0 exactly where nothing that was tried failed.
"""

import argparse
import glob
import os
import re
import subprocess
import sys
import tempfile
from typing import Iterator, List, Optional, Tuple

ENTRY = re.compile(rb"([0-9a-f]+)-([0-9a-f]+) ([r-])([w-])([x-]). ([0-9a-f]+) \S+ \d+(?:[ \t](.*))?$", re.DOTALL)

BLANKS = b" \t\n\x0c\r"
"""White space, as the library has it: that of ASCII, less the vertical tab."""

DELETED = b" (deleted)"

FRONT = b"1000-2000 r-xp 00001000 00:12 7      "

ODD_LINES = [
    FRONT + name
    for name in (
        b"/bin/cat", b"/a b", b"/a\xe2\x80\xa8b", b"/a\xc2\x85b", b"/a\x0cb", b"/a\x0bb", b"/a\x1cb", b"/a\rb", b"/a\xff",
        b"/gone (deleted)", b"/a (deleted) (deleted)", b"[vdso]", b"[anon:a\xe2\x80\xa8b]", b"anon\xffb", b"", b"//",
    )
] + [b"3000-4000 ---p 00000000 00:00 0", b"3000-4000 rw-s 00000000 00:00 0 "]
"""Lines with separators of Unicode, control characters, bytes that are no text, and no name."""


def text_of(name: bytes) -> bytes:
    """A name as the program prints it: one that is no text is a question mark."""
    try:
        name.decode("utf-8")
    except UnicodeDecodeError:
        return b"?"
    return name


def wanted(line: bytes) -> bytes:
    """The line that the program should write."""
    found = ENTRY.match(line)
    if not found:
        return b"error"
    start, end = (int(it, 16) for it in found.groups()[:2])
    mode, offset, path = b"".join(found.groups()[2:5]), int(found.group(6), 16), (found.group(7) or b"").strip(BLANKS)
    front = b"%d %d %s %d " % (start, end, mode, offset)
    if not path:
        return front + b"none"
    if not path.startswith(b"/"):
        return front + b"component " + path.decode("utf-8", "replace").encode()
    name = path[: -len(DELETED)] if path.endswith(DELETED) else path
    return front + b"path /proc/1/map_files/%x-%x %s" % (start, end, text_of(name))


def lines_of(data: bytes) -> List[bytes]:
    """The lines, which line feeds end."""
    return data.split(b"\n")[:-1] if data.endswith(b"\n") else data.split(b"\n")


def compare(program: str, maps: bytes) -> Optional[str]:
    """What differs first, if anything does."""
    with tempfile.NamedTemporaryFile() as file:
        file.write(maps)
        file.flush()
        got = lines_of(subprocess.run([program, "maps", file.name], check=True, stdout=subprocess.PIPE).stdout)
    lines = [wanted(line) for line in lines_of(maps)]
    for one, other in zip(got, lines):
        if one != other:
            return f"{one!r} where Python reads {other!r}"
    return None if len(got) == len(lines) else f"{len(got)} entries where Python reads {len(lines)}"


def all_maps() -> Iterator[Tuple[str, bytes]]:
    """What is compared, with its name: the odd lines, and the maps of processes that can be read and aren't empty."""
    yield "lines of odd names", b"".join(line + b"\n" for line in ODD_LINES)
    for path in ["/proc/self/maps", *glob.glob("/proc/[0-9]*/maps")]:
        try:
            with open(path, "rb") as file:
                maps = file.read()
        except OSError:
            # (another user's, or one that has ended)
            continue
        if maps:
            yield path, maps


def main() -> int:
    parser = argparse.ArgumentParser(description=__doc__, formatter_class=argparse.RawDescriptionHelpFormatter)
    parser.add_argument("--program", required=True, help="the program listing")
    args = parser.parse_args()
    if not os.path.isfile(args.program):
        print(f"compare_maps: skipped: there is no {args.program}")
        return 0
    count = -1
    for name, maps in all_maps():
        difference = compare(args.program, maps)
        if difference:
            print(f"compare_maps: {name}: {difference}")
            return 1
        count += 1
    print(f"compare_maps: the maps of {count} processes, and lines of odd names, are read as Python reads them")
    return 0


if __name__ == "__main__":
    sys.exit(main())
