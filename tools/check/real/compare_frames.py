#!/usr/bin/env python3
"""Compares the rows of call frame information that the library reads in real ELF files with those that readelf reads there.

    tools/check/real/compare_frames.py [--program crates/listing/out/listing] [--all] [FILE..]

Of each entry the addresses that it covers, the register of the return address, the mark of a signal's frame and each row are
compared: the CFA and the rule of each register that is followed, by address; of an expression only that it is one. Without FILE
these are the running Python, its libpython if it has one, libc, the loader, libstdc++ and the vdso, of which some entries
of each are compared. With --all it is every entry, of these files and of the programs, libraries and modules of all Pythons that
are installed beside it; then each entry that readelf has must be named by the table too. What can't be tried here has one line
that says why. The status is 0 exactly where nothing that was tried failed.
"""

import argparse
import ctypes.util
import os
import re
import shutil
import subprocess
import sys
import sysconfig
import tempfile
from dataclasses import dataclass, field
from pathlib import Path
from typing import Dict, Iterator, List, Optional, Sequence, Tuple

from rooms import BUILT_LISTING  # (first: it makes the other rooms known)

import find_pythons

SAMPLE = 150
"""How many entries of a file are compared, about, where not all are."""

SIGNS = {"rax": 0, "rdx": 1, "rcx": 2, "rbx": 3, "rsi": 4, "rdi": 5, "rbp": 6, "rsp": 7, "rip": 16, "sp": 31}
"""The numbers of registers whose names don't tell them."""

Row = Tuple[str, Tuple[Tuple[int, str], ...]]
"""The CFA, and the rule of each register that has one."""


@dataclass
class Entry:
    """An entry: how many addresses it covers, the register of the return address, whether it is a signal's frame, and its rows,
    each with the first address at which it holds."""

    size: int
    register: int
    signal: bool
    rows: List[Tuple[int, Row]] = field(default_factory=list)

    def add(self, address: int, row: Row) -> None:
        """One more row: the last at its address, and none where it is the one before again."""
        while self.rows and self.rows[-1][0] >= address:
            self.rows.pop()
        if not self.rows or self.rows[-1][1] != row:
            self.rows.append((address, row))


def number_of(name: str, register: int) -> Optional[int]:
    """The number of a register by readelf's name, where it is known."""
    if name == "ra":
        return register
    if name in SIGNS:
        return SIGNS[name]
    behind = re.fullmatch(r"[rx](\d+)", name)
    return int(behind.group(1)) if behind else None


def cfa_of(word: str) -> str:
    """The CFA of a row of readelf, as the listing has it."""
    parts = re.fullmatch(r"(\w+?)([+-]\d+)", word)
    if parts is None:
        return word
    return f"{number_of(parts.group(1), -1)}{parts.group(2)}"


def rule_of(word: str) -> str:
    """A rule of readelf, as the listing has it."""
    if word in ("u", "s", "exp", "vexp") or re.fullmatch(r"[cv][+-]\d+", word):
        return word
    return f"r{number_of(word, -1)}"


def row_of(words: Sequence[str], columns: Sequence[str], register: int) -> Row:
    """A row of readelf. A register that has no rule is as one that is lost there."""
    rules = {}
    for name, word in zip(columns, words[1:]):
        number = number_of(name, register)
        if number is not None and word != "u":
            rules[number] = rule_of(word)
    return cfa_of(words[0]), tuple(sorted(rules.items()))


HEAD = re.compile(r"[0-9a-f]{8} [0-9a-f]+ [0-9a-f]+ (CIE|FDE) (.*)$")
COMMON = re.compile(r'"(.*?)" cf=\d+ df=-?\d+ ra=(\d+)')
OF_ENTRY = re.compile(r"cie=([0-9a-f]+) pc=([0-9a-f]+)\.\.([0-9a-f]+)")


def told_by_readelf(path: str) -> Dict[int, Entry]:
    """The entries of a file that readelf prints, by their first addresses."""
    words = ["readelf", "--debug-dump=frames-interp", "-W", path]
    text = subprocess.run(words, stdout=subprocess.PIPE, stderr=subprocess.DEVNULL, env={**os.environ, "LC_ALL": "C"}).stdout.decode("utf-8", "replace")
    commons: Dict[str, Entry] = {}
    entries: Dict[int, Entry] = {}
    now = Entry(0, 0, False)
    columns: List[str] = []
    end = 0
    # (behind the number of a register stands its name)
    for line in re.sub(r" \(\w+\)", "", text.split("Contents of the .debug_frame")[0]).splitlines():
        head = HEAD.match(line)
        if head and head.group(1) == "CIE":
            common = COMMON.match(head.group(2))
            assert common is not None, line
            now, end = Entry(0, int(common.group(2)), "S" in common.group(1)), 1 << 64
            commons[line.split()[0]] = now
        elif head:
            entry = OF_ENTRY.match(head.group(2))
            assert entry is not None, line
            common_entry = commons[entry.group(1)]
            begin, end = int(entry.group(2), 16), int(entry.group(3), 16)
            now = Entry(end - begin, common_entry.register, common_entry.signal)
            for _, row in common_entry.rows[-1:]:
                now.add(begin, row)
            entries[begin] = now
        elif line.startswith("   LOC"):
            columns = line.split()[2:]
        elif re.match(r"[0-9a-f]{16} ", line) and int(line[:16], 16) < end:
            now.add(int(line[:16], 16), row_of(line.split()[1:], columns, now.register))
    return entries


def told_by_listing(program: str, path: str, step: int) -> Dict[int, Entry]:
    """The entries of a file that the listing prints, each step-th of the table. A refusal is raised."""
    text = subprocess.run([program, "frames", path, str(step)], stdout=subprocess.PIPE, check=True).stdout.decode()
    entries: Dict[int, Entry] = {}
    now = Entry(0, 0, False)
    for line in text.splitlines():
        if "refused" in line:
            raise ValueError(line)
        words = line.split()
        if words[0] == "entry":
            now = Entry(int(words[2]), int(words[3]), words[4:] == ["signal"])
            entries[int(words[1])] = now
        else:
            rules = [rule.split("=") for rule in words[3:] if rule != "signed"]
            now.add(int(words[1]), (words[2], tuple((int(number), rule) for number, rule in rules if rule != "u")))
    return entries


def compare(program: str, path: str, has_all: bool) -> Tuple[Optional[str], int, int]:
    """What differs first in a file, if anything does, and how many entries and rows were compared."""
    wanted = told_by_readelf(path)
    step = 1 if has_all else max(1, len(wanted) // SAMPLE)
    try:
        got = told_by_listing(program, path, step)
    except ValueError as refused:
        return (None, 0, 0) if not wanted and str(refused) == "refused NoHeader" else (str(refused), 0, 0)
    rows = 0
    for begin, entry in got.items():
        other = wanted.get(begin)
        if other is None:
            return f"readelf has no entry at {begin:#x}", len(got), rows
        if entry != other:
            return f"entry {begin:#x}: {first_difference(entry, other)}", len(got), rows
        rows += len(entry.rows)
    if has_all and len(got) != len(wanted):
        missing = min(set(wanted) - set(got))
        return f"the table doesn't name the entry at {missing:#x}", len(got), rows
    return None, len(got), rows


def first_difference(entry: Entry, other: Entry) -> str:
    """What differs first in an entry."""
    for row, wanted in zip(entry.rows, other.rows):
        if row != wanted:
            return f"{row}, and of readelf {wanted}"
    return f"{entry}, and of readelf {other}"


def is_elf(path: str) -> bool:
    """Whether a file is one of 64 bits, the lowest byte first."""
    if not os.path.isfile(path):
        return False
    with open(path, "rb") as file:
        return file.read(6) == b"\x7fELF\x02\x01"


def loaded() -> List[str]:
    """The files that this process has mapped, and libstdc++ with them where it is there."""
    name = ctypes.util.find_library("stdc++")
    if name:
        ctypes.CDLL(name)
    lines = Path("/proc/self/maps").read_text().splitlines()
    return sorted({line.split(None, 5)[5] for line in lines if len(line.split(None, 5)) == 6 and line.split(None, 5)[5].startswith("/")})


def vdso(folder: str) -> Iterator[str]:
    """A file with the bytes of the vdso of this process, where it has one that can be read."""
    for line in Path("/proc/self/maps").read_text().splitlines():
        if line.endswith("[vdso]"):
            start, end = (int(word, 16) for word in line.split()[0].split("-"))
            try:
                with open("/proc/self/mem", "rb") as memory:
                    memory.seek(start)
                    Path(folder, "vdso").write_bytes(memory.read(end - start))
            except OSError as fault:
                print(f"compare_frames: skipped: the vdso: {fault}")
            else:
                yield os.path.join(folder, "vdso")


def usual_files() -> List[str]:
    """The running Python, its library if it has one, libc, the loader and libstdc++."""
    library = os.path.join(sysconfig.get_config_var("LIBDIR") or "", sysconfig.get_config_var("INSTSONAME") or "")
    wanted = re.compile(r"/(libc|ld|ld-linux-[\w-]*|libstdc\+\+)[.-][^/]*$")
    return [os.path.realpath(sys.executable), os.path.realpath(library), *(path for path in loaded() if wanted.search(path))]


def all_files() -> List[str]:
    """Those, and the programs, libraries and modules of each Python that stands beside the running ones."""
    files = usual_files()
    for program in find_pythons.pythons():
        library = Path(program).resolve().parent.parent / "lib"
        files += [os.path.realpath(path) for path in (program, *sorted(library.glob("libpython*.so*")), *sorted(library.glob("python*/**/*.so")))]
    return files


def try_files(program: str, files: Sequence[str], has_all: bool) -> int:
    """Compares files, with a line for each that differs and one for all."""
    failed, entries, rows, tried = 0, 0, 0, 0
    for path in dict.fromkeys(file for file in files if is_elf(file)):
        difference, some, more = compare(program, path, has_all)
        tried, entries, rows = tried + 1, entries + some, rows + more
        if difference:
            print(f"compare_frames: {path}: {difference}")
            failed += 1
    print(f"compare_frames: {tried} files, {entries} entries, {rows} rows: {f'{failed} files differ' if failed else 'agree with readelf'}")
    return 1 if failed else 0


def main() -> int:
    parser = argparse.ArgumentParser(description=__doc__, formatter_class=argparse.RawDescriptionHelpFormatter)
    parser.add_argument("--program", default=str(BUILT_LISTING), help="the program listing")
    parser.add_argument("--all", action="store_true", help="every entry, of the files of all Pythons too")
    parser.add_argument("file", nargs="*", help="ELF files (default: those of the running Python, its libraries and the vdso)")
    args = parser.parse_args()
    if not shutil.which("readelf"):
        print("compare_frames: skipped: there is no readelf")
        return 0
    if not os.path.isfile(args.program):
        print(f"compare_frames: skipped: there is no {args.program}")
        return 0
    with tempfile.TemporaryDirectory(prefix="frames-") as folder:
        files = args.file or [*(all_files() if args.all else usual_files()), *vdso(folder)]
        return try_files(args.program, files, args.all)


if __name__ == "__main__":
    sys.exit(main())
