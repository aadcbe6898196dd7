#!/usr/bin/env python3
"""Compares what the library reads in real ELF files with what readelf reads there.

    tools/check/real/compare_elf.py --program crates/listing/out/listing [FILE..]

The machine, segments, sections, symbols and the build id are compared line by line; of a Python binary or library also
the bss, and the addresses of _PyRuntime and Py_Version, as for an image that is mapped where it is linked. Without FILE
these are the running Python, its libpython if it has one, /bin/sh, the core of the stored run, and the core and the image
of a program that `listing` builds, of which readelf is to warn of nothing. A word of readelf
whose number isn't known here is compared with any number, and has one line. What can't be tried here has one line that
says why. The status is 0 exactly where nothing that was tried failed.
"""

import argparse
import os
import re
import shutil
import subprocess
import sys
import sysconfig
import tempfile
from pathlib import Path
from typing import Dict, Iterator, List, Optional, Set, Tuple

from rooms import ROOT  # (first: it makes the other rooms known)

import built_program
import rows_built

STORED_CORE = ROOT / "crates" / "pystacks" / "data" / "core"

MACHINES = {"Advanced Micro Devices X86-64": "x86-64", "AArch64": "aarch64"}
SEGMENT_KINDS = {
    "NULL": 0, "LOAD": 1, "DYNAMIC": 2, "INTERP": 3, "NOTE": 4, "SHLIB": 5, "PHDR": 6, "TLS": 7,
    "GNU_EH_FRAME": 0x6474E550, "GNU_STACK": 0x6474E551, "GNU_RELRO": 0x6474E552, "GNU_PROPERTY": 0x6474E553,
}
SECTION_KINDS = {
    "NULL": 0, "PROGBITS": 1, "SYMTAB": 2, "STRTAB": 3, "RELA": 4, "HASH": 5, "DYNAMIC": 6, "NOTE": 7, "NOBITS": 8,
    "REL": 9, "DYNSYM": 11, "INIT_ARRAY": 14, "FINI_ARRAY": 15, "PREINIT_ARRAY": 16, "GROUP": 17, "RELR": 19,
    "GNU_HASH": 0x6FFFFFF6, "VERDEF": 0x6FFFFFFD, "VERNEED": 0x6FFFFFFE, "VERSYM": 0x6FFFFFFF,
}
SYMBOL_TYPES = {"NOTYPE": 0, "OBJECT": 1, "FUNC": 2, "SECTION": 3, "FILE": 4, "COMMON": 5, "TLS": 6, "IFUNC": 10}
BINDINGS = {"LOCAL": 0, "GLOBAL": 1, "WEAK": 2, "UNIQUE": 10}
SECTION_NUMBERS = {"UND": 0, "ABS": 0xFFF1, "COM": 0xFFF2}
TABLES = {".symtab": "plain", ".dynsym": "dynamic"}
FLAGS = {"R": 4, "W": 2, "E": 1}

HEXADECIMAL = "0x([0-9a-f]+)"
SEGMENT = re.compile(rf"  (\S+(?:: \S+)?)\s+{HEXADECIMAL} {HEXADECIMAL} {HEXADECIMAL} {HEXADECIMAL} {HEXADECIMAL} (.{{3}}) ")
SECTION = re.compile(
    r"\s*\[\s*\d+\] (.*?)\s+(\S+(?:: <unknown>)?)\s+([0-9a-f]{16}) ([0-9a-f]+) ([0-9a-f]+) [0-9a-f]+ +[A-Za-z]* +(\d+) +\d+ +\d+$")
SYMBOL = re.compile(
    r"\s*\d+: ([0-9a-f]{16})\s+(0x[0-9a-f]+|\d+) (\w+|<[^>]*>: \d+)\s+(\w+|<[^>]*>: \d+)\s+\w+\s+(?:\[.*?\]\s+)?(\w+)(?: (.*))?$")

ANY = "*"
"""A number that isn't known here."""


class Words:
    """The numbers of readelf's words, and those words of which none is known."""

    def __init__(self) -> None:
        self.unknown: Set[str] = set()

    def number(self, numbers: Dict[str, int], word: str) -> Optional[int]:
        """The number of a word, where it is known; readelf puts one behind what it doesn't know."""
        if word in numbers:
            return numbers[word]
        behind = re.fullmatch(r"<[^>]*>: (\d+)", word)
        if behind:
            return int(behind.group(1))
        self.unknown.add(word)
        return None


def shown(number: Optional[int]) -> str:
    """A number of a line."""
    return ANY if number is None else str(number)


def run(command: List[str]) -> List[str]:
    """The lines that a command writes, which line feeds end."""
    written = subprocess.run(command, stdout=subprocess.PIPE, stderr=subprocess.DEVNULL).stdout
    return [line.decode("utf-8", "replace") for line in written.split(b"\n")[:-1]]


def readelf(option: str, path: str) -> List[str]:
    """What readelf writes of a file. Where it finds a fault, as in notes that it doesn't know, it writes the rest."""
    return run(["readelf", option, "-W", path])


def machine(path: str) -> str:
    """The line of the machine, by readelf."""
    found = re.search(r"Machine:\s+(.*)", "\n".join(readelf("-h", path)))
    return f"machine {MACHINES.get(found.group(1), 'other') if found else 'other'}"


def segments(path: str, words: Words) -> Iterator[str]:
    """The lines of the segments, by readelf."""
    for line in readelf("-l", path):
        found = SEGMENT.match(line)
        if found:
            kind, offset, addr, _, in_file, in_memory, letters = found.groups()
            flags = sum(FLAGS[letter] for letter in letters if letter != " ")
            number = shown(words.number(SEGMENT_KINDS, kind))
            yield f"segment {number} {flags} {int(offset, 16)} {int(addr, 16)} {int(in_file, 16)} {int(in_memory, 16)}"


def sections(path: str, words: Words) -> Iterator[str]:
    """The lines of the sections, by readelf."""
    for line in readelf("-S", path):
        found = SECTION.match(line)
        if found:
            name, kind, addr, offset, size, link = found.groups()
            number = shown(words.number(SECTION_KINDS, kind))
            yield f"section {number} {int(addr, 16)} {int(offset, 16)} {int(size, 16)} {link} {name}"


def symbols(path: str, words: Words) -> Iterator[str]:
    """The lines of the symbols, by readelf; of a section's symbol without the name that readelf gives it."""
    word = ""
    for line in readelf("-s", path):
        table = re.match(r"Symbol table '(.*)' contains", line)
        if table:
            word = TABLES.get(table.group(1), "")
        found = SYMBOL.match(line)
        if not found or not word:
            continue
        value, size, kind, binding, section, name = found.groups()
        high, low = words.number(BINDINGS, binding), words.number(SYMBOL_TYPES, kind)
        info = shown(None if high is None or low is None else high << 4 | low)
        number = SECTION_NUMBERS.get(section, section)
        name = "" if kind == "SECTION" else (name or "").rstrip()
        if word == "dynamic":
            # (a version that readelf puts behind the name)
            name = name.split("@")[0]
        yield f"{word} {info} {number} {int(value, 16)} {int(size, 0)} {name}"


def build(path: str) -> str:
    """The line of the build id, by readelf."""
    found = re.search(r"Build ID: ([0-9a-f]+)", "\n".join(readelf("-n", path)))
    return f"build {found.group(1) if found else '-'}"


def image(lines: List[str]) -> List[Tuple[str, Optional[str]]]:
    """What the lines of readelf say of the image: the bss by its section, two symbols by their last lines."""
    wanted: List[Tuple[str, Optional[str]]] = []
    for line in lines:
        words = line.split(" ")
        if words[0] == "section" and words[-1] == ".bss":
            wanted.append(("bss", f"{words[2]} {words[4]}"))
    for name in ("_PyRuntime", "Py_Version"):
        values = [line.split(" ")[3] for line in lines if line.endswith(f" {name}") and line[0] in "pd"]
        wanted.append((name, values[-1] if values else None))
    return wanted


def told(lines: List[str]) -> List[Tuple[str, Optional[str]]]:
    """The same of the program's lines."""
    found = dict(line.split(" ")[1:3] for line in lines if line.startswith("symbol "))
    bss = [tuple(line.split(" ")[1:3]) for line in lines if line.startswith("binary ")]
    answers: List[Tuple[str, Optional[str]]] = [("bss", f"{addr} {size}") for addr, size in bss]
    return answers + [(name, found.get(name)) for name in ("_PyRuntime", "Py_Version")]


def by_kind(lines: List[str], word: str) -> List[str]:
    """The lines that begin with a word."""
    return [line for line in lines if line.split(" ")[0] == word]


def agree(one: str, other: str) -> bool:
    """Whether two lines say the same: the second word of the other may be any number, and the program has a question
    mark for a name that is no text."""
    ours, theirs = one.split(" "), other.split(" ")
    if theirs[1] == ANY:
        ours[1] = ANY
    if ours[-1] == "?":
        theirs = theirs[: len(ours) - 1] + ["?"]
    return ours == theirs


def compare(program: str, path: str, is_python: bool, words: Words) -> Optional[str]:
    """What differs first, if anything does."""
    got = run([program, "elf", path, "0", str(2 ** 40)])
    wanted = [machine(path), *segments(path, words), *sections(path, words), *symbols(path, words), build(path)]
    for word in ("machine", "segment", "section", "plain", "dynamic", "build"):
        ours, theirs = by_kind(got, word), by_kind(wanted, word)
        for one, other in zip(ours, theirs):
            if not agree(one, other):
                return f"{one!r} where readelf has {other!r}"
        if len(ours) != len(theirs):
            return f"{len(ours)} lines of {word} where readelf has {len(theirs)}"
    if is_python and told(got) != image(wanted):
        return f"{told(got)} where readelf has {image(wanted)}"
    return None


def warnings(path: str) -> str:
    """What readelf says on the standard error of a file's headers, symbols and notes, or warns of beside them."""
    words = ["readelf", "-lSsnW", path]
    ran = subprocess.run(words, stdout=subprocess.PIPE, stderr=subprocess.STDOUT, env={**os.environ, "LC_ALL": "C"})
    lines = ran.stdout.decode("utf-8", "replace").splitlines()
    return "; ".join(line for line in lines if re.search("readelf:|[Ww]arning|[Ee]rror|corrupt", line))


def compare_built(program: str) -> Optional[str]:
    """What differs first in the files of programs that are built, or what readelf warns of there, if anything."""
    for machine in ("x86-64", "aarch64"):
        for version, text in built_program.SAMPLES:
            files = built_program.built(os.path.abspath(program), text, rows_built.LOCALS.words(), version, machine)
            with tempfile.TemporaryDirectory(prefix="built-") as folder:
                for part in ("core", "image"):
                    path = os.path.join(folder, part)
                    Path(path).write_bytes(files[part])
                    difference = compare(program, path, part == "image", Words()) or warnings(path)
                    if difference:
                        return f"{part} of {version}, {machine}: {difference}"
    return None


def default_files() -> List[str]:
    """The running Python, its library if it has one, the shell, and the core of the stored run."""
    library = os.path.join(sysconfig.get_config_var("LIBDIR") or "", sysconfig.get_config_var("INSTSONAME") or "")
    files = [os.path.realpath(sys.executable), library, "/bin/sh", os.fspath(STORED_CORE)]
    return [file for file in files if os.path.isfile(file) and Path(file).read_bytes()[:6] == b"\x7fELF\x02\x01"]


def main() -> int:
    parser = argparse.ArgumentParser(description=__doc__, formatter_class=argparse.RawDescriptionHelpFormatter)
    parser.add_argument("--program", required=True, help="the program listing")
    parser.add_argument("file", nargs="*", help="ELF files (default: those of the running Python, /bin/sh, a core)")
    args = parser.parse_args()
    if not shutil.which("readelf"):
        print("compare_elf: skipped: there is no readelf")
        return 0
    if not os.path.isfile(args.program):
        print(f"compare_elf: skipped: there is no {args.program}")
        return 0
    status = 0
    for path in args.file or default_files():
        words = Words()
        difference = compare(args.program, path, "python" in os.path.basename(path), words)
        print(f"compare_elf: {path}: {difference or 'agrees with readelf'}")
        if words.unknown:
            print(f"compare_elf: skipped: {path}: as their numbers aren't known here: {', '.join(sorted(words.unknown))}")
        status = 1 if difference else status
    if not args.file:
        difference = compare_built(args.program)
        print(f"compare_elf: programs that are built: {difference or 'agree with readelf, which warns of nothing'}")
        status = 1 if difference else status
    return status


if __name__ == "__main__":
    sys.exit(main())
