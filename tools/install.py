#!/usr/bin/env python3
"""Copies what a user needs into a folder that can be moved to another host of the same machine, or makes a Debian package of it.

    tools/install.py --to FOLDER
    tools/install.py --deb FILE

FOLDER/bin then has `pystacks`, `pysalvage` where it was built, and `pystacks-core`, which is the tool, with `pystacks-slim`,
`pystacks-layout` and `pystacks-native` (tools/slim_core.py, tools/layouts/derive_layout.py, tools/native_addresses.py); beside it
stand the tool's modules, the layouts and records, and the pages of docs for users. It needs the C library and Python 3.8 or later. A
folder that has other files is not written into.
"""

import argparse
import compileall
import os
import re
import shutil
import sys
from dataclasses import dataclass
from pathlib import Path
from py_compile import PycInvalidationMode
from typing import List, Optional

sys.dont_write_bytecode = True

from pystacks_tool import pages, places
from pystacks_tool.faults import BAD_WORDS, CANNOT_WRITE, Fault, say, shown
from pystacks_tool.places import MACHINES, PROGRAM, SALVAGE, commit, program_at, salvage_at, version_line

ROOT = Path(pages.ROOT)
LAYOUTS = Path(places.LAYOUTS)

PAGES = ("COMMANDS", "CORES", "DIFFERENCES", "DUMP", "FLEET", "HANDLER", "HOSTILE", "LAYOUTS", "MEASURES", "MERGE", "MESSAGES", "REACH", "SALVAGE", "SAMPLE", "SLIM", "SPEED", "TOOL",
         "TRIAGE", "USAGE", "WALK")
"""The pages of docs for users."""

TEXTS = ("README.md", "LICENSE", "NOTICE", "CHANGELOG.md", "SECURITY.md")
"""What stands beside docs/."""

LAYOUT_TOOLS = ("derive_layout", "layout_from_core", "layout_plan", "layout_sources", "gdb_fields", "derive_records", "join_records", "carry_records", "records_plan",
                "join_layouts", "carry_layouts", "find_pythons", "probe_*")
"""The modules of the tools that derive and join layouts and records."""

TOOLS = ("dump_core.py", "core_handle.py", "core_fleet.py", "slim_core.py", "native_addresses.py", "pystacks_tool/**/*.py", "layouts/README.md", *(f"layouts/{it}.py" for it in LAYOUT_TOOLS))

PACKAGE = "pystacks_tool"
"""The package of the tool, below tools/."""

MARK = "COMMIT"
"""The file by which an installed folder is known. It has the commit, where that is known."""


@dataclass(frozen=True)
class Door:
    """A door in bin/ to a tool."""

    name: str
    module: str
    what: str
    python: str = "/usr/bin/env python3"
    """By which Python it is run."""


DOORS = (
    Door("pystacks-core", "dump_core", "Shows where a Python process stood when it died, by its core"),
    Door("pystacks-slim", "slim_core", "Makes a small core of a large one, with what its Python stacks need"),
    Door("pystacks-layout", "derive_layout", "Writes the layout of an installed CPython, by which pystacks reads its cores"),
    Door("pystacks-core-handle", "core_handle", "The program that the kernel starts for each core, and sets that up", "/usr/bin/python3 -I"),
    Door("pystacks-native", "native_addresses", "Prints the native addresses of a thread of a core, as pystacks merge takes them"),
)

DOOR = '''\
#!{it.python}
"""{it.what}. The tool itself stands in ../tools."""

import os
import sys

sys.dont_write_bytecode = True
if sys.version_info < (3, 8):
    sys.stderr.write("{it.name}: Python 3.8 or later is needed, and this is %d.%d\\n" % sys.version_info[:2])
    sys.exit(127)
folder = os.path.join(os.path.dirname(os.path.dirname(os.path.realpath(__file__))), "tools")
sys.path[:0] = [folder, os.path.join(folder, "layouts")]
try:
    from {it.module} import main
except ImportError as error:
    name = (error.name or "{it.module}").replace(".", "/")
    sys.stderr.write("{it.name}: there is no %s.py in %s: copy the whole folder that was installed\\n" % (name, folder))
    sys.exit(127)
sys.exit(main())
'''
"""What such a door is."""


def check_folder(folder: Path) -> None:
    """Refuses a folder that has files and isn't one that was installed."""
    if folder.exists() and not folder.is_dir():
        raise Fault(f"{shown(os.fsencode(folder))} is no folder", BAD_WORDS, "name a new one by --to")
    if folder.is_dir() and any(folder.iterdir()) and not (folder / MARK).is_file():
        raise Fault(f"{shown(os.fsencode(folder))} has other files", BAD_WORDS, "name a new or an empty folder by --to")


def copied(source: Path, target: Path) -> None:
    """Copies a file, with its rights."""
    target.parent.mkdir(parents=True, exist_ok=True)
    shutil.copyfile(source, target)
    target.chmod(0o755 if os.access(source, os.X_OK) else 0o644)


def emptied(folder: Path) -> None:
    """Removes what an earlier install put into a folder."""
    for name in ("bin", "tools", "layouts", "docs"):
        if (folder / name).is_dir():
            shutil.rmtree(folder / name)


def put_tools(folder: Path) -> None:
    """The tools, and their doors."""
    for pattern in TOOLS:
        for source in sorted((ROOT / "tools").glob(pattern)):
            copied(source, folder / source.relative_to(ROOT))
    for it in DOORS:
        door = folder / "bin" / it.name
        door.write_text(DOOR.format(it=it), encoding="ascii")
        door.chmod(0o755)


def without_links(text: str) -> str:
    """A text whose links to pages that don't come along are plain words."""
    return re.sub(r"\[([^]]*)\]\(docs/(\w+)\.md\)", lambda it: it.group() if it.group(2) in PAGES else it.group(1), text)


def put_pages(folder: Path) -> None:
    """The pages for users, and what stands beside them."""
    for page in PAGES:
        source = ROOT / "docs" / f"{page}.md"
        if source.is_file():
            copied(source, folder / "docs" / source.name)
    for source in sorted((ROOT / "docs" / "pictures").glob("*.png")):
        copied(source, folder / "docs" / "pictures" / source.name)
    for name in TEXTS:
        if (ROOT / name).is_file():
            (folder / name).write_text(without_links((ROOT / name).read_text(encoding="utf-8")), encoding="utf-8")


def put(folder: Path, program: Path, salvage: Optional[Path]) -> List[str]:
    """Fills the folder. Returns what there is to say."""
    emptied(folder)
    copied(program, folder / "bin" / "pystacks")
    if salvage:
        copied(salvage, folder / "bin" / "pysalvage")
    put_tools(folder)
    for machine in MACHINES.values():
        for what in ("cpython", "records"):
            source = LAYOUTS.with_name(f"{what}-{machine}.toml")
            copied(source, folder / "layouts" / source.name)
    put_pages(folder)
    (folder / MARK).write_text(commit() + "\n", encoding="ascii")
    none = [] if salvage else ["pysalvage isn't built, and isn't there: stacks of broken processes aren't shown"]
    return [*none, f"{folder / 'bin' / 'pystacks-core'} is the tool"]


def compile_tools(folder: Path) -> None:
    """Compiles the tool's modules, which would otherwise be half of a run. What is compiled names its source by a hash, so that it is as good on another
    host; a Python of another minor version takes none of it."""
    compileall.compile_dir(os.fspath(folder / "tools" / PACKAGE), quiet=2, invalidation_mode=PycInvalidationMode.CHECKED_HASH)


def installed(to: str, program: Path, salvage: Optional[Path]) -> List[str]:
    """Makes the folder."""
    folder = Path(os.path.abspath(to))
    check_folder(folder)
    folder.mkdir(parents=True, exist_ok=True)
    said = put(folder, program, salvage)
    compile_tools(folder)
    return said


def main(given: Optional[List[str]] = None) -> int:
    """The command."""
    parser = argparse.ArgumentParser(description=__doc__, formatter_class=argparse.RawDescriptionHelpFormatter)
    form = parser.add_mutually_exclusive_group(required=True)
    form.add_argument("--to", metavar="FOLDER", help="the folder, which is made")
    form.add_argument("--deb", metavar="FILE", help="the Debian package, which is made")
    parser.add_argument("--maintainer", metavar="NAME <ADDRESS>", default="", help="who is named in the package")
    parser.add_argument("--program", metavar="FILE", help="the program pystacks (default: the one that was built)")
    parser.add_argument("--salvage", metavar="FILE", help="the program pysalvage (default: the one that was built, if it was)")
    parser.add_argument("--version", action="version", version=version_line(), help="the project's version, and its commit")
    words = parser.parse_args(given)
    try:
        beside = salvage_at(words.salvage, SALVAGE)
        program, salvage = Path(program_at(words.program, PROGRAM)), Path(beside) if beside else None
        if words.deb:
            from debian_package import packaged
            lines = packaged(Path(words.deb), program, salvage, words.maintainer)
        else:
            lines = installed(words.to, program, salvage)
        for line in lines:
            print(f"install: {line}")
    except Fault as fault:
        say(str(fault), fault.then, "install")
        return fault.status
    except OSError as error:
        say(f"cannot write {error.filename}: {error.strerror}", who="install")
        return CANNOT_WRITE
    return 0


if __name__ == "__main__":
    sys.exit(main())
