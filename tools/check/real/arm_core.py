#!/usr/bin/env python3
"""Walks cores of a Python of another machine, aarch64, and compares the stacks with those that it told.

    tools/check/real/arm_core.py ROOT --program crates/pystacks/out/pystacks

ROOT is a folder of unpacked arm64 packages with a Python 3 (tools/layouts/README.md has their names); where none is given the
environment's PYSTACKS_ARM_ROOT names it. The emulator qemu-aarch64 runs real_core_child.py by that Python and leaves
its cores. These have no file table, so it is written from the maps that the child told. Then each core is walked and
reported, by the stored layout of the Python's version, and compared like those of real_core.py; where the program
`listing` is built, with those bytes alone that are read, too. Where `pysalvage` is built, there is a native stack of each
thread that the child told, each ends whole, none by a guess, and has a frame of Python. Nothing is fetched and nothing
changed. What can't be tried here has one line that says why. The status is 0 exactly where nothing that was tried failed.
"""

import argparse
import json
import os
import re
import shutil
import sys
import tempfile
from dataclasses import replace
from pathlib import Path
from typing import Dict, Iterator, List, Optional, Tuple

from rooms import ROOT, TOOLS  # (first: it makes the other rooms known)

from carry_layouts import numbers_by_key
from child_cores import Case, Core, Failure, Skip, leave_core
from pystacks_tool.cores.gaps import entries_in
from pystacks_tool.cores.maps import Use, machine_of, wanted_files
from pystacks_tool.places import machine_name
from derive_layout import Build, Derived, DeriveError, build_of
from file_tables import TableError, add_file_table
from made import AARCH64, X86_64, layout_of
from real_core import Walk, check_footprint, check_report, dump, over_core, ran, report_of

EMULATOR = "qemu-aarch64"

VARIABLE = "PYSTACKS_ARM_ROOT"
"""What names the folder where no word does."""

NO_HOST_CORE = "0"
"""What the emulator's own core is to hold, which the system writes beside."""

NAMES = "qemu_*_{pid}.core"
"""The glob for names of the emulator's cores."""

CASES = (
    Case("main", NO_HOST_CORE),
    Case("other", NO_HOST_CORE, "ein Ordner für 日本"),
    Case("many", NO_HOST_CORE),
    Case("free", NO_HOST_CORE),
)

MACHINE_AT = 18
"""Where an ELF file has the number of its machine."""


def python_below(root: Path) -> Path:
    """The Python in a folder of unpacked packages."""
    found = [it for it in sorted(root.glob("usr/bin/python3.*")) if re.fullmatch(r"python3\.\d+", it.name)]
    if not found:
        raise Skip(f"there is no usr/bin/python3.N below {root}")
    return found[-1]


def emulated(root: Path, room: Path) -> Build:
    """The build of that Python, which is run by the emulator."""
    emulator = shutil.which(EMULATOR)
    if not emulator:
        raise Skip(f"there is no {EMULATOR}")
    runner = room / "python"
    runner.write_text(f'#!/bin/sh\nexec "{emulator}" -L "{root}" "{python_below(root)}" "$@"\n', encoding="utf-8")
    runner.chmod(0o700)
    try:
        build = build_of(str(runner))
    except DeriveError as error:
        raise Failure(f"{python_below(root)} tells nothing: {error.brief}") from error
    if build.machine != "aarch64":
        raise Failure(f"{python_below(root)} says that it runs on {build.machine}")
    return replace(build, executable=str(runner))


def places_in(text: str) -> Dict[str, int]:
    """The place in _PyRuntime that the head of a stored layout tells."""
    current = re.search(r"^# _PyRuntime holds that of the current thread at (\d+)$", text, re.MULTILINE)
    return {"runtime.current": int(current.group(1))} if current else {}


def stored(build: Build) -> Derived:
    """The stored layout of a build's version and machine."""
    path = ROOT / "layouts" / f"cpython-{'.'.join(map(str, build.minor))}-{build.machine}.toml"
    if not path.is_file():
        raise Skip(f"there is no layouts/{path.name}")
    text = path.read_text(encoding="utf-8")
    layout = layout_of(text)
    numbers = {**numbers_by_key(text), **places_in(text)}
    return Derived(build, text, numbers, str(layout["lock"]), layout["dicts"] != "none")


def check_machine(program: Path, core: Core, layouts: Path, derived: Derived) -> None:
    """Fails where a core that says it is of another machine has its lock's holder marked: the place of the current
    thread in _PyRuntime is the machine's own."""
    if derived.lock != "runtime" or not any(it.has_lock for it in core.told.threads):
        return
    try:
        with open(core.path, "r+b") as file:
            file.seek(MACHINE_AT)
            file.write(X86_64.to_bytes(2, "little"))
        wanted = report_of(core.told, str(core.path), derived.with_dicts, with_holder=False)
        check_report(dump(program, core, layouts), wanted)
    finally:
        with open(core.path, "r+b") as file:
            file.seek(MACHINE_AT)
            file.write(AARCH64.to_bytes(2, "little"))


def by_tool(*words: object) -> Walk:
    """Runs the tool, which passes the program's text on. Its line on zero pages, which it leaves out of a core, is no fault,
    and neither is what it says to do next."""
    run = ran([sys.executable, "-B", TOOLS / "dump_core.py", "--plain", *words])
    said = [it for it in run.err.splitlines() if not it.endswith("are zero pages, and left out")]
    said = [it for it in said if not it.startswith("dump_core: next: ")]
    return replace(run, err="\n".join(said))


def check_tool(program: Path, core: Core, derived: Derived) -> None:
    """Fails where the tool, which finds layouts and images by itself, doesn't show the same."""
    wanted = report_of(core.told, str(core.path), derived.with_dicts)
    check_report(by_tool(core.path, "--program", program), wanted)


def check_other_images(program: Path, core: Core, room: Path) -> None:
    """Fails where the tool takes an image of the machine at hand for that of a core of another one."""
    own = os.path.realpath(sys.executable)
    with open(core.path, "rb") as file, open(own, "rb") as image:
        needed = next(os.fsdecode(it.name) for it in wanted_files(file) if it.use is Use.NEEDED)
        machine = machine_of(image)
        if machine in (None, AARCH64):
            return
    other = room / "other" / needed[1:]
    other.parent.mkdir(parents=True)
    shutil.copyfile(own, other)
    run = by_tool(core.path, "--program", program, "--root", room / "other")
    lines = [f"dump_core: no image of {needed} (needed; {other} is of another machine, {machine_name(machine)})"]
    lines.append(f"pystacks: image not given: {needed}")
    if (run.status, run.out, run.err.splitlines()) != (1, "", lines):
        raise Failure(f"over images of another machine the tool ended with status {run.status}: {run.err}")


def check_native(salvage: Path, core: Core, layouts: Path) -> None:
    """Fails where a thread that the child told has no native stack, or one that isn't whole, is a guess, or has no frame of Python."""
    entries = {os.fsdecode(it.name) for it in entries_in(core.told.maps.encode("utf-8"))}
    images = [f"{it}={it}" for it in sorted(entries) if os.path.isfile(it)]
    run = ran([salvage, core.path, "--layouts", layouts, "-j", "--native", "-n", "4096", *images])
    if run.status != 0:
        raise Failure(f"native stacks: status {run.status}: {run.err}")
    threads = json.loads(run.out)["native"]
    if len(threads) < len(core.told.threads):
        raise Failure(f"{len(threads)} native stacks of {len(core.told.threads)} threads")
    for it in threads:
        stack, guessed = it["stack"], it["guessed"]
        files = {os.path.basename(frame["file"] or "") for frame in (*stack["frames"], *stack["last"])}
        if guessed is not None or stack["end"]["kind"] != "whole" or not any("python" in name for name in files):
            raise Failure(f"the native stack of thread {it['system_id']} ends {stack['end']}, in {sorted(files)}")


def cores_of(derived: Derived, room: Path) -> Iterator[Core]:
    """A core of each case, with a file table, in a folder of its own. It is removed behind its use."""
    for number, case in enumerate(CASES):
        core = leave_core(derived, NAMES, room / str(number), case)
        try:
            add_file_table(core.path, list(entries_in(core.told.maps.encode("utf-8"))))
            yield core
        except TableError as error:
            raise Failure(f"core '{case.who}': {error}") from error
        finally:
            core.path.unlink()


def tried(program: Path, listing: Optional[Path], salvage: Optional[Path], derived: Derived, room: Path) -> Tuple[int, int]:
    """Tries the layout on the cores. Returns how many threads and frames agree."""
    (room / "layout.toml").write_text(derived.text, encoding="utf-8")
    threads: List[int] = []
    for core in cores_of(derived, room):
        try:
            over_core(program, derived, core, room)
            check_machine(program, core, room / "layout.toml", derived)
            check_tool(program, core, derived)
            if listing:
                check_footprint(program, listing, core, room / "layout.toml", derived.build)
            if salvage:
                check_native(salvage, core, room / "layout.toml")
            if not threads:
                check_other_images(program, core, room)
        except Failure as reason:
            raise Failure(f"core '{core.case.who}': {reason}") from reason
        threads += [len(it.frames) for it in core.told.threads]
    return len(threads), sum(threads)


def try_root(words: argparse.Namespace) -> str:
    """Tries the Python below the folder, and tells of it."""
    if not words.root:
        raise Skip(f"no folder of unpacked packages is named, by a word or by {VARIABLE}")
    root, program = Path(words.root).resolve(), Path(words.program).resolve()
    if not root.is_dir():
        raise Skip(f"there is no folder {root}")
    if not program.is_file():
        raise Failure(f"there is no program {program}")
    listing = Path(words.listing or ROOT / "crates" / "listing" / "out" / "listing").resolve()
    found = listing if listing.is_file() else None
    salvage = Path(words.salvage or ROOT / "crates" / "pysalvage" / "out" / "pysalvage").resolve()
    with tempfile.TemporaryDirectory(prefix="arm-core-") as name:
        derived = stored(emulated(root, Path(name)))
        threads, frames = tried(program, found, salvage if salvage.is_file() else None, derived, Path(name))
    build = derived.build
    read = "footprints agree" if found else "footprints not tried"
    return f"{build.dotted} on {build.machine}: {len(CASES)} cores: {threads} threads, {frames} frames agree; {read}"


def main() -> int:
    """The command."""
    parser = argparse.ArgumentParser(description=__doc__.splitlines()[0])
    default = os.environ.get(VARIABLE, "")
    parser.add_argument("root", nargs="?", default=default, help=f"the unpacked packages (default: by {VARIABLE})")
    parser.add_argument("--program", required=True, help="the built program")
    parser.add_argument("--salvage", help="the built program `pysalvage` (default: that of crates/pysalvage, if built)")
    parser.add_argument("--listing", help="the built program `listing` (default: that of crates/listing, if built)")
    try:
        print(f"arm_core: {try_root(parser.parse_args())}")
    except Skip as reason:
        print(f"arm_core: skipped: {reason}")
    except Failure as reason:
        print(f"arm_core: FAILED: {reason}")
        return 1
    return 0


if __name__ == "__main__":
    sys.exit(main())
