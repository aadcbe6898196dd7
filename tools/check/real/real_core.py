#!/usr/bin/env python3
"""Walks cores of real Pythons, and compares the stacks with those that the Pythons told before they died.

    tools/check/real/real_core.py --program crates/pystacks/out/pystacks
    tools/check/real/real_core.py --program crates/pystacks/out/pystacks --swaps    # slow: which wrong layouts are noticed

For each installed CPython of 2.7 and 3.6 to 3.13 the layout is derived (derive_layout.py), real_core_child.py is
started and leaves some cores, and the program walks those that have all private mappings. Threads, their order,
functions and files must be those that the child printed. Then the program reports each core, usual ones too, with the
images that it needs, and the whole text, byte by byte, must be the one that the child's own words give: signal,
process, version, threads and their names, functions, files and lines. Where it is prepared (core_prepare.py), cut at
all its runs of zero pages, its report must be the same. Names are left out where the layout that was
derived has no dicts. Where the program `listing` is built, a core in which only those bytes of its memory are left that
are read for the stacks must have the same stacks. What can't be tried here has one line that says why. The status is 0
exactly where nothing that was tried failed. The cores are grouped too, and what the locals of a thread lead to is compared
with what the process found itself (real_groups.py).
"""

import argparse
import json
import os
import re
import shutil
import signal
import subprocess
import sys
import tempfile
import threading
import time
from dataclasses import dataclass, replace
from functools import lru_cache
from itertools import takewhile, zip_longest
from pathlib import Path
from typing import Dict, Iterator, List, Optional, Sequence, Tuple

from rooms import ROOT  # (first: it makes the other rooms known)

import child_cores
from child_cores import CASES, GATE_CASES, Case, Core, Failure, Skip, Thread, Told, core_names, leave_core
from pystacks_tool.cores.maps import Use, machine_of, wanted_files
from pystacks_tool.cores.prepare import Wishes, prepared
from derive_layout import Build, Derived, DeriveError, How, build_of, derive, same_version, told_of
from pystacks_tool.cores.images import image_words
from find_pythons import pythons
from footprints import Footprint, blotted, footprint_of
from each_python import tell_each
from layout_plan import plan_of
from layout_swaps import swaps
from real_groups import check_objects, groups_text, kept
from real_slim import slim_walks
from real_tool import check_tool


HELD = """\
    hold (hält.py:10)
        Arguments:
            bottom: <{kind} at {held:#x}>
            number: -12345678901
            text: "größe \\"x\\"\\n"
        Locals:
            yes: True
            no: False
            nothing: None
            ratio: float 0x3ff8000000000000
            pair: (1, "a")
            row: [1, [2, 3]]
            table: {table}
            big: -bigint
            long: "{long}"
"""
"""How the frame of the child's function `hold` is printed with its locals."""

DICT_GROUPS = ("dict.", "keys.", "heap.")
"""The groups that a layout without dicts lacks."""

DICT_LINES = ("dicts = ", "managed = ", "dict = ", "keys = ", "heap = ")
"""The lines of a layout in which one without dicts differs."""

WRONG = (("main", r"filename=(\d+), name=(\d+)", r"filename=\2, name=\1"), ("free", r"locked=\d+", "locked=0"))
"""Changes of a layout that are to be noticed, and over which core. (At 0 a lock's record has how long its holder may
keep it, which is never 0.)"""

UNSOUND = 6
"""The program's status where a layout file has a fault."""


@dataclass(frozen=True)
class Walk:
    """One run of the program."""

    status: int
    out: str
    err: str
    seconds: float
    kilobytes: int


def ran(command: Sequence[object]) -> Walk:
    """Runs the program, and measures it. (Linux counts the memory of this tool too, some 14 MiB, where that is more
    than the program's.)"""
    with tempfile.TemporaryFile() as out, tempfile.TemporaryFile() as err:
        begun = time.perf_counter()
        process = subprocess.Popen([str(it) for it in command], stdin=subprocess.DEVNULL, stdout=out, stderr=err)
        timer = threading.Timer(child_cores.SECONDS, process.kill)
        timer.start()
        _, status, used = os.wait4(process.pid, 0)
        timer.cancel()
        seconds = time.perf_counter() - begun
        # (it was waited for, and not by Popen)
        process.returncode = os.WEXITSTATUS(status) if os.WIFEXITED(status) else -os.WTERMSIG(status)
        out.seek(0)
        err.seek(0)
        texts = [it.read().decode("utf-8", "replace") for it in (out, err)]
    return Walk(process.returncode, texts[0], texts[1].strip(), seconds, used.ru_maxrss)


def walk(program: Path, core: Core, layouts: Path, build: Build, lock: int) -> Walk:
    """Walks a core."""
    words = [build.dotted, hex(core.told.interpreter), hex(lock) if lock else "0"]
    return ran([program, "walk", core.path, layouts, *words])


@lru_cache(maxsize=16)
def images_of(core: Path, with_locals: bool = True) -> Tuple[str, ...]:
    """The words for the images of a core that are there: all, or those that a report without locals needs."""
    with open(core, "rb") as file:
        files = [it for it in wanted_files(file) if with_locals or it.use is not Use.MEMORY]
        return tuple(os.fsdecode(it) for it in image_words(files, b"", machine_of(file)))


def dump(program: Path, core: Core, layouts: Path, *options: str) -> Walk:
    """Reports a core, with the images that are there and that are needed."""
    images = images_of(core.path, "-l" in options)
    return ran([program, "dump", "-c", core.path, "--layouts", layouts, *options, *images])


def report_of(told: Told, core: str, with_names: bool, with_holder: bool = True) -> str:
    """The text of the report that the child's words give."""
    text = f"Signal {int(signal.SIGABRT)}: {core}\n{told.head}"
    for thread in told.threads:
        mark = " (gil)" if with_holder and thread.has_lock else ""
        name = f': "{thread.name}"' if with_names else ""
        text += f"Thread {thread.label}{mark}{name}\n"
        for (function, file), line in zip(thread.frames, thread.lines):
            text += f"    {function} ({file}:{line})\n"
    return text


def check_locals(run: Walk, without: str, held: int, derived: Derived) -> None:
    """Fails where a report with locals isn't the one without them, or those of `hold` aren't what they are."""
    kind = "instancemethod" if derived.build.minor == (2, 7) else "method"
    table = '{"k": 1, 2: None}' if derived.with_dicts else "dict"
    wanted = HELD.format(kind=kind, held=held, table=table, long="ü" * 123 + "...")
    lines = run.out.splitlines(keepends=True)
    if wanted.splitlines()[0] + "\n" in lines:
        at = lines.index(wanted.splitlines()[0] + "\n")
        got = [lines[at], *takewhile(lambda line: line.startswith(" " * 8), lines[at + 1 :])]
        check_report(replace(run, out="".join(got)), wanted)
    check_report(replace(run, out="".join(line for line in lines if not line.startswith(" " * 8))), without)


def tree_of(thread: Thread, with_names: bool) -> Dict[str, object]:
    """A thread of a report as JSON, without what tells of calls from C."""
    rows = zip(thread.frames, thread.lines)
    frames = [{"name": name, "filename": file, "line": line} for (name, file), line in rows]
    return {
        "pid": 0,
        "thread_id": thread.number,
        "thread_name": thread.name if with_names else None,
        "os_thread_id": thread.native,
        "active": True,
        "owns_gil": thread.has_lock,
        "process_info": None,
        "frames": [{**it, "module": None, "short_filename": None, "locals": None} for it in frames],
    }


def json_of(told: Told, derived: Derived, text: str) -> str:
    """The report as JSON that the child's words give. Where C called into Python they don't tell, so that is taken from
    the report itself, but for what each has: 3.12 and 3.13 say of no frame that it was entered, and mark borders; up to
    3.10 each frame counts as entered, and up to 3.11 there are no borders but the last frame."""
    tree = [tree_of(thread, derived.with_dicts) for thread in reversed(told.threads)]
    try:
        marks = [[(it["is_entry"], it["is_shim_entry"]) for it in thread["frames"]] for thread in json.loads(text)]
    except (ValueError, TypeError, KeyError):
        raise Failure(f"the report is no JSON of frames: {text[:200]!r}") from None
    version = derived.build.minor
    for thread, row in zip(tree, marks):
        for at, (frame, (is_entry, is_border)) in enumerate(zip(thread["frames"], row), 1):
            is_last = at == len(thread["frames"])
            frame["is_entry"] = bool(is_entry) if version == (3, 11) else version <= (3, 10)
            frame["is_shim_entry"] = is_last or version >= (3, 12) and bool(is_border)
    return json.dumps(tree, indent=2, sort_keys=True, ensure_ascii=False) + "\n"


def check_report(run: Walk, wanted: str) -> None:
    """Fails with the first line in which a report isn't the wanted one."""
    if run.status != 0:
        raise Failure(f"dump ended with status {run.status}: {run.err}")
    if run.err:
        raise Failure(f"dump said {run.err!r}")
    if run.out != wanted:
        pairs = zip_longest(wanted.splitlines(keepends=True), run.out.splitlines(keepends=True))
        at, (one, other) = next((at, pair) for at, pair in enumerate(pairs, 1) if pair[0] != pair[1])
        raise Failure(f"line {at} of the report is {one!r}, and printed is {other!r}")


def printed(text: str, build: Build) -> List[Thread]:
    """The threads that the program printed; a line number after a file is dropped."""
    lines = text.splitlines()
    if lines[:2] != [f"Python v{build.dotted}", ""]:
        raise Failure(f"the text begins with {lines[:2]}")
    threads: List[Thread] = []
    for line in lines[2:]:
        thread = re.fullmatch(r'Thread (\S+?)( \(gil\))?(?:: ".*")?', line)
        frame = re.fullmatch(r"    (.*?) \((.*?)(?::\d+)?\)", line)
        if thread:
            threads.append(Thread(thread.group(1), (), bool(thread.group(2))))
        elif frame and threads:
            last = threads[-1]
            threads[-1] = Thread(last.label, last.frames + (frame.groups(),), last.has_lock)
        else:
            raise Failure(f"the text has the line {line!r}")
    return threads


def compare(wanted: Sequence[Thread], got: Sequence[Thread], with_lock: bool) -> None:
    """Fails with the first difference between the told and the printed threads."""
    labels = [[it.label for it in threads] for threads in (wanted, got)]
    if labels[0] != labels[1]:
        raise Failure(f"the threads are {', '.join(labels[0])}, and printed are {', '.join(labels[1]) or 'none'}")
    for one, other in zip(wanted, got):
        if len(one.frames) != len(other.frames):
            raise Failure(f"thread {one.label} has {len(one.frames)} frames, and printed are {len(other.frames)}")
        for at, (frame, shown) in enumerate(zip(one.frames, other.frames)):
            if frame != shown:
                raise Failure(f"thread {one.label}, frame {at} is {frame}, and printed is {shown}")
        if (with_lock and one.has_lock) != other.has_lock:
            raise Failure(f"thread {one.label} is printed {'with' if other.has_lock else 'without'} the lock")


def walked(program: Path, core: Core, layouts: Path, build: Build) -> Walk:
    """Walks a core without the lock's address, and compares."""
    run = walk(program, core, layouts, build, 0)
    if run.status != 0:
        raise Failure(f"walk ended with status {run.status}: {run.err}")
    compare(core.told.threads, printed(run.out, build), with_lock=False)
    return run


def check_holder(program: Path, core: Core, layouts: Path, build: Build) -> None:
    """Walks a core once more, with the lock's address: the holder alone is marked, and nobody where there is none."""
    run = walk(program, core, layouts, build, core.told.lock)
    if run.status != 0:
        raise Failure(f"walk with the lock at {core.told.lock:#x} ended with status {run.status}: {run.err}")
    compare(core.told.threads, printed(run.out, build), with_lock=True)


def check_text(program: Path, core: Core, layouts: Path, derived: Derived) -> None:
    """Reports a core, and compares the whole text."""
    wanted = report_of(core.told, str(core.path), derived.with_dicts)
    check_report(dump(program, core, layouts), wanted)
    if core.told.held:
        check_locals(dump(program, core, layouts, "-l"), wanted, core.told.held, derived)


def check_json(program: Path, core: Core, layouts: Path, derived: Derived) -> None:
    """Reports a core as JSON, and compares all of it."""
    run = dump(program, core, layouts, "-j")
    check_report(run, json_of(core.told, derived, run.out))


def check_prepared(program: Path, core: Core, layouts: Path) -> None:
    """Fails where a core that is cut at all its runs of zero pages has another report, but for the name of its file."""
    part = replace(core, path=core.path.with_name("prepared"))
    with open(core.path, "rb") as file:
        new = prepared(file, Wishes(keep=str(part.path), is_forced=True))
    if new is None:
        # (it has no run of zero pages; each real core has some)
        return
    new.file.close()
    runs = [dump(program, it, layouts, "-l") for it in (core, part)]
    part.path.unlink()
    check_report(replace(runs[1], out=runs[1].out.replace(str(part.path), str(core.path), 1)), runs[0].out)


def check_footprint(program: Path, listing: Path, core: Core, layouts: Path, build: Build) -> Footprint:
    """Walks a core once more, with no bytes of its memory left but those that its stacks are read from."""
    footprint = footprint_of(listing, core.path, layouts, images_of(core.path))
    part = replace(core, path=core.path.with_name("part"))
    part.path.write_bytes(blotted(core.path, footprint))
    runs = [walk(program, it, layouts, build, core.told.lock) for it in (core, part)]
    part.path.unlink()
    if runs[0].out != runs[1].out or runs[1].status != 0:
        raise Failure(f"of the bytes of its footprint alone the walk says {runs[1].err!r}, and prints {runs[1].out[:200]!r}")
    return footprint


def check_groups(program: Path, cores: Sequence[Core], names: Sequence[Sequence[Path]], layouts: Path) -> None:
    """Fails where cores of one build, each under two names, aren't grouped by the stacks that the processes told."""
    words = [own[turn] for turn in (0, 1) for own in names]
    images = dict.fromkeys(word for own in names for word in images_of(own[0], False))
    check_report(ran([program, "triage", layouts, *words, *images]), groups_text(cores, names))


def check_reach(program: Path, core: Core, layouts: Path) -> int:
    """Fails where a thread's locals don't lead to what the process found. Returns to how many objects they lead."""
    assert core.told.led
    run = ran([program, "reach", core.path, layouts, core.told.led[0], *images_of(core.path)])
    if run.status != 0:
        raise Failure(f"reach ended with status {run.status}: {run.err}")
    return check_objects(run.out, core.told.led[1])


def check_slim_core(program: Path, core: Core, layouts: Path, build: Build) -> None:
    """Fails where a walk over the slim core doesn't show the threads that the process told."""
    text, has_lock, _ = slim_walks(program, core.path, layouts, images_of(core.path), not core.case.is_usual)
    compare(core.told.threads, printed(text, build), with_lock=has_lock)


def notice_wrong(program: Path, core: Core, room: Path, derived: Derived) -> None:
    """Fails where a wrong layout isn't noticed: one in which functions and files have changed places, and, over a core
    whose lock is free, one that takes another number for the mark of a lock that is held."""
    wrong = room / "wrong.toml"
    for who, pattern, other in WRONG:
        text, count = re.subn(pattern, other, derived.text)
        if who != core.case.who or core.case.is_usual or not count:
            continue
        wrong.write_text(text, encoding="utf-8")
        try:
            (check_holder if core.told.lock else walked)(program, core, wrong, derived.build)
        except Failure:
            continue
        raise Failure(f"a wrong layout isn't noticed, with {re.search(pattern, derived.text).group()} changed")


def derived_so_far(build: Build) -> Derived:
    """The layout of a build: without dicts, which no walk reads, where nothing tells their fields alone."""
    try:
        return derive(build)
    except DeriveError as error:
        if not error.keys or not all(key.startswith(DICT_GROUPS) for key in error.keys):
            raise
        return derive(build, How(with_dicts=False))


def is_at_hand(build: Build) -> bool:
    """Whether there is something that tells a build's fields, and what asks it."""
    headers = any((Path(it) / "Python.h").is_file() for it in build.includes) and not same_version(build)
    with open(build.binary, "rb") as file:
        has_debug = b"\0.debug_info\0" in file.read()
    return bool(headers and shutil.which("cc") or has_debug and shutil.which("gdb"))


def derived_for(build: Build) -> Derived:
    """The same. A failure where some fields were told and others not, or none were that could have been: then the plan
    doesn't fit the build."""
    try:
        return derived_so_far(build)
    except DeriveError as error:
        fields = len(plan_of(build.minor, False).wanted)
        if error.keys and (len(error.keys) < fields or is_at_hand(build)):
            raise Failure(f"no layout could be derived: {error.brief}") from error
        raise


def body_of(text: str, with_dicts: bool) -> List[str]:
    """The lines of a layout file that aren't comments, without those of dicts where they aren't to be compared."""
    lines = [line for line in text.splitlines() if not line.startswith("#")]
    return [line for line in lines if with_dicts or not line.startswith(DICT_LINES)]


def head_of(text: str, name: str) -> Tuple[str, str, str]:
    """The version, the machine and the options of the build from which a stored layout was read, by its head."""
    first = re.search(r"^# The layout of CPython (\S+) on (\S+), ", text)
    build = re.search(r"^# build: (\S+) ", text, re.MULTILINE)
    options = re.search(r"^# options that change records: (.+)$", text, re.MULTILINE)
    if not first or not build or not options or build.group(1) != first.group(1):
        raise Failure(f"the head of layouts/{name} doesn't say of which build it is")
    return first.group(1), first.group(2), options.group(1)


def as_stored(derived: Derived, layouts: Path) -> str:
    """Says which stored layout this one is. There is one of each version, and that of the same build must be it: of the
    same version, machine and options."""
    build = derived.build
    name = f"cpython-{'.'.join(map(str, build.minor))}-{build.machine}.toml"
    if not (layouts / name).is_file():
        if build.machine == "x86_64":
            raise Failure(f"there is no layouts/{name}")
        return f"there is no layouts/{name}"
    text = (layouts / name).read_text(encoding="utf-8")
    head = head_of(text, name)
    is_whole = derived.with_dicts or 'dicts = "none"' in text
    told = f"layouts/{name}" if is_whole else f"layouts/{name} but for dicts"
    if body_of(text, derived.with_dicts) == body_of(derived.text, derived.with_dicts):
        return told
    if head == (build.dotted, build.machine, ", ".join(build.options) or "none"):
        raise Failure(f"layouts/{name} was written for this very build, and isn't the layout that is derived now")
    return f"not {told}, which is of {head[0]}"


def texts_over_core(program: Path, derived: Derived, core: Core, room: Path) -> Walk:
    """Walks and reports a core of the child as text. Usual cores are reported alone, since a walk is given no images."""
    layouts = room / "layout.toml"
    run = Walk(0, "", "", 0.0, 0)
    if not core.case.is_usual:
        run = walked(program, core, layouts, derived.build)
        if core.told.lock:
            check_holder(program, core, layouts, derived.build)
        notice_wrong(program, core, room, derived)
    check_text(program, core, layouts, derived)
    check_prepared(program, core, layouts)
    return run


def over_core(program: Path, derived: Derived, core: Core, room: Path) -> Walk:
    """Tries all that the program and the tool make of a core of the child."""
    layouts = room / "layout.toml"
    run = texts_over_core(program, derived, core, room)
    check_json(program, core, layouts, derived)
    check_slim_core(program, core, layouts, derived.build)
    check_tool(program, core.path, layouts, images_of(core.path, False))
    if core.told.led and derived.with_dicts:
        check_reach(program, core, layouts)
    return run


def cores_of(derived: Derived, names: str, room: Path, cases: Sequence[Case]) -> Iterator[Core]:
    """A core of each case, in a folder of its own, where the layout stands too. It is removed behind its use."""
    (room / "layout.toml").write_text(derived.text, encoding="utf-8")
    for number, case in enumerate(cases):
        core = leave_core(derived, names, room / str(number), case)
        try:
            yield core
        finally:
            core.path.unlink()


def what_of(cores: Sequence[Core], derived: Derived, stored: str, footprints: Sequence[Footprint]) -> str:
    """Tells what was tried of a Python, where nothing failed."""
    usual = sum(it.case.is_usual for it in cores)
    threads = [thread for it in cores for thread in it.told.threads]
    counts = f"{len(threads)} threads, {sum(len(it.frames) for it in threads)} frames agree"
    holders = "holders agree" if all(it.told.lock for it in cores) else "holders not tried"
    names = "with names" if derived.with_dicts else "without names"
    read = f"{footprints[0].reads} reads of {footprints[0].size} bytes suffice" if footprints else "footprints not tried"
    return f"{len(cores)} cores ({usual} usual): {counts}; {holders}; reports agree {names}; {read}; {stored}"


def tried(program: Path, python: str, names: str, cases: Sequence[Case] = CASES, listing: Optional[Path] = None) -> str:
    """Derives the layout of one Python, and tries it on some cores. Returns the line that tells of it."""
    build = build_of(python)
    derived = derived_for(build)
    stored = as_stored(derived, ROOT / "layouts")
    cores, runs, sizes, footprints, kept_names = [], [], [], [], []
    with tempfile.TemporaryDirectory(prefix="real-core-") as name:
        for core in cores_of(derived, names, Path(name), cases):
            cores.append(core)
            sizes.append(core.path.stat().st_size)
            kept_names.append(kept(core, Path(name), len(kept_names)))
            try:
                runs.append(over_core(program, derived, core, Path(name)))
                if listing and not core.case.is_usual:
                    footprints.append(check_footprint(program, listing, core, Path(name) / "layout.toml", build))
            except Failure as reason:
                usual = " (usual)" if core.case.is_usual else ""
                raise Failure(f"core '{core.case.who}'{usual}: {reason}") from reason
        check_groups(program, cores, kept_names, Path(name) / "layout.toml")
    size, memory = f"{sizes[0] / 2**20:.1f}", f"{runs[0].kilobytes / 1024:.1f}"
    return row(build.dotted, size, f"{runs[0].seconds:.3f}", memory, what_of(cores, derived, stored, footprints))


def is_noticed(program: Path, derived: Derived, cores: Sequence[Core], wrong: Path) -> bool:
    """Whether one of the comparisons that the gate makes fails by this layout."""
    try:
        for core in cores:
            check_text(program, core, wrong, derived)
            check_json(program, core, wrong, derived)
    except Failure:
        return True
    return False


def is_sound(program: Path, core: Core, layouts: Path) -> bool:
    """Whether the program takes a layout file."""
    return ran([program, "dump", "-c", core.path, "--layouts", layouts]).status != UNSOUND


def directions(
    program: Path, derived: Derived, cores: Sequence[Core], sides: Sequence[List[str]], wrong: Path
) -> List[bool]:
    """For each direction in which there is a sound wrong layout, whether the nearest one is noticed."""
    seen = []
    for texts in sides:
        for text in texts:
            wrong.write_text(text, encoding="utf-8")
            if is_sound(program, cores[0], wrong):
                seen.append(is_noticed(program, derived, cores, wrong))
                break
    return seen


def swapped(program: Path, python: str, names: str) -> str:
    """Changes each number of one Python's layout. Returns the lines that tell which changes are noticed."""
    derived = derived_for(build_of(python))
    lists: Dict[str, List[str]] = {it: [] for it in ("noticed", "in one direction", "not noticed", "never sound")}
    with tempfile.TemporaryDirectory(prefix="real-core-") as name:
        room = Path(name)
        wrong = room / "wrong.toml"
        wrong.write_text(derived.text, encoding="utf-8")
        # (a usual core has the same records, and images in place of a part of them)
        whole = [case for case in CASES if not case.is_usual]
        cores = [leave_core(derived, names, room / str(at), case) for at, case in enumerate(whole)]
        if is_noticed(program, derived, cores, wrong):
            raise Failure("the right layout fails: try it without --swaps")
        for key, sides in swaps(derived.text, derived.build.minor):
            seen = directions(program, derived, cores, sides, wrong)
            kind = "never sound" if not seen else "noticed" if all(seen) else "not noticed"
            lists["in one direction" if any(seen) and not all(seen) else kind].append(key)
    lines = [f"  {it}: {', '.join(keys) or 'none'}" for it, keys in lists.items()]
    return "\n".join([f"{derived.build.dotted}:", *lines])


def row(version: str, size: str, seconds: str, memory: str, what: str) -> str:
    """A line of the table."""
    return f"{version:8} {size:>9} {seconds:>7} {memory:>10}  {what}"


def built_program() -> Path:
    """Builds the program, or finds it built."""
    if not shutil.which("rt"):
        raise Skip("there is no rt to build the program with")
    folder = ROOT / "crates" / "pystacks"
    words = (folder / "args").read_text().split()
    command = ["rt", "run", "--", words[0], "data/" + words[1], *words[2:]]
    ran = subprocess.run(command, cwd=folder, stdout=subprocess.PIPE, stderr=subprocess.STDOUT, text=True)
    if ran.returncode != 0:
        raise Failure(f"rt run ended with status {ran.returncode}: {(ran.stdout.strip().splitlines() or [''])[-1]}")
    return folder / "out" / "pystacks"


def try_all(words: argparse.Namespace) -> int:
    """Tries each Python, and returns how many failed."""
    names = core_names()
    found = words.python or pythons()
    if not found:
        raise Skip("there is no Python here")
    program = Path(words.program).resolve() if words.program else built_program()
    if not program.is_file():
        raise Failure(f"there is no program {program}")
    try:
        told_of(sys.executable)
    except DeriveError as error:
        raise Failure(f"the Python that runs this tells nothing: {error.brief}") from error
    listing = Path(words.listing or ROOT / "crates" / "listing" / "out" / "listing").resolve()
    if not words.swaps:
        print(row("Python", "core, MiB", "walk, s", "walk, MiB", "result"), flush=True)
    cases = CASES if words.all else GATE_CASES
    read = listing if listing.is_file() else None
    return tell_each("real_core",
                     lambda it: swapped(program, it, names) if words.swaps else tried(program, it, names, cases, read),
                     found, (Skip, DeriveError), "")


def main() -> int:
    """The command."""
    parser = argparse.ArgumentParser(description=__doc__.splitlines()[0])
    parser.add_argument("python", nargs="*", help="the interpreters (default: all that are found)")
    parser.add_argument("--program", help="the built program (default: rt builds it)")
    parser.add_argument("--listing", help="the built program `listing` (default: that of crates/listing, if it is built)")
    parser.add_argument("--all", action="store_true", help="each case in a process of its own, six cores of each Python; else one that has them as its threads")
    parser.add_argument("--swaps", action="store_true", help="tell which wrong numbers of a layout are noticed")
    words = parser.parse_args()
    try:
        failed = try_all(words)
    except Skip as reason:
        print(f"real_core: skipped: {reason}")
        return 0
    except Failure as reason:
        print(f"real_core: FAILED: {reason}")
        return 1
    return 1 if failed else 0


if __name__ == "__main__":
    sys.exit(main())
