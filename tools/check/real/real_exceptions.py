#!/usr/bin/env python3
"""Asks for the exceptions in cores of real Pythons, and compares them with what the processes said.

    tools/check/real/real_exceptions.py --salvage crates/pysalvage/out/pysalvage [PYTHON..]

For each Python of 3.7 to 3.13 that is installed: processes die in each of the situations of exceptions_child.py, in or below an
`except`, a `finally`, an `__exit__`, a hook, a generator, a coroutine, or C code that has set an error; and say before what is
handled, and of each exception that this leads to its class, its text, its traceback, its notes, its cause, its context and its
members; and the same of the last exception that no code handled, as `sys` has it. Exactly these are to be told, each once. Where `traceback.format_exception` has a text of the same form, the text is to
have the same lines in the same order. Of 3.6 and before nothing is described, and that is what is told. Copies of a core whose
memory is broken at many places by chance are to end in time, with a status of their own. The status is 0 exactly where nothing
that was tried failed.
"""

import argparse
import json
import re
import subprocess
import sys
import tempfile
from pathlib import Path
from typing import Any, Callable, Dict, Iterable, List, Optional, Tuple

from rooms import TOOLS  # (first: it makes the other rooms known)

from child_cores import ALL_PRIVATE, USUAL, Failure, Skip, aborted, core_names
from derive_layout import Build, DeriveError, build_of
from each_python import tell_each
from find_pythons import pythons
from real_core import images_of, ran
from real_tasks import MOST_SECONDS, SHARES, broken, words_of

CHILD = Path(__file__).with_name("exceptions_child.py")
CODE = Path(__file__).with_name("exceptions_child.c")

FLAG = "--exceptions"

USUAL_ONES = ("cause", "in_excepthook", "in_generator", "os_error")
"""Situations whose cores are as they are usually written, and are shown by the tool too."""

BY_ARGUMENTS = {"coded_untold", "key_error", "number_argument", "own", "syntax_error"}
"""Situations in which the arguments are told and no text, though Python has one: it has escapes, a long number, values of other kinds or
the last part of a path."""

BROKEN = "many_causes"
"""The situation of whose core broken copies are made."""

FRAME = re.compile(r'  File "(.*)", line (\d+), in (.*)')
SENTENCES = {
    "The above exception was the direct cause of the following exception:",
    "During handling of the above exception, another exception occurred:",
}

Tree = Dict[str, Any]


def asked(salvage: Path, core: Path, build: Build, *more: str) -> str:
    """What is told of a core, with each frame."""
    run = ran([salvage, core, *words_of(build.machine), "-n", "4096", FLAG, *more, *images_of(core)])
    if run.status != 0:
        raise Failure(f"status {run.status}: {run.err}")
    return run.out


def thread_in(tree: Tree, number: int) -> Tree:
    """What is told of the exceptions of a thread."""
    found = [it for own in tree["exceptions"] for it in own["threads"] or () if it["thread_id"] == number]
    if len(found) != 1:
        raise Failure(f"{len(found)} threads {number} are told with exceptions")
    return found[0]


# ---- what is told, against what the process said



def same_frames(told: Tree, wanted: List[Tree]) -> bool:
    """Whether a traceback is as wanted; of a long one those in the middle are only counted."""
    left_out, frames = told["frames_left_out"], told["frames"]
    if not left_out:
        return frames == wanted
    half = len(frames) // 2
    return len(frames) + left_out == len(wanted) and frames[:half] == wanted[:half] and frames[half:] == wanted[len(wanted) - half:]


def other_parts(told: Tree, wanted: Tree) -> Iterable[str]:
    """Each part of an exception that is told otherwise than wanted."""
    for key in ("type", "cause", "context", "suppress_context"):
        if told[key] != wanted[key]:
            yield f"{key} is {told[key]!r} in place of {wanted[key]!r}"
    for key in ("notes", "members"):
        own = [] if told[key] is None else told[key]["values"]
        if own != wanted[key]:
            yield f"{key} is {own!r} in place of {wanted[key]!r}"
    if told["args"] is None or len(told["args"]["values"]) != wanted["args"]:
        yield f"args is {told['args']!r} in place of {wanted['args']} of them"
    if not same_frames(told, wanted["frames"]):
        yield f"the traceback is {told['frames']} in place of {wanted['frames']}"
    if wanted["message"] is None:
        if told["message"] is not None or told["message_by"] is None:
            yield "its text is told, though only its own code has it"
    elif told["message"] is not None and told["message"] != wanted["message"]:
        yield f"the text is {told['message']!r} in place of {wanted['message']!r}"


def take_made(told: Tree, by_address: Dict[str, Tree], wanted: Tree) -> None:
    """Takes away the exception that is made at once, from 3.12 on, of a type and a text that C code sets: its address is nobody's to know."""
    raised = told["raised"]
    if not wanted["raised"] or "address" in wanted["raised"] or raised["kind"] != "exception":
        return
    its = by_address.pop(raised["address"], None)
    if its is None or (its["type"], its["message"]) != ("ValueError", "set by C"):
        raise Failure(f"raised is {its} in place of a ValueError")


def check_thread(told: Tree, wanted: Tree) -> int:
    """Fails where a thread tells other exceptions than the process did; answers of how many the whole text is told."""
    handled = [{key: it[key] for key in ("address", "running")} for it in told["handled"] if it["address"] is not None]
    if handled != wanted["handled"]:
        raise Failure(f"handled is {handled} in place of {wanted['handled']}")
    if (told["raised"] is not None) != bool(wanted["raised"]):
        raise Failure(f"raised is {told['raised']} in place of {wanted['raised']}")
    entries = [it for it in told["exceptions"] if it["kind"] == "exception"]
    by_address = {it["address"]: it for it in entries}
    if len(by_address) != len(entries):
        raise Failure("an exception is told twice")
    take_made(told, by_address, wanted)
    if by_address.keys() != wanted["exceptions"].keys():
        raise Failure(f"told are {sorted(by_address)} in place of {sorted(wanted['exceptions'])}")
    for address, its in by_address.items():
        for line in other_parts(its, wanted["exceptions"][address]):
            raise Failure(f"of the {its['type']} at {address} {line}")
    return sum(it["message"] is not None for it in entries)


# ---- the text, against that of Python's own


def python_blocks(text: str) -> Optional[List[Tuple[str, List[str]]]]:
    """Lines as they are to stand, by the text of `traceback.format_exception`; none where that has what has another form here:
    groups, notes, texts of several lines, repeated frames."""
    blocks, frames = [], []
    for line in text.splitlines():
        found = FRAME.fullmatch(line)
        if found:
            frames.append("    {2} ({0}:{1})".format(*found.groups()))
        elif line in SENTENCES:
            blocks.append(line)
        elif line.startswith(" "):
            return None
        elif line and line != "Traceback (most recent call last):":
            blocks += [line, *frames]
            frames = []
    return blocks


THREAD, LAST = "Exceptions of thread ", "Last exception that no code handled ("
"""What begins the line above a thread's exceptions, and above the last one."""


def shown_lines(text: str, front: str) -> List[str]:
    """The lines of the newest exception of the thread that has any, or of the last one, without what all begin with."""
    lines = text.splitlines()
    at = next((number for number, line in enumerate(lines) if line.startswith(front)), None)
    if at is None:
        return []
    own = []
    for line in lines[at + (2 if front == THREAD else 1):]:
        if not line.startswith("        "):
            break
        own.append(line[8:])
    return own


def check_text(text: str, wanted: Tree, front: str = THREAD) -> bool:
    """Fails where the text has other lines than Python's own; answers whether they could be compared."""
    if not wanted["lines"]:
        return False
    blocks = python_blocks("".join(wanted["lines"]))
    simple = all(it["message"] is not None and "\n" not in it["message"] and not it["notes"] and not it["members"]
                 and not re.search("[ :]", it["type"]) for it in wanted["exceptions"].values())
    if blocks is None or not simple or any(not it.isprintable() for it in blocks):
        return False
    shown = shown_lines(text, front)
    if shown != blocks:
        raise Failure(f"the text is {shown} in place of {blocks}")
    return True


def check_last(tree: Tree, text: str, wanted: Tree) -> int:
    """Fails where another exception is told as the last one that no code handled; answers how many it leads to."""
    main = tree["interpreters"][0]["address"]
    last = next(own["last"] for own in tree["exceptions"] if own["interpreter"] == main)
    if (last is not None) != bool(wanted["exceptions"]) or (LAST in text) != (last is not None):
        raise Failure(f"the last is {last} in place of {wanted}")
    if last is None:
        return 0
    told = {it["address"]: it for it in last["exceptions"]}
    if (last["kind"], last["name"], last["address"]) != ("exception", wanted["name"], wanted["address"]) or told.keys() != wanted["exceptions"].keys():
        raise Failure(f"the last is {last} in place of {wanted}")
    for address, its in told.items():
        for line in other_parts(its, wanted["exceptions"][address]):
            raise Failure(f"of the last, the {its['type']} at {address}, {line}")
    if f"{LAST}sys.{wanted['name']}):" not in text.splitlines() or not check_text(text, wanted, LAST):
        raise Failure(f"the lines of the last one can't be compared: {text}")
    return len(told)


def check_none(tree: Tree, text: str, number: int) -> None:
    """Fails where exceptions are shown of a thread that has none."""
    told = [it for own in tree["exceptions"] for it in own["threads"] or () if it["thread_id"] == number]
    if any(it["exceptions"] or it["raised"] is not None for it in told):
        raise Failure(f"exceptions are told where none is there: {told}")
    if "Exceptions of thread" in text:
        raise Failure("the text speaks of exceptions where none is there")


# ---- the situations


def library(room: Path) -> Optional[Path]:
    """What sets an error as C code does; none where there is no compiler."""
    to = room / "exceptions.so"
    try:
        done = subprocess.run(["cc", "-shared", "-fPIC", "-o", str(to), str(CODE)], capture_output=True)
    except OSError:
        return None
    return to if done.returncode == 0 else None


def situations_of(build: Build, has_library: bool) -> List[str]:
    """Those that can be tried."""
    run = ran([build.executable, *build.alone, "-B", str(CHILD), "situations"])
    if run.status != 0:
        raise Failure(f"the child: status {run.status}: {run.err}")
    named = json.loads(run.out)
    return [it for it in named["all"] if has_library or it not in named["by_c"]]


def check_tool(salvage: Path, core: Path, tree: Tree) -> None:
    """Fails where the tool, which picks the files that it hands over, tells others."""
    words = [sys.executable, "-B", TOOLS / "dump_core.py", core, f"--salvage={salvage}", f"--program={salvage}", "-j"]
    run = ran(words)
    if run.status != 0:
        raise Failure(f"the tool: status {run.status}: {run.err}")
    if json.loads(run.out)["exceptions"] != tree["exceptions"]:
        raise Failure("the tool tells other exceptions")


def with_broken(salvage: Path, build: Build, core: Path) -> int:
    """How many of some broken copies still tell exceptions."""
    whole, copy, told = core.read_bytes(), core.with_name("broken"), 0
    images = images_of(core)
    for seed, share in enumerate(SHARES):
        copy.write_bytes(broken(whole, share, seed))
        run = ran([salvage, copy, *words_of(build.machine), "-j", "-n", "4096", FLAG, *images])
        if run.seconds > MOST_SECONDS or run.status not in (0, 1):
            raise Failure(f"broken by {share}: status {run.status} after {run.seconds:.1f} s: {run.err}")
        told += run.status == 0 and json.loads(run.out)["exceptions"] is not None
    copy.unlink()
    return told


def in_situation(salvage: Path, build: Build, names: str, room: Path, name: str, code: Optional[Path]) -> Tuple[int, int, bool, int]:
    """How many exceptions are told of a process that dies so, of how many of them the text, whether the lines were compared
    with Python's own, and how many the last one leads to that no code handled."""
    room.mkdir()
    holds = USUAL if name in USUAL_ONES else ALL_PRIVATE
    child = aborted([build.executable, *build.alone, "-B", "-W", "ignore", str(CHILD), holds, name, str(code or "-")], room)
    core, wanted = child.core(names), json.loads(child.out)
    tree, text = json.loads(asked(salvage, core, build, "-j")), asked(salvage, core, build)
    number, texts, compared = wanted["thread"], 0, False
    if not wanted["exceptions"] and not wanted["raised"]:
        check_none(tree, text, number)
    else:
        told = thread_in(tree, number)
        texts = check_thread(told, wanted)
        untold = [it for it in told["exceptions"] if it["kind"] == "exception" and it["message"] is None]
        for its in untold:
            if name not in BY_ARGUMENTS and wanted["exceptions"][its["address"]]["message"] is not None:
                raise Failure(f"the text of {its['type']} isn't told")
        compared = not wanted["raised"] and not untold and check_text(text, wanted)
    if name in USUAL_ONES:
        check_tool(salvage, core, tree)
    lasts = check_last(tree, text, wanted["last"])
    if name == BROKEN:
        with_broken(salvage, build, core)
    core.unlink()
    return len(wanted["exceptions"]), texts, compared, lasts


def not_described(salvage: Path, build: Build, names: str, room: Path) -> str:
    """A Python whose exceptions are not described: that is what is told."""
    child = aborted([build.executable, *build.alone, "-B", "-c", "import os\nos.abort()"], room)
    core = child.core(names)
    told = json.loads(asked(salvage, core, build, "-j"))["exceptions"]
    if any(it["kind"] != "not described" for it in told):
        raise Failure(f"told is {told}")
    return f"{build.dotted}: not described, and that is told"


def tried_with(salvage: Path, names: str) -> Callable[[str], str]:
    """What tries one Python."""

    def tried(python: str) -> str:
        build = build_of(python)
        with tempfile.TemporaryDirectory(prefix="real-exceptions-") as name:
            room = Path(name)
            if build.version < (3, 7):
                return not_described(salvage, build, names, room)
            code, found = library(room), []
            for situation in situations_of(build, code is not None):
                try:
                    found.append(in_situation(salvage, build, names, room / situation, situation, code))
                except Failure as reason:
                    raise Failure(f"{situation}: {reason}") from None
        counts = [sum(its) for its in zip(*found)]
        return f"{build.dotted}: {len(found)} situations, {counts[0]} exceptions, {counts[1]} with their text, {counts[2]} by their lines, {counts[3]} as the last"

    return tried


def main() -> int:
    """The check."""
    parser = argparse.ArgumentParser(description=__doc__.splitlines()[0])
    parser.add_argument("--salvage", type=Path, required=True, help="the built program `pysalvage`")
    parser.add_argument("python", nargs="*", help="the interpreters (default: all that are found)")
    words = parser.parse_args()
    salvage = words.salvage.resolve()
    if not salvage.is_file():
        print(f"real_exceptions: skipped: there is no {salvage}")
        return 0
    if FLAG not in ran([salvage, "--help"]).out:
        print(f"real_exceptions: skipped: {salvage} has no {FLAG}")
        return 0
    try:
        names = core_names()
    except Skip as reason:
        print(f"real_exceptions: skipped: {reason}")
        return 0
    return 1 if tell_each("real_exceptions", tried_with(salvage, names), words.python or pythons(), (Skip, DeriveError)) else 0


if __name__ == "__main__":
    sys.exit(main())
