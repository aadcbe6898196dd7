#!/usr/bin/env python3
"""Salvages cores of real Pythons, and compares what is left with the reports of `dump`, and with what the processes said.

    tools/check/real/real_salvage.py --program crates/pystacks/out/pystacks --salvage crates/pysalvage/out/pysalvage [PYTHON..]

For each Python of 3.8 to 3.13 that is installed: on two cores of real_core_child.py what is left has the threads and
frames of the report, and a core that is cut has a front of each; a word of a thread that is garbage costs what stands
behind it and nothing else. Of a recursion of 20,000 the first and the last 100 frames and the number between are there;
of a segfault in a thread that had released the lock that thread has the mark; of a process with sub-interpreters each
thread is there, by the process's own word. The status is 0 exactly where nothing that was tried failed.
"""

import argparse
import json
import os
import sys
import tempfile
from pathlib import Path
from typing import Dict, Iterator, List, Optional, Sequence, Tuple, TypeVar

from rooms import ROOT  # (first: it makes the other rooms known)

from broken_words import LOW, check_words, with_word
from child_cores import Case, Failure, Skip, core_names, ended, leave_core
from pystacks_tool.cores.prepare import Unprepared, Wishes, prepared
from derive_layout import DeriveError, build_of
from each_python import tell_each
from find_pythons import pythons
from made import layout_of
from real_core import derived_for, images_of, ran

DEEP = """
import os, sys, threading
sys.setrecursionlimit(100000)
threading.stack_size(1 << 29)
def descend(left):
    if left == 0:
        os.abort()
    descend(left - 1)
def begin():
    descend(19999)
thread = threading.Thread(target=begin)
thread.start()
thread.join()
"""
DEEP_ENDS = ["begin", "run", "_bootstrap_inner", "_bootstrap"]

CRASHED = """
import ctypes, threading, time
def crash():
    print(threading.get_ident(), flush=True)
    time.sleep(0.5)
    ctypes.CDLL(None).memset(ctypes.c_void_p(8), 0, ctypes.c_size_t(1))
def hold():
    while True:
        pass
threading.Thread(target=hold, daemon=True).start()
thread = threading.Thread(target=crash)
thread.start()
thread.join()
"""

SUBS = """
import json, os, sys, threading
try:
    import _interpreters as subs
except ImportError:
    import _xxsubinterpreters as subs
ready, told = os.pipe()
WAIT = 'import os, time\\ndef wait_%d():\\n    os.write(%d, b"x")\\n    time.sleep(100)\\nwait_%d()'
def wait_of(sub, number):
    subs.run_string(sub, WAIT % (number, told, number))
def names_from(frame):
    return [] if frame is None else [frame.f_code.co_name] + names_from(frame.f_back)
def die():
    own = {it.ident for it in threading.enumerate()}
    stacks = {number: names_from(frame) for number, frame in sys._current_frames().items() if number in own}
    print(json.dumps({"stacks": stacks, "kinds": sys.argv[1]}), flush=True)
    os.abort()
made = [subs.create() for _ in sys.argv[1]]
for number, sub in enumerate(made):
    if sys.argv[1][number] == "t":
        threading.Thread(target=wait_of, args=(sub, number), daemon=True).start()
        os.read(ready, 1)
die()
"""
"""Its argument tells what the sub-interpreters do, the oldest one first: `t` waits in a thread of its own, and `i` is
idle."""

Tree = Dict[str, object]
Frame = TypeVar("Frame")


def left_by(python: str, names: str, room: Path, source: str, *words: str) -> Tuple[Path, str]:
    """A core of a child that runs this, and what it said."""
    room.mkdir()
    (room / "child.py").write_text(source)
    child = ended([python, "child.py", *words], room)
    if child.status >= 0:
        raise Skip("the child can't do it")
    return child.core(names), child.out


def left(program: Path, core: Path, layouts: Path, *options: str) -> Tree:
    """What is left of a core, as JSON."""
    run = ran([program, core, "--layouts", layouts, "-j", *options, *images_of(core)])
    if run.status != 0:
        raise Failure(f"status {run.status}: {run.err}")
    return json.loads(run.out)


def members(thread: Tree) -> List[Tree]:
    """The members of a thread's chain that are shown."""
    return thread["frames"]["first"] + thread["frames"]["last"]


def threads(tree: Tree) -> Iterator[Tree]:
    """All threads."""
    return (thread for it in tree["interpreters"] for thread in it["threads"])


def frames_of(thread: Tree) -> List[Tuple[str, str]]:
    """The names of its frames; of a member without names its address."""
    return [(it.get("name", it.get("address")), it.get("filename", "")) for it in members(thread)]


def is_front(own: Sequence[Optional[Frame]], whole: Sequence[Frame], begins: int = 1) -> bool:
    """Whether some frames are the first of a stack, from one of its first places on. None is a member without names: it is the next
    frame, or one that the whole stack leaves out."""
    places = set(range(min(begins, len(whole) + 1)))
    for frame in own:
        after = {at + 1 for at in places if at < len(whole) and frame in (None, whole[at])}
        places = places | after if frame is None else after
    return bool(places)


def check_same(salvage: Path, program: Path, core: Path, layouts: Path) -> Tuple[int, int]:
    """The first interpreter that is left has the report's threads, with its frames. How many there are, and how many more
    interpreters are shown, which are none: words of the runtime section that name each other by chance."""
    run = ran([program, "dump", "-j", "-c", core, "--layouts", layouts, *images_of(core)])
    if run.status != 0:
        raise Failure(f"dump: {run.err}")
    tree = left(salvage, core, layouts, "-n", "4096")
    interpreters = tree["interpreters"]
    if interpreters[0]["threads_end"] != {"kind": "whole"}:
        raise Failure("the interpreter is not whole")
    own = interpreters[0]["threads"]
    got = sorted((it["thread_id"], it["os_thread_id"], it["gil"], frames_of(it)) for it in own)
    wanted = sorted(
        (it["thread_id"], it["os_thread_id"], it["owns_gil"], [(frame["name"], frame["filename"]) for frame in it["frames"]])
        for it in json.loads(run.out))
    if got != wanted:
        raise Failure("the threads are not the report's")
    if any(it["frames"]["end"] != {"kind": "whole"} for it in own):
        raise Failure("a thread of a report has no whole chain")
    return len(got), len(interpreters) - 1


def check_cut(salvage: Path, core: Path, layouts: Path, room: Path) -> None:
    """Of a core that is cut each thread is one of the whole core, with a front of its frames."""
    whole = {it["thread_id"]: it for it in threads(left(salvage, core, layouts, "-n", "4096"))}
    data = core.read_bytes()
    for part in (99, 90, 50):
        (room / "cut").write_bytes(data[: len(data) * part // 100])
        with open(room / "cut", "rb") as file:
            try:
                new = prepared(file, Wishes(keep=str(room / "kept")))
            except Unprepared:
                continue
        if new is None:
            raise Failure("a cut core was not prepared")
        new.file.close()
        run = ran([salvage, room / "kept", "--layouts", layouts, "-j", "-n", "4096", *images_of(core)])
        (room / "kept").unlink()
        if run.status not in (0, 1):
            raise Failure(f"cut at {part} %: status {run.status}: {run.err}")
        for thread in threads(json.loads(run.out)) if run.status == 0 else ():
            frames = [it if it[1] else None for it in frames_of(thread)]
            if thread["thread_id"] not in whole or not is_front(frames, frames_of(whole[thread["thread_id"]])):
                raise Failure(f"cut at {part} %: a thread that is none of the whole core")


def check_garbage(salvage: Path, core: Path, layouts: Path, text: str) -> None:
    """A thread whose `next` is garbage is the last, and all in front of it are as before."""
    fields = layout_of(text)["thread"]
    assert isinstance(fields, dict)
    before = left(salvage, core, layouts)["interpreters"][0]
    in_order = sorted(before["threads"], key=lambda it: it["crashed"])[::-1]
    chained = [it for it in in_order if not it["crashed"]][-2:]
    broken = int(chained[0]["address"], 16) + fields["next"]
    after = with_word(core, broken, LOW, lambda: left(salvage, core, layouts))["interpreters"][0]
    if after["threads_end"].get("address") != hex(LOW):
        raise Failure("a garbage word is no end of threads")
    known = [(it["address"], it["frames"]) for it in before["threads"]]
    if not after["threads"] or any((it["address"], it["frames"]) not in known for it in after["threads"]):
        raise Failure("a garbage word changes what stands in front of it")


def check_deep(salvage: Path, core: Path, layouts: Path, _: str) -> None:
    """The recursion's first and last 100 frames, and the number between."""
    tree = left(salvage, core, layouts)
    deep = next(it for it in threads(tree) if it["frames"]["between"])
    first, last = ([frame["name"] for frame in deep["frames"][it]] for it in ("first", "last"))
    if first != ["descend"] * 100 or last != ["descend"] * 96 + DEEP_ENDS or deep["frames"]["between"] != 20004 - 200:
        raise Failure(f"a recursion: {first[:2]}, {deep['frames']['between']}, {last[-5:]}")


def check_crashed(salvage: Path, core: Path, layouts: Path, told: str) -> None:
    """The mark is on the thread that crashed, by its own word, and on no other; it stands first."""
    tree = left(salvage, core, layouts)
    marked = [it["thread_id"] for it in threads(tree) if it["crashed"]]
    if tree["signal"] != 11 or marked != [int(told)] or next(threads(tree))["thread_id"] != int(told):
        raise Failure(f"signal {tree['signal']}, marked {marked} where {told.strip()} crashed")
    if next(threads(tree))["gil"]:
        raise Failure("the thread that crashed holds the lock")


def check_subs(salvage: Path, core: Path, layouts: Path, told: str) -> None:
    """The main interpreter has the threads that the process told, with their frames, and no others; each
    sub-interpreter that waits in a thread has that alone; and one that is idle has a thread without frames, or none and
    isn't shown."""
    said = json.loads(told)
    tree = left(salvage, core, layouts)
    shown = [sorted((str(it["thread_id"]), [name for name, file in frames_of(it) if file]) for it in one["threads"])
             for one in tree["interpreters"]]
    if shown.count(sorted((number, names) for number, names in said["stacks"].items())) != 1:
        raise Failure(f"the main interpreter's threads {said['stacks']} are not those of one among {shown}")
    stacks = [[names for _, names in it] for it in shown]
    kinds = said["kinds"]
    for number in (at for at, kind in enumerate(kinds) if kind == "t"):
        if stacks.count([[f"wait_{number}", "<module>"]]) != 1:
            raise Failure(f"sub-interpreter {number} of {kinds} is not one among {shown}")
    if sum(bool(names) for it in stacks for names in it) != len(said["stacks"]) + kinds.count("t"):
        raise Failure(f"a thread with frames is none of the process: {shown}")
    if not tree["version"].startswith("3.13.") and stacks.count([[]]) < kinds.count("i"):
        raise Failure(f"an idle sub-interpreter of {kinds} is missing among {shown}")


CHILDREN = (
    ("a recursion", DEEP, check_deep, ()),
    ("a segfault", CRASHED, check_crashed, ()),
    ("sub-interpreters", SUBS, check_subs, ("ittt",)),
    ("sub-interpreters of which the newest is idle", SUBS, check_subs, ("tti",)),
    ("sub-interpreters with idle ones between", SUBS, check_subs, ("tiit",)),
    ("sub-interpreters of which the newest are idle", SUBS, check_subs, ("titii",)),
)
"""What dies, and how it is checked, with the arguments of the child."""


def tried(program: Path, salvage: Path, python: str, names: str) -> str:
    """What comes of one Python."""
    build = build_of(python)
    if not (3, 8) <= build.minor <= (3, 13):
        raise Skip(f"version {build.dotted}")
    derived = derived_for(build)
    done: List[str] = []
    with tempfile.TemporaryDirectory(prefix="real-salvage-") as name:
        room = Path(name)
        layouts = room / "layout.toml"
        layouts.write_text(derived.text, encoding="utf-8")
        for number, case in enumerate((Case("main"), Case("many"))):
            core = leave_core(derived, names, room / str(number), case)
            count, others = check_same(salvage, program, core.path, layouts)
            check_cut(salvage, core.path, layouts, room)
            words = 0
            if case.who == "many":
                check_garbage(salvage, core.path, layouts, derived.text)
            else:
                words = check_words(core.path, derived.text, lambda: left(salvage, core.path, layouts, "-n", "4096"))
            done.append(f"{count} threads as `dump`" + (f" and {others} interpreters that are none" if others else "")
                        + (f", {words} words of garbage" if words else ""))
            core.path.unlink()
        for what, source, check, words in CHILDREN:
            try:
                path, told = left_by(python, names, room / what, source, *words)
            except Skip as reason:
                done.append(f"{what} not tried ({reason})")
                continue
            check(salvage, path, layouts, told)
            path.unlink()
            done.append(what)
    return f"{build.dotted}: {', '.join(done)}"


def try_all(program: Path, salvage: Path, found: Sequence[str]) -> int:
    """Tries each Python, and returns how many failed."""
    names = core_names()
    return tell_each("real_salvage", lambda it: tried(program, salvage, it, names), found, (Skip, DeriveError))


def main() -> int:
    """The command."""
    parser = argparse.ArgumentParser(description=__doc__.splitlines()[0])
    parser.add_argument("python", nargs="*", help="the interpreters (default: all that are found)")
    parser.add_argument("--program", default=str(ROOT / "crates" / "pystacks" / "out" / "pystacks"), help="the built `pystacks`")
    parser.add_argument("--salvage", default=str(ROOT / "crates" / "pysalvage" / "out" / "pysalvage"), help="the built `pysalvage`")
    words = parser.parse_args()
    program, salvage = Path(words.program).resolve(), Path(words.salvage).resolve()
    for it in (program, salvage):
        if not os.path.isfile(it):
            print(f"real_salvage: skipped: there is no {it}")
            return 0
    try:
        return 1 if try_all(program, salvage, words.python or pythons()) else 0
    except Skip as reason:
        print(f"real_salvage: skipped: {reason}")
        return 0


if __name__ == "__main__":
    sys.exit(main())
