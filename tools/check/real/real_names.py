#!/usr/bin/env python3
"""Asks for the names of threads in cores of real Pythons, and compares them with what the processes said.

    tools/check/real/real_names.py --salvage crates/pysalvage/out/pysalvage [PYTHON..]

For each Python of 3.6 on that is installed: of threads whose names have blanks, quotes, line feeds and other scripts, one of them
20,000 frames deep, each has the name that the process gave it, in the section and at the thread; and so it has where the word that
names a thread's newest frame is garbage. Where the word that names the class of one thread's object is garbage, its name alone is
missing. Where there are sub-interpreters each thread has the name that its own interpreter keeps, though threads of two
interpreters may have one id. The status is 0 exactly where nothing that was tried failed.
"""

import argparse
import json
import sys
import tempfile
from pathlib import Path
from typing import Dict, List, Optional

from rooms import ROOT  # (first: it makes the other rooms known)

from broken_words import LOW, with_word
from child_cores import Failure, Skip, core_names
from derive_layout import DeriveError, build_of
from each_python import tell_each
from find_pythons import pythons
from made import layout_of
from pystacks_tool.ask.run import knows
from real_core import derived_for
from real_salvage import Tree, left, left_by, threads
from section_text import check_names

NAMED = """
import json, os, sys, threading, time
sys.setrecursionlimit(100000)
ready, told = os.pipe()
def wait():
    os.write(told, b"x")
    time.sleep(1000)
def descend(left):
    if left == 0:
        print(json.dumps({it.ident: it.name for it in threading.enumerate()}), flush=True)
        print(json.dumps({it.ident: id(it) for it in threading.enumerate()}), flush=True)
        os.abort()
    descend(left - 1)
for name in ("plain", "zwei W\\u00f6rter", "a line\\nfeed and a \\"quote\\"", "\\u65e5\\u672c \\U0001f40d"):
    threading.Thread(target=wait, name=name, daemon=True).start()
    os.read(ready, 1)
threading.stack_size(1 << 29)
deep = threading.Thread(target=descend, args=(20000,), name="deep")
deep.start()
deep.join()
"""

SUBS = """
import json, os, sys, threading
try:
    import _interpreters as subs
except ImportError:
    import _xxsubinterpreters as subs
ready, told = os.pipe()
WAIT = '''
import os, threading, time
threading.current_thread().name = "sub %d"
os.write(%d, b"x")
time.sleep(1000)
'''
for number in range(2):
    sub = subs.create()
    run = lambda sub=sub, number=number: subs.run_string(sub, WAIT % (number, told))
    threading.Thread(target=run, name="main %d" % number, daemon=True).start()
    os.read(ready, 1)
print(json.dumps({it.ident: it.name for it in threading.enumerate()}), flush=True)
os.abort()
"""

Names = Dict[int, Optional[str]]


def names_of(tree: Tree) -> List[Names]:
    """The names that are told, of each interpreter: first those of the main one, which has most threads."""
    found = [{row["thread_id"]: row["name"] for row in it["threads"]} for it in tree["names"]]
    return sorted(found, key=len, reverse=True)


def said(text: str) -> Names:
    """The names that the process said."""
    return {int(number): name for number, name in json.loads(text.splitlines()[0]).items()}


def objects(text: str) -> Dict[int, int]:
    """The addresses of the threads' objects, by their ids."""
    return {int(number): at for number, at in json.loads(text.splitlines()[1]).items()}


def check_own(tree: Tree, wanted: Names, lost: Optional[int] = None) -> None:
    """Fails where a thread of the main interpreter has another name than the process said, or one isn't there; or where that of one
    thread alone can't be read, and it is told otherwise."""
    check_names(tree)
    told = names_of(tree)[0]
    if set(told) != set(wanted) or any(it["fault"] for it in tree["names"]):
        raise Failure(f"names of {sorted(told)} are told, and the process said {sorted(wanted)}: {tree['names']}")
    for number, name in told.items():
        if name != (None if number == lost else wanted.get(number)):
            raise Failure(f"thread {number:#x} is {name!r}, and the process said {wanted.get(number)!r}")
    faults = {row["thread_id"] for it in tree["names"] for row in it["threads"] if row["fault"]}
    if faults != ({lost} - {None}):
        raise Failure(f"names of {sorted(faults)} can't be read, and that of {lost} alone was broken")


def named(salvage: Path, python: str, names: str, room: Path, layouts: Path) -> str:
    """Names of every kind, with a deep thread, with a chain of frames that is broken, and with a thread's object that is."""
    core, told = left_by(python, names, room, NAMED)
    wanted = said(told)
    tree = left(salvage, core, layouts, "--names")
    check_own(tree, wanted)
    broken = next(it for it in threads(tree) if it["frames"]["met"] > 20000)
    place = int(broken["address"], 16) + layout_of(layouts.read_text())["thread"]["frame"]
    check_own(with_word(core, place, LOW, lambda: left(salvage, core, layouts, "--names")), wanted)
    number, at = next((number, at) for number, at in objects(told).items() if wanted[number] == "plain")
    klass = at + layout_of(layouts.read_text())["object"]["klass"]
    check_own(with_word(core, klass, LOW, lambda: left(salvage, core, layouts, "--names")), wanted, number)
    core.unlink()
    return f"{len(wanted)} names"


def in_subs(salvage: Path, python: str, names: str, room: Path, layouts: Path, has_ids: bool) -> str:
    """Names of threads of three interpreters, of which each thread may have an id of its own."""
    core, told = left_by(python, names, room, SUBS)
    tree = left(salvage, core, layouts, "--names")
    check_own(tree, said(told))
    own = [set(it.values()) - {None} for it in names_of(tree)[1:]]
    core.unlink()
    # (up to 3.12 a sub-interpreter's thread has the id of the one that made the interpreter, of which its own module may know nothing)
    is_own = all(it <= {"sub 0", "sub 1", "MainThread"} for it in own)
    if len(own) != 2 or not is_own or has_ids and sorted(map(sorted, own)) != [["sub 0"], ["sub 1"]]:
        raise Failure(f"the sub-interpreters' threads are named {own}")
    return "sub-interpreters"


def tried(salvage: Path, python: str, names: str) -> str:
    """What comes of one Python."""
    build = build_of(python)
    if build.minor < (3, 6):
        raise Skip(f"version {build.dotted}")
    derived = derived_for(build)
    done: List[str] = []
    with tempfile.TemporaryDirectory(prefix="real-names-") as name:
        room = Path(name)
        layouts = room / "layout.toml"
        layouts.write_text(derived.text, encoding="utf-8")
        done.append(named(salvage, python, names, room / "named", layouts))
        try:
            done.append(in_subs(salvage, python, names, room / "subs", layouts, build.minor >= (3, 13)))
        except Skip as reason:
            done.append(f"sub-interpreters not tried ({reason})")
    return f"{build.dotted}: {', '.join(done)}"


def main() -> int:
    """The command."""
    parser = argparse.ArgumentParser(description=__doc__.splitlines()[0])
    parser.add_argument("python", nargs="*", help="the interpreters (default: those that are found)")
    parser.add_argument("--salvage", default=str(ROOT / "crates" / "pysalvage" / "out" / "pysalvage"), help="the built `pysalvage`")
    words = parser.parse_args()
    salvage = Path(words.salvage).resolve()
    if not salvage.is_file() or not knows(salvage, "--names"):
        print(f"real_names: skipped: {'it tells no names' if salvage.is_file() else f'there is no {salvage}'}")
        return 0
    try:
        names = core_names()
    except Skip as reason:
        print(f"real_names: skipped: {reason}")
        return 0
    return 1 if tell_each("real_names", lambda it: tried(salvage, it, names), words.python or pythons(), (Skip, DeriveError)) else 0


if __name__ == "__main__":
    sys.exit(main())
