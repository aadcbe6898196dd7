#!/usr/bin/env python3
"""Asks which native frame of real Pythons ran which Python frames, and compares it with what called what.

    tools/check/real/real_pairs.py --salvage crates/pysalvage/out/pysalvage [PYTHON..]

For each Python of 3.6 on that is installed: processes die in a C function below Python functions that C called (by ctypes, in a key
of a sort, twenty times one below the other), in a `__del__` that runs as a Python function returns to C, where the C stack
overflows between them, in a sub-interpreter that another thread made, and, where the module `greenlet` is there, in a greenlet beside a
parked one. In the one stack of the thread that died each C function of the child stands above the Python function that called it, and
below the one that it called; each frame stands once and in its order; up to 3.10 both are paired by their order, or not at all where a
sub-interpreter's calls are among them, and from 3.11 on by addresses. With `--crashed` the same is told of that thread, and of no other;
and its lines of text are those frames, in that order. Where gdb is there and the build's debug information has it, the variable of each
frame of the evaluation loop that names the Python frame it runs is asked too: it is the newest of the Python frames that stand above that
native frame. From 3.12 on some have to be told. The status is 0 exactly where nothing that was tried failed.
"""

import argparse
import json
import os
import re
import shutil
import subprocess
import sys
import tempfile
from pathlib import Path
from typing import Callable, List, Optional, Sequence, Tuple

from rooms import ROOT  # (first: it makes the other rooms known)

from child_cores import Failure, Skip, core_names, ended
from derive_layout import DeriveError, build_of
from each_python import tell_each
from find_pythons import pythons
from real_core import ran
from real_native import image_words
from real_salvage import Tree
from section_text import check_paired

HERE = Path(__file__).parent

RECORDS = ROOT / "layouts" / "records-x86_64.toml"

WAYS = ("recursion", "overflow", "leaves", "sort", "enters", "greenlets")

NATIVE = ("crash", "call_back")
"""The child's C functions."""

PYTHON = ("recurses", "overflows", "leaves", "within_sort", "enters", "inner", "__del__", "ends", "<lambda>", "parks", "runs", "switches")
"""Its Python functions."""

WANTED = {
    "recursion": ["crash", *(["recurses", "<lambda>", "call_back"] * 20), "recurses", "ends"],
    "leaves": ["crash", "__del__", "call_back", "ends"],
    "sort": ["crash", "<lambda>", "within_sort", "call_back", "ends"],
    "greenlets": ["crash", "<lambda>", "call_back", "runs"],
}
"""What stands in the stack of the thread that died, of the child's functions, the newest first. Of greenlets the running one alone has
Python frames there: the loop of another one stands in the C stack, and runs none."""


SHOWN = 4096
"""How many frames of a chain are asked for, and lines of a stack: as many first ones, and as many last ones."""


def answered(program: Path, core: Path, layouts: Path, *words: str) -> str:
    """What is answered of a core."""
    run = ran([program, core, "--layouts", layouts, "--records", RECORDS, "--native", "-n", str(SHOWN), *words, *image_words(core)])
    if run.status != 0:
        raise Failure(f"status {run.status}: {run.err}")
    return run.out


def stack_that_died(tree: Tree) -> Tuple[Tree, Tree]:
    """The native stack of the thread that got the signal, and the one stack of it."""
    at = next(at for at, it in enumerate(tree["native"]) if it["crashed"])
    native, one = tree["native"][at], tree["stacks"][at]
    if one is None:
        raise Failure("the thread that died is none of Python's")
    return native, one


def parts_of(tree: Tree) -> Tuple[List[Tree], List[Tree], List[Tree]]:
    """The native frames of the thread that got the signal, its Python frames, and the items of the one stack."""
    native, one = stack_that_died(tree)
    thread = next(it for each in tree["interpreters"] for it in each["threads"] if it["address"] == one["thread"])
    frames = [*thread["frames"]["first"], *thread["frames"]["last"]]
    natives = [frame for part in (native["stack"], native["guessed"]) if part for frame in (*part["frames"], *part["last"])]
    return natives, frames, [] if one["pairing"] == "apart" else one["items"]


def of_crashed(tree: Tree) -> Tuple[Tree, List[Tree], List[Tree]]:
    """One stack of both of the thread that got the signal, its Python frames, and its native ones."""
    natives, frames, _ = parts_of(tree)
    return stack_that_died(tree)[1], frames, natives


def is_line_of(line: str, item: Tree, frames: Sequence[Tree], natives: Sequence[Tree]) -> bool:
    """Whether a line is that of a frame, or of a mark."""
    if item["kind"] == "python":
        return line.startswith(f"    {frames[item['frame']]['name']} (") and not line.endswith(" [C]")
    if item["kind"] == "native":
        return line.startswith(f"    {natives[item['frame']]['pc']} ") and line.endswith(" [C]")
    return line.startswith("    ... ") and not line.endswith(" [C]")


def check_text(tree: Tree, text: str) -> None:
    """Fails where the text's lines of the thread that got the signal aren't its frames, or another one has a native stack."""
    one, frames, natives = of_crashed(tree)
    lines = text.splitlines()
    heads = [at for at, it in enumerate(lines) if re.match(r"Native thread |Thread [0-9]+ \((Python's|whose) ", it)]
    if len(heads) != 1 or not lines[heads[0]].endswith(" (crashed)"):
        raise Failure(f"native stacks of {[lines[at] for at in heads]}")
    if len(one["items"]) <= 2 * SHOWN:
        shown, items = lines[heads[0] + 1:][:len(one["items"])], one["items"]
    else:
        shown, items = lines[heads[0] + 1:][:SHOWN], one["items"][:SHOWN]
    wrong = [line for line, it in zip(shown, items) if not is_line_of(line, it, frames, natives)]
    if len(shown) != len(items) or wrong:
        raise Failure(f"{len(shown)} lines of {len(items)} frames, {wrong[:3]}")


def check_crashed(tree: Tree, alone: Tree) -> None:
    """Fails where what is told of the thread that got the signal isn't what is told of it among all, or another one has a native stack."""
    if alone["native"] != tree["native"][:1] or alone["stacks"] != tree["stacks"][:1]:
        raise Failure(f"{len(alone['native'])} native stacks of the thread that got the signal alone")


def own_names(tree: Tree) -> Tuple[str, List[str]]:
    """By what both are paired in the thread that got the signal, and the child's functions in its stack."""
    one = stack_that_died(tree)[1]
    natives, frames, items = parts_of(tree)
    names: List[str] = []
    for it in items:
        if it["kind"] not in ("python", "native"):
            raise Failure(f"the mark {it['kind']!r} by {one['pairing']}")
        name = frames[it["frame"]]["name"] if it["kind"] == "python" else natives[it["frame"]]["function"]
        if name in (PYTHON if it["kind"] == "python" else NATIVE):
            names.append(name)
            if it.get("hidden"):
                raise Failure(f"{name} is hidden")
    return one["pairing"], names


EVAL = "_PyEval_EvalFrameDefault"
"""The evaluation loop, from 3.6 on."""

SHIM = "<interpreter trampoline>"
"""The function of a frame of 3.12 that isn't shown: where the loop stands at it, it runs no Python frame."""

IN_GDB = """
import gdb, json

def name_of(frame):
    for variable in ('frame', 'f'):
        try:
            value = frame.read_var(variable)
        except ValueError:
            continue
        if value.is_optimized_out:
            return None
        fields = [it.name for it in value.dereference().type.fields()]
        code = value['f_code' if 'f_code' in fields else 'f_executable'].cast(gdb.lookup_type('PyCodeObject').pointer())
        text = code['co_name'].cast(gdb.lookup_type('PyASCIIObject').pointer()) + 1
        return text.cast(gdb.lookup_type('char').pointer()).string()
    return None

frame, found = gdb.newest_frame(), []
while frame is not None:
    if (frame.name() or '').split('.')[0] == '%s':
        try:
            found.append([frame.pc(), name_of(frame)])
        except (gdb.error, UnicodeDecodeError):
            found.append([frame.pc(), None])
    frame = frame.older()
print('FOUND ' + json.dumps(found))
""" % EVAL
"""What gdb tells: each frame of the evaluation loop in the thread that died, the newest first, with the function that it runs, if a
variable tells that."""


def run_by_gdb(core: Path, python: str, room: Path) -> List[Tuple[int, Optional[str]]]:
    """The frames of the evaluation loop, by gdb: where each stands, and which function it runs."""
    script = room / "pairs_gdb.py"
    script.write_text(IN_GDB, encoding="utf-8")
    words = ["gdb", "-batch", "-nx", "-q", os.path.realpath(python), str(core), "-x", str(script)]
    done = subprocess.run(words, stdout=subprocess.PIPE, stderr=subprocess.DEVNULL, check=False, text=True)
    lines = [it for it in done.stdout.splitlines() if it.startswith("FOUND ")]
    if len(lines) != 1:
        raise Failure("gdb tells nothing of the evaluation loop")
    return [(at, name) for at, name in json.loads(lines[0][len("FOUND "):])]


def run_by_pairs(tree: Tree) -> List[Tuple[int, Optional[str]]]:
    """The same by the one stack: the newest Python frame above each frame of the evaluation loop; none where there is none."""
    natives, frames, items = parts_of(tree)
    found: List[Tuple[int, Optional[str]]] = []
    newest = None
    for it in items:
        if it["kind"] == "python":
            newest = newest or frames[it["frame"]]["name"]
            continue
        native = natives[it["frame"]]
        if (native["function"] or "").partition(".")[0] == EVAL:
            found.append((int(native["pc"], 16), newest))
        newest = None
    return found


def compared_with_gdb(tree: Tree, core: Path, python: str, room: Path) -> int:
    """How many frames of the evaluation loop run the function that gdb's variable names."""
    of_gdb, of_pairs = run_by_gdb(core, python, room), run_by_pairs(tree)
    if len(of_gdb) != len(of_pairs):
        raise Failure(f"gdb has {len(of_gdb)} frames of the evaluation loop, and the one stack {len(of_pairs)}")
    told = 0
    for (at, name), (place, newest) in zip(of_gdb, of_pairs):
        if at - place not in (0, 1):
            raise Failure(f"a frame of the evaluation loop at {place:#x}, and by gdb at {at:#x}")
        if name is not None and newest != (None if name == SHIM else name):
            raise Failure(f"the evaluation loop at {at:#x} runs {newest}, and by gdb {name}")
        told += name is not None
    return told


def check_overflow(names: Sequence[str]) -> None:
    """Fails where a function doesn't stand below what it called: each Python function but the newest called C, and so may that one."""
    depth = names.count("overflows")
    rest = names[1:] if names[:1] == ["call_back"] else names
    if depth < 2 or list(rest) != [*(["overflows", "call_back"] * depth)[:-1], "ends"]:
        raise Failure(f"{depth} functions: {names[:6]} .. {names[-6:]}")


def tried_way(program: Path, python: str, names: str, room: Path, layouts: Path, library: Path, way: str, wanted: str) -> Tuple[int, int]:
    """How many frames of the child stand where they are to, where a process dies in one way, and how many gdb's variables confirm."""
    room.mkdir()
    child = ended([python, str(HERE / "pairs_child.py"), way, str(library)], room)
    if child.status >= 0:
        raise Failure(f"a child doesn't die by {way}: {child.said[-200:]}")
    core = child.core(names)
    tree = json.loads(answered(program, core, layouts, "-j"))
    check_paired(tree)
    check_crashed(tree, json.loads(answered(program, core, layouts, "-j", "--crashed")))
    check_text(tree, answered(program, core, layouts, "--crashed"))
    pairing, own = own_names(tree)
    if pairing != ("apart" if way == "enters" and wanted == "order" else wanted):
        raise Failure(f"{way}: paired by {pairing}")
    if way == "enters":
        # (which of the thread's two chains stands there its id alone tells)
        if pairing != "apart" and own not in (["enters", "ends"], ["inner"]):
            raise Failure(f"{way}: {own}")
    elif way == "overflow":
        check_overflow(own)
    elif own != WANTED[way]:
        raise Failure(f"{way}: {own}")
    confirmed = compared_with_gdb(tree, core, python, room) if way in WANTED and shutil.which("gdb") else 0
    core.unlink()
    return len(own), confirmed


def has_variables(python: str) -> bool:
    """Whether a Python's own file has debug information."""
    told = subprocess.run(["readelf", "-S", os.path.realpath(python)], stdout=subprocess.PIPE, stderr=subprocess.DEVNULL, check=False)
    return b".debug_info" in told.stdout


def has_greenlets(python: str) -> bool:
    """Whether a Python has the module `greenlet`."""
    return subprocess.run([python, "-c", "import greenlet"], stderr=subprocess.DEVNULL, check=False).returncode == 0


def tried_with(program: Path, library: Path) -> Callable[[str], str]:
    """What tries one Python."""

    def tried(python: str) -> str:
        build = build_of(python)
        if build.version < (3, 6):
            raise Skip("pairs_child.py is none of its programs")
        names = core_names()
        wanted = "order" if build.version < (3, 11) else "address"
        with tempfile.TemporaryDirectory(prefix="real-pairs-") as name:
            layouts = ROOT / "layouts" / f"cpython-{build.machine}.toml"
            ways = [it for it in WAYS if (it != "enters" or build.version >= (3, 8)) and (it != "greenlets" or has_greenlets(python))]
            counts = [tried_way(program, python, names, Path(name) / way, layouts, library, way, wanted) for way in ways]
        stand, confirmed = (sum(it) for it in zip(*counts))
        if not confirmed and build.version >= (3, 12) and shutil.which("gdb") and has_variables(python):
            raise Failure("gdb's variables confirm no frame of the evaluation loop")
        none = "the compiler left gdb no variable" if shutil.which("gdb") else "there is no gdb"
        by_gdb = f"; {confirmed} of the evaluation loop as gdb's variables say" if confirmed else f"; {none}"
        return f"{build.dotted}: {stand} frames where they are to stand, in {len(ways)} ways, by {wanted}{by_gdb}"

    return tried


def main() -> int:
    """The check."""
    parser = argparse.ArgumentParser(description=__doc__.splitlines()[0])
    parser.add_argument("--salvage", type=Path, required=True, help="the built program `pysalvage`")
    parser.add_argument("python", nargs="*", help="the interpreters (default: all that are found)")
    words = parser.parse_args()
    if shutil.which("gcc") is None:
        print("real_pairs: skipped: there is no gcc")
        return 0
    with tempfile.TemporaryDirectory(prefix="pairs-child-") as name:
        library = Path(name) / "native_child.so"
        built = subprocess.run(["gcc", "-O2", "-shared", "-fPIC", "-o", str(library), str(HERE / "native_child.c")])
        if built.returncode != 0:
            print("real_pairs: skipped: gcc doesn't build native_child.c")
            return 0
        failed = tell_each("real_pairs", tried_with(words.salvage, library), words.python or pythons(), (Skip, DeriveError))
    return 1 if failed else 0


if __name__ == "__main__":
    sys.exit(main())
