"""The names of native functions: of those for which a file has no symbol, by a debug file; and C++'s as people read them."""

import re
from typing import Dict, Iterator, List, Optional

from pystacks_tool.ask.dump import Tree
from pystacks_tool.cores.images import Root
from pystacks_tool.cores.symbols import Functions, more_functions

MANGLED = re.compile(r"_Z[A-Za-z0-9_.$]+\Z")
"""A name as C++'s compilers write it (Itanium C++ ABI, 5.1)."""

MOST = 10_000
"""The most names that are handed to `c++filt`."""

SECONDS = 10
"""How long that may take."""


def frames_in(told: List[Tree]) -> Iterator[Tree]:
    """The frames of all stacks that a program told."""
    for thread in told:
        for part in (thread["stack"], thread["guessed"]):
            if part is not None:
                yield from part["frames"]
                yield from part["last"]


def add_names(told: List[Tree], words: List[bytes], root: Root) -> None:
    """Gives the frames without a function the one of a debug file, where there is one. `words` are those for the files that were handed
    over, each of the build that was mapped."""
    paths = {name.decode("utf-8"): path for name, _, path in (it.partition(b"=") for it in words)}
    found: Dict[str, Optional[Functions]] = {}
    for frame in frames_in(told):
        name = frame["file"]
        if frame["function"] is not None or frame["address"] is None or name not in paths:
            continue
        if name not in found:
            found[name] = more_functions(paths[name], root if isinstance(root, bytes) else b"")
        functions = found[name]
        function = None if functions is None else functions.at(int(frame["address"], 16))
        if function is not None:
            # (a return address stands behind the place by which it is looked up)
            frame["function"], frame["offset"] = function[0], function[1] + (not frame["exact"])


def readable_names(told: List[Tree]) -> Dict[str, str]:
    """C++'s names among those of the functions, as `c++filt` writes them, where it is there; it is asked once."""
    names = sorted({it["function"] for it in frames_in(told) if it["function"] and MANGLED.match(it["function"])})[:MOST]
    if not names:
        return {}
    import shutil
    import subprocess

    program = shutil.which("c++filt")
    if program is None:
        return {}
    try:
        done = subprocess.run([program], input="".join(f"{it}\n" for it in names), stdout=subprocess.PIPE, stderr=subprocess.DEVNULL,
                              encoding="utf-8", errors="replace", timeout=SECONDS, check=True)
    except (OSError, subprocess.SubprocessError):
        return {}
    lines = done.stdout.splitlines()
    return dict(zip(names, lines)) if len(lines) == len(names) else {}


def missing_files(told: List[Tree]) -> List[str]:
    """The files that weren't at hand, and in which a stack ends."""
    parts = (part for thread in told for part in (thread["stack"], thread["guessed"]) if part is not None)
    return sorted({part["end"]["file"] for part in parts if part["end"]["kind"] == "no file" and part["end"]["file"]})
