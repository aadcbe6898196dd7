#!/usr/bin/env python3
"""Makes a small core of a large one, with what the stacks need alone: by `pystacks locate` and `pystacks slim`.

    tools/slim_core.py CORE                  # writes CORE.slim
    tools/slim_core.py CORE -l --out FILE    # with what the values of locals need too

Where the core has to be prepared, or images are missing, that is said as `dump_core.py` says it. Behind that one line
says what was written, and on the standard output stand the words of the program that show the stacks of the small core.
It has some kilobytes for each thread, and the same signal and process; names and values of the process are in it.
"""

import argparse
import os
import shlex
import sys
import tempfile
from typing import List

sys.dont_write_bytecode = True

from pystacks_tool.ask.programs import command_of
from pystacks_tool.ask.run import write_all
from pystacks_tool.ask.slim import located, written
from pystacks_tool.cores.opened import OpenedCore, open_core
from pystacks_tool.faults import BAD_WORDS, CANNOT_WRITE, Fault, call, say, shown
from pystacks_tool.options import Options
from pystacks_tool.places import PROGRAM, program_at, version_line

SMALL = b"\x7fELF\2\1".ljust(18, b"\0")
"""How a small core begins, whose type is 0. A file that begins otherwise is never written over."""


def check_free(out: str) -> None:
    """Refuses a file that is there and is no small core, as the large one, or a device."""
    try:
        if not os.path.lexists(out):
            return
        if os.path.isfile(out):
            with open(out, "rb") as file:
                if file.read(len(SMALL)) == SMALL:
                    return
    except OSError as error:
        raise Fault(f"cannot write {shown(os.fsencode(out))}: {error.strerror}", CANNOT_WRITE) from None
    line = f"{shown(os.fsencode(out))} is no small core, and isn't written over"
    raise Fault(line, BAD_WORDS, "name another file by --out")


def put(words: List[str]) -> None:
    """Writes the words on the standard output, as a shell reads them."""
    try:
        write_all(1, os.fsencode(" ".join(map(shlex.quote, words))) + b"\n")
    except OSError as error:
        raise Fault(f"cannot write the words: {error.strerror}", CANNOT_WRITE) from None


def slimmed(command: List[bytes], core: OpenedCore, level: int, out: str) -> int:
    """Writes the small core, under its name only once it is whole. Returns its length."""
    name = ""
    try:
        with tempfile.NamedTemporaryFile(dir=os.path.dirname(os.path.abspath(out)), prefix=".slim-", delete=False) as part:
            name = part.name
            written(command, core, level, part.fileno())
            length = os.fstat(part.fileno()).st_size
        # (as a file that this user makes has them, and for none who may not read the core)
        mask = os.umask(0)
        os.umask(mask)
        os.chmod(name, os.stat(core.name).st_mode & 0o666 & ~mask)
        os.replace(name, out)
        name = ""
    except OSError as error:
        raise Fault(f"cannot write {shown(os.fsencode(out))}: {error.strerror}", CANNOT_WRITE) from None
    finally:
        if name and os.path.exists(name):
            os.unlink(name)
    return length


def run(options: Options, name: str, out: str) -> int:
    """Makes the small core, and says how it is read."""
    program = program_at(options.program, PROGRAM)
    check_free(out)
    core = open_core(options, name)
    command = command_of([program, core.word, core.layouts], [core.name])
    version, interpreter, lock = located(command, core)
    length = slimmed(command, core, options.locals, out)
    say(f"{shown(os.fsencode(out))} has {length} bytes")
    put([program, "walk", out, core.layouts, version, interpreter, lock])
    return 0


def main() -> int:
    """The command."""
    parser = argparse.ArgumentParser(description=__doc__.splitlines()[0])
    parser.add_argument("core", metavar="CORE", help="the core's file")
    parser.add_argument("-l", "--locals", action="count", default=0, help="with what the values of locals need; twice, of longer ones")
    parser.add_argument("--out", metavar="FILE", default="", help="the small core's file (default: CORE.slim)")
    parser.add_argument("--root", metavar="DIR", default="", help="look for the mapped files below this folder")
    parser.add_argument("--program", metavar="P", help="the built program (default: the one in crates/pystacks/out)")
    parser.add_argument("--layouts", metavar="FILE", help="the layout file (default: the core's machine's in layouts/)")
    parser.add_argument("--maps", metavar="FILE", default="", help="the process's maps, for a core without a file table")
    parser.add_argument("--version", action="version", version=version_line(), help="the project's version, and its commit")
    words = parser.parse_args()
    call(sys.argv[0])
    if words.root and not os.path.isdir(words.root):
        parser.error(f"there is no folder {words.root}")
    try:
        options = Options(
            (words.core,), words.locals, root=words.root, maps=words.maps, whole=True, layouts=words.layouts, program=words.program)
        return run(options, words.core, words.out or f"{words.core}.slim")
    except Fault as fault:
        say(str(fault), fault.then)
        return fault.status
    except KeyboardInterrupt:
        return 130


if __name__ == "__main__":
    sys.exit(main())
