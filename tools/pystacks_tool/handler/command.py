"""The words of the handler: the kernel's, or those by which it is set up, removed, and tidied."""

import sys
from typing import List, Tuple

from pystacks_tool.faults import BAD_WORDS, CANNOT_WRITE, NO_STACKS, Fault, say
from pystacks_tool.handler.handle import MEGABYTE, WHO, run
from pystacks_tool.handler.settings import PATH, read_settings
from pystacks_tool.handler.store import opened, tidied
from pystacks_tool.handler.system import Lacks

USAGE = "pystacks-core-handle [--settings FILE] (PROCESS THREAD MODE SIGNAL TIME LIMIT | --install | --remove | --tidy)"


def option(words: List[str], name: str, usual: str) -> Tuple[List[str], str]:
    """The words without an option, and its value."""
    if words[:1] == [name] and len(words) > 1:
        return words[2:], words[1]
    return words, usual


def tidy(path: str) -> int:
    """Removes what is too old, or takes too much."""
    settings = read_settings(path)
    gone = tidied(opened(settings.folder), settings.keep_space * MEGABYTE, settings.keep_days)
    say(f"{len(gone)} crashes removed", who=WHO)
    return 0


def done(words: List[str], path: str, base: str) -> int:
    """Does what root asks for by hand."""
    if words == ["--tidy"]:
        return tidy(path)
    from pystacks_tool.handler.setup import install, removed
    return install(base) if words == ["--install"] else removed(base)


def main(given: List[str]) -> int:
    """The command. Returns the status."""
    words, path = option(given, "--settings", PATH)
    words, base = option(words, "--root", "/")
    if words in (["--help"], ["-h"]):
        print(f"usage: {USAGE}\n\nThe kernel starts this for each core; docs/CORES.md has its settings.")
        return 0
    if words not in (["--install"], ["--remove"], ["--tidy"]):
        return run(words, path)
    try:
        return done(words, path, base)
    except Fault as fault:
        say(str(fault), fault.then, WHO)
        return fault.status
    except Lacks as reason:
        say(f"{reason}, and no core is taken", who=WHO)
        return NO_STACKS
    except PermissionError as error:
        say(f"cannot write {error.filename}: {error.strerror}", "this is root's to do", WHO)
        return BAD_WORDS
    except OSError as error:
        say(f"cannot write {error.filename}: {error.strerror}", who=WHO)
        return CANNOT_WRITE


if __name__ == "__main__":
    sys.exit(main(sys.argv[1:]))
