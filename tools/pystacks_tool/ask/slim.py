"""A small core of a large one, by `pystacks locate` and `pystacks slim`."""

import os
import re
import subprocess
from typing import List, Tuple

from pystacks_tool.ask.programs import ask
from pystacks_tool.ask.run import Answer
from pystacks_tool.cores.opened import OpenedCore
from pystacks_tool.faults import NO_PROGRAM, Fault, shown

LOCATED = re.compile(r"Python v(\d+\.\d+\.\d+)\S*\nInterpreter (0x[0-9a-f]+)\nLock (0x[0-9a-f]+)\n")
"""What `pystacks locate` prints: of a version `walk` takes the numbers."""


def fault_of(answer: Answer) -> Fault:
    """The program's own line and status."""
    line = shown(answer.said.strip()) or f"the program ended with status {answer.status}"
    return Fault(line, answer.status if answer.status > 0 else NO_PROGRAM)


def located(command: List[bytes], core: OpenedCore) -> Tuple[str, str, str]:
    """The version, the interpreter's address and the lock's."""
    answer = ask(core, [command[0], b"locate", *command[1:], *core.images])
    if answer.status:
        raise fault_of(answer)
    found = LOCATED.fullmatch(answer.out.decode("ascii", "replace"))
    if not found:
        raise Fault(f"the program says {answer.out!r} of where the interpreter is", NO_PROGRAM)
    version, interpreter, lock = found.groups()
    return version, interpreter, lock


def written(command: List[bytes], core: OpenedCore, level: int, part: int) -> None:
    """Writes the small core into an open file."""
    words = [command[0], b"slim", *command[1:], b"%d" % level, *core.images]
    done = subprocess.run(words, stdin=subprocess.DEVNULL, stdout=part, stderr=subprocess.PIPE, pass_fds=core.fds, check=False)
    if done.returncode:
        raise fault_of(Answer(done.returncode, b"", done.stderr.replace(os.fsencode(core.word), os.fsencode(core.name))))
