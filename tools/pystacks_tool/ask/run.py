"""Runs the program over a core that was prepared, with the user's name for the core in place of the file's own.

The name stands at the end of the first line of a report, and in lines of faults. All other bytes are passed on.
"""

import os
import resource
import signal
from functools import lru_cache
from typing import IO, List, NamedTuple, Sequence

from pystacks_tool.faults import CANNOT_WRITE, NO_ROOM, Fault
from pystacks_tool.places import SALVAGE
from pystacks_tool.spare import spare_file

CHUNK = 1 << 16

LONGEST_ANSWER = 1 << 28
"""The most bytes of an answer that the tool reads whole: a hostile core can have gigabytes of names."""


def write_all(fd: int, data: bytes) -> None:
    """Writes all of some bytes."""
    while data:
        data = data[os.write(fd, data) :]


def first_line(line: bytes, own: bytes, name: bytes) -> bytes:
    """The first line of a report, with the user's name."""
    end = b": " + own + b"\n"
    return line[: -len(end)] + b": " + name + b"\n" if line.startswith(b"Signal ") and line.endswith(end) else line


def pass_on(stream: IO[bytes], own: bytes, name: bytes) -> None:
    """Passes the program's text on."""
    data = first_line(stream.readline(CHUNK), own, name)
    while data:
        write_all(1, data)
        data = stream.read(CHUNK)


def end_as(status: int) -> int:
    """The program's status; where a signal ended it, the same one ends this process."""
    if status < 0:
        # (the core of interest is there)
        resource.setrlimit(resource.RLIMIT_CORE, (0, 0))
        if -status not in (signal.SIGKILL, signal.SIGSTOP):
            signal.signal(-status, signal.SIG_DFL)
        os.kill(os.getpid(), -status)
    return status


def run_over(command: List[bytes], fd: int, name: bytes) -> int:
    """Runs the program, which reads the core by this descriptor, and returns its status."""
    own = b"/proc/self/fd/%d" % fd
    import subprocess

    # (the program ends by the same key)
    signal.signal(signal.SIGINT, signal.SIG_DFL)
    with spare_file() as lines:
        process = subprocess.Popen(command, pass_fds=[fd], stdout=subprocess.PIPE, stderr=lines)
        assert process.stdout is not None
        is_written = True
        try:
            pass_on(process.stdout, own, name)
        except OSError:
            is_written = False
        process.stdout.close()
        status = process.wait()
        lines.seek(0)
        said = lines.read().replace(own, name)
    if not is_written and status in (0, CANNOT_WRITE):
        status, said = CANNOT_WRITE, b"pystacks: cannot write\n"
    try:
        write_all(2, said)
    except OSError:
        pass
    return end_as(status)


@lru_cache(maxsize=4)
def help_of(program: str) -> bytes:
    """The help of a program."""
    import subprocess

    try:
        done = subprocess.run([program, "--help"], stdout=subprocess.PIPE, stderr=subprocess.DEVNULL, stdin=subprocess.DEVNULL, check=False)
    except OSError:
        return b""
    return done.stdout


def knows(program: str, flag: str) -> bool:
    """Whether a program has a flag. (The tool's own does; an older one that is named may not.)"""
    return program == SALVAGE or flag.encode("ascii") in help_of(program)


def tells_missed(program: str) -> bool:
    """Whether a program tells what it missed."""
    return knows(program, "--missing")


TOLD = (0, 1)
"""The statuses under which what the program wrote is kept: under 1 it may be what it missed."""


class Answer(NamedTuple):
    """What the program answered."""

    status: int
    out: bytes
    said: bytes
    """Its lines, with the user's name for the core."""


def status_of(waited: int) -> int:
    """How a process ended, by what the system says of it: its status, or less than 0 by a signal."""
    return -os.WTERMSIG(waited) if os.WIFSIGNALED(waited) else os.WEXITSTATUS(waited)


def ran(command: Sequence[bytes], fds: Sequence[int], out: int, lines: int) -> int:
    """Runs a program with its streams in these files, and with some files more, and returns how it ended. By the system's own call: the
    import of the standard library's module for it takes as long as all else of the tool. What the tool inherited itself the program has too."""
    files = [(os.POSIX_SPAWN_DUP2, out, 1), (os.POSIX_SPAWN_DUP2, lines, 2)]
    were = [(fd, os.get_inheritable(fd)) for fd in fds]
    try:
        for fd in fds:
            os.set_inheritable(fd, True)
        process = os.posix_spawn(command[0], list(command), os.environ, file_actions=files, setsigdef=(signal.SIGPIPE, signal.SIGXFSZ))
        return waited_for(process)
    finally:
        for fd, was in were:
            os.set_inheritable(fd, was)


def waited_for(process: int) -> int:
    """How a process ended, once it has. What ends the tool meanwhile ends it too."""
    try:
        return status_of(os.waitpid(process, 0)[1])
    except BaseException:
        os.kill(process, signal.SIGKILL)
        os.waitpid(process, 0)
        raise


def answer_of(command: Sequence[bytes], fds: Sequence[int], own: bytes, name: bytes) -> Answer:
    """Runs the program over a core, of which it has the word `own` and the user another name, and keeps what it writes."""
    with spare_file() as out, spare_file() as lines:
        status = ran(command, fds, out.fileno(), lines.fileno())
        length = out.seek(0, 2)
        if status in TOLD and length > LONGEST_ANSWER:
            line = f"the program wrote {length} bytes, more than {LONGEST_ANSWER}: --plain passes its text on"
            raise Fault(line, NO_ROOM)
        out.seek(0)
        lines.seek(0)
        said = lines.read()
        return Answer(status, out.read() if status in TOLD else b"", said.replace(own, name) if own != name else said)
