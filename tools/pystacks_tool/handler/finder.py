"""The files that the dying process had mapped, opened by a child that has a deadline: a file of a dead server must not hold the
dumps of the host.

The child opens each without following a link out of the process's own root, with the process's own rights, and hands it over by a
socket. It never has the pipe of the core.
"""

import array
import os
import select
import signal
import socket
import stat
import time
from dataclasses import dataclass
from typing import Dict, Iterator, List, NoReturn, Tuple

from pystacks_tool.handler.crash import Process
from pystacks_tool.handler.system import IN_ROOT, NO_MAGIC_LINKS, Lacks, look_as, open_by

MOST = 1024
"""How many files are opened at most."""

LONGEST = 1 << 26
"""The most bytes of the maps that are read: 65,530 maps of names of a kilobyte."""

LONGEST_NAME = 4096

Found = Dict[bytes, int]
"""Files by the names that the core has for them, each opened for reading."""


@dataclass(frozen=True)
class Mapped:
    """A mapping of a file."""

    place: bytes
    """Where in memory, as /proc/PID/map_files has it."""
    device: Tuple[int, int]
    inode: int
    name: bytes
    """As the process itself sees it."""


def mapped_in(maps: bytes, root: bytes) -> Iterator[Mapped]:
    """The files of /proc/PID/maps, each once. Where the process's root is a folder of this system their names begin with it; the core's
    don't."""
    seen, front = set(), root.rstrip(b"/") + b"/"
    for line in maps.split(b"\n"):
        parts = line.split(None, 5)
        if len(parts) < 6 or parts[4] == b"0" or not parts[5].startswith(b"/") or parts[5] in seen:
            continue
        seen.add(parts[5])
        major, _, minor = parts[3].partition(b":")
        # (the kernel writes a newline in a name so, and nothing else otherwise)
        name = parts[5].replace(b"\\012", b"\n")
        name = name[len(front) - 1 :] if name.startswith(front) else name
        if len(name) <= LONGEST_NAME:
            yield Mapped(parts[0], (int(major, 16), int(minor, 16)), int(parts[4]), name)


def is_the_file(told: os.stat_result, it: Mapped) -> bool:
    """Whether a file is the one of a mapping."""
    return (os.major(told.st_dev), os.minor(told.st_dev)) == it.device and told.st_ino == it.inode


def reopened(fd: int) -> int:
    """Opens for reading what was looked up alone. It is a regular file, and so this doesn't wait for a writer."""
    return os.open(f"/proc/self/fd/{fd}", os.O_RDONLY | os.O_NONBLOCK | os.O_NOCTTY | os.O_CLOEXEC)


def opened_in_memory(process: Process, it: Mapped) -> int:
    """The very file that is mapped, where the kernel lets it be opened."""
    name = b"/".join([b"map_files", shortened(it.place)])
    return os.open(name, os.O_PATH | os.O_CLOEXEC, dir_fd=process.folder)


def shortened(place: bytes) -> bytes:
    """A place as map_files has it: without zeros in front."""
    first, _, last = place.partition(b"-")
    return b"%x-%x" % (int(first, 16), int(last, 16))


def opened_by_name(root: int, it: Mapped) -> int:
    """The file of that name below the process's root, whatever its links say; it has to be the one that is mapped."""
    fd = open_by(root, it.name, os.O_PATH, IN_ROOT | NO_MAGIC_LINKS)
    if is_the_file(os.fstat(fd), it):
        return fd
    os.close(fd)
    raise FileNotFoundError


def opened_file(process: Process, root: int, it: Mapped) -> int:
    """A mapped file, for reading. What is no regular file is never opened."""
    try:
        looked_up = opened_in_memory(process, it)
    except OSError:
        looked_up = opened_by_name(root, it)
    try:
        if not stat.S_ISREG(os.fstat(looked_up).st_mode):
            raise FileNotFoundError
        return reopened(looked_up)
    finally:
        os.close(looked_up)


def hand_over(process: Process, channel: socket.socket) -> None:
    """Hands over the mapped files that the process itself could read."""
    with open(os.open("maps", os.O_RDONLY | os.O_CLOEXEC, dir_fd=process.folder), "rb") as file:
        maps = file.read(LONGEST)
    place = os.fsencode(os.readlink("root", dir_fd=process.folder))
    root = os.open("root", os.O_PATH | os.O_DIRECTORY | os.O_CLOEXEC, dir_fd=process.folder)
    os.setgroups(process.groups)
    look_as(process.user, process.group)
    left = MOST
    for it in mapped_in(maps, place):
        try:
            fd = opened_file(process, root, it)
        except (OSError, ValueError):
            continue
        channel.sendmsg([it.name], [(socket.SOL_SOCKET, socket.SCM_RIGHTS, array.array("i", [fd]))])
        os.close(fd)
        left -= 1
        if not left:
            return


def child(process: Process, channel: socket.socket) -> NoReturn:
    """What the child does."""
    status = 1
    try:
        signal.signal(signal.SIGTERM, signal.SIG_DFL)
        # (it must not keep the process waiting)
        null = os.open("/dev/null", os.O_RDWR)
        for number in (0, 1, 2):
            os.dup2(null, number)
        hand_over(process, channel)
        status = 0
    except Lacks:
        status = 2
    finally:
        os._exit(status)


def received(channel: socket.socket) -> List[Tuple[bytes, int]]:
    """The next file; none where there are no more."""
    room = socket.CMSG_SPACE(array.array("i").itemsize)
    name, told, _, _ = channel.recvmsg(LONGEST_NAME + 1, room)
    fds = array.array("i")
    for level, kind, data in told:
        if level == socket.SOL_SOCKET and kind == socket.SCM_RIGHTS:
            fds.frombytes(data[: len(data) - len(data) % fds.itemsize])
    return [(name, fd) for fd in fds]


def collected(channel: socket.socket, deadline: float) -> Tuple[Found, bool]:
    """The files that come before the deadline, and whether that passed."""
    found: Found = {}
    while len(found) < MOST:
        left = deadline - time.monotonic()
        if left <= 0 or not select.select([channel], [], [], left)[0]:
            return found, True
        try:
            its = received(channel)
        except OSError:
            # (no more descriptors than a process may have)
            return found, False
        if not its:
            return found, False
        for name, fd in its:
            found[name] = fd
    return found, False


def files_of(process: Process, seconds: float) -> Tuple[Found, str]:
    """The mapped files, and what there is to say."""
    own, its = socket.socketpair(socket.AF_UNIX, socket.SOCK_SEQPACKET)
    deadline = time.monotonic() + seconds
    pid = os.fork()
    if pid == 0:
        own.close()
        child(process, its)
    its.close()
    with own:
        found, is_late = collected(own, deadline)
    if is_late:
        # (one that waits for a dead server ends when that lets it, and isn't waited for)
        os.kill(pid, signal.SIGKILL)
        os.waitpid(pid, os.WNOHANG)
        return found, f"not all mapped files were opened within {seconds:g} s"
    _, status = os.waitpid(pid, 0)
    if os.WIFEXITED(status) and os.WEXITSTATUS(status) == 2:
        return found, "this kernel has no openat2, and without it no file is opened by its name"
    return found, "" if status == 0 else "the mapped files could not be looked for"
