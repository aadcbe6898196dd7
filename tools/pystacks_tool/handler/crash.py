"""What the kernel says of a crash, and what /proc tells of the process while it still stands."""

import os
import re
import time
from dataclasses import dataclass
from typing import Sequence, Tuple

from pystacks_tool.faults import BAD_WORDS, Fault

PATTERN = "%P %I %d %s %t %c"
"""The words that the kernel hands over: numbers alone, so that nothing of the dying process can be a word."""

UNLIMITED = (1 << 64) - 1

LARGEST_STATUS = 1 << 20
"""The most bytes of /proc/PID/status that are read: a process may be in 65,536 groups."""


@dataclass(frozen=True)
class Crash:
    """What the kernel says."""

    process: int
    thread: int
    mode: int
    """1 where the process could be dumped as its user, else another number."""
    signal: int
    seconds: int
    """When, in seconds since 1970."""
    limit: int
    """Its limit on the size of cores, in bytes."""

    @property
    def when(self) -> str:
        """The time, as names have it."""
        return time.strftime("%Y%m%dT%H%M%SZ", time.gmtime(self.seconds))


def crash_of(words: Sequence[str]) -> Crash:
    """The kernel's words."""
    numbers = [int(it) for it in words if re.fullmatch("[0-9]{1,20}", it)]
    if len(words) != 6 or len(numbers) != 6:
        raise Fault("the kernel's words are six numbers", BAD_WORDS, f"core_pattern ends with the words {PATTERN}")
    crash = Crash(*numbers)
    if not 0 < crash.process < 1 << 31 or not 0 < crash.thread < 1 << 31 or crash.seconds >= 1 << 33 or crash.limit > UNLIMITED:
        raise Fault("the kernel's words are no process, thread, mode, signal, time and limit", BAD_WORDS)
    return crash


@dataclass(frozen=True)
class Process:
    """The process, while it stands."""

    folder: int
    """Its folder in /proc, open; nothing is looked for by a number again."""
    executable: str
    user: int
    group: int
    groups: Tuple[int, ...]
    is_of_one_user: bool
    """Whether all its ids of users are one."""


def read_file(folder: int, name: str, most: int) -> bytes:
    """The first bytes of a file in a folder of /proc."""
    with open(os.open(name, os.O_RDONLY | os.O_CLOEXEC, dir_fd=folder), "rb") as file:
        return file.read(most)


def numbers_in(status: bytes, key: bytes) -> Tuple[int, ...]:
    """The numbers in a line of /proc/PID/status. (The kernel escapes newlines in the name, so no line is forged.)"""
    for line in status.split(b"\n"):
        if line.startswith(key + b":\t"):
            return tuple(int(it) for it in line[len(key) + 2 :].split())
    return ()


def opened(path: str, folder: int) -> int:
    """Opens a folder of /proc."""
    return os.open(path, os.O_RDONLY | os.O_DIRECTORY | os.O_CLOEXEC, dir_fd=folder)


def folder_of(crash: Crash) -> int:
    """The process's folder in /proc, opened; the thread's, where the leader is gone and has neither maps nor files."""
    proc = opened("/proc", -1)
    process = opened(str(crash.process), proc)
    os.close(proc)
    status = read_file(process, "status", LARGEST_STATUS)
    if re.search(rb"^State:\t[ZX]", status, re.MULTILINE) is None:
        return process
    thread = opened(f"task/{crash.thread}", process)
    os.close(process)
    return thread


def process_of(crash: Crash) -> Process:
    """What is known of the process."""
    folder = folder_of(crash)
    status = read_file(folder, "status", LARGEST_STATUS)
    users, groups = numbers_in(status, b"Uid"), numbers_in(status, b"Gid")
    if len(users) != 4 or len(groups) != 4:
        raise OSError(0, "it has no ids")
    try:
        # (a link's text: no file is looked up, which a dead server could keep waiting)
        executable = os.readlink("exe", dir_fd=folder)
    except OSError:
        executable = "?"
    return Process(folder, executable, users[3], groups[3], numbers_in(status, b"Groups"), len(set(users)) == 1)
