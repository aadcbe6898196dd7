"""The folder of crashes: root's, 0700, opened without following links. A crash is a folder in it, which has its name once it is whole."""

import fcntl
import json
import os
import re
import stat
import time
from dataclasses import dataclass
from typing import Dict, List, Optional

from pystacks_tool.faults import BAD_WORDS, Fault, shown
from pystacks_tool.handler.storms import kept
from pystacks_tool.handler.system import open_folder

ID = re.compile(r"[0-9]{8}T[0-9]{6}Z-[0-9]{1,10}-[0-9a-f]{4}")
"""The name of a crash: when, which process, and some digits."""

NEW = ".new-"
"""How the name of one begins that isn't whole."""

CRASH, MORE, CORE = "crash", "more", "core"
"""What the kernel and the parent say of it; how many more there were, that weren't looked at; and the whole core."""

LEFT = 86_400
"""After how many seconds what nobody keeps is removed."""

FOLDER = os.O_RDONLY | os.O_DIRECTORY | os.O_NOFOLLOW | os.O_CLOEXEC
NEW_FILE = os.O_RDWR | os.O_CREAT | os.O_EXCL | os.O_NOFOLLOW | os.O_CLOEXEC

Record = Dict[str, object]


def opened(path: str, is_for_all: bool = False) -> int:
    """The folder. It has to be root's and for nobody else, or where all may read it for nobody else to write."""
    try:
        fd = open_folder(path)
    except OSError as error:
        raise Fault(f"cannot open the folder {shown(os.fsencode(path))}: {error.strerror}", BAD_WORDS, "it is a folder, and no part of its path a link") from None
    told = os.fstat(fd)
    mode = stat.S_IMODE(told.st_mode)
    if told.st_uid != 0 or (mode & 0o022 if is_for_all else mode != 0o700):
        os.close(fd)
        raise Fault(f"the folder {shown(os.fsencode(path))} isn't root's alone", BAD_WORDS, "chown root FOLDER; chmod 700 FOLDER")
    return fd


def free_in(folder: int) -> int:
    """How many bytes the disk has free."""
    told = os.fstatvfs(folder)
    return told.f_bavail * told.f_frsize


def unnamed(folder: int) -> int:
    """A file without a name."""
    name = f"{NEW}core-{os.urandom(8).hex()}"
    fd = os.open(name, NEW_FILE, 0o600, dir_fd=folder)
    os.unlink(name, dir_fd=folder)
    return fd


@dataclass(frozen=True)
class Entry:
    """A crash that is written."""

    folder: int
    name: str
    fd: int
    """Its own folder."""

    def file(self, name: str) -> int:
        """A new file of it."""
        return os.open(name, NEW_FILE, 0o600, dir_fd=self.fd)

    def write(self, name: str, data: bytes) -> None:
        """Writes a file of it, under its name only once it is whole."""
        fd = os.open(f"{name}.new", os.O_WRONLY | os.O_CREAT | os.O_TRUNC | os.O_NOFOLLOW | os.O_CLOEXEC, 0o600, dir_fd=self.fd)
        with open(fd, "wb") as file:
            file.write(data)
        os.rename(f"{name}.new", name, src_dir_fd=self.fd, dst_dir_fd=self.fd)

    def record(self, record: Record) -> None:
        """Writes what the kernel and the parent say."""
        self.write(CRASH, json.dumps(record, sort_keys=True).encode("ascii") + b"\n")

    def finish(self) -> None:
        """Gives it its name."""
        os.rename(NEW + self.name, self.name, src_dir_fd=self.folder, dst_dir_fd=self.folder)

    def remove(self) -> None:
        """Removes what there is of it."""
        remove(self.folder, NEW + self.name)


def begun(folder: int, name: str) -> Entry:
    """A new crash. As long as this process keeps its folder open, nobody removes it."""
    os.mkdir(NEW + name, 0o700, dir_fd=folder)
    fd = os.open(NEW + name, FOLDER, dir_fd=folder)
    fcntl.flock(fd, fcntl.LOCK_EX)
    return Entry(folder, name, fd)


def count_more(folder: int, name: str) -> int:
    """Counts one more crash at one that is there, or that is being looked at. Returns how many it has."""
    for its in (name, NEW + name):
        try:
            entry = os.open(its, FOLDER, dir_fd=folder)
        except OSError:
            continue
        try:
            with kept(folder):
                fd = os.open(MORE, os.O_RDWR | os.O_CREAT | os.O_NOFOLLOW | os.O_CLOEXEC, 0o600, dir_fd=entry)
                with open(fd, "r+b") as file:
                    text = file.read(20)
                    number = int(text) + 1 if text.isdigit() else 1
                    file.seek(0)
                    file.write(b"%d" % number)
            return number
        finally:
            os.close(entry)
    return 0


# ---- what is removed


def remove(folder: int, name: str) -> None:
    """Removes a crash: the files of its folder, which has no others."""
    try:
        entry = os.open(name, FOLDER, dir_fd=folder)
    except OSError:
        return
    try:
        for its in os.listdir(entry):
            os.unlink(its, dir_fd=entry)
    finally:
        os.close(entry)
    os.rmdir(name, dir_fd=folder)


def is_left(folder: int, name: str) -> bool:
    """Whether a crash that isn't whole is kept by nobody."""
    try:
        fd = os.open(name, FOLDER, dir_fd=folder)
    except OSError:
        return False
    try:
        fcntl.flock(fd, fcntl.LOCK_EX | fcntl.LOCK_NB)
        return time.time() - os.fstat(fd).st_mtime > LEFT
    except BlockingIOError:
        return False
    finally:
        os.close(fd)


def names_in(folder: int) -> List[str]:
    """The names of crashes, the oldest first."""
    return sorted(it for it in os.listdir(folder) if ID.fullmatch(it))


def size_of(folder: int, name: str, only: Optional[str] = None) -> int:
    """How much of the disk a crash takes, or one of its files."""
    try:
        entry = os.open(name, FOLDER, dir_fd=folder)
    except OSError:
        return 0
    try:
        its = os.listdir(entry) if only is None else [only]
        return sum(os.stat(it, dir_fd=entry, follow_symlinks=False).st_blocks * 512 for it in its)
    except OSError:
        return 0
    finally:
        os.close(entry)


def time_in(name: str) -> float:
    """When a crash was, by its name."""
    try:
        return float(time.mktime(time.strptime(name[:16], "%Y%m%dT%H%M%SZ")) - time.timezone)
    except (ValueError, OverflowError):
        return 0.0


def tidied(folder: int, space: int, days: int) -> List[str]:
    """Removes what is too old, and the oldest of what takes more than that: whole cores first, then crashes. Returns the names of the
    crashes that are gone."""
    gone: List[str] = []
    with kept(folder):
        for name in os.listdir(folder):
            if name.startswith(NEW) and is_left(folder, name):
                remove(folder, name)
        oldest = time.time() - days * 86_400
        gone += [it for it in names_in(folder) if time_in(it) < oldest]
        for name in gone:
            remove(folder, name)
        names = names_in(folder)
        total = sum(size_of(folder, it) for it in names)
        for name in names[:-1]:
            if total > space:
                total -= without_core(folder, name)
        for name in names[:-1]:
            if total > space:
                total -= size_of(folder, name)
                remove(folder, name)
                gone.append(name)
    return gone


def without_core(folder: int, name: str) -> int:
    """Removes the whole core of a crash. Returns how much it took."""
    size = size_of(folder, name, CORE)
    if size:
        entry = os.open(name, FOLDER, dir_fd=folder)
        os.unlink(CORE, dir_fd=entry)
        os.close(entry)
    return size
