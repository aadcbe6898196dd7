"""Storms: how many crashes of one executable, user and signal there were within an hour, counted before a byte of a core is read."""

import fcntl
import hashlib
import json
import os
import time
from contextlib import contextmanager
from dataclasses import dataclass
from typing import Dict, Iterator, List

NAME = "storms"
"""The file in the folder."""

HOUR = 3600

MOST = 4096
"""How many kinds of crashes are counted apart; more count as one."""

WAIT = 5.0
"""How many seconds another handler may keep the file."""

REST = "all"

Counts = Dict[str, List[object]]
"""By kind: when its hour began, how many crashes it had, and the id of the last one that was looked at."""


@dataclass(frozen=True)
class Counted:
    """What comes of counting a crash."""

    is_over: bool
    last: str = ""
    """The id of the last crash of its kind that was looked at."""


def kind_of(executable: str, user: int, signal: int) -> str:
    """What crashes are counted by."""
    return hashlib.sha256(repr((executable, user, signal)).encode("utf-8", "surrogateescape")).hexdigest()[:32]


@contextmanager
def kept(folder: int) -> Iterator[int]:
    """The file, kept from other handlers."""
    fd = os.open(NAME, os.O_RDWR | os.O_CREAT | os.O_NOFOLLOW | os.O_CLOEXEC, 0o600, dir_fd=folder)
    try:
        deadline = time.monotonic() + WAIT
        while True:
            try:
                fcntl.flock(fd, fcntl.LOCK_EX | fcntl.LOCK_NB)
                break
            except BlockingIOError:
                if time.monotonic() > deadline:
                    raise
                time.sleep(0.01)
        yield fd
    finally:
        os.close(fd)


def counts_in(fd: int, now: float) -> Counts:
    """The counts of the last hour. What can't be read counts nothing."""
    try:
        tree = json.loads(os.pread(fd, 1 << 20, 0))
        return {str(key): [float(it[0]), int(it[1]), str(it[2])] for key, it in tree.items() if now - HOUR < float(it[0]) <= now}
    except (ValueError, TypeError, AttributeError, IndexError, RecursionError):
        return {}


def write_counts(fd: int, counts: Counts) -> None:
    """Writes the counts."""
    data = json.dumps(counts).encode("ascii")
    os.pwrite(fd, data, 0)
    os.ftruncate(fd, len(data))


def number_in(it: List[object]) -> int:
    """How many crashes a kind had."""
    return int(str(it[1]))


def counted(folder: int, kind: str, name: str, rate: int, all_rate: int) -> Counted:
    """Counts a crash of this kind, which is to have this id. Above the rate, by kind or in all, it isn't looked at."""
    with kept(folder) as fd:
        now = time.time()
        counts = counts_in(fd, now)
        own = kind if kind in counts or len(counts) < MOST else REST
        it = counts.setdefault(own, [now, 0, ""])
        all_of_them = counts.setdefault(REST, [now, 0, ""])
        is_over = number_in(it) >= rate or number_in(all_of_them) >= all_rate
        last = str(it[2])
        if not is_over:
            it[1:] = [number_in(it) + 1, name]
            if it is not all_of_them:
                all_of_them[1] = number_in(all_of_them) + 1
        write_counts(fd, counts)
        return Counted(is_over, last)
