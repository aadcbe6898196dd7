"""What is taken from the worker before it looks at a byte of a core."""

import os
import resource
from typing import Iterable, Tuple

from pystacks_tool.handler.settings import Settings
from pystacks_tool.handler.system import (
    CLEAR_AMBIENT, NEW_FILES, NEW_IPC, NEW_NETWORK, NO_NEW_PRIVILEGES, SET_DUMPABLE, apart, drop_bounding, drop_capabilities,
    mount_own_processes, set_for_process)

PROCESSES = 256
"""How many processes the worker's user may have, those of other workers among them."""

FILES = 256
"""How many files the worker may have open beside those that it is handed."""

CORE = 1
"""The limit on cores that the kernel gives its handler, by which it knows its like and hands over no core of it."""

MEGABYTE = 1_000_000


def limit(kind: int, value: int) -> None:
    """Sets a limit that can't be raised again."""
    _, hard = resource.getrlimit(kind)
    value = value if hard == resource.RLIM_INFINITY else min(value, hard)
    resource.setrlimit(kind, (value, value))


def close_others(kept: Iterable[int]) -> None:
    """Closes all descriptors but these, and those of the standard streams."""
    last = 2
    for fd in sorted(set(kept)):
        os.closerange(last + 1, fd)
        last = max(last, fd)
    os.closerange(last + 1, max(resource.getrlimit(resource.RLIMIT_NOFILE)[0], last + 1))


def set_streams(said: int) -> None:
    """Gives the worker streams of its own: what it says goes to a file."""
    null = os.open("/dev/null", os.O_RDWR)
    for fd, number in ((null, 0), (null, 1), (said, 2)):
        os.dup2(fd, number)


def set_limits(settings: Settings, files: int) -> None:
    """Sets what the worker and what it starts may use."""
    for kind, value in (
        (resource.RLIMIT_CORE, CORE), (resource.RLIMIT_AS, settings.memory * MEGABYTE), (resource.RLIMIT_CPU, settings.seconds),
        (resource.RLIMIT_FSIZE, settings.space * MEGABYTE), (resource.RLIMIT_NOFILE, files + FILES), (resource.RLIMIT_NPROC, PROCESSES),
    ):
        limit(kind, value)


def be_the_first(folder: str = "/proc/self") -> None:
    """Lets the kernel end this process first where memory is short, and run it last."""
    try:
        with open(f"{folder}/oom_score_adj", "w", encoding="ascii") as file:
            file.write("1000")
    except OSError:
        pass
    os.nice(10)


def drop_rights(user: int, group: int) -> None:
    """Becomes a user without rights, for good."""
    set_for_process(CLEAR_AMBIENT[0], CLEAR_AMBIENT[1])
    drop_bounding()
    os.setgroups([])
    os.setresgid(group, group, group)
    os.setresuid(user, user, user)
    drop_capabilities()
    set_for_process(NO_NEW_PRIVILEGES, 1)
    set_for_process(SET_DUMPABLE, 0)


def confine(settings: Settings, ids: Tuple[int, int], kept: Tuple[int, ...], said: int) -> None:
    """Takes from this process all that the worker must not have. What can't be taken is an OSError."""
    os.setsid()
    if settings.namespaces:
        apart(NEW_FILES | NEW_IPC | NEW_NETWORK)
        mount_own_processes()
    be_the_first()
    set_streams(said)
    close_others(kept)
    set_limits(settings, len(kept))
    os.umask(0o077)
    os.chdir("/")
    os.environ.clear()
    os.environ.update({"PATH": "/usr/bin:/bin", "TMPDIR": settings.scratch})
    drop_rights(*ids)
