"""Takes a core from a pipe into a file without a name: its zero pages become holes, and no byte of it is looked at otherwise."""

import errno
import fcntl
import os
import select
from dataclasses import dataclass

PAGE = 4096

BLOCK = 1 << 18
"""How much is looked at at a time."""

PIPE = 1 << 20
"""How much the pipe may hold: as much as one that is made by a process without rights."""

NOTHING = bytes(BLOCK)
NO_PAGE = bytes(PAGE)

STALL = 60
"""After how many seconds without a byte the kernel isn't waited for any longer."""

SET_PIPE_SIZE = 1031
"""F_SETPIPE_SZ (linux/fcntl.h)."""

WHOLE = ""


@dataclass(frozen=True)
class Taken:
    """What was taken of a core."""

    length: int = 0
    stored: int = 0
    """How many bytes of it aren't holes."""
    end: str = WHOLE
    """Why it isn't whole, if it isn't."""


def filled(source: int, block: bytearray) -> int:
    """Fills a block as far as there are bytes. Returns how many it has."""
    have, view = 0, memoryview(block)
    while have < len(block):
        try:
            count = os.readv(source, [view[have:]])
        except BlockingIOError:
            if not select.select([source], [], [], STALL)[0]:
                raise TimeoutError from None
            continue
        if not count:
            break
        have += count
    return have


def write_pages(target: int, block: bytes, at: int, room: int) -> int:
    """Writes the pages of a block that are not all zero, each run of them at once. Returns how many bytes they are; where there is room for
    fewer it is an OSError."""
    stored, start = 0, 0
    while start < len(block):
        end = start
        while end < len(block) and block[end : end + PAGE] != NO_PAGE[: len(block) - end]:
            end += PAGE
        run = block[start:end]
        if len(run) > room - stored:
            raise OSError(errno.EDQUOT, os.strerror(errno.EDQUOT))
        stored += len(run)
        while run:
            count = os.pwrite(target, run, at + start)
            start, run = start + count, run[count:]
        start = end + PAGE
    return stored


def taken(source: int, target: int, room: int) -> Taken:
    """Takes a core, of which so many bytes may be stored."""
    os.set_blocking(source, False)
    try:
        fcntl.fcntl(source, SET_PIPE_SIZE, PIPE)
    except OSError:
        pass
    block = bytearray(BLOCK)
    at = stored = 0
    end = WHOLE
    try:
        while True:
            have = filled(source, block)
            if block != NOTHING:
                stored += write_pages(target, bytes(memoryview(block)[:have]), at, room - stored)
            at += have
            if have < BLOCK:
                break
    except TimeoutError:
        end = f"no byte came within {STALL} s"
    except OSError as error:
        end = "it has more than there is room for" if error.errno in (errno.EDQUOT, errno.ENOSPC, errno.EFBIG) else str(error.strerror)
    os.ftruncate(target, at)
    return Taken(at, stored, end)
