"""A process that the kernel's handler is run beside: it leaves a core by a child of its own, says so, and stands still.

    handler_child.py [MB]       # with so many MB of memory that nobody has written into
"""

import mmap
import os
import signal
import sys


def stand_still():
    """Waits until this process is ended."""
    while True:
        signal.pause()


def fall(megabytes):
    """Leaves a core of what this process has mapped, and goes on. (Its child has the same memory and files.)"""
    room = mmap.mmap(-1, megabytes * 1_000_000, flags=mmap.MAP_PRIVATE | mmap.MAP_ANONYMOUS)
    pid = os.fork()
    if pid == 0:
        os.abort()
    os.waitpid(pid, 0)
    print(os.getpid(), pid, flush=True)
    stand_still()
    return room


if __name__ == "__main__":
    fall(int(sys.argv[1]) if len(sys.argv) > 1 else 1)
