"""Dies in a way that its argument names, of a process with four threads, and tells beforehand what its core is to tell.

It prints one JSON object: its own id and user, its threads (the system's id and Python's), and what is told of the signal.
"""

import ctypes
import json
import mmap
import os
import signal
import sys
import tempfile
import threading
import time

LIBC = ctypes.CDLL(None, use_errno=True)
LIBC.mmap.restype = ctypes.c_void_p
LIBC.mmap.argtypes = [ctypes.c_void_p, ctypes.c_size_t, ctypes.c_int, ctypes.c_int, ctypes.c_int, ctypes.c_long]
PAGE = mmap.PAGESIZE
PRIVATE = 0x22
"""MAP_PRIVATE and MAP_ANONYMOUS."""


def system_id():
    """The system's id of the thread that asks."""
    return LIBC.syscall(ctypes.c_long(186 if os.uname().machine == "x86_64" else 178))


def tell(**signal_told):
    """Prints what the core is to tell. The main thread is the one that dies."""
    told = {"pid": os.getpid(), "uid": os.getuid(), "threads": sorted(THREADS), "dies": system_id(), "signal": signal_told}
    print(json.dumps(told), flush=True)


def store(address):
    """Writes a byte at an address."""
    LIBC.memset(ctypes.c_void_p(address), 1, ctypes.c_size_t(1))


def code_page(code):
    """The address of a page that begins with this code, and may be run."""
    at = LIBC.mmap(None, PAGE, 7, PRIVATE, -1, 0)
    ctypes.memmove(at, code, len(code))
    return at


def die_null():
    tell(signal=11, code=1, kind="fault", address=0x10, meaning="address not mapped")
    store(0x10)


def die_readonly():
    at = LIBC.mmap(None, PAGE, 1, PRIVATE, -1, 0)
    tell(signal=11, code=2, kind="fault", address=at + 8, meaning="no permission")
    store(at + 8)


def die_noncanonical():
    tell(signal=11, code=128, kind="no address")
    store(0x4141414141414141)


def die_bus():
    with tempfile.TemporaryFile() as file:
        file.write(b"x")
        file.flush()
        at = LIBC.mmap(None, 2 * PAGE, 3, 1, file.fileno(), 0)
        tell(signal=7, code=2, kind="fault", address=at + PAGE + 4, meaning="no such physical address")
        store(at + PAGE + 4)


def die_divided():
    tell(signal=8, code=1, kind="fault", meaning="integer division by zero")
    LIBC.div(1, 0)


def die_illegal():
    at = code_page(b"\x0f\x0b")
    tell(signal=4, code=2, kind="fault", address=at, meaning="illegal operand")
    ctypes.CFUNCTYPE(None)(at)()


def die_trapped():
    at = code_page(b"\xcc")
    tell(signal=5, code=128, kind="system")
    ctypes.CFUNCTYPE(None)(at)()


def die_aborted():
    tell(signal=6, code=-6, kind="itself", pid=os.getpid(), uid=os.getuid())
    os.abort()


def die_killed():
    parent, (told, telling) = os.getpid(), os.pipe()
    child = os.fork()
    if child == 0:
        os.read(told, 1)
        time.sleep(0.1)
        os.kill(parent, signal.SIGSEGV)
        os._exit(0)
    tell(signal=11, code=0, kind="process", pid=child, uid=os.getuid())
    os.write(telling, b"x")
    time.sleep(20)


def die_queued():
    tell(signal=6, code=-1, kind="itself", pid=os.getpid(), uid=os.getuid())
    LIBC.sigqueue(os.getpid(), signal.SIGABRT, ctypes.c_void_p(7))


THREADS = []
HELD = threading.Event()


def wait(ready):
    """A thread that waits."""
    THREADS.append((system_id(), threading.current_thread().ident))
    ready.release()
    HELD.wait(100)


def main():
    """Starts the threads, and dies."""
    ready = threading.Semaphore(0)
    THREADS.append((system_id(), threading.current_thread().ident))
    for _ in range(3):
        threading.Thread(target=wait, args=(ready,), daemon=True).start()
        ready.acquire()
    time.sleep(0.1)
    globals()["die_" + sys.argv[1]]()


main()
