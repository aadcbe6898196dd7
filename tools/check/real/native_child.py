"""Dies in one way, with threads that stand in native code: native_child.py WAY LIBRARY.

The library is native_child.c, as real_native.py has it built, and behind its path stands that of plain_child.c. Each thread says by an event that it is about to stand
where it is to; the last thing that each does is a call that doesn't return, so that nothing is left to timing but the
few instructions on the way into it.
"""

import ctypes
import json
import os
import re
import select
import signal
import socket
import sys
import threading
import time

way, path = sys.argv[1:3]
library = ctypes.CDLL(path)
plain = ctypes.CDLL(sys.argv[3])
CALLBACK = ctypes.CFUNCTYPE(ctypes.c_int, ctypes.c_int)
for name in ("crash", "call_null", "call_wild", "in_handler", "aborted", "overflow", "waits", "through", "in_plain_handler"):
    getattr(library, name).argtypes = [ctypes.c_int]
library.call_back.argtypes = [CALLBACK, ctypes.c_int]
ends = socket.socketpair()
lock = threading.Lock()
lock.acquire()


def stand(*_):
    """Waits forever in C."""
    return library.waits(1)


def polls():
    poller = select.poll()
    poller.register(ends[0], select.POLLIN)
    poller.poll()


def encodes():
    json.dumps({"key": object()}, default=stand)


WAITS = {
    "poll": polls,
    "select": lambda: select.select([ends[0]], [], []),
    "read": lambda: os.read(os.pipe()[0], 1),
    "lock": lock.acquire,
    "sleep": lambda: time.sleep(600),
    "ctypes": stand,
    "nested": lambda: library.call_back(CALLBACK(stand), 1),
    "re": lambda: re.sub("x", stand, "x"),
    "json": encodes,
    "sorted": lambda: sorted([2, 1], key=stand),
}


def end(which):
    """Dies."""
    if which == "callback":
        return library.call_back(CALLBACK(lambda number: library.crash(number)), 64)
    if which == "plain":
        return plain.plain(64)
    return getattr(library, which)(64)


def begin(run, begun):
    begun.set()
    run()


# (as cores of the gate have it: all private mappings)
with open("/proc/self/coredump_filter", "w") as file:
    file.write("0x3f")
signal.signal(signal.SIGUSR1, signal.SIG_DFL)
for run in WAITS.values():
    begun = threading.Event()
    thread = threading.Thread(target=begin, args=(run, begun))
    thread.daemon = True
    thread.start()
    begun.wait()
time.sleep(0.3)
if way == "overflow":
    threading.stack_size(1 << 18)
    thread = threading.Thread(target=end, args=(way,))
    thread.start()
    thread.join()
end(way)
