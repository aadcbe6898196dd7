# -*- coding: utf-8 -*-
"""The program whose core is broken, or dies in an odd way: for Python 3.8 to 3.13, started by real_broken.py.

The argument says how it dies. It prints one line of JSON that tells what a reader has to find.

- `deep`: a thread aborts below a recursion of 20,000.
- `fault`: a thread reads where nothing is, in a call of C that had let the interpreter's lock go; the main thread waits.
- `several`: it aborts while three more interpreters wait, each in a thread of its own.
- `lives`: it waits, until it is ended from without.
"""

import ctypes
import json
import os
import sys
import threading
import time

DEPTH = 20000


def tell(**told):
    """Prints what there is to find."""
    sys.stdout.write(json.dumps(told) + "\n")
    sys.stdout.flush()


def descend(depth):
    if depth == 0:
        os.abort()
    descend(depth - 1)


def deep():
    """Aborts below the recursion."""
    sys.setrecursionlimit(10 * DEPTH)
    threading.stack_size(512 << 20)
    tell(depth=DEPTH)
    thread = threading.Thread(target=descend, args=(DEPTH,))
    thread.start()
    thread.join()


def reads():
    tell(native=threading.get_native_id())
    ctypes.CDLL(None).strlen(ctypes.c_void_p(64))


def fault():
    """Reads where nothing is, in a thread."""
    threading.Thread(target=reads).start()
    while True:
        time.sleep(0.01)


def several():
    """Aborts while other interpreters wait."""
    try:
        import _interpreters as interpreters
        run = interpreters.run_string
    except ImportError:
        import _xxsubinterpreters as interpreters
        run = interpreters.run_string
    for _ in range(3):
        number = interpreters.create()
        script = "import time\ndef waits():\n    time.sleep(1000)\nwaits()\n"
        threading.Thread(target=run, args=(number, script), daemon=True).start()
    time.sleep(0.7)
    tell(interpreters=4)
    os.abort()


def lives():
    """Waits."""
    tell(native=threading.get_native_id())
    time.sleep(1000)


if __name__ == "__main__":
    {"deep": deep, "fault": fault, "several": several, "lives": lives}[sys.argv[1]]()
