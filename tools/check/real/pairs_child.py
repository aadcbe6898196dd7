"""Dies in C below Python frames that C called: pairs_child.py WAY LIBRARY.

The library is native_child.c, as real_pairs.py has it built. What calls what is written down in real_pairs.py.
"""

import ctypes
import sys
import threading

interpreters, made = None, 0
way, path = sys.argv[1:3]
library = ctypes.CDLL(path)
CALLBACK = ctypes.CFUNCTYPE(ctypes.c_int, ctypes.c_int)
library.crash.argtypes = [ctypes.c_int]
library.call_back.argtypes = [CALLBACK, ctypes.c_int]

DEPTH = 20


class Dies:
    """Dies as it goes."""

    def __del__(self):
        library.crash(64)


def recurses(depth):
    """Calls itself through C, and then dies."""
    if depth == DEPTH:
        return library.crash(64)
    return library.call_back(CALLBACK(lambda _: recurses(depth + 1)), depth)


def overflows(depth):
    """Calls itself through C until no stack is left."""
    return library.call_back(CALLBACK(overflows), depth)


def leaves(_):
    """Returns to C, by which an object goes that dies then."""
    kept = Dies()
    return 1 if kept else 0


def within_sort(_):
    """Dies in a key of a sort."""
    return sorted([1], key=lambda _: library.crash(64))[0]


def enters(number):
    """Runs code of an interpreter that another thread made, which dies."""
    interpreters.run_string(number, "def inner():\n    import os\n    os.abort()\ninner()")


def parks():
    """Goes back to its parent from below C, and stays there."""
    main = greenlet.getcurrent().parent
    library.call_back(CALLBACK(lambda _: main.switch() or 0), 64)


def runs():
    """Dies below C, in a greenlet of its own."""
    library.call_back(CALLBACK(lambda _: library.crash(64)), 64)


def switches():
    """Starts a greenlet that parks, and one that dies."""
    for function in (parks, runs):
        greenlet.greenlet(function).switch()


def ends():
    """Dies."""
    if way == "recursion":
        recurses(0)
    elif way == "overflow":
        overflows(0)
    elif way == "enters":
        enters(made)
    elif way == "greenlets":
        switches()
    elif way == "leaves":
        library.call_back(CALLBACK(leaves), 64)
    else:
        library.call_back(CALLBACK(within_sort), 64)


# (as cores of the gate have it: all private mappings)
with open("/proc/self/coredump_filter", "w") as file:
    file.write("0x3f")
sys.setrecursionlimit(100000)
if way == "greenlets":
    import greenlet
if way == "enters":
    if sys.version_info < (3, 13):
        import _xxsubinterpreters as interpreters
    else:
        import _interpreters as interpreters
    made = interpreters.create("legacy") if sys.version_info >= (3, 13) else interpreters.create()
threading.stack_size(1 << 18)
thread = threading.Thread(target=ends)
thread.start()
thread.join()
