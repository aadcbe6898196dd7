# -*- coding: utf-8 -*-
"""The program whose core is walked: for Python 2.7 and 3.6 to 3.13, started by child_cores.py.

Three threads stand still: the main one, one below a recursion of 50, and one in a generator. Their code has file
names of one-byte, two-byte and four-byte characters, and goes through C (`map`, `max`, `next`) on its way. The main
thread stands in an import, whose code is a part of the interpreter. It prints one line of JSON that tells all stacks,
and aborts from the very function that has read them.

The first argument is where the interpreter's record has the pointer to that of its lock, or -1 where it has none. The
second says who aborts:

- `main`: the main thread.
- `other`: a fourth thread, which imports, while the main one waits in a lock.
- `many`: the same, and 14 more stand still: ten in a lock alone, one in the body of a class, one in a loop over a
  generator, one in a coroutine, and one in a function of many locals. Some have a file name whose characters stand
  apart from their object.
- `free`: the main thread, which has let the interpreter's lock go.

The third is what the core is to hold, as the system's coredump_filter has it.
"""

import ctypes
import dis
import gc
import json
import os
import sys
import threading
from collections import OrderedDict

try:
    from importlib.machinery import ModuleSpec
except ImportError:
    # (Python 2 has none, and asks for none)
    ModuleSpec = None

IS_OLD = sys.version_info < (3, 0)
"""Whether texts are bytes, and names are ASCII."""


def plain(text):
    """A source text, in ASCII where names have to be."""
    return text.replace("ü", "ue").replace("ö", "oe") if IS_OLD else text


ONE_BYTE = """
def descend(depth, bottom):
    if depth == 1:
        return bottom()
    if depth % 10 == 0:
        return list(map(lambda it: descend(it, bottom), [depth - 1]))
    return descend(depth - 1, bottom)
"""

TWO_BYTES = plain("""
class Wait:
    def __init__(self, ready, gate):
        self.ready, self.gate = ready, gate

    def wait_für_immer(self):
        self.ready.release()
        self.gate.acquire()
""")

WAIT = plain("wait_für_immer")

FOUR_BYTES = """
def generate(bottom):
    yield bottom()

def drain(bottom):
    return max([generate(bottom)], key=next)
"""

CLASS_BODY = plain("""
def build(bottom):
    class Körper:
        value = 1
        other = bottom()
    return Körper
""")

LOOP = """
def numbers(bottom):
    yield 1
    yield bottom()

def total(bottom):
    found = 0
    for number in numbers(bottom):
        found += number
    return found
"""

COROUTINE = """
import asyncio

async def inner(bottom):
    return bottom()

async def outer(bottom):
    return await inner(bottom)

def run(bottom):
    return asyncio.new_event_loop().run_until_complete(outer(bottom))
"""


HOLD = """
def hold(bottom, number=-12345678901, text="größe 'x'\\n"):
    yes, no, nothing = True, False, None
    ratio = 1.5
    pair = (1, "a")
    row = [1, [2, 3]]
    table = {"k": 1, 2: None}
    big = -2 ** 64
    long = "ü" * 200
    return bottom()
"""


class Apart(str):
    """A text whose characters stand apart from its object, as those of each class derived from `str` do."""


def module(source, name):
    """The names of a module whose code has this file name."""
    names = {"__name__": str(name)}
    exec(compile(source, name, "exec"), names)
    return names


def address_of(name):
    """The address of one of the interpreter's symbols, or None where it isn't exported."""
    try:
        return ctypes.addressof(ctypes.c_char.in_dll(ctypes.pythonapi, name))
    except ValueError:
        return None


def interpreter():
    """The address of the interpreter's record."""
    names = ("PyInterpreterState_Get", "_PyInterpreterState_Get", "PyInterpreterState_Main", "PyInterpreterState_Head")
    get = next(getattr(ctypes.pythonapi, name) for name in names if hasattr(ctypes.pythonapi, name))
    get.restype, get.argtypes = ctypes.c_void_p, ()
    return get()


def frames_from(frame):
    """The names, files and lines of a frame and its callers."""
    found = []
    while frame is not None:
        found.append([frame.f_code.co_name, frame.f_code.co_filename, frame.f_lineno])
        frame = frame.f_back
    return found


def keep(what):
    """Has the core hold what this filter says."""
    with open("/proc/self/coredump_filter", "w") as file:
        file.write(what)


def arguments():
    """What a core keeps of the command line: its first 79 bytes, joined by spaces."""
    with open("/proc/self/cmdline", "rb") as file:
        return file.read()[:79].replace(b"\0", b" ").decode("utf-8", "replace")


def maps():
    """What is mapped, as the system tells it: a core may have no table of files."""
    with open("/proc/self/maps", "rb") as file:
        return file.read().decode("utf-8", "replace")


def names_of_threads():
    """The name of each thread, by its id."""
    return {it.ident: it.name for it in threading.enumerate()}


def own_id():
    """This thread's id."""
    return threading.current_thread().ident


def native_id():
    """The system's number for this thread, or None before 3.8."""
    return threading.get_native_id() if hasattr(threading, "get_native_id") else None


def started(run):
    """Starts a thread that ends with the program."""
    thread = threading.Thread(target=run)
    thread.daemon = True
    thread.start()


def still():
    """A lock, and what releases it and then stands still."""
    ready, gate = threading.Lock(), threading.Lock()
    ready.acquire()
    gate.acquire()
    return ready, getattr(module(TWO_BYTES, "日本.py")["Wait"](ready, gate), WAIT)


def start(target, natives):
    """Starts a thread below `target`, and waits until it stands still."""
    ready, wait = still()

    def run():
        natives[own_id()] = native_id()
        target(wait)

    started(run)
    # (no Python runs in that thread between the release of `ready` and the wait for `gate`)
    ready.acquire()
    return id(wait)


def stacks(natives):
    """The threads' ids and frames, from the first of the chain on, which began last."""
    frames = sys._current_frames()
    # (before 3.6 a dict has an order of its own)
    order = list(frames) if sys.version_info >= (3, 6) else list(natives)[::-1]
    return [(ident, frames_from(frames[ident])) for ident in order]


def led_from(frame):
    """The addresses of what the locals of a frame and its callers lead to, by way of lists, tuples and dicts alone. A
    local that an inner function shares is left out."""
    found, rest = {}, []
    while frame is not None:
        names = [it for it in frame.f_code.co_varnames if it not in frame.f_code.co_cellvars]
        rest.extend(frame.f_locals[name] for name in names if name in frame.f_locals)
        frame = frame.f_back
    while rest:
        it = rest.pop()
        if id(it) not in found:
            found[id(it)] = it
            if type(it) in (list, tuple, dict):
                rest.extend(gc.get_referents(it))
    return sorted(found)


def led(natives):
    """The place of the thread that stands below `hold`, and what its locals lead to."""
    for at, (ident, frames) in enumerate(stacks(natives)):
        if any(name == "hold" for name, _, _ in frames):
            return at, led_from(sys._current_frames()[ident])
    return None


HELD = []
"""The addresses of what was handed to `hold`."""


def report(natives, names, gil, leave, is_free):
    """Prints what the core has to show, and leaves it: nothing is called between the two that has frames."""
    address = interpreter()
    own = own_id()
    told = {
        "interpreter": address,
        "runtime": address_of("_PyRuntime"),
        "current": address_of("_PyThreadState_Current"),
        "gil": ctypes.c_uint64.from_address(address + gil).value if gil >= 0 else None,
        "holder": None if is_free else own,
        "held": HELD[0] if HELD else None,
        "led": led(natives),
        "version": sys.version.split()[0],
        "process": [os.getpid(), arguments()],
        "maps": maps(),
        "threads": [],
    }
    for ident, frames in stacks(natives):
        if ident == own:
            # (it is told of the function that asks, and aborts on another line of this one)
            del frames[0]
            frames[0][2] = abort_line()
        told["threads"].append({"id": ident, "native": natives[ident], "name": names[ident], "frames": frames})
    sys.stdout.write(json.dumps(told) + "\n")
    sys.stdout.flush()
    leave()


def abort_line():
    """The line of `report` on which it aborts: the last one that its code has."""
    return max(line for _, line in dis.findlinestarts(report.__code__) if line)


class Importer:
    """Calls a function where the module `last` is imported."""

    def __init__(self, call):
        self.call = call

    def find_spec(self, name, path=None, target=None):
        """Finds that module alone."""
        return ModuleSpec(name, self) if name == "last" else None

    def create_module(self, spec):
        """Leaves the module's making to the import."""
        return None

    def exec_module(self, module):
        """Calls the function."""
        self.call()

    def find_module(self, name, path=None):
        """Finds it in Python 2."""
        return self if name == "last" else None

    def load_module(self, name):
        """Calls the function in Python 2."""
        self.call()


def start_many(natives):
    """Starts 14 more threads, or 13 where there are no coroutines."""
    HELD.append(start(module(HOLD, "hält.py")["hold"], natives))
    for source, name in ((CLASS_BODY, "build"), (LOOP, "total"), (COROUTINE, "run")):
        if source is not COROUTINE or not IS_OLD:
            start(module(source, Apart("/ein Ordner/größer als \"das\".py"))[name], natives)
    for _ in range(10):
        start(lambda bottom: bottom(), natives)


def die(natives, is_free=False):
    """Aborts in an import. A call by `CDLL` lets the interpreter's lock go first."""
    natives[own_id()] = native_id()
    names = names_of_threads()
    leave = ctypes.CDLL(None).abort if is_free else os.abort
    sys.meta_path.insert(0, Importer(lambda: report(natives, names, int(sys.argv[1]), leave, is_free)))
    __import__("last")


def die_elsewhere(natives):
    """Does so in another thread, once this one stands still."""
    ready, wait = still()

    def run():
        ready.acquire()
        try:
            die(natives)
        finally:
            os._exit(1)

    started(run)
    wait()


def main():
    """The whole program."""
    who = sys.argv[2]
    keep(sys.argv[3])
    # (a core has all of each stack, so that those of many threads would take most of it)
    threading.stack_size(1 << 20)
    natives = OrderedDict([(own_id(), native_id())])
    descend = module(ONE_BYTE, "récursion.py")["descend"]
    drain = module(FOUR_BYTES, "𝄞.py")["drain"]
    start(lambda bottom: descend(50, bottom), natives)
    start(drain, natives)
    if who == "many":
        start_many(natives)
    if who in ("other", "many"):
        die_elsewhere(natives)
    die(natives, who == "free")


main()
