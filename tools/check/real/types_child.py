"""Dies with an object of each type that has records, and tells beforehand where these types and objects stand.

    types_child.py [HOLDS]

Run by Python 3.6 or later. HOLDS is what the core is to hold, as coredump_filter has it; without it the process ends by
itself, with status 0. It prints one JSON object: `version`, `pid`, and

- `types`: by a name of its own, each type's address, its name as it tells it, whether it was made while Python ran
  (`is_heap`), and the size of its objects;
- `objects`: by the same names, the address of an object of just that type;
- `derived`: addresses of objects whose types derive from one of these, which is named, and have its name;
- `impostors`: addresses of objects of classes that have the name of one of these types, and are no such thing.

All the objects are held by the locals of `hold`, in the main thread's newest frames, in lists of the same order.
"""

import asyncio
import collections
import datetime
import decimal
import functools
import json
import os
import queue
import sys
import threading
import types
import weakref

Py_TPFLAGS_HEAPTYPE = 1 << 9


class Loop:
    """What stands for a loop: it keeps what it is to call."""

    def __init__(self):
        self.calls = []

    def call_soon(self, callback, *args, **_):
        """Keeps it."""
        self.calls.append(callback)

    def get_debug(self):
        """No."""
        return False

    def is_running(self):
        """No."""
        return False

    def call_exception_handler(self, context):
        """Nothing is said of what is left undone."""


class Awaited:
    """What a coroutine awaits."""

    def __await__(self):
        yield 1

    def __aiter__(self):
        return self

    def __anext__(self):
        return self


class Slotted:
    """Has a slot."""

    __slots__ = ("slot",)


def generates():
    """A generator."""
    yield 1


async def waits(awaited):
    """A coroutine."""
    await awaited


async def yields():
    """An async generator."""
    yield 1


def raised():
    """An exception that has been raised."""
    try:
        raise OSError(123456, "text", "file")
    except OSError as error:
        return error


def running():
    """Objects of what runs."""
    coroutine, generator = waits(Awaited()), yields()
    found = {
        "generator": generates(),
        "coroutine": coroutine,
        "async_generator": generator,
        "coroutine_wrapper": waits(Awaited()).__await__(),
        "async_generator_asend": generator.asend(None),
        "async_generator_athrow": generator.aclose(),
        "code": generates.__code__,
        "frame": sys._getframe(),
        "traceback": raised().__traceback__,
    }
    if sys.version_info >= (3, 10):
        found["anext_awaitable"] = anext(Awaited(), None)  # noqa: F821
    return found


def asynchronous():
    """Objects of asyncio, by its module of C."""
    loop = Loop()
    future = asyncio.Future(loop=loop)
    task = asyncio.Task(waits(future), loop=loop)
    step = loop.calls[0]
    found = {"Future": future, "Task": task, "FutureIter": iter(future), "TaskStepMethWrapper": step}
    step()
    if sys.version_info < (3, 10):
        wakeup = future._callbacks[0]
        found["TaskWakeupMethWrapper"] = wakeup[0] if isinstance(wakeup, tuple) else wakeup
    found["Handle"] = asyncio.Handle(waits, (), loop)
    found["TimerHandle"] = asyncio.TimerHandle(1.0, waits, (), loop)
    return found


def simple():
    """Objects of common types."""
    held = [1]
    found = {
        "set": {1}, "frozenset": frozenset([1]), "list": held, "dict": {1: 2}, "tuple": (1,), "bytes": b"1", "str": "1",
        "int": 10 ** 20, "float": 1.5, "complex": 1j, "bool": True, "NoneType": None, "bytearray": bytearray(b"1"),
        "range": range(3), "slice": slice(1), "deque": collections.deque([1]),
        "OrderedDict": collections.OrderedDict(a=1), "defaultdict": collections.defaultdict(list),
        "Decimal": decimal.Decimal("1.5"), "date": datetime.date(2021, 3, 4), "time": datetime.time(1),
        "datetime": datetime.datetime(2021, 3, 4), "timedelta": datetime.timedelta(1),
        "partial": functools.partial(generates), "module": types.ModuleType("made"), "function": generates,
        "method": Loop().get_debug, "builtin_function_or_method": held.append, "cell": (lambda: held).__closure__[0],
        "weakref": weakref.ref(generates), "type": type, "property": property(), "mappingproxy": type.__dict__,
        "member_descriptor": Slotted.slot, "getset_descriptor": type.__dict__["__module__"], "lock": threading.Lock(),
        "RLock": threading.RLock(), "OSError": raised(), "KeyError": KeyError(1), "ValueError": ValueError(1),
        "SyntaxError": SyntaxError("text", ("file", 1, 1, "line")), "ImportError": ImportError("text"),
        "UnicodeDecodeError": UnicodeDecodeError("a", b"b", 0, 1, "c"), "BaseException": BaseException(),
    }
    if hasattr(queue, "SimpleQueue"):
        found["SimpleQueue"] = queue.SimpleQueue()
    if sys.version_info >= (3, 11):
        found["ExceptionGroup"] = ExceptionGroup("text", [ValueError(1)])  # noqa: F821
    return found


def impostor(name):
    """An object of a class of this name, which is no such thing."""
    return type(name, (object,), {"__doc__": "No such thing."})()


def words_for(name):
    """The words with which an object of a type is made, where it needs some."""
    loop = Loop()
    return {
        "Future": ((), {"loop": loop}), "Task": ((waits(Awaited()),), {"loop": loop}),
        "Handle": ((waits, (), loop), {}), "TimerHandle": ((1.0, waits, (), loop), {}), "partial": ((waits,), {}),
        "module": (("made",), {}),
        "date": ((2021, 3, 4), {}), "datetime": ((2021, 3, 4), {}), "weakref": ((Loop,), {}),
        "UnicodeDecodeError": (("a", b"b", 0, 1, "c"), {}), "ExceptionGroup": (("text", [ValueError(1)]), {}),
        "type": (("made", (), {}), {}),
    }.get(name, ((), {}))


def derived_from(kind, name):
    """An object of a class that derives from a type and has its name; None where the type allows none."""
    words, named = words_for(name)
    try:
        return type(name, (kind,), {})(*words, **named)
    except TypeError:
        return None


def told_of(kind):
    """What is told of a type."""
    is_heap = bool(kind.__flags__ & Py_TPFLAGS_HEAPTYPE)
    return {"address": id(kind), "name": kind.__name__, "is_heap": is_heap, "size": kind.__basicsize__}


def hold(objects, derived, impostors, holds):
    """Holds them, tells of them, and dies."""
    told = {
        "version": "%d.%d.%d" % sys.version_info[:3],
        "pid": os.getpid(),
        "types": {name: told_of(type(it)) for name, it in objects.items()},
        "objects": {name: id(it) for name, it in objects.items()},
        "derived": {name: id(it) for name, it in derived.items()},
        "impostors": {name: id(it) for name, it in impostors.items()},
    }
    print(json.dumps(told), flush=True)
    if holds:
        with open("/proc/self/coredump_filter", "w") as core:
            core.write(holds)
        os.abort()


def main():
    """Makes them."""
    objects = simple()
    objects.update(running())
    objects.update(asynchronous())
    made = {name: derived_from(type(it), name) for name, it in objects.items()}
    derived = {name: it for name, it in made.items() if it is not None}
    hold(objects, derived, {name: impostor(name) for name in objects}, sys.argv[1] if len(sys.argv) > 1 else "")


if __name__ == "__main__":
    main()
