"""Dies with coroutines that await all kinds of things, and tells beforehand what each awaits.

    coroutines_child.py [HOLDS]

Run by Python 3.7 or later. HOLDS is what the core is to hold, as coredump_filter has it; without it the process ends by
itself, with status 0. It prints one JSON object: `version`, `pid`, and `chains`, each by the name of its case:

- `head`: the address of the object from which on the chain goes;
- `members`: of each, in order, its `address`, its `kind` (`holder` for what stands between), and, but for a holder, its
  `state`, and its frame's `function`, `file` and `line`; none of these three for one that is finished;
- `end`: how it ends, with the addresses that belong to it.

What an object awaits is what Python itself says: `cr_await`, `gi_yieldfrom`, `ag_await`, and of what stands between the
objects that the collector finds in it.
"""

import asyncio
import ctypes
import gc
import json
import os
import sys
import types

AWAITS = {
    types.CoroutineType: ("coroutine", "cr_await", "cr_frame", "cr_running"),
    types.GeneratorType: ("generator", "gi_yieldfrom", "gi_frame", "gi_running"),
    types.AsyncGeneratorType: ("async_generator", "ag_await", "ag_frame", "ag_running"),
}
"""Of each type what its objects are called, and where they say what they await."""

HOLDERS = ("coroutine_wrapper", "async_generator_asend", "async_generator_athrow", "anext_awaitable", "FutureIter")
"""The names of the types of what stands between. (No class of this program has one of them, but for the impostors.)"""


NOWHERE, CLASS = 0x1000, 8
"""An address at which nothing stands, and where an object names its class, in bytes."""

KEPT = []
"""What is never let go."""


class Once:
    """An awaitable of a program's own, whose iterator is no generator."""

    def __init__(self):
        self.left = 3

    def __await__(self):
        return self

    def __iter__(self):
        return self

    def __next__(self):
        self.left -= 1
        if self.left < 0:
            raise StopIteration
        return self.left


class Waits:
    """An awaitable by a generator of its own."""

    def __await__(self):
        yield 1


class Managed:
    """What is entered and left by awaiting."""

    async def __aenter__(self):
        await Waits()

    async def __aexit__(self, *_):
        await Waits()


class Items:
    """What is gone over by awaiting."""

    def __aiter__(self):
        return self

    async def __anext__(self):
        await Waits()


coroutine_wrapper = type("coroutine_wrapper", (), {"__slots__": ("held",), "__next__": lambda self: 1, "__await__": lambda self: self,
                                                   "__iter__": lambda self: self})
"""A class that has the name of a type of what stands between, and the size of its objects, and is none."""

FutureIter = type("_asyncio.FutureIter", (coroutine_wrapper,), {"__slots__": ()})


async def leaf():
    """Awaits an iterator of its own."""
    await Waits()


async def middle():
    """Awaits a coroutine."""
    return await leaf()


async def nested():
    """Awaits a coroutine that awaits another."""
    value = await middle()
    return value


async def deep(left):
    """Awaits so many coroutines, one in the other."""
    if left:
        await deep(left - 1)
    await Waits()


async def awaits(thing):
    """Awaits what it is given."""
    await thing


async def wraps(coroutine):
    """Awaits what `__await__` of a coroutine gives."""
    await Wrapping(coroutine)


class Wrapping:
    """What hands out the iterator of a coroutine."""

    def __init__(self, coroutine):
        self.coroutine = coroutine

    def __await__(self):
        return self.coroutine.__await__()


def inner():
    """Yields."""
    yield 1
    yield 2


def outer():
    """Yields what another generator does."""
    yield from inner()


def outermost():
    """The same, once more."""
    yield from outer()


def goes_over():
    """Yields what a list has."""
    yield from [1, 2, 3]


@types.coroutine
def by_generator():
    """A coroutine that is a generator."""
    yield from leaf()


async def agen():
    """An async generator that awaits, and yields behind it."""
    try:
        await Waits()
        yield 1
    finally:
        await Waits()


async def plain_agen():
    """An async generator that yields first."""
    try:
        yield 1
        yield 2
    finally:
        await Waits()


async def goes(items):
    """Goes over something."""
    async for _ in items:
        pass


async def enters():
    """Enters something."""
    async with Managed():
        pass


async def catching(generator):
    """Throws into an async generator."""
    try:
        await generator.athrow(ValueError())
    except ValueError:
        pass


async def done():
    """Ends at once."""


def sent(thing):
    """The same thing, once it is suspended."""
    try:
        thing.send(None)
    except StopIteration:
        pass
    return thing


def first_of(generator):
    """The async generator, once it has yielded its first value."""
    try:
        generator.__anext__().send(None)
    except StopIteration:
        pass
    return generator


def words_of(thing):
    """The places of the words of a coroutine or of its frame, by addresses."""
    frame = thing.cr_frame
    for it in (thing,) if sys.version_info >= (3, 11) else (frame,):
        yield from range(id(it), id(it) + sys.getsizeof(it) - 7, 8)


def top_of(thing, other):
    """The word by which a coroutine says what it awaits, which is made to be another thing. Neither is let go."""
    awaited = thing.cr_await
    KEPT.extend((thing, other, awaited))
    ctypes.pythonapi.Py_IncRef(ctypes.py_object(other))
    for place in words_of(thing):
        word = ctypes.c_uint64.from_address(place)
        if word.value == id(awaited):
            word.value = id(other)
            if thing.cr_await is other:
                return word
            word.value = id(awaited)
    raise SystemExit("its stack was not found")


def turned_to(thing, other):
    """The same coroutine, made to await another thing than it does."""
    top_of(thing, other)
    return thing


def ring(count):
    """A coroutine that awaits a coroutine, and so on, back to itself."""
    all_of = [sent(awaits(leaf())) for _ in range(count)]
    for one, other in zip(all_of, all_of[1:] + all_of[:1]):
        turned_to(one, other)
    return all_of[0]


def impostor(kind):
    """A coroutine that awaits an object of a class of such a name, which holds a coroutine."""
    thing = kind()
    thing.held = sent(leaf())
    return sent(awaits(thing))


def cases():
    """The heads, by the names of cases."""
    loop = asyncio.new_event_loop()
    future = loop.create_future()
    found = {
        "nested": sent(nested()),
        "deep": sent(deep(40)),
        "created": nested(),
        "finished": sent(done()),
        "wrapped": sent(wraps(middle())),
        "wrapped created": sent(awaits(leaf())),
        "yield from": sent(outermost()),
        "yielded": sent(inner()),
        "created generator": outer(),
        "a list's iterator": sent(goes_over()),
        "by generator": sent(awaits(by_generator())),
        "custom": sent(awaits(Once())),
        "sleep": sent(awaits(asyncio.sleep(0))),
        "future": sent(awaits(future)),
        "gathered": sent(awaits(asyncio.gather(future, loop.create_future(), **({"loop": loop} if sys.version_info < (3, 10) else {})))),
        "async for": sent(goes(agen())),
        "async for by hand": sent(goes(Items())),
        "async with": sent(enters()),
        "created async generator": agen(),
        "yielded async generator": first_of(plain_agen()),
        "asend": sent(awaits(agen().asend(None))),
        "athrow": sent(catching(first_of(plain_agen()))),
        "aclose": sent(awaits(first_of(plain_agen()).aclose())),
        "itself": ring(1),
        "ring": ring(3),
        "awaits created": turned_to(sent(awaits(leaf())), nested()),
        "awaits finished": turned_to(sent(awaits(leaf())), sent(done())),
        "awaits a number": turned_to(sent(awaits(leaf())), 12345678901234567890),
        "an impostor's wrapper": impostor(coroutine_wrapper),
        "an impostor's future": impostor(FutureIter),
        "a number": 98765432109876543210,
        "a future": future,
    }
    if sys.version_info >= (3, 10):
        found["anext"] = sent(awaits(anext(agen(), None)))
        found["anext by hand"] = sent(awaits(anext(Items(), None)))
    return found


def held_by(thing):
    """What an object holds that stands between; none where it is no such thing."""
    name, is_own = type(thing).__name__, type(thing).__module__ == "__main__"
    if name not in HOLDERS or is_own or type(thing) in (coroutine_wrapper, FutureIter):
        return None
    referents = gc.get_referents(thing)
    wanted = {"coroutine_wrapper": types.CoroutineType, "async_generator_asend": types.AsyncGeneratorType,
              "async_generator_athrow": types.AsyncGeneratorType, "FutureIter": asyncio.Future}.get(name)
    if wanted is None:
        return referents[0]
    return [it for it in referents if isinstance(it, wanted)][0]


def state_of(thing, awaited, frame, running):
    """The state of a coroutine, and the word for the end of a chain there."""
    if frame is None:
        return "finished"
    if awaited is not None:
        return "awaiting"
    if isinstance(thing, types.AsyncGeneratorType):
        return "created" if is_new(frame) else "yielding"
    if running:
        return "running"
    return "created" if is_new(frame) else "yielding"


def is_new(frame):
    """Whether a frame stands before its first instruction: on the line of its `def`, which no `yield` here is on."""
    return frame.f_lineno == frame.f_code.co_firstlineno or frame.f_lasti < 0


def member_of(thing):
    """What is told of a member that has a frame, and what it awaits."""
    kind, awaits_by, frame_by, running_by = AWAITS[type(thing)]
    awaited, frame = getattr(thing, awaits_by), getattr(thing, frame_by)
    told = {"address": id(thing), "kind": kind, "state": state_of(thing, awaited, frame, getattr(thing, running_by))}
    if frame is not None:
        told.update(function=frame.f_code.co_name, file=frame.f_code.co_filename, line=frame.f_lineno)
    return told, awaited


def chain_of(thing):
    """The chain from an object on."""
    members, met, head = [], set(), id(thing)
    while True:
        if id(thing) in met:
            return {"head": head, "members": members, "end": ["cycle", id(thing)]}
        if type(thing) in AWAITS:
            told, awaited = member_of(thing)
            members.append(told)
            if awaited is None:
                return {"head": head, "members": members, "end": [told["state"]]}
        else:
            awaited = held_by(thing)
            if awaited is None:
                is_future = type(thing) in (asyncio.Future, asyncio.Task)
                end = ["future", id(thing)] if is_future else ["other", id(thing), id(type(thing))]
                return {"head": head, "members": members, "end": end}
            if type(thing).__name__ == "FutureIter":
                return {"head": head, "members": members, "end": ["future", id(awaited)]}
            members.append({"address": id(thing), "kind": "holder"})
        met.add(id(thing))
        thing = awaited


def told_of(found):
    """The JSON object."""
    return {"version": list(sys.version_info[:3]), "pid": os.getpid(), "chains": {name: chain_of(it) for name, it in found.items()}}


def lost():
    """What is told of a coroutine that awaits an address at which nothing stands."""
    thing = sent(awaits(leaf()))
    member, _ = member_of(thing)
    member["state"] = "unknown"
    top_of(thing, member).value = NOWHERE
    return {"head": id(thing), "members": [member], "end": ["unreadable", NOWHERE + CLASS, 8]}


def end(found):
    """Tells of all, and dies."""
    told = told_of(found)
    told["chains"]["awaits nowhere"] = lost()
    print(json.dumps(told), flush=True)
    if len(sys.argv) < 2:
        os._exit(0)
    os.abort()


async def runs(found):
    """Dies while it runs."""
    await leaf_that_runs(found)


async def leaf_that_runs(found):
    """The same; it is awaited."""
    end(found)


def main():
    """Dies with all of it, in a coroutine."""
    if len(sys.argv) > 1:
        with open("/proc/self/coredump_filter", "w") as file:
            file.write(sys.argv[1])
    found = cases()
    found["runs"] = runs(found)
    found["awaits what runs"] = turned_to(sent(awaits(leaf())), found["runs"])
    found["runs"].send(None)


main()
