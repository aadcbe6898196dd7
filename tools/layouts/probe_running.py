"""The sections of probe_records.py of what runs: code, frames, generators and coroutines. They are those of 3.6 and
later."""

import dis
import sys
import types

from probe_memory import THREE, cases, has_version, number_at, thread_state, word_at, words_at, written

# ---- code and frames


def some_codes():
    """Code objects of which no two have the same numbers."""
    held, other = [1], [2]

    def small(one, two=5):
        return one

    def larger(one, two, three):
        four = [one, two, (three, held, [other, one, two, three, (one, two, three, 1, held, one, one, one)])]
        return lambda: (four, one, held)

    functions = [small, larger, larger(1, 2, 3), some_codes, of_code, waits]
    return [function.__code__ for function in functions]


@cases(THREE)
def of_code(found):
    """code, code_names, code_kinds, yield_from, resume"""
    size = types.CodeType.__basicsize__
    found.size("code", types.CodeType)
    for it in some_codes():
        found.holds("code.flags", id(it), size, it.co_flags, 4)
        found.holds("code.stack_size", id(it), size, it.co_stacksize, 4)
        if not has_version(3, 11):
            for key, value in (("bytecode", it.co_code), ("cells", it.co_cellvars), ("frees", it.co_freevars)):
                found.holds("code_names." + key, id(it), size, id(value))
            continue
        found.holds("code_kinds.qualname", id(it), size, id(it.co_qualname))
        cells = [name for name in it.co_cellvars if name not in it.co_varnames]
        names = [*it.co_varnames, *cells, *it.co_freevars]
        found.holds("code_kinds.count", id(it), size, len(names), 4)
        bits = ((0x20, it.co_varnames), (0x40, it.co_cellvars), (0x80, it.co_freevars))
        kinds = bytes(sum(bit for bit, some in bits if name in some) for name in names)
        found.points("code_kinds.kinds", id(it), size, lambda at: is_bytes(at, kinds))
    numbers = getattr(dis, "_all_opmap", None) or dis.opmap
    if has_version(3, 11):
        found.tells("resume.first", numbers.get("RESUME"), 0)
        found.tells("resume.second", numbers.get("INSTRUMENTED_RESUME" if has_version(3, 12) else "RESUME_QUICK"), 0)
    else:
        found.tells("yield_from.opcode", numbers["YIELD_FROM"], 0)


def is_bytes(at, text):
    """Whether an object of type bytes with this text stands at an address."""
    return words_at(at + 8, 16) == [id(bytes), len(text)] and written(at + 32, len(text)) == text


def frame_of(frame):
    """The address of the frame's record of an object of a frame, from 3.11 on: whose code is this."""
    size = type(frame).__basicsize__
    words = [it for it in words_at(id(frame) + 16, size - 16) if it > 0xfff]
    (at,) = {it for it in words if id(frame.f_code) in (words_at(it, 40) or ())}
    return at


def here():
    """This frame."""
    return sys._getframe()


@cases((3, 11))
def of_frames(found):
    """frame_object, owner, entry"""
    size = types.FrameType.__basicsize__
    found.size("frame_object", types.FrameType)
    generator = plain()
    frames = [sys._getframe(), here(), generator.gi_frame]
    for it in frames:
        found.points("frame_object.frame", id(it), size, lambda at: id(it.f_code) in (words_at(at, 40) or ()))
    for it, owner in zip(frames, (0, 2, 1)):
        found.holds("owner.place", frame_of(it), 72, owner, 1, first=8)
    for key, number in (("thread", 0), ("frame_object", 2), ("generator", 1)):
        found.tells("owner." + key, number, 0)
    if not has_version(3, 12):
        def entered(expected):
            found.holds("entry.place", frame_of(sys._getframe()), 72, expected, 1, first=8)
            return expected

        entered(0)
        assert list(map(entered, [1, 1])) == [1, 1]
        entered(0)


@cases((3, 11), (3, 12))
def of_cframes(found):
    """cframe"""
    def newest():
        inside, now = set(), frame_of(sys._getframe())
        for place in range(0, 512, 8):
            at = word_at(thread_state() + place)
            inside.update((place, o) for o in range(0, 24, 8) if at > 0xfff and word_at(at + o) == now)
        return inside

    both = newest() & list(map(lambda _: newest(), [1]))[0]
    ((place, current),) = both
    found.tells("cframe.current", current, 8)
    outer = word_at(thread_state() + place)

    def inner(_):
        at = word_at(thread_state() + place)
        found.holds("cframe.previous", at, 24, outer, first=0)

    list(map(inner, [1]))


# ---- coroutines and generators


class Awaited:
    """What a coroutine awaits until it is sent something."""

    def __await__(self):
        return iter([1, 2, 3, 4, 5])

    def __aiter__(self):
        return self

    def __anext__(self):
        return self.held

    held = None


def plain():
    """A generator."""
    for number in [7, 8, 9]:
        yield number


def delegates(to):
    """A generator that waits for another."""
    for _ in [1]:
        yield from to


def tells(tell):
    """A generator that tells something while it runs."""
    yield tell()
    yield 2


async def waits(awaited):
    """A coroutine that waits."""
    return await awaited


async def yields():
    """An async generator."""
    yield 1


def handles(tell):
    """A generator that tells something while it handles an exception."""
    try:
        raise ValueError("handled")
    except ValueError as error:
        yield tell(error)
        yield 2


@cases(THREE)
def of_generators(found):
    """generator, coroutine, async_generator, generator_frame, generator_running, generator_inside"""
    made = {"generator": plain(), "coroutine": waits(Awaited()), "async_generator": yields()}
    prefixes = {"generator": "gi", "coroutine": "cr", "async_generator": "ag"}
    for name, it in made.items():
        size = type(it).__basicsize__
        found.size(name, type(it))
        it.__name__, it.__qualname__ = "the name of " + name, "the whole name of " + name
        found.holds(name + ".name", id(it), size, id(it.__name__))
        found.holds(name + ".qualname", id(it), size, id(it.__qualname__))
        frame = getattr(it, prefixes[name] + "_frame")
        if has_version(3, 11):
            found.keep("generator_inside.frame", [frame_of(frame) - id(it)], 0)
        else:
            found.holds("generator_frame.frame", id(it), size, id(frame))
    made["coroutine"].close()
    if not has_version(3, 10):
        of_running(found)


def of_running(found):
    """The byte that is 1 while a generator runs."""
    size = types.GeneratorType.__basicsize__
    kept = []
    for number in range(6):
        running = []
        it = tells(lambda: running.append(written(id(it), size)))
        # (one that runs names where exceptions were handled before it: in the thread, or in another generator)
        outer = tells(lambda: next(it)) if number % 2 else it
        next(outer)
        now = written(id(it), size)
        places = [o for o in range(16, size) if (running[0][o], now[o]) == (1, 0)]
        found.keep("generator_running.running", places, 1)
        kept += [it, outer]


def suspended():
    """A generator that waits for another, and that one."""
    inner = plain()
    outer = delegates(inner)
    next(outer)
    return outer, inner


@cases(THREE, (3, 10))
def of_stacks(found):
    """stack_pointer, stack_depth"""
    size = types.FrameType.__basicsize__
    outer, inner = suspended()
    for it in (outer.gi_frame, sys._getframe(), waits(Awaited()).cr_frame):
        code = it.f_code
        count = code.co_nlocals + len(code.co_cellvars) + len(code.co_freevars)
        # (f_localsplus has one word inside the record)
        start = id(it) + size - 8 + 8 * count
        name = "stack_depth" if has_version(3, 10) else "stack_pointer"
        found.holds(name + ".bottom", id(it), size, start)
        if it is outer.gi_frame:
            # (of the frame of a generator, the iterator of `for` and what it waits for are on the stack)
            if has_version(3, 10):
                found.holds(name + ".depth", id(it), size, 2, 4)
            else:
                found.holds(name + ".top", id(it), size, start + 16)
    found.keep(name + ".bottom", [o for o in range(16, size, 8) if word_at(id(inner.gi_frame) + o) > 0xfff], 8)
    if has_version(3, 10):
        of_states(found, "stack_depth.state", lambda it: id(it.gi_frame), size)


@cases((3, 11))
def of_inner_stacks(found):
    """stack_count, states, awaiting_state"""
    size = types.GeneratorType.__basicsize__
    outer, inner = suspended()
    waiting = waits(inner_coroutine())
    waiting.send(None)
    for it, frame, awaited in ((outer, outer.gi_frame, inner), (waiting, waiting.cr_frame, waiting.cr_await)):
        at = frame_of(frame)
        start = id(it) + size
        counts = {o: number_at(at + o, 4) for o in range(8, start - at, 4)}
        found.keep("stack_count.top", [
            o for o, count in counts.items() if 0 < count < 99 and word_at(start + 8 * (count - 1)) == id(awaited)], 4)
    waiting.close()
    of_states(found, "generator_inside.state", id, size)


async def inner_coroutine():
    """Waits."""
    return await Awaited()


def of_states(found, key, record, size):
    """Where the state is, which is another one of what was created, waits and runs, where it is 0."""
    running = []
    it = tells(lambda: running.append(written(record(it), size)))
    created = written(record(it), size)
    next(it)
    suspended_plainly = written(record(it), size)
    other = plain()
    next(other)
    again = written(record(other), size)
    outer, _ = suspended()
    awaiting = written(record(outer), size)
    found.keep(key, [
        o for o in range(16, size)
        if running[0][o] == 0 and 127 < created[o] == again[o] - 1 and suspended_plainly[o] == again[o]
        and awaiting[o] in (again[o], again[o] + 1)], 1)
    at = found.only(key)
    for name, text in (("created", created), ("suspended", again), ("running", running[0])):
        found.tells("states." + name, text[at], 0)
    if has_version(3, 13):
        found.tells("awaiting_state.state", awaiting[at], 0)


@cases(THREE)
def of_holders(found):
    """coroutine_wrapper, asend, athrow, anext_awaitable"""
    for _ in range(3):
        coroutine, generator = waits(Awaited()), yields()
        wrapper, send, throw = coroutine.__await__(), generator.asend(None), generator.aclose()
        pairs = (("coroutine_wrapper", wrapper, coroutine), ("asend", send, generator), ("athrow", throw, generator))
        for name, it, held in pairs:
            found.size(name, type(it))
            found.holds(name + ".held", id(it), type(it).__basicsize__, id(held))
        coroutine.close()
        send.close()
        if has_version(3, 10):
            awaited = Awaited()
            awaited.held = Awaited()
            it = anext(awaited, None)  # noqa: F821
            found.size("anext_awaitable", type(it))
            found.holds("anext_awaitable.held", id(it), type(it).__basicsize__, id(awaited.held))
