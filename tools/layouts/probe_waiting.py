"""The sections of probe_records.py of what waits and fails: futures, locks, exceptions, and the collector. They are
those of 3.6 and later."""

import gc
import struct
import sys
import threading
import time
import types

from probe_memory import (
    THREE, address_of, called, cases, has_version, module_named, number_at, thread_state, word_at, words_at, written)
from probe_running import Awaited, handles, here, of_holders, waits

# ---- asyncio


class Loop:
    """What stands for a loop: it keeps what it is to call."""

    def __init__(self):
        self.calls = []

    def call_soon(self, callback, *args, **_):
        """Keeps it."""
        self.calls.append((callback, args))

    def get_debug(self):
        """No."""
        return False

    def is_running(self):
        """No."""
        return False

    def call_exception_handler(self, context):
        """Nothing is said of what is left undone."""


@cases((3, 7))
def of_futures(found):
    """future, future_iter"""
    kind = module_named("_asyncio").Future
    size = kind.__basicsize__
    found.size("future", kind)
    loop, result, error = Loop(), ["result"], ValueError("error")
    first, second, failed, cancelled = (kind(loop=loop) for _ in range(4))
    for it in (first, second):
        found.holds("future.loop", id(it), size, id(loop))
        found.holds("future.state", id(it), size, 0, 4)
    first.add_done_callback(of_futures)
    found.holds("future.callback0", id(first), size, id(of_futures))
    first.add_done_callback(of_holders)
    found.points("future.callbacks", id(first), size, lambda at: is_list_of_one(at, of_holders))
    it = iter(second)
    found.size("future_iter", type(it))
    found.holds("future_iter.held", id(it), type(it).__basicsize__, id(second))
    second.set_result(result)
    failed.set_exception(error)
    cancelled.cancel()
    for it, state in ((second, 2), (failed, 2), (cancelled, 1)):
        found.holds("future.state", id(it), size, state, 4)
    found.holds("future.result", id(second), size, id(result))
    found.holds("future.exception", id(failed), size, id(error))
    failed.exception()


def is_list_of_one(at, member):
    """Whether a list of a tuple that begins with this stands at an address."""
    if word_at(at + 8) != id(list) or word_at(at + 16) != 1:
        return False
    return id(member) in (words_at(word_at(word_at(at + 24)), 40) or ())


@cases((3, 7))
def of_tasks(found):
    """task, task_name, task_step, task_wakeup"""
    module = module_named("_asyncio")
    size = module.Task.__basicsize__
    found.size("task", module.Task)
    cancelled = None
    for number in range(3):
        loop = Loop()
        future = module.Future(loop=loop)
        coroutine = waits(future)
        it = module.Task(coroutine, loop=loop, **({"name": "a name %d" % number} if has_version(3, 8) else {}))
        if has_version(3, 8):
            found.holds("task_name.name", id(it), size, id(it.get_name()))
        found.holds("task.coro", id(it), size, id(coroutine))
        ((step, args),) = loop.calls
        found.size("task_step", type(step))
        found.holds("task_step.held", id(step), type(step).__basicsize__, id(it))
        step(*args)
        found.holds("task.waiter", id(it), size, id(future))
        if not has_version(3, 10):
            wakeup = future._callbacks[0][0]
            found.size("task_wakeup", type(wakeup))
            found.holds("task_wakeup.held", id(wakeup), type(wakeup).__basicsize__, id(it))
        # (one that waits passes it on, and keeps the number of requests alone; the message is known)
        words = ([number],) if has_version(3, 9) else ()
        before = written(id(it), size)
        it.cancel(*words)
        passed_on = flipped(before, written(id(it), size))
        fresh_loop, coroutine = Loop(), waits(Awaited())
        fresh = module.Task(coroutine, loop=fresh_loop)
        before = written(id(fresh), size)
        fresh.cancel(*words)
        after = written(id(fresh), size)
        for message in words:
            after = after.replace(struct.pack("<Q", id(message)), bytes(8))
        bits = flipped(before, after) - passed_on
        cancelled = bits if cancelled is None else cancelled & bits
        for callback, args in loop.calls[1:] + fresh_loop.calls:
            callback(*args)
    ((at, bit),) = cancelled
    found.tells("task.cancel", at, 0)
    found.tells("task.cancel_bit", bit, 0)


def flipped(before, after):
    """The bytes, and in each the only bit, that became 1."""
    changed = [(o, after[o] & ~before[o], before[o] & ~after[o]) for o in range(16, len(before))]
    return {(o, up.bit_length() - 1) for o, up, down in changed if up and not down and not up & (up - 1)}


@cases((3, 7))
def of_handles(found):
    """handle, timer_handle"""
    import asyncio
    for number in range(2):
        loop, args, when = Loop(), ("args", number), 1e6 + number
        it = asyncio.TimerHandle(when, of_handles, args, loop)
        if number:
            it._cancelled = True
        size = asyncio.TimerHandle.__basicsize__
        found.size("handle", asyncio.Handle)
        found.size("timer_handle", asyncio.TimerHandle)
        for key in ("args", "callback", "cancelled"):
            found.holds("handle." + key, id(it), size, id(getattr(it, "_" + key)))
        found.holds("timer_handle.when", id(it), size, id(when))


# ---- locks


def semaphore(at, number):
    """Whether a semaphore of this number may stand at an address: no object, as what follows is no type."""
    return number_at(at, 4) == number and (word_at(at + 8) >> 32) in (0, 0xffffffff)


@cases(THREE)
def of_locks(found):
    """lock, lock_mutex, rlock, simple_queue, simple_queue_parked"""
    kind = type(threading.Lock())
    size = kind.__basicsize__
    for _ in range(3):
        it = threading.Lock()
        for is_held in (0, 1):
            if is_held:
                it.acquire()
            found.holds("lock.locked", id(it), size, is_held, 1)
            found.points("lock.semaphore", id(it), size, lambda at: semaphore(at, 1 - is_held))
    # (one without a semaphore is a byte alone)
    if not found.places["lock.semaphore"]:
        found.places["lock_mutex.mutex"] = found.places.pop("lock.locked")
        found.widths["lock_mutex.mutex"] = 1
    found.size("lock" if found.places["lock.semaphore"] else "lock_mutex", kind)
    it = threading.RLock()
    size = type(it).__basicsize__
    found.size("rlock", type(it))
    for count in range(4):
        found.holds("rlock.count", id(it), size, count)
        found.holds("rlock.owner", id(it), size, threading.get_ident() if count else 0)
        found.points("rlock.semaphore", id(it), size, lambda at: semaphore(at, 0 if count else 1))
        it.acquire()
    if has_version(3, 7):
        of_queues(found, module_named("_queue").SimpleQueue)


def of_queues(found, kind):
    """A queue for which a thread waits."""
    name = "simple_queue_parked" if has_version(3, 13) else "simple_queue"
    found.size(name, kind)
    size = kind.__basicsize__
    for _ in range(2):
        it = kind()
        for is_waited_for in (0, 1):
            thread = threading.Thread(target=it.get, daemon=True)
            if is_waited_for:
                thread.start()
                time.sleep(0.2)
            if has_version(3, 13):
                found.holds(name + ".waiting", id(it), size, is_waited_for, 1)
            else:
                found.points(name + ".semaphore", id(it), size, lambda at: semaphore(at, 1 - is_waited_for))
        it.put(1)
        thread.join()


# ---- exceptions


def caught(function):
    """What a function raises."""
    try:
        function()
    except Exception as error:
        return error
    return None


def raises():
    """An exception of which each field is another one."""
    try:
        raise KeyError("context")
    except KeyError:
        raise ValueError("one", 2) from OSError("cause")


@cases(THREE)
def of_exceptions(found):
    """exception and its kinds"""
    size = BaseException.__basicsize__
    found.size("exception", BaseException)
    error = caught(raises)
    error.attribute = 1
    for key in ("__dict__", "args", "__traceback__", "__context__", "__cause__"):
        found.holds("exception." + key.strip("_"), id(error), size, id(getattr(error, key)))
    for is_suppressed in (1, 0, 1):
        error.__suppress_context__ = bool(is_suppressed)
        found.holds("exception.suppress_context", id(error), size, is_suppressed, 1)
    kinds = {
        "os_error": (OSError(123456, "text", "file", None, "other"), ("errno", "strerror", "filename", "filename2")),
        "syntax_error": (SyntaxError("text", ("file", 123456, 7, "line")), ("msg", "filename", "lineno")),
        "import_error": (ImportError("text", name="name", path="path"), ("msg", "name")),
        "unicode_error": (UnicodeDecodeError("encoding", b"0" * 100, 71, 83, "why"), ("encoding", "object", "reason")),
    }
    if has_version(3, 11):
        kinds["exception_group"] = (ExceptionGroup("text", [error]), ("message", "exceptions"))  # noqa: F821
    keys = {"lineno": "line", "message": "msg", "exceptions": "excs"}
    for name, (it, attributes) in kinds.items():
        # (ExceptionGroup is made of two types while Python starts, and may have a place more)
        kind = type(it).__base__ if name == "exception_group" else type(it)
        size = kind.__basicsize__
        found.size(name, kind)
        for attribute in attributes:
            key = "%s.%s" % (name, keys.get(attribute, attribute))
            found.holds(key, id(it), size, id(getattr(it, attribute)), first=BaseException.__basicsize__)
    for key, number in (("start", 71), ("end", 83)):
        it, _ = kinds["unicode_error"]
        found.holds("unicode_error." + key, id(it), type(it).__basicsize__, number)


@cases(THREE)
def of_tracebacks(found):
    """traceback"""
    size = types.TracebackType.__basicsize__
    found.size("traceback", types.TracebackType)
    traces = [caught(raises).__traceback__]
    if has_version(3, 7):
        traces.append(types.TracebackType(traces[0], sys._getframe(), 1234, 567891))
        traces.append(types.TracebackType(traces[1], here(), 4321, 98765))
    else:
        traces.append(traces[0].tb_next)
    for it in traces:
        if it.tb_next is not None:
            found.holds("traceback.next", id(it), size, id(it.tb_next))
        found.holds("traceback.frame", id(it), size, id(it.tb_frame))
        found.holds("traceback.lasti", id(it), size, it.tb_lasti, 4)
        # (up to the first look at it the line may be -1)
        places = [o for o in range(16, size - 3, 4) if number_at(id(it) + o, 4) in (it.tb_lineno, 0xffffffff)]
        found.keep("traceback.line", places, 4)


@cases((3, 7))
def of_handled(found):
    """handled, generator_handled, item, item_parts"""
    size = types.GeneratorType.__basicsize__
    thread = thread_state()

    def tell(error):
        words = words_at(thread, 512)
        inner = found.only("generator_inside.frame") if has_version(3, 11) else -1
        inside = {8 * place: word - id(it) for place, word in enumerate(words) if 16 <= word - id(it) < size}
        at = {place: offset for place, offset in inside.items() if offset != inner}
        found.keep("handled.newest", list(at), 8)
        start = at[found.only("handled.newest")]
        found.keep("generator_handled.item", [start], 0)
        found.holds("item.value", id(it) + start, 32, id(error), first=0)
        if not has_version(3, 11):
            found.holds("item_parts.type", id(it) + start, 32, id(type(error)), first=0)
            found.holds("item_parts.traceback", id(it) + start, 32, id(error.__traceback__), first=0)

    for _ in range(2):
        it = handles(tell)
        next(it)
    oldest = word_at(thread + found.only("handled.newest"))
    found.keep("handled.oldest", [oldest - thread], 0)

    def tell_previous(_):
        at = word_at(thread + found.only("handled.newest"))
        found.holds("item.previous", at, 32, oldest, first=0)

    it = handles(tell_previous)
    next(it)


# ---- the collector, and the allocator


@cases(THREE)
def of_heads(found):
    """gc_head"""
    gc.disable()
    for _ in range(3):
        one = [None] * 5
        other = [None] * 5
        heads = [o for o in range(16, 72, 8) if word_at(id(one) - o) == id(other) - o]
        for head in heads:
            links = [o for o in range(0, head, 8) if word_at(id(other) - head + o) & ~3 == id(one) - head]
            if links:
                found.keep("gc_head.size", [head], 0)
                found.keep("gc_head.next", [0], 8)
                found.keep("gc_head.previous", links, 8)
    gc.enable()


@cases((3, 7))
def of_collectors(found):
    """collector, runtime_collector, generation"""
    if has_version(3, 9):
        name, base, most = "collector", called("PyInterpreterState_Get"), 16384
    else:
        name, base, most = "runtime_collector", address_of("_PyRuntime"), 2048
    thresholds = gc.get_threshold()
    gc.collect()
    gc.set_threshold(1234567, 2345678, 3456789)
    for _ in range(7):
        gc.collect(0)
    counts = gc.get_count()
    text = written(base, most)
    places = [at_of(text, number) for number in (1234567, 2345678, 3456789)]
    gc.set_threshold(*thresholds)
    step = places[1] - places[0]
    assert places[2] - places[1] == step
    head = found.only("gc_head.size")
    found.tells("generation.size", step, 0)
    found.tells(name + ".generations", places[0] - head, 0)
    (count,) = [o for o in range(head, step, 4) if int_in(text, places[1] - head + o) == counts[1]]
    found.tells("generation.count", count, 4)
    start, stop = places[0] - head, places[0] - head + 16 * step
    of_collecting(found, name, base, start, stop)
    before = rings(base, start + 3 * step, stop)
    gc.freeze()
    after = rings(base, start + 3 * step, stop)
    gc.unfreeze()
    found.keep(name + ".permanent", [o for o in before if before[o] != after.get(o)], 0)


def at_of(text, number):
    """The only place of a number of 4 bytes."""
    (place,) = [o for o in range(0, len(text) - 3, 4) if int_in(text, o) == number]
    return place


def int_in(text, at):
    """The number of 4 bytes at a place of bytes."""
    return struct.unpack_from("<I", text, at)[0]


def rings(base, first, last):
    """The heads of lists there, each with its links."""
    found = {}
    for o in range(first, last, 4):
        links = words_at(base + o, 16)
        if links[0] > 0xfff and word_at(links[0] + 8) & ~3 == base + o:
            found[o] = links
    return found


def of_collecting(found, name, base, start, stop):
    """The number that is 1 while it collects."""
    seen = []

    def callback(*_):
        seen.append(written(base, stop))

    for _ in range(2):
        outside = written(base, stop)
        gc.callbacks.append(callback)
        gc.collect()
        gc.callbacks.remove(callback)
        places = [
            o for o in range(start, stop - 3, 4)
            if int_in(outside, o) == 0 and all(int_in(text, o) == 1 for text in seen)]
        found.keep(name + ".collecting", places, 4)


@cases(THREE)
def of_pools(found):
    """pool"""
    kept, made, fit = [], {}, []
    for number in (270, 290, 310):
        kept.append([bytes([place % 251] * number) for place in range(2000)])
        made[(number + bytes.__basicsize__ - 1) // 16] = [id(it) for it in kept[-1]]
    for power in range(12, 17):
        pool = 1 << power
        heads = {at & ~(pool - 1): index for index, places in made.items() for at in places}
        fit += [(pool, o) for o in range(0, 48, 4) if all(number_at(at + o, 4) == index for at, index in heads.items())]
    # (pools of one kind often stand side by side, so that two of them may look like one)
    (place,) = {o for pool, o in fit if pool == fit[0][0]}
    pool = fit[0][0]
    found.tells("pool.bytes", pool, 0)
    found.tells("pool.size_class", place, 4)
    for them in kept:
        of_blocks(found, them, pool, 16 * ((len(them[0]) + bytes.__basicsize__ - 1) // 16 + 1))


def of_blocks(found, them, pool, block):
    """Pools that are full of these objects, whose blocks are so long."""
    inside = {}
    for place, it in enumerate(them):
        inside.setdefault(id(it) & ~(pool - 1), []).append((id(it), place))
    it = None
    start = min(at - head for head, blocks in inside.items() for at, _ in blocks)
    count = (pool - start) // block
    found.tells("pool.size", start, 0)
    for head, blocks in inside.items():
        if len(blocks) == count:
            at, place = blocks[3]
            before = written(head, start)
            them[place] = it
            # (at once: what runs here makes objects too)
            after = written(head, start)
            pairs = {o: (int_in(before, o), int_in(after, o)) for o in range(0, start, 4)}
            end = start + count * block
            free = [o for o in range(0, start, 8) if struct.unpack_from("<Q", after, o)[0] == at]
            found.keep("pool.count", [o for o, pair in pairs.items() if pair == (count, count - 1)], 4)
            found.keep("pool.next_offset", [o for o, pair in pairs.items() if pair == (end, end)], 4)
            found.keep("pool.free_block", free, 8)
            return
