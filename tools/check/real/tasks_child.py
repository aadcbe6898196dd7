"""Dies with tasks of asyncio that wait in all kinds of ways, and tells beforehand of each where it stands.

    tasks_child.py HOLDS running|callback|many|subs|speed|uvloop COUNT

Run by Python 3.7 or later. HOLDS is what the core is to hold, as coredump_filter has it. It dies in a running task, or in a
callback of the loop; or with COUNT tasks that wait, and no others but the one that dies; or with sub-interpreters that have
loops of their own; or it runs COUNT workers at full speed until it is killed; or it dies over uvloop's loop. It
prints one JSON object with `tasks`: what is to be told of each, as `pysalvage` has it in its JSON, or `interpreters` with
those of each. All of it is what Python itself says: `all_tasks`, what the collector knows of tasks that are done, `get_name`,
`_fut_waiter`, `_must_cancel`, and of a chain `cr_await` and the like; and `stack`, the functions of the task that runs.
"""

import asyncio
import gc
import json
import os
import sys
import threading
import types

AWAITS = {
    types.CoroutineType: ("coroutine", "cr_await", "cr_frame", "cr_running"),
    types.GeneratorType: ("generator", "gi_yieldfrom", "gi_frame", "gi_running"),
    types.AsyncGeneratorType: ("async generator", "ag_await", "ag_frame", "ag_running"),
}
"""Of each type what its objects are called, and where they say what they await."""

BETWEEN = {"coroutine_wrapper": types.CoroutineType, "async_generator_asend": types.AsyncGeneratorType,
           "async_generator_athrow": types.AsyncGeneratorType, "FutureIter": asyncio.Future}
"""What the things hold that stand between two coroutines, or in front of a future."""

NAMES = {}
"""The names of tasks that are not asked for them, since asking changes what they hold."""

EAGER = []
"""The tasks that ended before they were ever registered, in 3.12 and later."""

KEPT = []
"""What is never let go."""


class Own(asyncio.Task):
    """A task of a class of its own."""


class Items:
    """What is gone over by awaiting."""

    def __aiter__(self):
        return self

    async def __anext__(self):
        await forever()


class Custom:
    """An awaitable whose iterator is no generator: it hands out futures."""

    def __init__(self):
        self.future = asyncio.get_running_loop().create_future()

    def __await__(self):
        return self

    def __iter__(self):
        return self

    def __next__(self):
        self.future._asyncio_future_blocking = True
        return self.future


async def forever():
    """Waits for a future that is never done."""
    await asyncio.get_running_loop().create_future()


async def deep(left):
    """Awaits so many coroutines, one in the other."""
    if left:
        await deep(left - 1)
    else:
        await forever()


async def waits_for(thing):
    """Awaits what it is given."""
    return await thing


async def values():
    """An async generator that waits."""
    yield 1
    await forever()


async def goes_over(items):
    """Goes over something."""
    async for _ in items:
        pass


@types.coroutine
def by_generator():
    """A coroutine that is a generator."""
    yield from forever()


async def quick():
    """Ends at once."""
    return 1


async def fails():
    """Ends by an exception."""
    raise ValueError("no")


async def stubborn():
    """Goes on to wait where it is cancelled."""
    try:
        await forever()
    except asyncio.CancelledError:
        await deep(2)


async def enters(lock):
    """Waits for a lock."""
    async with lock:
        pass


async def grouped():
    """Waits for a group of tasks."""
    async with asyncio.TaskGroup() as group:
        for number in range(2):
            group.create_task(deep(number), name="in a group %d" % number)


async def timed():
    """Waits with a time limit."""
    async with asyncio.timeout(3000):
        await deep(1)


def task_of(coroutine, name=None):
    """A task, with a name where there are names."""
    loop = asyncio.get_running_loop()
    if sys.version_info < (3, 8) or name is None:
        return keep(loop.create_task(coroutine))
    return keep(loop.create_task(coroutine, name=name))


def keep(thing):
    """The same thing, which is never let go."""
    KEPT.append(thing)
    return thing


async def settle():
    """Lets all others run until each waits."""
    for _ in range(20):
        await asyncio.sleep(0)


def executor_waits():
    """Waits forever, in a thread of an executor."""
    threading.Event().wait()


async def reads_lines(reader):
    """Reads a stream on which nothing comes."""
    await reader.readline()


async def serves():
    """Two ends of a stream, each with a task that reads it."""
    taken = asyncio.get_running_loop().create_future()

    async def serve(reader, writer):
        keep((reader, writer))
        taken.set_result(1)
        await reads_lines(reader)

    server = keep(await asyncio.start_server(serve, "127.0.0.1", 0))
    reader, writer = keep(await asyncio.open_connection(*server.sockets[0].getsockname()[:2]))
    await taken
    keep(writer)
    task_of(reads_lines(reader), "reads a stream")


async def wait_in_all_ways():
    """Makes tasks that wait, each in a way of its own."""
    loop = asyncio.get_running_loop()
    locked, queue = keep(asyncio.Lock()), keep(asyncio.Queue())
    await locked.acquire()
    ways = {
        "deep": deep(12), "sleep": asyncio.sleep(3000), "event": asyncio.Event().wait(), "queue": queue.get(), "lock": enters(locked),
        "semaphore": enters(asyncio.Semaphore(0)), "executor": waits_for(loop.run_in_executor(None, executor_waits)),
        "gather": waits_for(asyncio.gather(forever(), deep(1))), "wait_for": asyncio.wait_for(deep(1), 3000),
        "shield": waits_for(asyncio.shield(deep(1))), "wait": asyncio.wait([task_of(deep(1), "waited for")]),
        "async for": goes_over(values()), "async for by hand": goes_over(Items()), "by generator": waits_for(by_generator()),
        "custom": waits_for(Custom()), "a line\nfeed, \"quotes\" <b>&": forever(), "zwei Wörter 日本 \U0001f40d": forever(),
        "": forever(), "stubborn": stubborn(),
    }
    tasks = {name: task_of(coroutine, name) for name, coroutine in ways.items()}
    task_of(waits_for(task_of(deep(3), "the other")), "waits for a task")
    keep(Own(deep(1), loop=loop))
    if sys.version_info >= (3, 11):
        task_of(grouped(), "grouped")
        task_of(timed(), "timed")
    if sys.version_info >= (3, 8):
        task_of(forever(), "before").set_name("renamed")
    await serves()
    await settle()
    tasks["stubborn"].cancel()


async def wait_eagerly():
    """Makes tasks that begin to run at once."""
    loop = asyncio.get_running_loop()
    keep(asyncio.Task(deep(2), loop=loop, eager_start=True, name="eager"))
    EAGER.append(keep(asyncio.Task(quick(), loop=loop, eager_start=True, name="eager and done")))


async def end_in_all_ways():
    """Makes tasks that are done."""
    task_of(quick(), "done")
    failed, cancelled = task_of(fails(), "failed"), task_of(forever(), "cancelled")
    await settle()
    failed.exception()
    cancelled.cancel()
    await settle()


def begin_others(done):
    """Makes tasks that are not waiting: such as never ran, and such as wait for what is done by now."""
    task_of(deep(1), "created")
    task_of(deep(1), "created, to be cancelled").cancel()
    done.set_result(1)
    KEPT[0].cancel()


def number_them():
    """Makes tasks without names, which are told by numbers."""
    if sys.version_info >= (3, 8):
        for _ in range(2):
            task, next_one = task_of(deep(1)), task_of(deep(1))
            word, number = next_one.get_name().split("-")
            NAMES[id(task)] = "%s-%d" % (word, int(number) - 1)


# ---- what is to be told


def name_of(task):
    """A task's name, where there are names."""
    return NAMES.get(id(task)) or (task.get_name() if sys.version_info >= (3, 8) else None)


def class_name(thing):
    """The name of its type as C has it."""
    own = type(thing)
    return "_asyncio." + own.__name__ if own.__module__ == "_asyncio" else own.__name__


def held_by(thing):
    """What an object holds that stands between two others; nothing where it is no such thing."""
    wanted = BETWEEN.get(type(thing).__name__)
    # (types of Cython have such names too)
    return None if wanted is None else next((it for it in gc.get_referents(thing) if isinstance(it, wanted)), None)


def frame_of(frame):
    """What is told of a frame."""
    return frame and {"name": frame.f_code.co_name, "filename": frame.f_code.co_filename, "line": frame.f_lineno}


def is_new(frame):
    """Whether a frame stands before its first instruction: on the line of its `def`, which no `await` here is on."""
    return frame.f_lineno == frame.f_code.co_firstlineno or frame.f_lasti < 0


def stop_of(frame, running):
    """How a chain ends at a member that awaits nothing."""
    return "finished" if frame is None else "running" if running else "created" if is_new(frame) else "yield"


def chain_of(thing):
    """The members of a chain from its last to its first, with their frames, and how it ends."""
    members = []
    while True:
        if type(thing) in AWAITS:
            kind, *words = AWAITS[type(thing)]
            awaited, frame, running = (getattr(thing, word) for word in words)
            members.append({"address": hex(id(thing)), "kind": kind, "frame": frame_of(frame)})
            if awaited is None:
                return {"end": {"kind": stop_of(frame, running)}, "members": members[::-1]}
        else:
            awaited = held_by(thing)
            is_future = isinstance(awaited, asyncio.Future) or awaited is None and type(thing) in (asyncio.Future, asyncio.Task)
            if is_future or awaited is None:
                end = {"kind": "future" if is_future else "object", "address": hex(id(thing if awaited is None else awaited))}
                return {"end": end, "members": members[::-1]}
            members.append({"address": hex(id(thing)), "kind": "between", "frame": None})
        thing = awaited


def told_of(task):
    """What is to be told of a task. (A pure one of Python's own is registered, and none of C's.)"""
    if not isinstance(task, asyncio.Task):
        return {"kind": "other", "address": hex(id(task)), "type": class_name(task)}
    waiter, loop, chain = task._fut_waiter, task._loop, chain_of(task._coro)
    state = "cancelled" if task.cancelled() else "finished" if task.done() else "pending"
    condition = condition_of(state, chain["end"]["kind"], waiter)
    return {
        "kind": "task", "address": hex(id(task)), "name": name_of(task), "state": state, "condition": condition, "chain": chain,
        "loop": hex(id(loop)), "must_cancel": task._must_cancel, "thread_id": getattr(loop, "_thread_id", None) if condition == "running" else None,
        "waiter": None if waiter is None else waiter_told(waiter),
    }


def condition_of(state, end, waiter):
    """What a task does."""
    if state != "pending":
        return "done"
    if end in ("running", "created"):
        return "running" if end == "running" else "not started"
    return "ready" if waiter is None or waiter.done() else "waiting"


def waiter_told(waiter):
    """What is to be told of what a task waits for."""
    state = "cancelled" if waiter.cancelled() else "finished" if waiter.done() else "pending"
    return {"address": hex(id(waiter)), "type": class_name(waiter), "state": state if isinstance(waiter, asyncio.Future) else None}


def all_of(loops):
    """All tasks that are registered: those that aren't done, and those that are and still there."""
    found = [task for loop in loops for task in asyncio.all_tasks(loop)]
    done = [it for it in gc.get_objects() if isinstance(it, asyncio.Task) and it.done()]
    return [*found, *(it for it in done if not any(it is other for other in EAGER))]


def stack_of_current():
    """The functions of the stack of the task that runs here, down to its coroutine; none where none runs."""
    task, frame, names = asyncio.current_task(), sys._getframe(1), []
    own = getattr(task and task._coro, "cr_frame", None)
    while own is not None and frame is not None:
        names.append(frame.f_code.co_name)
        frame = None if frame is own else frame.f_back
    return names


def end(loops):
    """Tells of all, and dies."""
    gc.collect()
    gc.disable()
    found = {"version": list(sys.version_info[:3]), "tasks": [told_of(it) for it in all_of(loops)], "stack": stack_of_current()}
    print(json.dumps(found), flush=True)
    os.abort()


# ---- how it dies


async def dies(loops):
    """Dies while it runs."""
    end(loops)


async def dies_in_another(loops):
    """The same; it is awaited."""
    await dies(loops)


async def in_another_thread(loops, ready):
    """A loop of another thread, with tasks of its own; it is ready once it waits for its selector."""
    loop = asyncio.get_running_loop()
    loops.append(loop)
    task_of(deep(3), "in another thread")
    task_of(waits_for(asyncio.gather(deep(1), deep(2))), "gathers in another thread")
    await settle()
    loop.call_soon(loop.call_soon, ready.set)
    await forever()


async def main(way):
    """Dies with all of it."""
    loop, ready = asyncio.get_running_loop(), threading.Event()
    loops, done = [loop], loop.create_future()
    keep(loop.create_future())
    threading.Thread(target=asyncio.run, args=(in_another_thread(loops, ready),), daemon=True).start()
    ready.wait()
    await wait_in_all_ways()
    await end_in_all_ways()
    if sys.version_info >= (3, 12):
        await wait_eagerly()
    number_them()
    task_of(waits_for(done), "waits for what is done")
    task_of(waits_for(KEPT[0]), "waits for what is cancelled")
    keep(asyncio.tasks._PyTask(deep(1), loop=loop))
    await settle()
    begin_others(done)
    if way == "running":
        await dies_in_another(loops)
    loop.call_soon(end, loops)
    await forever()


async def with_many(count):
    """Dies with so many tasks that wait, all at one place but a few."""
    for number in range(count):
        task_of(deep(number % 3), "worker %d" % number)
    await settle()
    print(json.dumps({"names": sorted(name_of(it) or "" for it in asyncio.all_tasks())}), flush=True)
    os.abort()


# ---- sub-interpreters

IN_SUB = """
import sys
sys.path.insert(0, %r)
sys.dont_write_bytecode = True
import tasks_child
tasks_child.run_in_sub(%d, %d)
"""


async def waits_in_sub(number, told):
    """Waits with tasks, of which it tells by a pipe once it waits."""
    loop = asyncio.get_running_loop()
    task_of(deep(number), "of sub-interpreter %d" % number)
    task_of(waits_for(asyncio.gather(deep(1), forever())), "gathers in sub-interpreter %d" % number)
    await settle()

    def tell():
        data = json.dumps([told_of(it) for it in asyncio.all_tasks(loop)]).encode() + b"\n"
        os.write(told, data)

    loop.call_soon(loop.call_soon, tell)
    await forever()


def run_in_sub(number, told):
    """Runs a loop in a sub-interpreter, in a thread of a number of its own: up to 3.11 asyncio knows which loop runs by that."""
    for _ in range(3 + number):
        before = threading.Thread(target=int)
        before.start()
        before.join()
    own = threading.Thread(target=asyncio.run, args=(waits_in_sub(number, told),))
    own.start()
    own.join()


def run_subs(count):
    """Sub-interpreters that wait; what each tells of its tasks. (3.7 as it is built here has none.)"""
    try:
        import _interpreters as subs
    except ImportError:
        try:
            import _xxsubinterpreters as subs
        except ImportError:
            return []
    source, told = os.pipe()
    lines = os.fdopen(source)
    found = []
    for number in range(count):
        try:
            own = keep(subs.create(isolated=False))
        except TypeError:
            own = keep(subs.create())
        words = IN_SUB % (os.path.dirname(os.path.abspath(__file__)), number, told)
        threading.Thread(target=subs.run_string, args=(own, words), daemon=True).start()
        found.append(json.loads(lines.readline()))
    return found


def end_beside(found):
    """Tells of the tasks of the main interpreter too, and dies."""
    own = [told_of(it) for it in asyncio.all_tasks()]
    print(json.dumps({"version": list(sys.version_info[:3]), "interpreters": [own, *found]}), flush=True)
    os.abort()


async def with_subs(count):
    """Dies beside sub-interpreters that have loops."""
    found = run_subs(count)
    task_of(deep(1), "of the main interpreter")
    await settle()
    end_beside(found)


# ---- at full speed


async def rests():
    """Lets others run."""
    await asyncio.sleep(0)


async def steps(left):
    """Awaits so many of itself, and rests."""
    if left:
        await steps(left - 1)
    else:
        await rests()


async def works(number, own, other):
    """Rests, and takes what another one hands over, on and on."""
    while True:
        await steps(number % 3)
        other.put_nowait(number)
        await own.get()


async def at_full_speed(count):
    """Runs until it is killed."""
    queues = [asyncio.Queue() for _ in range(count)]
    for number in range(count):
        task_of(works(number, queues[number], queues[number - 1]), "worker %d" % number)
    await settle()
    print("ready", flush=True)
    await forever()


# ---- other loops


async def over_uvloop():
    """Dies over a loop that is written in Cython."""
    import socket

    loop = asyncio.get_running_loop()
    ours, theirs = keep(socket.socketpair())
    ours.setblocking(False)
    task_of(loop.sock_recv(ours, 1), "waits for a socket")
    task_of(asyncio.sleep(3000), "sleeps")
    task_of(waits_for(asyncio.gather(deep(1), deep(2))), "gathers")
    task_of(enters(asyncio.Semaphore(0)), "semaphore")
    await serves()
    await settle()
    await dies_in_another([loop])


RUNS = {"many": with_many, "subs": with_subs, "speed": at_full_speed}


def begin():
    """Does what the words say."""
    holds, way, count = sys.argv[1:]
    with open("/proc/self/coredump_filter", "w") as file:
        file.write(holds)
    if way == "uvloop":
        import uvloop

        asyncio.set_event_loop_policy(uvloop.EventLoopPolicy())
        asyncio.run(over_uvloop())
    asyncio.run(RUNS[way](int(count)) if way in RUNS else main(way))


if __name__ == "__main__":
    begin()
