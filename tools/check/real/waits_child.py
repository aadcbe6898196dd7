"""Threads that wait, of which the process says before it dies what each waits for: an object by its address, who holds it, or the
interpreter's lock. `waits_child.py ring` has three threads that wait for each other's reentrant locks, `many` sixty that wait for the
interpreter's lock."""

import json
import os
import sys
import threading
import time

try:
    import queue
except ImportError:
    import Queue as queue

LONG = 1000
TOLD = {}
BEGUN = threading.Semaphore(0)


def begin(target, *args):
    """A thread that runs this, once it has begun."""
    thread = threading.Thread(target=target, args=args)
    thread.daemon = True
    thread.start()
    BEGUN.acquire()
    return thread


def tell(thread, kind, thing=None, owner=None):
    """Notes what a thread waits for."""
    TOLD[thread.ident] = {"kind": kind, "address": None if thing is None else id(thing), "owner": owner}


def acquires(lock):
    BEGUN.release()
    lock.acquire()


def enters(lock):
    BEGUN.release()
    with lock:
        pass


def calls(function, *args):
    BEGUN.release()
    function(*args)


def is_there(give):
    """What is there after a while: a lock of a thread that has begun to wait."""
    for _ in range(1000):
        found = give()
        if found:
            return found[0]
        time.sleep(0.01)
    raise SystemExit("no thread began to wait")


def busy():
    BEGUN.release()
    while True:
        pass


def simple():
    """Each kind of wait."""
    lock = threading.Lock()
    lock.acquire()
    tell(begin(acquires, lock), "lock", lock)
    tell(begin(enters, lock), "lock", lock)
    rlock = threading.RLock()
    rlock.acquire()
    owner = threading.current_thread().ident
    tell(begin(acquires, rlock), "rlock", rlock, owner)
    tell(begin(enters, rlock), "rlock", rlock, owner)
    for condition in (threading.Condition(), threading.Condition(threading.Lock())):
        def waits(condition=condition):
            with condition:
                BEGUN.release()
                condition.wait()
        thread = begin(waits)
        tell(thread, "lock", is_there(lambda: condition._waiters))
    event = threading.Event()
    tell(begin(calls, event.wait), "lock", is_there(lambda: event._cond._waiters))
    timed = threading.Event()
    tell(begin(calls, timed.wait, LONG), "lock", is_there(lambda: timed._cond._waiters))
    empty = queue.Queue()
    tell(begin(calls, empty.get), "lock", is_there(lambda: empty.not_empty._waiters))
    full = queue.Queue(1)
    full.put(1)
    tell(begin(calls, full.put, 2), "lock", is_there(lambda: full.not_full._waiters))
    semaphore = threading.Semaphore(0)
    tell(begin(calls, semaphore.acquire), "lock", is_there(lambda: semaphore._cond._waiters))
    barrier = threading.Barrier(2)
    tell(begin(calls, barrier.wait), "lock", is_there(lambda: barrier._cond._waiters))
    held = threading.Lock()
    held.acquire()
    tell(begin(calls, held.acquire, True, LONG), "lock", held)
    if hasattr(queue, "SimpleQueue"):
        simple = queue.SimpleQueue()
        tell(begin(calls, simple.get), "queue", simple)
    sleeper = begin(calls, time.sleep, LONG)
    tell(sleeper, "none")
    joined = begin(calls, sleeper.join)
    if hasattr(sleeper, "_tstate_lock"):
        tell(joined, "lock", sleeper._tstate_lock)
    else:
        tell(joined, "none")
    tell(begin(calls, os.read, os.pipe()[0], 1), "none")
    tell(threading.current_thread(), "none")


def ring():
    """Three threads, each of which holds a reentrant lock that another one waits for."""
    locks = [threading.RLock() for _ in range(3)]
    gate = threading.Barrier(3)

    def turn(number):
        with locks[number]:
            gate.wait()
            BEGUN.release()
            with locks[(number + 1) % 3]:
                pass

    threads = [threading.Thread(target=turn, args=(number,)) for number in range(3)]
    for it in threads:
        it.daemon = True
        it.start()
    for _ in threads:
        BEGUN.acquire()
    for number, it in enumerate(threads):
        tell(it, "rlock", locks[(number + 1) % 3], threads[(number + 1) % 3].ident)
    tell(threading.current_thread(), "none")


def many():
    """Sixty threads that wait for the interpreter's lock."""
    for _ in range(60):
        tell(begin(busy), "gil")
    tell(threading.current_thread(), "none")


def die():
    """Says all, and aborts, with the interpreter's lock held."""
    print(json.dumps(TOLD))
    sys.stdout.flush()
    os.abort()


{"simple": simple, "ring": ring, "many": many}[sys.argv[1] if len(sys.argv) > 1 else "simple"]()
time.sleep(0.5)
die()
