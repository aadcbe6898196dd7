"""A service of worker threads that dies by one of twelve bugs: `fleet_child.py BUG SEED`.

By the seed it has other workers and other requests each time, and a recursion is of another depth, so that only the bug is
the same. Two bugs may die by the same signal, and some stand in the same function at other lines.
"""

import ctypes
import json
import mmap
import os
import queue
import random
import signal
import sys
import tempfile
import threading
import time

BUG, SEED = sys.argv[1], int(sys.argv[2])
CHANCE = random.Random(SEED)
LIBC = ctypes.CDLL(None)
REQUESTS = queue.Queue()
TOOK = threading.Event()


def read_at(address):
    """Reads a text where nothing is."""
    return LIBC.strlen(ctypes.c_void_p(address))


def raised(number):
    """Has the thread that asks get a signal."""
    signal.raise_signal(number)


def receipt(request):
    if BUG == "receipt":
        return read_at(request["address"])
    if BUG == "receipt-late":
        return read_at(request["address"] + 8)
    return request["address"]


def discount(request, steps):
    if steps > 0:
        return discount(request, steps - 1)
    if BUG == "recursion":
        return read_at(8)
    return steps


def parsed(request, steps):
    return listed(request, steps - 1) if steps else leaf(request)


def listed(request, steps):
    return parsed(request, steps - 1) if steps else leaf(request)


def leaf(request):
    if BUG == "parser":
        os.abort()
    return request["number"]


def price(request):
    if BUG == "price":
        raised(signal.SIGFPE)
    return request["number"]


def mapped_file(request):
    if BUG != "mapped":
        return 0
    with tempfile.TemporaryFile() as file:
        file.write(bytes(mmap.PAGESIZE))
        file.flush()
        view = mmap.mmap(file.fileno(), mmap.PAGESIZE)
        file.truncate(0)
        return view[0]


def ordered(request):
    if BUG == "ordered":
        return sorted(range(request["number"] + 2), key=lambda it: read_at(16) if it else 0)
    return []


class Odd:
    """What JSON can't write."""


def as_json(it):
    return raised(signal.SIGILL)


def written(request):
    return json.dumps({"request": request, "odd": Odd()} if BUG == "json" else request, default=as_json)


COMPARE = ctypes.CFUNCTYPE(ctypes.c_int, ctypes.c_void_p, ctypes.c_void_p)


def compared(one, other):
    os.abort()


def sorted_by_c(request):
    if BUG == "callback":
        numbers = (ctypes.c_int * 4)(4, 3, 2, 1)
        LIBC.qsort(numbers, 4, ctypes.sizeof(ctypes.c_int), COMPARE(compared))


def closed(request):
    try:
        return request["number"]
    finally:
        if BUG == "finally":
            os.abort()


def served(request):
    receipt(request)
    discount(request, CHANCE.randint(5, 400) if BUG == "recursion" else 2)
    parsed(request, 2 * CHANCE.randint(5, 200) if BUG == "parser" else 2)
    for step in (price, mapped_file, ordered, written, sorted_by_c, closed):
        step(request)


def worker():
    while True:
        request = REQUESTS.get()
        if request["is_last"]:
            served(request)
            TOOK.set()
        time.sleep(request["number"] / 10000)


def idle():
    while True:
        time.sleep(CHANCE.random())


def watch():
    """The main thread, which sees that nothing is done."""
    TOOK.wait(20)
    time.sleep(0.02)
    if BUG == "watch":
        os.abort()
    time.sleep(30)


def main():
    with open("/proc/self/coredump_filter", "w") as file:
        file.write("0x33")
    if BUG == "exit":
        CHANCE.seed(SEED)
    for number in range(CHANCE.randint(2, 9)):
        threading.Thread(target=CHANCE.choice((worker, worker, idle)) if number else worker, name="worker-%d" % number, daemon=True).start()
    for number in range(CHANCE.randint(1, 6)):
        REQUESTS.put({"number": CHANCE.randint(1, 9), "address": CHANCE.randint(1, 99), "is_last": False})
    REQUESTS.put({"number": 3, "address": 64, "is_last": True})
    if BUG == "exit":
        raised(signal.SIGSEGV)
    watch()


if __name__ == "__main__":
    main()
