"""A service whose threads wait for each other, and which leaves a core.

    python3 examples/bank.py

Two transfers lock both of their accounts, each in the other's order. The main thread sees that they take too long, and
aborts. The kernel writes the core as /proc/sys/kernel/core_pattern says, most often into this folder.
"""

import os
import resource
import threading
import time

locks = {"alice": threading.RLock(), "bob": threading.RLock()}
balance = {"alice": 100, "bob": 50}
both = threading.Barrier(2)


def transfer(source, target, amount):
    with locks[source]:
        both.wait()
        with locks[target]:
            balance[source] -= amount
            balance[target] += amount


def watch(limit):
    started = time.monotonic()
    while threading.active_count() > 1:
        if time.monotonic() - started > limit:
            os.abort()
        time.sleep(0.1)


hard = resource.getrlimit(resource.RLIMIT_CORE)[1]
resource.setrlimit(resource.RLIMIT_CORE, (hard, hard))
threading.Thread(target=transfer, args=("alice", "bob", 10), name="transfer-1").start()
threading.Thread(target=transfer, args=("bob", "alice", 20), name="transfer-2").start()
watch(1)
