"""Objects by the thousand, of which the process says before it dies how many it has of each class, and how many bytes by `sys.getsizeof`.
`heap_child.py frozen` dies behind `gc.freeze`, `garbage` with cycles that nothing refers to, `collecting` in a callback of the collector."""

import gc
import json
import os
import sys

MANY = 3000


class Slotted:
    __slots__ = ("one", "two", "__weakref__")

    def __init__(self, one):
        self.one = one
        self.two = []


class Pair(tuple):
    __slots__ = ()


class Rows(list):
    __slots__ = ()


class Table(dict):
    __slots__ = ()


class Names(set):
    pass


class Fewer(Names):
    __slots__ = ()


class Fixed(frozenset):
    __slots__ = ()


class Plain:
    def __init__(self, number):
        self.number = number
        self.rows = []


class Kind(type):
    """Classes of which all have one sort of instances, whose dicts share their keys."""


class Ring:
    def __init__(self):
        self.own = self


def census(classes):
    """How many objects the collector tracks of some classes, and how many bytes they have."""
    found = {it: [0, 0] for it in classes}
    for it in gc.get_objects():
        row = found.get(type(it))
        if row is not None:
            row[0] += 1
            row[1] += sys.getsizeof(it)
    return {it.__name__: row for it, row in found.items()}


def largest(kind):
    """The three largest objects of a class, by their addresses: most bytes first, then by address."""
    rows = sorted((-sys.getsizeof(it), id(it)) for it in gc.get_objects() if type(it) is kind)
    return [[number, -size] for size, number in rows[:3]]


def told(kind):
    """What is said."""
    rows = census((Slotted, Pair, Rows, Table, Names, Fewer, Fixed, Kind, Plain, Ring, dict, list))
    # (its address lets a copy of the core be torn at its head. 3.12 has frozen some objects before it runs a program.)
    return json.dumps({"kind": kind, "classes": rows, "all": len(gc.get_objects()), "frozen": gc.get_freeze_count(),
                       "middle": id(KEPT[len(KEPT) // 2]),
                       "largest": {it.__name__: largest(it) for it in (Slotted, Pair, Rows, Table, Names, Fewer, Fixed)}})


def dies(phase, info):
    if phase == "start":
        os.abort()


gc.disable()
KIND = sys.argv[1]
KEPT = [Slotted(it) for it in range(MANY)]
PAIRS = [Pair((it, [], it)) for it in range(MANY // 2)]
ROWS = [Rows(range(it % 50)) for it in range(MANY // 3)]
TABLES = [Table((number, [number]) for number in range(it % 40)) for it in range(MANY // 3)]
NAMED = [Table((str(number), []) for number in range(it % 40)) for it in range(MANY // 3)]
# (up to four elements stand in a set's own block, sets of more have a table; some had one and were emptied)
NAMES = [Names(range(it % 50)) for it in range(MANY // 3)]
FEWER = [Fewer(str(number) for number in range(it % 9)) for it in range(MANY // 3)]
FIXED = [Fixed(range(it % 70)) for it in range(MANY // 3)]
for it in NAMES[::7]:
    it.clear()
PLAIN = [Plain(it) for it in range(MANY)]
# (each keeps the keys of its instances' dicts; `sys.getsizeof` has them with the class, and with no dict)
KINDS = [Kind(f"Made{it}", (), {}) for it in range(100)]
SHARING = [kind() for kind in KINDS for _ in range(5)]
for number, it in enumerate(SHARING):
    it.one, it.two = number, [number]
for _ in range(MANY // 4):
    Ring()
if KIND != "garbage":
    gc.collect()
if KIND == "frozen":
    TEXT = told(KIND)
    gc.freeze()
else:
    TEXT = told(KIND)
sys.stdout.write(TEXT + "\n")
sys.stdout.flush()
if KIND == "collecting":
    gc.callbacks.append(dies)
    gc.collect()
os.abort()
