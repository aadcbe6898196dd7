"""Keeps values of every kind in locals, says what they are, and dies by an abort: a child of real_values.py.

It runs in each Python from 2.7 on. What it says is one line of JSON: of each local its kind, its text as `repr` has it, none where
the text shown is in another form, and its tree as pysalvage's JSON has it, as far as that can be known within the process. A
container deeper than DEEPEST has none.
"""

from __future__ import print_function

import json
import os
import resource
import struct
import sys

IS_2 = sys.version_info[0] == 2
DEEPEST = 13
"""How deep trees are said: deeper than any value is shown by the levels that are asked for here."""

EXACT = 2 ** 53
LONG_TYPE = type(2 ** 70)
"""Python 2's `long`."""

LONG = 3300
"""Integers of fewer bits are told exactly, and of others how many digits they have."""


class Plain(object):
    """A class of its own."""


class Derived(int):
    """A class whose objects are integers too."""


class Order(object):
    """A class whose objects have attributes."""

    shared = "the class's own"


class Taken(object):
    """One whose objects' dicts are asked for."""


class Lessened(object):
    """One whose objects lose attributes."""


class Many(object):
    """One whose objects have more than are shown."""


class Odd(object):
    """One whose objects have names that are no identifiers."""


class Slotted(object):
    """One whose objects have no dict."""

    __slots__ = ("kept",)


class Both(object):
    """One whose objects have a dict too."""

    __slots__ = ("kept", "__dict__")


class Meta(type):
    """A class of classes."""


ASYNC = """
class Pause(object):
    def __await__(self):
        yield

async def fetch():
    await Pause()

async def rows():
    yield 1
    yield 2
"""
"""What Pythons before 3.6 don't compile."""

STATES = {}
"""How far coroutines, generators and async generators have come, by their addresses."""

PAUSED = {"generator": "generator", "coroutine": "coroutine", "async_generator": "async generator"}
"""The kinds of these, by the names of their types."""

SAID = {}
"""The attributes of objects, by their addresses: asking an object for its dict would change how it holds them."""


def with_attributes(value, *own):
    """An object with these attributes, set one after the other."""
    for name, it in own:
        setattr(value, name, it)
    SAID[id(value)] = (value, list(own))
    return value


def without(value, name):
    """The same object without an attribute."""
    delattr(value, name)
    SAID[id(value)] = (value, [it for it in attributes_of(value) if it[0] != name])
    return value


def attributes_of(value):
    """The attributes that were set."""
    return SAID.get(id(value), (value, []))[1]


def counted():
    """A generator."""
    yield 1
    yield 2


def delegating():
    """A generator that stands in a `yield from`, where there is such; else in a plain one."""
    own = {"counted": counted}
    exec("def outer():\n    yield from counted()\n" if not IS_2 else "def outer():\n    yield 1\n", own)
    return own["outer"]()


def come(value, state, name=None):
    """The same coroutine, generator or async generator, which has come so far; with another name, where one is said."""
    if name is not None and not IS_2:
        value.__name__ = name
    STATES[id(value)] = state
    return value


def stepped(value):
    """The same generator one step further, or the same coroutine or async generator."""
    begun = value if hasattr(value, "send") else value.asend(None)
    try:
        begun.send(None)
    except StopIteration:
        pass
    return value


def finished(value):
    """The same generator at its end, or the same coroutine or async generator."""
    for _ in range(3):
        try:
            stepped(value)
        except Exception:
            pass
    return value


def of_async():
    """Coroutines and async generators, by names, where there are such."""
    if sys.version_info < (3, 6):
        return {}
    own = {}
    exec(ASYNC, own)
    fetch, rows = own["fetch"], own["rows"]
    return {
        "coroutine_created": come(fetch(), "created"), "coroutine_suspended": come(stepped(fetch()), "suspended"),
        "coroutine_finished": come(finished(fetch()), "finished"), "coroutine_renamed": come(fetch(), "created", "a b: running>"),
        "rows_created": come(rows(), "created"), "rows_suspended": come(stepped(rows()), "suspended"),
        "rows_finished": come(finished(rows()), "finished"),
    }


def data_object():
    """An object of a dataclass, where there are such."""
    try:
        from dataclasses import make_dataclass
    except ImportError:
        return with_attributes(Plain(), ("x", 1), ("y", 2.5))
    return with_attributes(make_dataclass("Data", ["x", "y"])(0, 0), ("x", 1), ("y", 2.5))


def plain_function():
    """A function."""


def hexadecimal(number):
    """An address, or bits."""
    return "0x%x" % number


def bits_of(number):
    """The bits of a float."""
    return struct.unpack("<Q", struct.pack("<d", number))[0]


def part(number):
    """A part of a complex number."""
    return {"bits": hexadecimal(bits_of(number)), "text": repr(number)}


def integer_tree(number, kind):
    """The tree of an integer."""
    if number.bit_length() > LONG:
        return {"kind": kind, "digits": (number.bit_length() + 29) // 30, "negative": number < 0, "value": None}
    return {"kind": kind, "value": number if abs(number) <= EXACT else str(number)}


def characters(text):
    """A text without surrogates."""
    return u"".join(u"\ufffd" if u"\ud800" <= it <= u"\udfff" else it for it in text)


def hex_text(front):
    """Bytes in hexadecimal digits."""
    return "".join("%02x" % it for it in bytearray(front))


def items_tree(kind, items, depth):
    """The tree of a container."""
    return {"kind": kind, "items": [tree_of(it, depth + 1) for it in items], "more": 0}


def single_tree(value):
    """The tree of one of the objects that are alone of their kind, or none."""
    for kind, one in (("none", None), ("ellipsis", Ellipsis), ("not implemented", NotImplemented)):
        if value is one:
            return {"kind": kind}
    return {"kind": "bool", "value": value} if isinstance(value, bool) else None


def number_tree(value):
    """The tree of a number, or none."""
    if IS_2 and isinstance(value, LONG_TYPE):
        return integer_tree(value, "long")
    if isinstance(value, int):
        return integer_tree(int(value), "int")
    if isinstance(value, float):
        return {"kind": "float", "bits": hexadecimal(bits_of(value)), "text": repr(value)}
    if isinstance(value, complex):
        return {"kind": "complex", "real": part(value.real), "imaginary": part(value.imag)}
    return None


def text_tree(value):
    """The tree of a text or of bytes, or none."""
    if isinstance(value, bytearray):
        return {"kind": "bytearray", "hex": hex_text(value), "length": len(value)}
    if isinstance(value, bytes):
        return {"kind": "byte string" if IS_2 else "bytes", "hex": hex_text(value), "length": len(value)}
    if isinstance(value, type(u"")):
        return {"kind": "unicode" if IS_2 else "str", "value": characters(value), "length": len(value)}
    return None


def container_tree(value, depth):
    """The tree of a container, or none."""
    if isinstance(value, dict):
        pairs = [[tree_of(key, depth + 1), tree_of(it, depth + 1)] for key, it in value.items()]
        return {"kind": "dict", "items": pairs, "more": 0}
    for kind in (list, tuple, set, frozenset):
        if isinstance(value, kind):
            return items_tree(kind.__name__, value, depth)
    if isinstance(value, (slice, range if not IS_2 else slice)):
        return items_tree(type(value).__name__, (value.start, value.stop, value.step), depth)
    if type(value).__name__ == "cell":
        return items_tree("cell", (value.cell_contents,), depth)
    return None


def tree_of(value, depth=0):
    """The tree of a value."""
    if depth > DEEPEST:
        return None
    tree = single_tree(value) or number_tree(value) or text_tree(value) or container_tree(value, depth)
    if tree is not None:
        return tree
    if isinstance(value, type):
        return {"kind": "class", "name": value.__name__, "address": hexadecimal(id(value))}
    if id(value) in STATES:
        return {"kind": PAUSED[type(value).__name__], "name": value.__name__, "state": STATES[id(value)], "address": hexadecimal(id(value))}
    tree = {"kind": "object", "type": type(value).__name__, "address": hexadecimal(id(value))}
    if attributes_of(value):
        pairs = [[tree_of(name, depth + 1), tree_of(it, depth + 1)] for name, it in attributes_of(value)]
        tree.update({"kind": "instance", "attributes": pairs, "more": 0})
    return tree


ALIKE = (type(None), bool, float, complex, bytes, bytearray, type(u""), type(Ellipsis), type(NotImplemented))
"""Types whose values are written as `repr` writes them."""


def is_alike(value, depth=0):
    """Whether a value is written as `repr` writes it."""
    if depth > DEEPEST:
        return False
    if isinstance(value, ALIKE) or type(value) in (int, LONG_TYPE):
        return True
    if type(value) in (list, tuple, set, frozenset):
        return all(is_alike(it, depth + 1) for it in value)
    if type(value) is dict:
        return all(is_alike(key, depth + 1) and is_alike(it, depth + 1) for key, it in value.items())
    return type(value) is slice and all(is_alike(it) for it in (value.start, value.stop, value.step))


def instance_text(value):
    """The text of an object whose attributes are written as `repr` writes them, none of another one."""
    own = attributes_of(value)
    if not own or not all(is_alike(it) for _, it in own):
        return None
    parts = ["%s=%r" % (name if name.replace("_", "a").isalnum() and not name[0].isdigit() else repr(name), it) for name, it in own]
    return "<%s at %s: %s>" % (type(value).__name__, hexadecimal(id(value)), ", ".join(parts))


def paused_text(value):
    """The text of a coroutine, a generator or an async generator."""
    name = value.__name__
    shown = name if all(it not in " '\"" for it in name) else repr(name)
    return "<%s %s at %s: %s>" % (type(value).__name__, shown, hexadecimal(id(value)), STATES[id(value)])


def said_of(value):
    """What is said of a value."""
    if id(value) in STATES:
        return {"text": paused_text(value), "tree": tree_of(value)}
    if attributes_of(value):
        return {"text": instance_text(value), "tree": tree_of(value)}
    if isinstance(value, Derived):
        return {"text": None, "tree": integer_tree(int(value), "int")}
    huge = isinstance(value, (int, LONG_TYPE)) and abs(value).bit_length() > LONG
    return {"text": repr(value) if is_alike(value) and not huge else None, "tree": tree_of(value)}


def held():
    """A cell that holds a text."""
    within = "in a cell"

    def inner():
        return within

    return inner.__closure__[0]


def keep(running):
    """Keeps the values, says what they are, and dies."""
    nothing, yes, no, dots, not_there = None, True, False, Ellipsis, NotImplemented
    zero, one, minus, small, large = 0, 1, -1, 2 ** 30 - 1, 2 ** 30
    exact, past, time_ns, minus_large = EXACT, EXACT + 1, 1764547200123456789, -2 ** 60
    wide, widest, too_wide, minus_too_wide = 2 ** 200 + 7, 2 ** LONG - 1, 2 ** (LONG + 90), -2 ** (LONG + 90)
    derived = Derived(5)
    half, tenth, tiny, vast, whole = 1.5, 0.1, 1e-05, 1e16, 3.0
    minus_zero, endless, minus_endless, no_number = -0.0, float("inf"), float("-inf"), float("nan")
    least, long_float = 5e-324, 0.1 + 0.2
    square, only_imaginary = complex(1.5, -2.0), complex(0.0, 1e-05)
    empty, word, apostrophe, both = "", "word", "it's", "it's \"both\""
    lines, controls = "a\nb\tc\rd\\e", "\x00\x1b\x7f"
    latin, greek, kanji = u"\xe4\xff", u"\u03b1\u2028", u"\u65e5\u672c"
    lone, snake = u"a\ud800b", u"\U0001f40d"
    long_text, forged = "x" * 5000, "x\", y: \"z"
    no_bytes, some_bytes, all_bytes, long_bytes = b"", b"it's\x00\xff", bytes(bytearray(range(256))), b"ab" * 3000
    array, long_array = bytearray(b"it's\x01"), bytearray(b"z" * 2000)
    no_items, items, nested, long_list = [], [1, "two", 3.0], [[1, [2, [3, [4, [5]]]]], []], list(range(1000))
    itself = [1]
    itself.append(itself)
    no_tuple, single, pair = (), (1,), ("a", u"b")
    no_set, one_set, numbers, frozen, no_frozen = set(), set(["a"]), set([1, 2, 3]), frozenset([1]), frozenset()
    no_dict, mapping, long_dict = {}, {"Authorization": "Bearer x", 2: [1]}, dict((it, str(it)) for it in range(200))
    within_itself = {}
    within_itself["self"] = within_itself
    steps, plain_range, piece, whole_piece = range(1, 10, 2), range(5), slice(1, None, 2), slice(None)
    cell, kind, own_kind, plain, other = held(), dict, Plain, Plain(), object()
    function, built_in, module = plain_function, len, json
    order = with_attributes(Order(), ("id", 7), ("items", [1, 2]), ("text", "it's"))
    taken = with_attributes(Taken(), ("a", 1), ("b", None))
    taken.__dict__["c"] = 3
    SAID[id(taken)][1].append(("c", 3))
    lessened = without(with_attributes(Lessened(), ("a", 1), ("b", 2), ("c", 3)), "b")
    emptied = without(with_attributes(Lessened(), ("a", 1)), "a")
    many = with_attributes(Many(), *[("n%d" % it, it) for it in range(100)])
    odd = with_attributes(Odd(), ("a b", 1), ("x=1, y", 2), ("1a", 3), ("it's", 4))
    slotted, with_both, data = Slotted(), with_attributes(Both(), ("own", 2)), data_object()
    slotted.kept = with_both.kept = 1
    by_meta = with_attributes(Meta("ByMeta", (object,), {"shared": 1})(), ("own", 2))
    holding = with_attributes(Order(), ("inner", order), ("others", [data, {"k": by_meta}]))
    looped = with_attributes(Taken(), ("a", 1))
    looped.itself = looped
    SAID[id(looped)][1].append(("itself", looped))
    error = with_attributes(ValueError("x"), ("note", 1))
    created, suspended, done = come(counted(), "created"), come(stepped(counted()), "suspended"), come(finished(counted()), "finished")
    within_another, renamed = come(stepped(delegating()), "suspended"), come(stepped(counted()), "suspended", "x at 0x1: running>")
    expression = come((it for it in (1, 2)), "created")
    paused = of_async()
    coroutine_created, coroutine_suspended = paused.get("coroutine_created"), paused.get("coroutine_suspended")
    coroutine_finished, coroutine_renamed = paused.get("coroutine_finished"), paused.get("coroutine_renamed")
    rows_created, rows_suspended, rows_finished = paused.get("rows_created"), paused.get("rows_suspended"), paused.get("rows_finished")
    in_a_list = [created, suspended, done]
    check_states()
    tell(dict(locals()))
    os.abort()


def check_states():
    """Fails where `inspect` has it otherwise that something has come so far."""
    import gc
    import inspect
    told = {"generator": "getgeneratorstate", "coroutine": "getcoroutinestate", "async_generator": "getasyncgenstate"}
    for value in gc.get_objects():
        ask = getattr(inspect, told.get(type(value).__name__, ""), None)
        if ask is not None and id(value) in STATES:
            state = ask(value).split("_")[-1].lower()
            assert {"closed": "finished"}.get(state, state) == STATES[id(value)], (value, state)


def run(own):
    """A generator that runs while its values are kept."""
    yield keep(own[0])


def said_of_local(name, value):
    """What is said of a local: of its value, of what type that is, and whether it is an argument."""
    code = keep.__code__
    is_argument = name in code.co_varnames[:code.co_argcount]
    return dict(said_of(value), type=type(value).__name__, is_argument=is_argument)


def tell(own):
    """Says what some locals are."""
    print(json.dumps(dict((name, said_of_local(name, value)) for name, value in own.items())))
    sys.stdout.flush()


def main():
    """The command: its one argument is what the core holds, as the system's coredump_filter has it."""
    with open("/proc/self/coredump_filter", "w") as file:
        file.write(sys.argv[1])
    hard = resource.getrlimit(resource.RLIMIT_CORE)[1]
    resource.setrlimit(resource.RLIMIT_CORE, (hard, hard))
    own = []
    own.append(come(run(own), "running"))
    next(own[0])


if __name__ == "__main__":
    main()
