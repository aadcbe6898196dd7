"""Run by the interpreter that is asked, of 2.7 or 3: finds fields of records in its own memory by what they must hold.

Objects are made of which it is known what they hold. A field stands where each of them holds what it must: at one
place, or it isn't told. A line `key number width` answers each, or `key ! reason`. It needs no header and no debug
information, so it is the second source where there is one of these, and the only one where there is none.
"""

import gc
import os
import sys
import weakref

# (an interpreter that is run alone doesn't look beside the script; nothing is left behind)
sys.dont_write_bytecode = True
sys.path.insert(0, os.path.dirname(os.path.abspath(__file__)))

from probe_memory import (
    SECTIONS, THREE, TWO, Found, answers_of, cases, has_version, module_named, number_at, signed, text_at, word_at,
    words_at, written)


class Outer(object):
    """Classes whose qualified name is another text than their name."""

    class Plain(object):
        """Has a dict."""

    class Slotted(object):
        """Has slots, in the order of their names."""

        __slots__ = ("a_one", "b_two", "c_three")


def referents_of(it):
    """The objects that another holds."""
    return gc.get_referents(it)


# ---- types and what describes members

@cases(TWO)
def of_types(found):
    """type"""
    size = type.__basicsize__
    kinds = (list, OSError, dict, type, tuple, int, set)
    for kind in kinds:
        at = id(kind)
        found.holds("type.basicsize", at, size, kind.__basicsize__, first=24)
        found.holds("type.itemsize", at, size, kind.__itemsize__, first=24)
        found.holds("type.flags", at, size, kind.__flags__, first=24)
        found.holds("type.weaklist", at, size, signed(kind.__weakrefoffset__), first=24)
        found.holds("type.dictoffset", at, size, signed(kind.__dictoffset__), first=24)
    for kind in (Outer.Plain, Outer.Slotted, type("Third", (Outer.Plain, list), {})):
        found.holds("type.base", id(kind), size, id(kind.__base__))
        found.holds("type.bases", id(kind), size, id(kind.__bases__))
        found.holds("type.mro", id(kind), size, id(kind.__mro__))
        found.holds("type.dict", id(kind), size, id(referents_of(kind.__dict__)[0]))
    for key, kind, wrapper in (
        ("repr", list, list.__repr__), ("repr", dict, dict.__repr__), ("repr", float, float.__repr__),
        ("str", OSError, (OSError if has_version(3, 3) else EnvironmentError).__dict__["__str__"]),
        ("str", KeyError, KeyError.__dict__["__str__"]),
    ):
        # (the last word of what wraps a slot is the function)
        function = word_at(id(wrapper) + type(wrapper).__basicsize__ - 8)
        found.holds("type." + key, id(kind), size, function, first=24)
    of_tables(found, size)


def of_tables(found, size):
    """The tables of a type, by the names of their first entries."""
    members, getset = type.__dict__["__basicsize__"], type.__dict__["__module__"]
    kinds = {"methods": type(list.append), "members": type(members), "getset": type(getset)}
    for key, kind, in (("methods", list), ("methods", dict), ("members", type), ("getset", type)):
        names = [name for name, it in kind.__dict__.items() if type(it) is kinds[key]]
        found.points("type." + key, id(kind), size, lambda at: text_at(word_at(at)) in names, first=24)


@cases(THREE)
def of_heap_types(found):
    """heap_type"""
    size = type.__basicsize__
    found.size("heap_type", type)
    for kind in (Outer.Plain, Outer.Slotted):
        found.holds("heap_type.qualname", id(kind), size, id(kind.__qualname__))
    for name in ("One", "Two"):
        kind = type(name, (object,), {})
        it = kind()
        it.first, it.second = 1, 2
        held = it.__dict__
        words = set(words_at(id(held) + 16, dict.__basicsize__ - 16))
        found.keep("heap_type.cached_keys", [
            at for at in range(24, size, 8) if word_at(id(kind) + at) in words and word_at(id(kind) + at) > 0xffff], 8)


@cases(TWO)
def of_slots(found):
    """slots, member"""
    kind = Outer.Slotted
    made = kind()
    held = [1000003 + number for number in range(3)]
    made.a_one, made.b_two, made.c_three = held
    tables = []
    found.size("slots", type(kind.a_one))
    for name, value in zip(kind.__slots__, held):
        it = kind.__dict__[name]
        size = type(it).__basicsize__
        found.holds("slots.owner", id(it), size, id(kind))
        found.holds("slots.name", id(it), size, id(it.__name__))
        found.points("slots.member", id(it), size, lambda at: text_at(word_at(at)) == name)
        at = found.only("slots.member")
        places = [o for o in range(16, kind.__basicsize__, 8) if word_at(id(made) + o) == id(value)]
        tables.append((word_at(id(it) + at), places))
    step = tables[1][0] - tables[0][0]
    found.tells("member.size", step, 0)
    for (at, places), name in zip(tables, kind.__slots__):
        found.keep("member.name", [o for o in range(0, step, 8) if text_at(word_at(at + o)) == name], 8)
        found.holds("member.kind", at, step, 16, 4, first=4)
        found.holds("member.offset", at, step, places[0], first=8)


def bit_of(number):
    """The number of the only bit of a number."""
    return number.bit_length() - 1 if number and not number & (number - 1) else None


@cases((3, 11))
def of_instances(found):
    """instance_split, instance_tagged, instance_inline, values, values_before"""
    name = "instance_inline" if has_version(3, 13) else "instance_tagged" if has_version(3, 12) else "instance_split"
    bare, with_dict, with_weak = (
        type("Kind", (list,), {"__slots__": slots}) for slots in ((), ("__dict__",), ("__weakref__",)))
    found.tells(name + ".managed_bit", bit_of(with_dict.__flags__ & ~bare.__flags__), 0)
    if has_version(3, 12):
        found.tells(name + ".weakref_bit", bit_of(with_weak.__flags__ & ~bare.__flags__), 0)
    if has_version(3, 13):
        inside = type("Kind", (object,), {"__slots__": ("__dict__",)})
        found.tells(name + ".inline_bit", bit_of(inside.__flags__ & ~with_dict.__flags__), 0)
    for number in range(2, 9):
        of_instance(found, name, number)


def of_instance(found, name, number):
    """An instance with so many attributes."""
    kind = type("Kind", (object,), {})
    it, last = kind(), kind()
    held = [1000003 + place for place in range(number)]
    for made in (it, last):
        for place, value in enumerate(held):
            setattr(made, "name_%d" % place, value)
    are = [id(value) for value in held]

    def has(at):
        return words_at(at, 8 * number) == are

    if has_version(3, 13):
        start = id(it) + kind.__basicsize__
        found.keep("values.items", [o for o in range(0, 64, 8) if has(start + o)], 0)
        found.holds("values.used", start, 8, number, 1, first=0)
        before = [number_at(start + o, 1) for o in range(8)]
        it.__dict__ = {}
        found.keep("values.valid", [o for o in range(8) if (before[o], number_at(start + o, 1)) == (1, 0)], 1)
    else:
        tag = 1 if has_version(3, 12) else 0
        word = "word" if tag else "values"
        found.keep("%s.%s" % (name, word), [o for o in range(8, 48, 8) if has(word_at(id(it) - o) + tag)], 0)
        values = word_at(id(it) - found.only("%s.%s" % (name, word))) + tag
        if tag:
            found.tells(name + ".tag", tag, 0)
        found.keep("values_before.used", [o for o in range(1, 9) if number_at(values - o, 1) == number], 0)
        # (a multiple of 8 that has room for two bytes and one for each value)
        found.keep("values_before.prefix", [
            o for o in range(1, 9) if number_at(values - o, 1) % 8 == 0 and number_at(values - o, 1) >= number + 2], 0)
    if name != "instance_tagged":
        found.keep(name + ".dict", [o for o in range(8, 48, 8) if word_at(id(last) - o) == id(last.__dict__)], 0)


# ---- objects

@cases(THREE)
def of_sets(found):
    """set, set_entry"""
    size = set.__basicsize__
    found.size("set", set)
    for number in (2, 40, 400):
        it = {"text %d" % place for place in range(number + 1)}
        it.discard("text 0")
        hashes = {id(member): signed(hash(member)) for member in it}
        found.holds("set.used", id(it), size, number)
        found.points("set.table", id(it), size, lambda at: is_table(at, hashes))
        at = word_at(id(it) + found.only("set.table"))
        words = {o: word_at(id(it) + o) for o in range(16, size, 8)}
        masks = [o for o, word in words.items() if word & (word + 1) == 0 and number < word < 2 ** 32]
        found.keep("set.mask", masks, 8)
        if number == 2:
            found.keep("set.small_table", [at - id(it)], 0)
            found.holds("set.mask", id(it), size, 7)
        most = max(word_at(id(it) + o) for o in found.places["set.mask"]) + 1
        slots = [o for o in range(0, 16 * most, 8) if word_at(at + o) in hashes]
        found.keep("set_entry.key", [o % 16 for o in slots], 8)
        first = at + slots[0]
        found.keep("set_entry.hash", [o for o in range(8, 24, 8) if word_at(first + o) == hashes[word_at(first)]], 8)
        if number > 2:
            found.divides("set_entry.size", slots)


def in_memory(at):
    """Whether the word at an address can be read."""
    return words_at(at, 8) is not None


def is_table(at, hashes):
    """Whether a set's table may begin at an address: its first entries are a member and its hash, or nothing, or what
    has been taken away."""
    words = words_at(at, 128) or []
    pairs = list(zip(words[::2], words[1::2]))
    return bool(pairs) and all(
        (key, number) == (0, 0) or number == signed(-1) or hashes.get(key) == number for key, number in pairs)


@cases(TWO)
def of_lists(found):
    """list"""
    found.size("list", list)
    for number in (9, 100, 1000):
        it = []
        for place in range(number):
            it.append(place)
        found.holds("list.allocated", id(it), list.__basicsize__, (it.__sizeof__() - [].__sizeof__()) // 8)


def inner_words(it):
    """The words to which those of a dict point: each by its place, and that of what points to it."""
    places = [(o, inner) for o in range(16, dict.__basicsize__, 8) for inner in range(0, 64, 8)]
    addresses = {(o, inner): word_at(id(it) + o) + inner for o, inner in places}
    return {place: word_at(at) for place, at in addresses.items() if in_memory(at)}


@cases(THREE)
def of_dicts(found):
    """dict, keys, keys_log2"""
    size = dict.__basicsize__
    found.size("dict", dict)
    pointers = None
    for number in (3, 30, 300):
        it = {"name %d" % place: place for place in range(number)}
        first = inner_words(it)
        it["last"] = 1
        second = inner_words(it)
        less = {place for place in second if first.get(place) == second[place] + 1}
        pointers = less if pointers is None else pointers & less
        del it["last"], it["name 0"]
        found.holds("dict.used", id(it), size, number - 1)
    found.keep("keys.usable", [inner for _, inner in pointers], 8)
    if has_version(3, 11):
        ((outer, inner),) = pointers
        for number in (5, 50, 5000):
            it = {"name %d" % place: place for place in range(number)}
            at = word_at(id(it) + outer)
            room = word_at(at + inner) + number
            (log,) = [bit for bit in range(3, 40) if (2 << bit) // 3 == room]
            found.holds("keys_log2.slots", at, 32, log, 1, first=8)


@cases(THREE)
def of_ordered_dicts(found):
    """ordered_dict, ordered_node, default_dict"""
    from collections import OrderedDict, defaultdict
    size = OrderedDict.__basicsize__
    found.size("ordered_dict", OrderedDict)
    for number in (4, 8):
        names = ["name %d" % place for place in range(number)]
        it = OrderedDict((name, 1) for name in names)
        it.move_to_end(names[0])
        order = list(it)
        for key, name in (("first", order[0]), ("last", order[-1])):
            found.points("ordered_dict." + key, id(it), size, lambda at: id(name) in (words_at(at, 32) or ()), first=48)
        nodes = [word_at(id(it) + found.only("ordered_dict.first"))]
        for name in order[1:3]:
            nodes += [at for at in words_at(nodes[-1], 32) if id(name) in (words_at(at, 32) or ())]
        for at, name, before, after in ((nodes[0], order[0], None, nodes[1]), (nodes[1], order[1], nodes[0], nodes[2])):
            found.holds("ordered_node.key", at, 32, id(name), first=0)
            found.holds("ordered_node.hash", at, 32, hash(name), first=0)
            found.holds("ordered_node.next", at, 32, after, first=0)
            found.holds("ordered_node.previous", at, 32, before, first=0)
        last = word_at(id(it) + found.only("ordered_dict.last"))
        ends = {nodes[0], last}
        found.points("ordered_dict.nodes", id(it), size, lambda at: ends <= set(words_at(at, 64) or ()), first=48)
        found.holds("ordered_dict.nodes_size", id(it), size, 8 if number == 4 else 16, first=48)
    # (its size has that of each node)
    step = OrderedDict.fromkeys(range(4)).__sizeof__() - OrderedDict.fromkeys(range(3)).__sizeof__()
    found.tells("ordered_node.size", step, 0)
    found.size("default_dict", defaultdict)
    for it in (defaultdict(lambda: 1), defaultdict(lambda: 2)):
        found.holds("default_dict.factory", id(it), defaultdict.__basicsize__, id(it.default_factory))


@cases(THREE)
def of_deques(found):
    """deque, deque_block"""
    from collections import deque
    size = deque.__basicsize__
    found.size("deque", deque)
    block = deque(range(1000)).__sizeof__() - deque(range(999)).__sizeof__()
    for number in range(900, 1000):
        block = block or deque(range(number + 1)).__sizeof__() - deque(range(number)).__sizeof__()
    found.tells("deque_block.size", block, 0)
    for number, turn in ((150, 5), (190, 3), (140, 20)):
        it = deque(["item %d" % place for place in range(number)])
        for _ in range(turn):
            it.popleft()
        items = [id(member) for member in it]
        found.holds("deque.count", id(it), size, len(items))
        found.points("deque.left_block", id(it), size, lambda at: items[0] in (words_at(at, block) or ()))
        found.points("deque.right_block", id(it), size, lambda at: items[-1] in (words_at(at, block) or ()))
        left = word_at(id(it) + found.only("deque.left_block"))
        right = word_at(id(it) + found.only("deque.right_block"))
        some = {items[place] for place in (70, 80, 90)}
        (middle,) = {at for at in words_at(left, block) if some <= set(words_at(at, block) or ())}
        inside = words_at(middle, block)
        found.keep("deque_block.items", [8 * place for place in range(len(inside)) if inside[place] in items][:1], 0)
        start = found.only("deque_block.items")
        found.holds("deque_block.left", middle, block, left, first=0)
        found.holds("deque_block.right", middle, block, right, first=0)
        for key, at, item in (("deque.left_index", left, items[0]), ("deque.right_index", right, items[-1])):
            # (what was taken away may still stand in a block)
            indexes = [place - start // 8 for place, word in enumerate(words_at(at, block)) if word == item]
            found.keep(key, [o for o in range(16, size, 8) if word_at(id(it) + o) in indexes], 8)


@cases(THREE)
def of_byte_arrays(found):
    """bytearray"""
    size = bytearray.__basicsize__
    found.size("bytearray", bytearray)
    for number, cut in ((100, 7), (300, 13)):
        text = bytes(bytearray((7 * place) % 251 for place in range(number)))
        it = bytearray(text)
        del it[:cut]
        found.holds("bytearray.count", id(it), size, number - cut)
        found.holds("bytearray.allocated", id(it), size, it.__alloc__())
        found.points("bytearray.start", id(it), size, lambda at: written(at, number - cut) == text[cut:])
        found.holds("bytearray.bytes", id(it), size, word_at(id(it) + found.only("bytearray.start")) - cut)


@cases(TWO)
def of_small_objects(found):
    """complex, slice, method, builtin, method_def, cell, weakref"""
    import struct
    for name, kind in (("complex", complex), ("slice", slice), ("method", type(found.size)), ("builtin", type(len)),
                       ("weakref", weakref.ref)):
        found.size(name, kind)
    for real, imaginary in ((1.5, 2.25), (-3.0, 1e100)):
        it = complex(real, imaginary)
        for key, value in (("real", real), ("imag", imaginary)):
            (word,) = struct.unpack("<Q", struct.pack("<d", value))
            found.holds("complex." + key, id(it), complex.__basicsize__, word)
    held = ["first", "second", "third"]
    it = slice(*held)
    for key, value in zip(("start", "stop", "step"), held):
        found.holds("slice." + key, id(it), slice.__basicsize__, id(value))
    method = found.size
    found.holds("method.function", id(method), type(method).__basicsize__, id(method.__func__))
    found.holds("method.self", id(method), type(method).__basicsize__, id(found))
    tables = []
    for name in ("append", "extend", "insert", "pop", "sort", "reverse"):
        it = getattr(held, name)
        found.holds("builtin.self", id(it), type(it).__basicsize__, id(held))
        found.points("builtin.def", id(it), type(it).__basicsize__, lambda at: text_at(word_at(at)) == name)
        tables.append(word_at(id(it) + found.only("builtin.def")))
        found.keep("method_def.name", [o for o in range(0, 32, 8) if text_at(word_at(tables[-1] + o)) == name], 8)
    found.divides("method_def.size", tables)
    for it in (len, gc.collect):
        found.holds("builtin.module", id(it), type(it).__basicsize__, id(it.__module__))

    def called():
        return held

    cell = called.__closure__[0]
    found.size("cell", type(cell))
    found.holds("cell.value", id(cell), type(cell).__basicsize__, id(held))
    it = weakref.ref(found, called)
    found.holds("weakref.object", id(it), weakref.ref.__basicsize__, id(found))
    found.holds("weakref.callback", id(it), weakref.ref.__basicsize__, id(called))


@cases(THREE)
def of_ranges(found):
    """range"""
    found.size("range", range)
    for start, stop, step in ((10 ** 6, 10 ** 9, 1001), (10 ** 7, 10 ** 10, 999)):
        it = range(start, stop, step)
        for key in ("start", "stop", "step"):
            found.holds("range." + key, id(it), range.__basicsize__, id(getattr(it, key)))
        length = len(it)
        text = written(id(length) + 8, 20)
        found.points("range.length", id(it), range.__basicsize__, lambda at: written(at + 8, 20) == text)


@cases(THREE)
def of_decimals(found):
    """decimal"""
    decimal = module_named("_decimal")
    size = decimal.Decimal.__basicsize__
    found.size("decimal", decimal.Decimal)
    flags = {"5": 0, "-5": 1, "Infinity": 2, "-Infinity": 3, "NaN": 4, "-NaN": 5, "sNaN": 8}
    made = [(decimal.Decimal(text), value) for text, value in flags.items()]
    for it, value in made:
        found.keep("decimal.flags", [o for o in range(16, size) if number_at(id(it) + o, 1) & 15 == value], 1)
    for text, exponent, words in (("7" * 30 + "E+4321", 4321, 2), ("-12345678901E-99", -99, 1), ("3" * 50, 0, 3)):
        it = decimal.Decimal(text)
        digits = it.as_tuple().digits
        whole = int("".join(map(str, digits)))
        found.holds("decimal.exponent", id(it), size, signed(exponent))
        found.holds("decimal.digits", id(it), size, len(digits))
        found.holds("decimal.words", id(it), size, words)
        found.points("decimal.data", id(it), size, lambda at: (words_at(at, 8 * words) or [])[:1] == [whole % 10 ** 19])


@cases(THREE)
def of_dates(found):
    """date, time, datetime, timedelta"""
    datetime = module_named("_datetime")
    for name in ("date", "time", "datetime", "timedelta"):
        found.size(name, getattr(datetime, name))
    zone = datetime.timezone(datetime.timedelta(hours=1), "here")
    day, clock = (2021, 3, 4), (1, 2, 3, 0x040506)
    for it, text in ((datetime.date(*day), b"\x07\xe5\x03\x04"), (datetime.date(1999, 12, 31), b"\x07\xcf\x0c\x1f")):
        found.writes("date.data", id(it), datetime.date.__basicsize__, text)
    for name, words, text in (("time", clock, b"\1\2\3\4\5\6"), ("datetime", day + clock, b"\x07\xe5\3\4\1\2\3\4\5\6")):
        kind = getattr(datetime, name)
        size = kind.__basicsize__
        zoned, folded, bare = kind(*words, tzinfo=zone), kind(*words, tzinfo=zone, fold=1), kind(*words)
        found.writes(name + ".data", id(zoned), size, text)
        found.holds(name + ".zone", id(zoned), size, id(zone))
        end = found.only(name + ".data") + len(text) + 1
        for it, value in ((zoned, 0), (folded, 1)):
            found.holds(name + ".fold", id(it), end, value, 1)
        for it, value in ((zoned, 1), (folded, 1), (bare, 0)):
            found.holds(name + ".has_zone", id(it), end, value, 1)
    it = datetime.timedelta(12345, 54321, 654321)
    for key, value in (("days", 12345), ("seconds", 54321), ("microseconds", 654321)):
        found.holds("timedelta." + key, id(it), type(it).__basicsize__, value, 4)


@cases(THREE)
def of_called(found):
    """partial, module, function"""
    import functools
    import types
    it = functools.partial(of_called, 1, 2, key=3)
    found.size("partial", functools.partial)
    for key, value in (("function", of_called), ("args", it.args), ("keywords", it.keywords)):
        found.holds("partial." + key, id(it), functools.partial.__basicsize__, id(value))
    it = types.ModuleType("a module")
    found.size("module", types.ModuleType)
    found.holds("module.dict", id(it), types.ModuleType.__basicsize__, id(it.__dict__))
    found.holds("module.name", id(it), types.ModuleType.__basicsize__, id(it.__name__))
    held = [it]

    def called():
        return held

    found.size("function", type(called))
    called.attribute = 1
    for key in ("code", "globals", "name", "qualname", "closure", "dict", "module"):
        found.holds("function." + key, id(called), type(called).__basicsize__, id(getattr(called, "__%s__" % key)))


def main():
    """Prints what is found."""
    if has_version(3, 6):
        import probe_running
        import probe_waiting
        assert probe_running and probe_waiting
    found = Found()
    version = sys.version_info[:2]
    for first, last, section in SECTIONS:
        if first <= version <= last:
            try:
                section(found)
            except Exception as error:  # (what one section can't tell, the others may)
                sys.stderr.write("%s: %s: %s\n" % (section.__name__, type(error).__name__, error))
    print("\n".join(answers_of(found)))


if __name__ == "__main__":
    main()
