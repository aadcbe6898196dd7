"""Rows of `pysalvage`: values of locals, by kinds whose types say them by their flags."""

import json
import struct
from typing import Callable, Dict, Iterator, List, Optional, Tuple

from made import Objects, Section, Segment, Symbol, image_file
from made_tasks import RECORDS
from row import Row
from rows_salvage import GOOD, RUNTIME, group, named, salvage
from small_core import BSS, HEAP, TEXT, THREAD, heap_of_locals

Make = Callable[[Objects, int, int], int]
"""Makes a value, by the classes of integers and of texts."""

NOWHERE = 0x70000000
"""An address that is not in memory."""


def rows() -> List[Row]:
    """All of them."""
    return [it for part in (leaves, containers, cuts, lost, coroutines, trees) for it in part()]


def files(*make: Make) -> Dict[str, bytes]:
    """The small core with variables `a`, `b`, .. in its first frame that have these values."""
    names = "abcdefgh"[:len(make)]
    return named(heap_of_locals(lambda objects, numbers, texts: [it(objects, numbers, texts) for it in make], names, 0))


def shown(what: str, make: Make, text: str, options: str = "-l") -> Row:
    """A value that is shown so."""
    return salvage(f"value: {what}", f"{GOOD} {options}", files(make), with_locals(f"a: {text}"))


def with_locals(*lines: str) -> str:
    """The text with these lines below its first frame."""
    return TEXT.replace("f (a.py)\n", "f (a.py)\n" + "".join(f"        {it}\n" for it in lines))


def text_of(text: str) -> Make:
    """A text."""
    return lambda objects, numbers, texts: objects.text(text, klass=texts)


def number(value: int) -> Make:
    """A small integer."""
    return lambda objects, numbers, texts: objects.number(value, numbers)


def of_digits(count: int, *digits: int) -> Make:
    """An integer of these digits of 30 bits."""
    def make(objects: Objects, numbers: int, texts: int) -> int:
        found = objects.record("long", None, count=count)
        objects.write(found + objects.group("long")["digits"], struct.pack(f"<{len(digits)}I", *digits))
        return objects.of_class(found, numbers)

    return make


def list_of(*items: Make, count: Optional[int] = None) -> Make:
    """A list."""
    def make(objects: Objects, numbers: int, texts: int) -> int:
        words = [it(objects, numbers, texts) for it in items]
        klass, place = objects.klass("list", 25), objects.free()
        for at, word in enumerate(words):
            objects.word(place + 8 * at, word)
        found = objects.record("list", None, count=len(items) if count is None else count, items=place)
        return objects.of_class(found, klass)

    return make


def tuple_of(*items: Make) -> Make:
    """A tuple."""
    def make(objects: Objects, numbers: int, texts: int) -> int:
        return objects.of_class(objects.items([it(objects, numbers, texts) for it in items]), objects.klass("tuple", 26))

    return make


def itself(objects: Objects, numbers: int, texts: int) -> int:
    """A list that holds itself."""
    found = list_of(number(0))(objects, numbers, texts)
    objects.word(struct.unpack_from("<Q", objects.data, found + 24 - HEAP)[0], found)
    return found


def of_dict(objects: Objects, numbers: int, texts: int) -> int:
    """A dict with a slot that was taken away before its one entry."""
    keys = objects.record("keys", None, used=2, slots=8)
    entries = keys + objects.group("keys")["size"] + 8
    objects.write(entries, bytes(48))
    objects.word(entries + 32, objects.text("k", klass=texts))
    objects.word(entries + 40, objects.number(1, numbers))
    found = objects.record("dict", None, keys=keys)
    objects.word(found + objects.group("object")["size"], 1)
    return objects.of_class(found, objects.klass("dict", 29))


def of_class(objects: Objects, numbers: int, texts: int) -> int:
    """A class."""
    return objects.of_class(objects.klass("thing", 0), objects.klass("type", 31))


def leaves() -> Iterator[Row]:
    """Values without others in them."""
    for what, make, text in (
        ("an integer", number(5), "5"), ("no digits", of_digits(0, 7), "0"), ("two digits, below 0", of_digits(-2, 1, 1), "-1073741825"),
        ("three digits", of_digits(3, 7, 7, 7), str(7 + 7 * 2 ** 30 + 7 * 2 ** 60)),
        ("110 digits", of_digits(110, *[2 ** 30 - 1] * 110), str(2 ** 3300 - 1)),
        ("111 digits", of_digits(-111, *[1] * 111), "<negative int of 111 digits of 30 bits>"),
        ("a text", text_of("abc"), "'abc'"), ("an empty text", text_of(""), "''"), ("an apostrophe", text_of("it's"), '"it\'s"'),
        ("both quotes", text_of("it's \"x\""), "'it\\'s \"x\"'"), ("a text that would be an item more", text_of('x", b: "z'), "'x\", b: \"z'"),
        ("a line feed and a tab", text_of("a\nb\t\\\x1b\x7f"), "'a\\nb\\t\\\\\\x1b\\x7f'"), ("a class", of_class, "<class 'thing'>"),
    ):
        yield shown(what, make, text)


def containers() -> Iterator[Row]:
    """Values with others in them."""
    for what, make, text in (
        ("a list", list_of(text_of("s"), number(7)), "['s', 7]"), ("an empty list", list_of(), "[]"),
        ("a tuple of one", tuple_of(number(1)), "(1,)"), ("an empty tuple", tuple_of(), "()"),
        ("a list of lists", list_of(list_of(number(1)), tuple_of(text_of("s"))), "[[1], ('s',)]"),
        ("a dict with an empty slot", of_dict, "{'k': 1}"),
    ):
        yield shown(what, make, text)


def cuts() -> Iterator[Row]:
    """What is left out has its count."""
    letters, many = text_of("x" * 2000), list_of(*[number(it) for it in range(70)])
    yield shown("2,000 characters", letters, "'" + "x" * 1024 + "'.. 2000 characters")
    yield shown("2,000 characters, by two", letters, "'" + "x" * 2000 + "'", "-ll")
    yield shown("70 items", many, "[" + ", ".join(map(str, range(64))) + ", .. 6 more]")
    yield shown("70 items, by two", many, "[" + ", ".join(map(str, range(70))) + "]", "-ll")
    yield shown("a list that holds itself", itself, "[[[[[.. 1 more]]]]]")
    yield shown("a list that holds itself, by two", itself, "[" * 9 + ".. 1 more" + "]" * 9, "-ll")


def lost() -> Iterator[Row]:
    """What can't be read costs what it breaks."""
    at = lambda place: lambda objects, numbers, texts: place
    head = group("object")["size"]
    yield salvage("value: one that is not in memory, before another", f"{GOOD} -l", files(at(NOWHERE), number(1)), with_locals(
        f"a: <object: {head} bytes unreadable at 0x{NOWHERE:x}>", "b: 1"))
    yield shown("an item that is not in memory", list_of(at(NOWHERE), number(1)),
                f"[<object: {head} bytes unreadable at 0x{NOWHERE:x}>, 1]")
    places: List[int] = []

    def below(objects: Objects, numbers: int, texts: int) -> int:
        places.append(list_of(count=-1)(objects, numbers, texts))
        return places[0]

    broken = files(below)
    yield salvage("value: a count below 0", f"{GOOD} -l", broken, with_locals(f"a: <list: broken at 0x{places[0]:x}>"))

    def thing(objects: Objects, numbers: int, texts: int) -> int:
        places.append(objects.of_class(objects.record("object"), objects.klass("thing", 0)))
        return places[-1]

    things = files(thing)
    yield salvage("value: a thing", f"{GOOD} -l", things, with_locals(f"a: <thing at 0x{places[-1]:x}>"))


# ---- coroutines, generators and async generators

SYMBOLS = {"coroutine": "PyCoro_Type", "generator": "PyGen_Type", "async_generator": "PyAsyncGen_Type"}
"""The symbols of their types."""

BY_STATE = RECORDS.replace(b"stack_pointer = {bottom=40, top=48}\n", b"""\
stack_depth = {bottom=40, depth=48, state=52}
states = {created=254, suspended=255, running=0}
""").replace(b"generator_running = {running=24}\n", b"")
"""Records by which a frame has a state, a byte at 52, as in 3.10."""

Paused = Tuple[str, Optional[str], Callable[[Objects, int], object]]
"""One of these: its kind, its name, none where that is no text, and how it stands, which writes its words."""


def last_at(number: int, state: int = 255) -> Callable[[Objects, int], object]:
    """One with a frame whose last instruction is at a number, and which has a state where there are such."""
    def write(objects: Objects, at: int) -> object:
        frame = objects.record("frame", None, instr=number)
        objects.write(frame + 52, bytes([state]))
        return objects.word(at + 16, frame)

    return write


def runs(objects: Objects, at: int) -> object:
    """One that runs."""
    last_at(4)(objects, at)
    return objects.write(at + 24, b"\1")


def paused(*ones: Paused, records: bytes = RECORDS, symbols: bool = True) -> Tuple[Dict[str, bytes], List[int]]:
    """The files of a core that has these in the locals of its first frame, and where they stand."""
    types: Dict[str, int] = {}
    places: List[int] = []

    def make(objects: Objects, numbers: int, texts: int) -> List[int]:
        meta = objects.klass("type", 31)
        objects.of_class(meta, meta)
        types.update((kind, objects.of_class(objects.klass(kind, 0), meta)) for kind in SYMBOLS)
        for kind, name, stands in ones:
            at = objects.of_class(objects.write(objects.free(), bytes(120)), types[kind])
            text = objects.text(name or "x", klass=texts)
            if name is None:
                objects.write(text + group("string")["state"], bytes(4))
            objects.word(at + 48, text)
            stands(objects, at)
            places.append(at)
        return places

    objects = heap_of_locals(make, "abcdefgh"[:len(ones)], 0)
    own = [Symbol(SYMBOLS[kind], at) for kind, at in types.items()] if symbols else []
    program = image_file([Segment(0x400000, b"", 5, 0x1000)], (BSS, 16), [Symbol("_PyRuntime", RUNTIME), *own], [
        Section(".PyRuntime", 1, RUNTIME, None, 592)])
    return {**named(objects), "image": program, "records": records}, places


def coroutines() -> Iterator[Row]:
    """Coroutines, generators and async generators."""
    created, suspended, nothing = last_at(0xFFFFFFFF), last_at(4), lambda objects, at: None
    nowhere = lambda objects, at: objects.word(at + 16, NOWHERE)
    unnamed = lambda objects, at: (objects.word(at + 48, NOWHERE), suspended(objects, at))
    words = f"{GOOD} --records records -l"
    for what, one, text in (
        ("one that is created", ("generator", "numbers", created), "<generator numbers at {at}: created>"),
        ("one that is suspended", ("coroutine", "fetch", suspended), "<coroutine fetch at {at}: suspended>"),
        ("one that runs", ("coroutine", "fetch", runs), "<coroutine fetch at {at}: running>"),
        ("one that is finished", ("async_generator", "rows", nothing), "<async_generator rows at {at}: finished>"),
        ("a name that would be a state", ("generator", "x at 0x1: running>", suspended), "<generator 'x at 0x1: running>' at {at}: suspended>"),
        ("a name that is no text", ("generator", None, suspended), "<generator at {at}: suspended>"),
        ("a name that is not in memory", ("coroutine", "f", unnamed), "<coroutine at {at}: suspended>"),
        ("a frame that is not in memory", ("coroutine", "f", nowhere), "<coroutine f at {at}>"),
    ):
        files_of_one, places = paused(one)
        yield salvage(f"value: {what}", words, files_of_one, with_locals("a: " + text.format(at=hex(places[0]))))
    for number, state in ((254, "created"), (255, "suspended"), (0, "running"), (1, "finished"), (77, "finished")):
        files_of_one, places = paused(("generator", "numbers", last_at(4, number)), records=BY_STATE)
        yield salvage(f"value: the state {number}", words, files_of_one, with_locals(f"a: <generator numbers at {places[0]:#x}: {state}>"))
    files_of_one, places = paused(("generator", "numbers", suspended))
    yield salvage("value: a generator without records", f"{GOOD} -l", files_of_one, with_locals(f"a: <generator at {places[0]:#x}>"))
    files_of_one, places = paused(("generator", "numbers", suspended), symbols=False)
    yield salvage("value: a generator without symbols", words, files_of_one, with_locals(f"a: <generator at {places[0]:#x}>"))


def trees() -> Iterator[Row]:
    """JSON."""
    def values(objects: Objects, numbers: int, texts: int) -> List[int]:
        objects.of_class(numbers, objects.klass("type", 31))
        return [list_of(number(1), text_of("s"))(objects, numbers, texts), of_digits(3, 7, 7, 7)(objects, numbers, texts)]

    objects = heap_of_locals(values, "ab", 1)
    frame = struct.unpack_from("<Q", objects.data, THREAD + 24 - HEAP)[0]
    slots = struct.unpack_from("<2Q", objects.data, frame + group("frame")["locals"] - HEAP)
    large = str(7 + 7 * 2 ** 30 + 7 * 2 ** 60)
    of_list = {"items": [{"kind": "int", "value": 1}, {"kind": "str", "length": 1, "value": "s"}], "kind": "list", "more": 0}
    of_number = {"kind": "int", "value": large}
    locals_of = [
        {"address": hex(slots[0]), "arg": True, "kind": "argument", "name": "a", "repr": "[1, 's']", "type": None, "value": of_list},
        {"address": hex(slots[1]), "arg": False, "kind": "local", "name": "b", "repr": large, "type": "int", "value": of_number},
    ]
    member = lambda name, own: {"filename": "a.py", "line": 0, "locals": own, "locals_fault": None, "name": name}
    frames = {"between": 0, "end": {"kind": "whole"}, "first": [member("f", locals_of), member("<module>", [])], "last": [], "met": 2}
    thread = {"address": hex(THREAD), "crashed": False, "frames": frames, "gil": False, "name": None, "os_thread_id": None,
              "thread_id": 0x7F00}
    interpreter = {"address": hex(HEAP), "lock": {"holder": 0, "kind": "read"}, "searched": False, "threads": [thread],
                   "threads_end": {"kind": "whole"}}
    tree = {"exceptions": None, "heap": None, "interpreters": [interpreter], "layout_check": None, "missing": None, "more": False, "names": None,
            "native": None, "process": None, "registers": None, "search_ended": None, "signal": None, "signal_info": None, "stacks": None, "tasks": None,
            "values_left_out": 0, "version": "3.9.0", "version_by_names": False, "waits": None}
    yield salvage("value: JSON", f"{GOOD} -lj", named(objects), json.dumps(tree, indent=2) + "\n")
