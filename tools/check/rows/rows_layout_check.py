"""Rows of `pysalvage --check-layout`: types in memory that name their members, and what they say of the layout."""

import json
import struct
from typing import Dict, Iterator, List, Optional, Sequence, Tuple

from made import EXAMPLE, Objects, Section, Segment, Symbol, core_file, image_file, layout_of
from named_threads import dict_of, instance_of
from row import Row
from rows_salvage import GOOD, RUNTIME, broken_tree, runtime, salvage, status_record
from small_core import CODE as FIRST_CODE, FRAME as FIRST_FRAME
from small_core import BSS, CALLER, FILE, FUNCTION, HEAP, MODULE, MODULE_CODE, TEXT, THREAD, bss, files_of, heap, mapped, small

TYPES = 0x520000
"""Where the types stand."""

SIZE = 0x8000
NAMES = ("PyType_Type", "PyCode_Type", "PyFrame_Type", "PyTuple_Type", "PyBytes_Type", "PyLong_Type", "PyUnicode_Type")
CALLED = ("type", "code", "frame", "tuple", "bytes", "int", "str")
"""Their symbols, and their names in Python."""

CALLED_AT = 0x7C00
"""Where those names stand, from the types on."""

OBJECT, INT, SIZE_CODE, ULONG = 6, 1, 19, 12
"""Codes of members: of an object, an int, a size, and an unsigned long."""

Members = Dict[str, Tuple[int, int]]
"""Of each member its code and its place."""

TELLING = "check: "
LAYOUT = layout_of(EXAMPLE)
KEYS = [f"{group}.{key}" for group, it in LAYOUT.items() if isinstance(it, dict) for key in it if key != "size"]
"""The keys that the layout has, in their order, but sizes."""


def place(key: str) -> int:
    """The layout's number of a key."""
    group, name = key.split(".")
    found = LAYOUT[group]
    assert isinstance(found, dict)
    return found[name]


CODE: Members = {
    "co_argcount": (INT, place("code.argcount")), "co_nlocals": (INT, place("code.nlocals")),
    "co_firstlineno": (INT, place("code.first_line")), "co_filename": (OBJECT, place("code.filename")),
    "co_name": (OBJECT, place("code.name")), "co_lnotab": (OBJECT, place("code.table")),
    "co_varnames": (OBJECT, place("code.varnames")),
}
FRAME: Members = {
    "f_back": (OBJECT, place("frame.back")), "f_code": (OBJECT, place("frame.code")), "f_lasti": (INT, place("frame.instr")),
}
TYPE: Members = {
    "__basicsize__": (SIZE_CODE, 32), "__flags__": (ULONG, place("klass.flags")),
    "__dictoffset__": (SIZE_CODE, place("klass.dict_offset")),
}
BASIC = {"PyFrame_Type": place("frame.locals") + 8, "PyTuple_Type": place("tuple.at"), "PyBytes_Type": place("bytes.at") + 1,
         "PyLong_Type": place("long.digits")}
TOLD = [key for key in KEYS if key in (
    "frame.code", "frame.back", "frame.instr", "frame.locals", "code.argcount", "code.nlocals", "code.first_line",
    "code.filename", "code.name", "code.table", "code.varnames", "bytes.at", "tuple.at", "object.klass", "klass.flags",
    "klass.dict_offset", "long.digits")]
"""The keys that types tell of 3.9."""


def types(members: Dict[str, Members], basic: Dict[str, int], own: int = 8, base: int = 0) -> bytes:
    """The memory of types, each of which has 0x400 bytes, and behind them their tables and names. `own` is where a type
    names its own; `base` where the first one's word of its base leads."""
    data = bytearray(SIZE)
    free = 0x400 * len(NAMES)
    for number, name in enumerate(NAMES):
        at = 0x400 * number
        struct.pack_into("<Q", data, at + own, TYPES)
        struct.pack_into("<Q", data, at + own + 16, TYPES + CALLED_AT + 32 * number)
        data[CALLED_AT + 32 * number : CALLED_AT + 32 * number + len(CALLED[number])] = CALLED[number].encode()
        struct.pack_into("<Q", data, at + own + 24, basic.get(name, 0))
        struct.pack_into("<Q", data, at + own + 248, base)
        struct.pack_into("<Q", data, at + own + 232, TYPES + free if name in members else 0)
        texts = free + 40 * (len(members.get(name, {})) + 1)
        for index, (member, (code, offset)) in enumerate(members.get(name, {}).items()):
            struct.pack_into("<QI4xQ", data, free + 40 * index, TYPES + texts, code, offset)
            data[texts : texts + len(member)] = member.encode()
            texts += len(member) + 1
        free = max(free, -(-texts // 16) * 16) if name in members else free
    return bytes(data)


USUAL = {"PyType_Type": TYPE, "PyCode_Type": CODE, "PyFrame_Type": FRAME}


def type_at(name: str) -> int:
    """Where a type stands."""
    return TYPES + 0x400 * CALLED.index(name)


def files(memory: Optional[bytes], layout: str = EXAMPLE, objects: Optional[Objects] = None, names: Sequence[str] = NAMES,
          notes: Sequence[bytes] = ()) -> Dict[str, bytes]:
    """The files of a core with this memory of types and these notes, and of an image that names these."""
    symbols = [Symbol("_PyRuntime", RUNTIME)] + [Symbol(name, TYPES + 0x400 * it) for it, name in enumerate(NAMES) if name in names]
    image = image_file([Segment(0x400000, b"", 5, 0x1000)], (BSS, 16), symbols, [
        Section(".PyRuntime", 1, RUNTIME, None, 592)])
    maps = [(objects or heap()).segment(6), mapped(), bss(0, 0), runtime(HEAP)]
    return files_of(core_file(maps + ([Segment(TYPES, memory, 6)] if memory is not None else []), notes), layout, image)


def counts(told: int) -> str:
    """How many keys are told, and how many are not."""
    return f": {told} keys told, {len(KEYS) - told} not told\n"


def known(right: int, of: int) -> str:
    """How many known answers are right."""
    return f"Known answers: {right} of {of} are right\n"


def frames_of(count: int) -> Objects:
    """The objects of the small core with so many frames of `f` in place of its two."""
    objects = heap()
    objects.word(THREAD + place("thread.frame"), objects.frames([FIRST_CODE] * count))
    return objects


def dict_modules() -> Objects:
    """The objects of the small core, whose modules are of a class that derives from that of dicts, and hold nothing."""
    objects = heap()
    objects.word(HEAP + place("interpreter.modules"), dict_of(objects, objects.klass("Modules", 29)))
    return objects


def contents(largest: int = 0x10FFFF, finite: int = 0x7FEF_FFFF_FFFF_FFFF, truth: int = 1, called: str = "bool") -> Objects:
    """The same with `sys`, which has the largest character and in `float_info` the largest finite number, and `builtins`, which has
    `True`, of a class of this name."""
    objects = heap()
    klass = {it: objects.klass(it, flag) for it, flag in (("str", 28), ("dict", 29), ("int", 24), (called, 24), ("module", 0))}
    objects.word(klass["module"] + place("klass.dict_offset"), 16)
    text = lambda it: objects.text(it, klass=klass["str"])
    module = lambda *entries: instance_of(objects, klass["module"], dict_of(objects, klass["dict"], *entries))
    number = objects.record("float")
    objects.word(number + place("float.value"), finite)
    sys = module((text("maxunicode"), objects.number(largest, klass["int"])), (text("float_info"), objects.items([number])))
    builtins = module((text("True"), objects.number(truth, klass[called])))
    objects.word(HEAP + place("interpreter.modules"), dict_of(objects, klass["dict"], (text("sys"), sys), (text("builtins"), builtins)))
    return objects


def classed() -> Objects:
    """The objects of the small core, each of its class, whose functions have names of variables and a line table."""
    objects = dict_modules()
    names, table = objects.of_class(objects.items([]), type_at("tuple")), objects.of_class(objects.table(b"ab"), type_at("bytes"))
    objects.word(objects.free(), 0)
    for at in (FIRST_CODE, MODULE_CODE):
        objects.word(at + place("code.varnames"), names)
        objects.word(at + place("code.table"), table)
    for at, name in ((FIRST_CODE, "code"), (MODULE_CODE, "code"), (FIRST_FRAME, "frame"), (CALLER, "frame"), (FILE, "str"), (FUNCTION, "str"), (MODULE, "str")):
        objects.of_class(at, type_at(name))
    return objects


def tree(verdict: str, told: List[str], differ: Dict[str, int], build: Optional[str] = None, of: int = 8) -> Dict[str, object]:
    """The section's value: the keys that are told, what the process says of those that differ, and that one known answer is right."""
    number = lambda key: {"key": key, "layout": place(key), "process": differ.get(key, place(key))}
    return {"build": build, "differ": [number(key) for key in told if key in differ], "doubt": None, "known": {"of": of, "right": 1},
            "not_told": [key for key in KEYS if key not in told], "other_table": None, "told": [number(key) for key in told], "verdict": verdict}


def changed(name: str, members: Members, **more: Tuple[int, int]) -> Dict[str, Members]:
    """The usual members, with others of one type."""
    return {**USUAL, name: {**members, **more}}


def rows() -> Iterator[Row]:
    """All of them."""
    check = f"{GOOD} --check-layout"
    say = lambda what, memory, line: salvage(TELLING + what, check, files(memory), TEXT + line + known(1, 8))
    yield salvage(TELLING + "no symbols", check, files_of(small()), TEXT + "Layout not confirmed" + counts(0) + known(1, 2))
    yield salvage(TELLING + "without the flag the text has no line", GOOD, files(types(USUAL, BASIC)), TEXT)
    yield say("agrees", types(USUAL, BASIC), "Layout agrees" + counts(len(TOLD)))
    yield say("no memory of types", None, "Layout not confirmed" + counts(0))
    yield say("another place", types(changed("PyFrame_Type", FRAME, f_back=(OBJECT, 16)), BASIC),
              f"Layout differs: frame.back is {place('frame.back')}, the process says 16\n")
    yield say("another size", types(USUAL, {**BASIC, "PyFrame_Type": 360}),
              f"Layout differs: frame.locals is {place('frame.locals')}, the process says 352\n")
    yield say("a member of another width", types(changed("PyCode_Type", CODE, co_name=(INT, place("code.name"))), BASIC),
              "Layout not confirmed" + counts(len(TOLD) - 1))
    yield say("a member of a code that is not known", types(changed("PyCode_Type", CODE, co_varnames=(7, 56)), BASIC),
              "Layout agrees" + counts(len(TOLD) - 1))
    yield say("a member whose name goes on", types(changed("PyCode_Type", {}, **{f"{it}_": CODE[it] for it in CODE}), BASIC),
              "Layout not confirmed" + counts(len(TOLD) - len(CODE)))
    fillers = lambda count: {f"x{at}": (INT, 0) for at in range(count)}
    yield say("256 members, of which the last are code's", types(changed("PyCode_Type", {**fillers(256 - len(CODE)), **CODE}), BASIC),
              "Layout agrees" + counts(len(TOLD)))
    yield say("256 members before those of code", types(changed("PyCode_Type", {**fillers(256), **CODE}), BASIC),
              "Layout not confirmed" + counts(len(TOLD) - len(CODE)))
    yield say("a type whose size stands elsewhere", types(changed("PyType_Type", TYPE, __basicsize__=(SIZE_CODE, 40)), BASIC),
              "Layout not confirmed, type's own table is none that is known" + counts(1))
    yield say("a type that does not name itself", bytes(SIZE), "Layout not confirmed" + counts(0))
    wide = types(changed("PyType_Type", TYPE, __basicsize__=(SIZE_CODE, 48)), BASIC, own=24)
    yield say("trace refs", wide, "The process is of a build with trace refs\n"
              "Layout differs: object.klass is 8, the process says 24\n")
    told = lambda what, right, of, **more: salvage(
        TELLING + what, check, files(types(USUAL, BASIC), **more),
        ("Signal 0: core\n" if more.get("notes") else "") + TEXT + "Layout agrees" + counts(len(TOLD)) + known(right, of))
    yield told("modules of a class that derives from dict", 2, 8, objects=dict_modules())
    yield told("a thread's id is one of the thread pointers", 2, 9, notes=[status_record(0, 4, 5), status_record(0, 5, 0x7F00)])
    yield told("a thread's id is none of the thread pointers", 1, 9, notes=[status_record(0, 4, 0x7F01)])
    yield told("a status record that is too short tells no thread pointer", 1, 8, notes=[status_record(0, 4, 0x7F01, 280)])
    yield told("contents of sys and builtins", 5, 11, objects=contents())
    for what, parts in (("another largest character", {"largest": 65535}), ("another finite number", {"finite": 7}), ("a True of 0", {"truth": 0}),
                        ("a True of another class", {"called": "Bool"})):
        yield told(f"contents: {what}", 4, 11, objects=contents(**parts))
    shown = lambda count: TEXT.replace(TEXT.split("0x7F00\n")[1], "    f (a.py)\n" * count)
    yield salvage(TELLING + "eight frames without a right answer", check, files(types(USUAL, BASIC), objects=frames_of(8)),
                  shown(8) + "Layout doubtful, no known answer of a frame is right" + counts(len(TOLD)) + known(1, 26))
    yield salvage(TELLING + "eight frames of which no type is known", check, files(None, objects=frames_of(8), names=()),
                  shown(8) + "Layout doubtful, no known answer of a frame is right" + counts(0) + known(1, 2))
    yield salvage(TELLING + "seven frames of which no type is known", check, files(None, objects=frames_of(7), names=()),
                  shown(7) + "Layout not confirmed" + counts(0) + known(1, 2))
    yield salvage(TELLING + "seven frames without one decide nothing", check, files(types(USUAL, BASIC), objects=frames_of(7)),
                  shown(7) + "Layout agrees" + counts(len(TOLD)) + known(1, 23))
    # (in this layout the flags of a type stand where it says how many bytes an instance has)
    yield salvage(TELLING + "types without symbols", check, files(types(USUAL, {**BASIC, "PyUnicode_Type": 1 << 28}), objects=classed(), names=()),
                  TEXT.replace("f (a.py)", "f (a.py:3)").replace("<module> (a.py)", "<module> (a.py:1)") + "Layout agrees" + counts(len(TOLD) - 1) + known(16, 16))
    text = lambda it: json.dumps(it, indent=2, ensure_ascii=False) + "\n"
    whole = lambda part: {**plain_tree(), "layout_check": part}
    yield salvage(TELLING + "JSON without the flag", f"{GOOD} -j", files(types(USUAL, BASIC)), text(whole(None)))
    yield salvage(TELLING + "JSON", f"{check} -j", files(types(USUAL, BASIC)), text(whole(tree("agrees", TOLD, {}))))
    yield salvage(TELLING + "JSON of what differs", f"{check} -j", files(wide),
                  text(whole(tree("differs", TOLD, {"object.klass": 24}, "trace-refs"))))
    yield salvage(TELLING + "JSON of what is not told", f"{check} -j", files(None), text(whole(tree("silent", [], {}))))


def plain_tree() -> Dict[str, object]:
    """What is told of the usual core, whose chain of frames is whole."""
    found = broken_tree(0, [])
    interpreters = found["interpreters"]
    assert isinstance(interpreters, list)
    interpreters[0]["threads"][0]["frames"]["end"] = {"kind": "whole"}
    return {**found, "missing": None}
