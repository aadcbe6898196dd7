"""A small core whose interpreter has tasks of asyncio: a module `asyncio.tasks` with a set of weak references, a task in it, its
coroutine and the one that this awaits, and a future."""

import struct
from typing import Dict, Sequence, Tuple

from made import EXAMPLE, Objects
from rows_salvage import named
from small_core import HEAP, heap

RECORDS = b"""\
[[records]]
major = 3
minor = 9
first_patch = 0
last_patch = 2
type = {size=160, basicsize=48, itemsize=56, repr=64, str=72, flags=80, weaklist=88, methods=96, members=104, getset=112, base=120, dict=128, dictoffset=136, bases=144, mro=152}
heap_type = {size=176, qualname=160, cached_keys=168}
set = {size=200, used=24, mask=32, table=40, small_table=64}
set_entry = {size=16, key=0, hash=8}
weakref = {size=56, object=16, callback=24}
code_names = {bytecode=64, cells=72, frees=80}
stack_pointer = {bottom=40, top=48}
yield_from = {opcode=72}
generator = {size=96, name=48, qualname=56}
coroutine = {size=104, name=48, qualname=56}
async_generator = {size=120, name=48, qualname=56}
generator_frame = {frame=16}
generator_running = {running=24}
future = {size=144, loop=16, callback0=24, callbacks=40, exception=48, result=56, state=80}
task = {size=184, waiter=144, coro=152, cancel=176, cancel_bit=0}
task_name = {name=160}
"""
"""Where the parts of these objects stand: as in 3.9, but for types and codes, which are longer than the small core's layout has them."""

BASIC_SIZE, BASE = 48, 120
YIELD_FROM = 72
LOOP, STATE, WAITER, CORO, NAME, CANCEL = 16, 80, 144, 152, 160, 176


class Made:
    """These objects, and where each of them stands, so that some of their words can be changed."""

    def __init__(self, layout: str = EXAMPLE, **other: int) -> None:
        self.objects = heap(layout)
        self.types: Dict[str, int] = {}
        self.types["type"] = self.type_of("type", 31)
        for name, flag in (("str", 28), ("dict", 29), ("int", 24), ("NoneType", 0), ("Loop", 0), ("T", 0)):
            self.types[name] = self.type_of(name, flag)
        for name in ("module", "WeakSet"):
            self.types[name] = self.type_of(name, 0)
            self.objects.word(self.types[name] + 40, 16)
        for name, size in (("coroutine", 104), ("generator", 96), ("async_generator", 120), ("_asyncio.Future", 144), ("_asyncio.Task", other.get("size", 184))):
            self.types[name] = self.type_of(name, 0)
            self.objects.word(self.types[name] + BASIC_SIZE, size)
        self.loop, self.none, self.thing = (self.instance(it, bytes(64)) for it in ("Loop", "NoneType", "T"))
        self.future = self.instance("_asyncio.Future", bytes(144))
        self.inner, self.inner_frame = self.coroutine("g", 7, self.future)
        self.outer, self.outer_frame = self.coroutine("f", 3, self.inner)
        self.task = self.task_of(self.outer, self.future, "worker")
        self.set_to(self.reference_to(self.task))

    def type_of(self, name: str, flag: int) -> int:
        """A type."""
        at = self.objects.write(self.objects.free(), bytes(176))
        return self.objects.of_class(self.objects.klass(name, flag, at), self.types.get("type", at))

    def instance(self, kind: str, data: bytes) -> int:
        """An object of a type."""
        return self.objects.of_class(self.objects.write(self.objects.free(), data), self.types[kind])

    def text(self, text: str) -> int:
        """A text."""
        return self.objects.text(text, klass=self.types["str"])

    def dict_of(self, entries: Sequence[Tuple[str, int]]) -> int:
        """A dict of these names."""
        held = [(self.text(name), value) for name, value in entries]
        keys = self.objects.record("keys", None, used=len(held), slots=8)
        for number, (key, value) in enumerate(held):
            self.objects.write(keys + 48 + 24 * number, struct.pack("<3Q", 0, key, value))
        return self.objects.of_class(self.objects.record("dict", None, keys=keys), self.types["dict"])

    def with_dict(self, kind: str, entries: Sequence[Tuple[str, int]]) -> int:
        """An instance that has a dict of its own."""
        at = self.instance(kind, bytes(32))
        self.objects.word(at + 16, self.dict_of(entries))
        return at

    def code(self, name: str, line: int) -> int:
        """The code of a coroutine, whose instruction behind the first one is that of one that awaits."""
        objects = self.objects
        code = objects.write(objects.free(), bytes(96))
        objects.record("code", code, filename=HEAP + 0x180, name=objects.text(name), first_line=line, table=objects.table(b""))
        objects.word(code + 64, objects.table(bytes((0, 0, YIELD_FROM, 0))))
        return code

    def coroutine(self, name: str, line: int, awaited: int, code: int = 0) -> Tuple[int, int]:
        """A suspended coroutine that awaits something, and its frame; maybe of a code that is there."""
        objects = self.objects
        code = code or self.code(name, line)
        frame = objects.write(objects.free(), bytes(96))
        objects.record("frame", frame, code=code)
        objects.word(frame + 40, frame + 80)
        objects.word(frame + 48, frame + 88)
        objects.word(frame + 80, awaited)
        at = self.instance("coroutine", bytes(104))
        objects.word(at + 16, frame)
        return at, frame

    def task_of(self, coroutine: int, waiter: int, name: str) -> int:
        """A task of a coroutine, which waits for something."""
        at = self.instance("_asyncio.Task", bytes(184))
        for place, word in ((LOOP, self.loop), (WAITER, waiter), (CORO, coroutine), (NAME, self.text(name))):
            self.objects.word(at + place, word)
        return at

    def reference_to(self, at: int) -> int:
        """A weak reference."""
        found = self.objects.write(self.objects.free(), bytes(56))
        self.objects.word(found + 16, at)
        return found

    def set_with(self, entries: Sequence[Tuple[int, int]]) -> int:
        """A set of these members with their hashes; a member 0 is none."""
        objects = self.objects
        table = objects.write(objects.free(), b"".join(struct.pack("<2Q", *it) for it in entries))
        held = objects.write(objects.free(), bytes(200))
        objects.word(held + 32, len(entries) - 1)
        objects.word(held + 40, table)
        return held

    def set_to(self, *members: int, more: Sequence[Tuple[int, int]] = (), module: str = "asyncio.tasks",
               masks: Sequence[int] = (), others: Sequence[str] = (), held: int = 0) -> None:
        """Says which weak references the set has, and with which hashes there are others; or of several sets what they say of how many
        entries they have; or which set it is. The interpreter's modules are written anew, with others of these names."""
        objects = self.objects
        entries = [(0, 0), *((it, 5) for it in members), *more]
        entries += [(0, 0)] * (8 - len(entries))
        sets = [self.set_of(it) for it in masks] or [held or self.set_with(entries)]
        weak = [(name, self.with_dict("WeakSet", (("data", it),))) for name, it in zip(("_all_tasks", "_scheduled_tasks"), sets)]
        tasks = self.with_dict("module", (*weak, *zip(("_eager_tasks",), sets[2:]), ("_CTask", self.types["_asyncio.Task"])))
        types = self.with_dict("module", (("CoroutineType", self.types["coroutine"]), ("GeneratorType", self.types["generator"]),
                                          ("AsyncGeneratorType", self.types["async_generator"])))
        own = self.with_dict("module", (("Future", self.types["_asyncio.Future"]), ("Task", self.types["_asyncio.Task"])))
        objects.word(HEAP + 16, self.dict_of(((module, tasks), ("types", types), ("_asyncio", own), *((it, own) for it in others))))

    def set_of(self, mask: int) -> int:
        """A set that says so of how many entries it has, which are not there."""
        held = self.objects.write(self.objects.free(), bytes(200))
        self.objects.word(held + 32, mask)
        self.objects.word(held + 40, 0x90000)
        return held


FAR = 1 << 32
"""Where there is room for many objects."""


def of_tasks(count: int) -> Dict[str, bytes]:
    """The files of a core with so many tasks, of which each waits for a future of its own, in a chain of three coroutines."""
    made, near = made_far()
    codes = [made.code(name, line) for name, line in (("reads", 7), ("works", 5), ("serves", 3))]
    tasks = []
    for number in range(count):
        future = held = made.instance("_asyncio.Future", bytes(144))
        for code in codes:
            held, _ = made.coroutine("", 0, held, code)
        tasks.append(made.task_of(held, future, f"Task-{number}"))
    return files_far(made, near, tasks)


def of_ring(count: int, members: int) -> Dict[str, bytes]:
    """The files of a core with so many tasks over one ring of so many coroutines."""
    made, near = made_far()
    code = made.code("f", 3)
    ring = [made.coroutine("", 0, 0, code) for _ in range(members)]
    for (_, frame), (after, _) in zip(ring, [*ring[1:], ring[0]]):
        made.objects.word(frame + 80, after)
    return files_far(made, near, [made.task_of(ring[0][0], 0, "t") for _ in range(count)])


def made_far() -> Tuple[Made, Objects]:
    """Objects of which more are laid where there is room, and those that stand in the small core's heap."""
    made = Made()
    near = made.objects
    made.objects = Objects(near.layout, FAR)
    return made, near


def files_far(made: Made, near: Objects, tasks: Sequence[int]) -> Dict[str, bytes]:
    """The files of a core of these, with tasks."""
    held, far = made.set_with([(made.reference_to(it), 5) for it in tasks]), made.objects
    made.objects = near
    made.set_to(held=held)
    return {**named(near, more=[far.segment(6)]), "records": RECORDS}
