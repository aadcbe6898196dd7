"""Coroutines of hostile memories, in each form that CPython had, and the objects between them: how each is laid out, and what docs/USAGE.md
tells of one that stands in some way."""

from dataclasses import dataclass
from random import Random
from typing import Dict, Optional, Tuple

from made import EXAMPLE, edited
from made_tasks import RECORDS, Made
from salvage_text import Tree
from small_core import CALLER, CODE, FILE, FRAME as NEWEST, MODULE_CODE

FRAME, RUNNING, LAST, BOTTOM, BEHIND, BYTE = 16, 24, 32, 40, 48, 52
"""Where a coroutine names its frame and says that it runs; a frame its last instruction, the begin of its stack, the end of that or how
many values it has, and its state, where it says so."""

BETWEEN = b"""\
coroutine_wrapper = {size=24, held=16}
asend = {size=40, held=16}
athrow = {size=40, held=16}
anext_awaitable = {size=32, held=16}
future_iter = {size=24, held=16}
"""
"""The records of objects that stand between a coroutine and what it awaits."""

POINTED = RECORDS + BETWEEN

COUNTED = (POINTED.replace(b"stack_pointer = {bottom=40, top=48}", b"stack_depth = {bottom=40, depth=48, state=52}")
           .replace(b"generator_running = {running=24}", b"states = {created=254, suspended=255, running=0}"))
"""The same objects, where a frame counts the values on its stack and says its state, as in 3.10."""

INSIDE, INSIDE_STATE = 40, 20
"""Where a coroutine has its frame, and its state, as from 3.11 on."""

FRAMED = (COUNTED.replace(b"stack_depth = {bottom=40, depth=48, state=52}", b"stack_count = {top=48}")
          .replace(b"generator_frame = {frame=16}", b"generator_inside = {frame=40, state=20}")
          .replace(b"yield_from = {opcode=72}", b"resume = {first=151, second=150}"))
"""The same objects, where a coroutine has its frame inside, as in 3.11 and 3.12."""

AWAITED = FRAMED.replace(b"created=254, suspended=255", b"created=253, suspended=254") + b"awaiting_state = {state=255}\n"
"""The same, where the state says that one awaits, as in 3.13."""

FRAMED_LAYOUT = edited(EXAMPLE, lasti='"pointer"',
                       code="{size=64, argcount=16, nlocals=20, first_line=24, filename=32, name=40, table=48, varnames=56, start=64}")
"""The layout of these: a frame has the address of its last instruction, and code its instructions behind its record."""

STANDINGS = ("awaits", "awaits", "awaits", "awaits", "yields", "created", "runs", "finished", "a state that is none", "no stack", "a stack that is gone",
             "a frame that is gone", "code that is gone", "a type of its name", "a type that is gone", "a name that is gone")
"""How a member of a chain may stand; most of them await."""


def lost(at: int, length: int) -> Tree:
    """A range that isn't in memory."""
    return {"address": hex(at), "kind": "unreadable", "length": length}


def four(number: int) -> bytes:
    """A number of four bytes."""
    return number.to_bytes(4, "little")


@dataclass(frozen=True)
class Member:
    """What stands at an address: what is told of it, none where it is no member; what it awaits, or how a chain ends there."""

    told: Optional[Tree]
    awaited: int
    end: Optional[Tree] = None


@dataclass(frozen=True)
class Place:
    """Where a coroutine, its frame and its code stand, and what it awaits."""

    at: int
    frame: int
    code: int
    awaited: int


class Pointed:
    """Coroutines whose frame is an object, which has the end of its stack, as in 3.7 to 3.9."""

    records, layout, top = POINTED, EXAMPLE, 80

    def __init__(self, random: Random, made: Made, gone: int) -> None:
        self.random, self.made, self.objects, self.gone = random, made, made.objects, gone

    def laid(self, name: str, line: int, code: int = 0) -> Place:
        """Lays out a coroutine that awaits, maybe of a code that is there."""
        at, frame = self.made.coroutine(name, line, 0, code)
        return Place(at, frame, self.word_at(frame + self.objects.group("frame")["code"]), 0)

    def word_at(self, at: int) -> int:
        """A word of these objects."""
        return int.from_bytes(self.objects.data[at - self.objects.start :][:8], "little")

    def await_(self, it: Place, awaited: int) -> Place:
        """Has a coroutine await an object."""
        self.objects.word(it.frame + self.top, awaited)
        return Place(it.at, it.frame, it.code, awaited)

    def stood(self, way: str, it: Place, told: Tree) -> Optional[Member]:
        """What is told of a coroutine that stands in a way, which is written; none where the way isn't one of its frame."""
        objects, gone, bare = self.objects, self.gone, {**told, "frame": None}
        if self.is_finished(way):
            objects.word(it.at + FRAME, 0)
            return Member(bare, 0, {"kind": "finished"})
        if way == "a frame that is gone":
            objects.word(it.at + FRAME, gone)
            return Member(bare, 0, lost(gone, self.objects.group("frame")["size"]))
        if way == "code that is gone":
            objects.word(it.frame + objects.group("frame")["code"], gone)
            return Member(bare, 0, lost(gone + 64, 8))
        end = self.end(way, it)
        return Member(told, 0, end) if end else None

    def is_finished(self, way: str) -> bool:
        """Whether it has no frame."""
        return way in ("finished", "a state that is none")

    def end(self, way: str, it: Place) -> Optional[Tree]:
        """How a chain ends at a coroutine by its frame, which is written; none where it doesn't."""
        objects, random, kind = self.objects, self.random, way
        if way == "yields":
            objects.write(it.frame + LAST, four(2))
            kind = "yield"
        elif way == "created":
            objects.write(it.frame + LAST, four(random.choice((2 ** 31, 2 ** 32 - 1))))
        elif way == "runs":
            objects.write(it.at + RUNNING, bytes((random.choice((1, 2, 255)),)))
            kind = "running"
        elif way == "no stack":
            objects.word(it.frame + BEHIND, random.randrange(8))
            kind = "not stored"
        elif way == "a stack that is gone":
            objects.word(it.frame + BEHIND, self.gone + 8)
            return lost(self.gone, 8)
        else:
            return None
        return {"kind": kind}


class Counted(Pointed):
    """Coroutines whose frame is an object, which counts the values on its stack and says its state, as in 3.10."""

    records = COUNTED
    created, runs = 254, 0

    def laid(self, name: str, line: int, code: int = 0) -> Place:
        """Lays out a coroutine that awaits, maybe of a code that is there."""
        it = super().laid(name, line, code)
        self.objects.write(it.frame + BEHIND, four(1))
        self.objects.write(it.frame + BYTE, b"\xff")
        return it

    def is_finished(self, way: str) -> bool:
        """Whether it has no frame."""
        return way == "finished"

    def states(self) -> Dict[str, Tuple[int, str]]:
        """The byte that stands for a way, and how a chain ends there."""
        return {"created": (self.created, "created"), "runs": (self.runs, "running"), "a state that is none": (self.random.randrange(1, 253), "finished")}

    def end(self, way: str, it: Place) -> Optional[Tree]:
        """How a chain ends at a coroutine by its frame, which is written; none where it doesn't."""
        objects, states = self.objects, self.states()
        if way == "yields":
            objects.write(it.frame + LAST, four(1))
            return {"kind": "yield"}
        if way == "no stack":
            objects.write(it.frame + BEHIND, four(self.random.choice((0, 2 ** 31, 2 ** 32 - 1))))
            return {"kind": "not stored"}
        if way == "a stack that is gone":
            objects.word(it.frame + BOTTOM, self.gone)
            return lost(self.gone, 8)
        if way not in states:
            return None
        byte, kind = states[way]
        objects.write(it.frame + BYTE, bytes((byte,)))
        return {"kind": kind}


class Framed(Counted):
    """Coroutines that have their frame inside, as in 3.11 and 3.12."""

    records, layout, top = FRAMED, FRAMED_LAYOUT, 56
    awaits, code_at = 255, 64

    def __init__(self, random: Random, made: Made, gone: int) -> None:
        super().__init__(random, made, gone)
        # (those of the thread have begun, so that they have no line, as in the other forms)
        for frame, code in ((NEWEST, CODE), (CALLER, MODULE_CODE)):
            self.objects.word(frame + LAST, code + self.code_at)

    def code(self, name: str, line: int) -> int:
        """The code of one that awaits."""
        objects, random = self.objects, self.random
        code = objects.write(objects.free(), bytes(96))
        objects.record("code", code, filename=FILE, name=objects.text(name), first_line=line, table=objects.table(b""))
        objects.write(code + self.code_at, bytes((0, 0, random.choice((150, 151)), random.randrange(2, 256))))
        return code

    def laid(self, name: str, line: int, code: int = 0) -> Place:
        """Lays out a coroutine that awaits, maybe of a code that is there."""
        objects, code = self.objects, code or self.code(name, line)
        at = self.made.instance("coroutine", bytes(112))
        frame = at + INSIDE
        objects.word(frame + objects.group("frame")["code"], code)
        objects.word(frame + LAST, code + self.code_at)
        objects.write(frame + BEHIND, four(1))
        objects.write(at + INSIDE_STATE, bytes((self.awaits,)))
        return Place(at, frame, code, 0)

    def stood(self, way: str, it: Place, told: Tree) -> Optional[Member]:
        """What is told of a coroutine that stands in a way, which is written; none where the way isn't one of its frame."""
        objects, bare = self.objects, {**told, "frame": None}
        if way in ("finished", "a state that is none"):
            objects.write(it.at + INSIDE_STATE, bytes((self.random.randrange(1, 253),)))
            return Member(bare, 0, {"kind": "finished"})
        if way == "a frame that is gone":
            objects.word(it.frame + LAST, self.gone)
            return self.without_instruction(it, {**told, "frame": {**told["frame"], "line": 0}})
        if way == "code that is gone":
            objects.word(it.frame + objects.group("frame")["code"], self.gone)
            return Member(bare, it.awaited)
        end = self.end(way, it)
        return Member(told, 0, end) if end else None

    def without_instruction(self, it: Place, told: Tree) -> Member:
        """What is told of one whose last instruction isn't in memory: what it awaits is not known then."""
        return Member(told, 0, lost(self.gone + 2, 2))

    def end(self, way: str, it: Place) -> Optional[Tree]:
        """How a chain ends at a coroutine by its frame, which is written; none where it doesn't."""
        objects, random = self.objects, self.random
        if way == "yields":
            self.have_yield(it)
            return {"kind": "yield"}
        if way == "a stack that is gone":
            count = random.choice((2 ** 24, 2 ** 31 - 1))
            objects.write(it.frame + BEHIND, four(count))
            return lost(it.frame + self.top + 8 * (count - 1), 8)
        if way in ("created", "runs"):
            objects.write(it.at + INSIDE_STATE, bytes((self.created if way == "created" else self.runs,)))
            return {"kind": "created" if way == "created" else "running"}
        return super().end(way, it) if way == "no stack" else None

    def have_yield(self, it: Place) -> None:
        """Has a coroutine stand in a plain `yield`."""
        pair = self.random.choice(((150, 0), (151, 1), (72, 2), (0, 0)))
        self.objects.write(it.code + self.code_at + 2, bytes(pair))


class Awaited(Framed):
    """The same, where the state says that one awaits, as in 3.13."""

    records, created = AWAITED, 253

    def without_instruction(self, it: Place, told: Tree) -> Member:
        """What is told of one whose last instruction isn't in memory: its line isn't known."""
        return Member(told, it.awaited)

    def have_yield(self, it: Place) -> None:
        """Has a coroutine stand in a plain `yield`."""
        self.objects.write(it.at + INSIDE_STATE, b"\xfe")


FORMS = (Pointed, Counted, Framed, Awaited)

# ---- what stands between

HOLDERS = (("coroutine_wrapper", b"coroutine_wrapper", 24, "coroutine"), ("async_generator_asend", b"asend", 40, "async_generator"),
           ("async_generator_athrow", b"athrow", 40, "async_generator"), ("anext_awaitable", b"anext_awaitable", 32, "any"),
           ("_asyncio.FutureIter", b"future_iter", 24, "future"))
"""What stands between: the name of its type, its group, its size, and what it has to hold."""

HEAP_TYPE, FIXED_TYPE = 1 << 9, 1 << 8

FLAWS = ("", "", "", "", "of a fixed type", "of a program's type", "another size", "another name", "a name without an end", "a name that is gone",
         "a type that is gone")
"""What may be wrong with such an object."""


def told_between(at: int) -> Tree:
    """What is told of a member that stands between."""
    return {"address": hex(at), "frame": None, "kind": "between"}


class Between:
    """An object of a type that stands between, which may have a flaw."""

    def __init__(self, form: Pointed, random: Random, flaw: str) -> None:
        self.form, self.flaw = form, flaw
        self.name, self.group, size, self.wants = random.choice(HOLDERS)
        objects, made = form.objects, form.made
        name = self.name + "x" if flaw == "another name" else "x" * 128 if flaw == "a name without an end" else self.name
        klass = self.klass = made.type_of(name, 0)
        places = objects.group("klass")
        objects.word(klass + 48, size + 8 if flaw == "another size" else size)
        flags = {"of a fixed type": HEAP_TYPE | FIXED_TYPE, "of a program's type": HEAP_TYPE}
        objects.word(klass + places["flags"], flags.get(flaw, random.choice((0, FIXED_TYPE, 1 << 14))))
        if flaw == "a name that is gone":
            objects.word(klass + places["name"], form.gone)
        self.at = objects.of_class(objects.write(objects.free(), bytes(size)), form.gone if flaw == "a type that is gone" else klass)

    def member(self, held: int, types: Dict[str, int]) -> Member:
        """What is told of it where it holds an object, which is written, by the addresses of types; there are none where it isn't described."""
        objects, form = self.form.objects, self.form
        objects.word(self.at + 16, held)
        other = Member(None, 0, {"address": hex(self.at), "kind": "object"})
        if self.flaw == "a type that is gone":
            return Member(None, 0, lost(form.gone + objects.group("klass")["flags"], 8))
        if self.flaw not in ("", "of a fixed type") or held == 0 or not types:
            return other
        if self.wants == "future":
            return Member(None, 0, {"address": hex(held), "kind": "future"})
        if self.wants != "any" and held == form.gone:
            return Member(None, 0, lost(held + objects.group("object")["klass"], 8))
        if self.wants != "any" and form.word_at(held + objects.group("object")["klass"]) != types[self.wants]:
            return other
        return Member(told_between(self.at), held)
