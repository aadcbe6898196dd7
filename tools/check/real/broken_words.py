"""Words of a real core that are set to garbage, one at a time, for real_salvage.py: of a thread's record, of a frame
and of a code object. The other threads must be as before, and the broken one must end, or lack a name, exactly where
the word was.

The words are found by a walk of this module's own, over core_reader.py: it shares the layout with the program, and
nothing else.
"""

import struct
from dataclasses import dataclass
from pathlib import Path
from typing import Callable, Dict, Iterator, List, Optional, Tuple

from child_cores import Failure
from core_reader import Reader, reader
from made import Layout, layout_of

LOW, LETTERS = 0x1230, 0x4141414141414141
"""Two words that are no address: one of the first page, and one of text."""

FUNCTION = "descend"
"""A function whose code is in the frames of one thread alone: real_core_child.py recurs in it."""

Tree = Dict[str, object]
Left = Callable[[], Tree]


@dataclass(frozen=True)
class Member:
    """A frame, as this module finds it."""

    frame: int
    code: int
    name: Optional[str]
    """Of its function, where that is ASCII."""


@dataclass(frozen=True)
class Spot:
    """A word that is to be garbage, and what that costs the thread."""

    what: str
    address: int
    count: int
    """How many members its chain has then."""
    nameless: Tuple[int, ...] = ()
    """Those of them that have no names any more."""
    lineless: Tuple[int, ...] = ()
    """Those of them whose line isn't known any more."""
    ends: Optional[Tuple[int, int]] = None
    """The chain breaks off so far behind the garbage, and so many bytes were asked for; None where it is whole."""


@dataclass(frozen=True)
class Walker:
    """A core's records by its layout."""

    core: Reader
    layout: Layout

    def word(self, address: int) -> int:
        """The word there."""
        data = self.core.read(address, 8)
        if data is None:
            raise Failure(f"there is no word at {address:#x}")
        return struct.unpack("<Q", data)[0]

    def at(self, record: int, field: str) -> int:
        """Where a record has a field, which is named with its group: `frame.back`."""
        group, name = field.split(".")
        return record + self.layout[group][name]

    def text(self, address: int) -> Optional[str]:
        """An ASCII text."""
        string = self.layout["string"]
        data = self.core.read(address, string["short_at"])
        if data is None:
            raise Failure(f"there is no text at {address:#x}")
        (length,) = struct.unpack_from("<Q", data, string["length"])
        (state,) = struct.unpack_from("<I", data, string["state"])
        found = self.core.read(address + string["short_at"], length) if state >> string["ascii_bit"] & 1 else None
        return None if found is None else found.decode("ascii")

    def first(self, thread: int) -> Tuple[int, int]:
        """A thread's newest frame, and the word that names it."""
        place = self.at(thread, "thread.frame")
        if self.layout["frames"] == "cframe":
            place = self.at(self.word(place), "cframe.current")
        return self.word(place), place

    def chain(self, thread: int) -> List[Member]:
        """The frames of a thread that are shown. Others have no code, or that of a file `<shim>`."""
        frame = self.first(thread)[0]
        kind = self.word(self.at(self.word(self.at(frame, "frame.code")), "object.klass"))
        found: List[Member] = []
        while frame:
            code = self.word(self.at(frame, "frame.code"))
            if self.word(self.at(code, "object.klass")) == kind and self.named(code, "code.filename") != "<shim>":
                found.append(Member(frame, code, self.named(code, "code.name")))
            frame = self.word(self.at(frame, "frame.back"))
        return found

    def named(self, code: int, field: str) -> Optional[str]:
        """A name of a code object."""
        return self.text(self.word(self.at(code, field)))

    def threads(self, interpreter: int) -> List[int]:
        """The threads of an interpreter, the first of the chain first."""
        found: List[int] = []
        at = self.word(self.at(interpreter, "interpreter.threads"))
        while at:
            found.append(at)
            at = self.word(self.at(at, "thread.next"))
        return found


def spots(walker: Walker, thread: int, chain: List[Member]) -> Iterator[Spot]:
    """Words that lead from a thread's record to its newest frame; words of the newest frame, of one in the middle and
    of the oldest one; and words of the code of that in the middle."""
    own = tuple(at for at, it in enumerate(chain) if it.name == FUNCTION)
    middle, count = own[len(own) // 2], len(chain)
    victim = chain[middle]
    next_frame, no_code = ((0, walker.layout[it]["size"]) for it in ("frame", "code"))
    if walker.layout["frames"] == "cframe":
        yield Spot("thread.frame", walker.at(thread, "thread.frame"), 0, ends=(walker.at(0, "cframe.current"), 8))
        yield Spot("cframe.current", walker.first(thread)[1], 0, ends=next_frame)
    else:
        yield Spot("thread.frame", walker.at(thread, "thread.frame"), 0, ends=next_frame)
    for at in (0, middle, count - 1):
        yield Spot("frame.back", walker.at(chain[at].frame, "frame.back"), at + 1, ends=next_frame)
        yield Spot("frame.code", walker.at(chain[at].frame, "frame.code"), at, ends=no_code)
    if walker.layout["lasti"] == "pointer":
        yield Spot("frame.instr", walker.at(victim.frame, "frame.instr"), count, lineless=(middle,))
    yield Spot("code.name", walker.at(victim.code, "code.name"), count, own)
    yield Spot("code.filename", walker.at(victim.code, "code.filename"), count, own)
    yield Spot("code.table", walker.at(victim.code, "code.table"), count, lineless=own)


def place_of(core: Path, address: int) -> int:
    """Where in a core's file an address stands."""
    with open(core, "rb") as file:
        head = file.read(64)
        start, size, count = struct.unpack_from("<Q", head, 32)[0], *struct.unpack_from("<2H", head, 54)
        file.seek(start)
        table = file.read(size * count)
    for number in range(count):
        kind, _, offset, addr, _, length = struct.unpack_from("<2I4Q", table, size * number)
        if kind == 1 and addr <= address < addr + length:
            return offset + address - addr
    raise Failure(f"{address:#x} is not in the core")


def with_word(core: Path, address: int, word: int, left: Left) -> Tree:
    """What is left of a core with this word at an address. The word that was there is put back."""
    place = place_of(core, address)
    with open(core, "r+b") as file:
        file.seek(place)
        before = file.read(8)
        try:
            file.seek(place)
            file.write(struct.pack("<Q", word))
            file.flush()
            return left()
        finally:
            file.seek(place)
            file.write(before)


def unreadable(address: int, length: int) -> Tree:
    """An end, or why there is no name."""
    return {"kind": "unreadable", "address": hex(address), "length": length}


def broken(thread: Tree, chain: List[Member], spot: Spot, word: int, length: int) -> Tree:
    """What a thread is to look like with this garbage there, where so many bytes of a text are asked for."""
    frames = thread["frames"]
    first = list(frames["first"][: spot.count])
    for at in spot.nameless:
        first[at] = {"address": hex(chain[at].frame), "why": unreadable(word, length)}
    for at in spot.lineless:
        first[at] = {**first[at], "line": 0}
    end = frames["end"] if spot.ends is None else unreadable(word + spot.ends[0], spot.ends[1])
    return {**thread, "frames": {**frames, "first": first, "end": end}}


def by_address(tree: Tree, but: int = 0) -> Dict[str, Tree]:
    """The threads of the first interpreter, but one, by the addresses of their records."""
    found = {it["address"]: it for it in tree["interpreters"][0]["threads"]}
    found.pop(hex(but), None)
    return found


def check_frames(core: Path, walker: Walker, thread: int, before: Tree, left: Left) -> int:
    """Each word of `spots` costs what it says, and nothing of the other threads. How many words were tried."""
    whole = by_address(before)[hex(thread)]
    chain = walker.chain(thread)
    names = [it["name"] if it["name"].isascii() else None for it in whole["frames"]["first"]]
    if [it.name for it in chain] != names:
        raise Failure(f"the frames of {thread:#x} are {names}, and by a walk {[it.name for it in chain]}")
    count = 0
    for count, spot in enumerate(spots(walker, thread, chain), 1):
        word = (LOW, LETTERS)[count % 2]
        after = with_word(core, spot.address, word, left)
        what = f"with {word:#x} in place of {spot.what}"
        if by_address(after, thread) != by_address(before, thread) or not is_beside(before, after):
            raise Failure(f"{what}: another thread is not as before")
        got, wanted = by_address(after)[hex(thread)], broken(whole, chain, spot, word, walker.layout["string"]["size"])
        # (those that are not shown were met too)
        wanted["frames"]["met"] = max(spot.count, got["frames"]["met"])
        if got != wanted:
            raise Failure(f"{what}: the thread is {got}, and not {wanted}")
    return count


def is_beside(before: Tree, after: Tree) -> bool:
    """Whether the other interpreters, and the end of the first one's threads, are as before."""
    one, other = before["interpreters"], after["interpreters"]
    return one[1:] == other[1:] and all(one[0][it] == other[0][it] for it in ("address", "lock", "threads_end"))


def check_threads(core: Path, walker: Walker, thread: int, before: Tree, left: Left) -> int:
    """A thread whose interpreter is garbage ends the threads, one whose `next` is garbage is the last one, and one
    whose id is garbage has another id. How many words were tried."""
    known = by_address(before)
    order = [hex(it) for it in walker.threads(int(before["interpreters"][0]["address"], 16))]
    at = order.index(hex(thread))
    if len(order) != len(known) or not 0 < at < len(order) - 1:
        raise Failure(f"the threads are {list(known)}, and by a walk {order}")
    renamed = {**known, hex(thread): {**known[hex(thread)], "thread_id": LETTERS}}
    for field, those, wanted, end in (
            ("interp", known, order[:at], {"kind": "stray", "interpreter": hex(LETTERS)}),
            ("next", known, order[: at + 1], unreadable(LETTERS, walker.layout["thread"]["size"])),
            ("id", renamed, order, {"kind": "whole"})):
        after = with_word(core, walker.at(thread, f"thread.{field}"), LETTERS, left)
        got = after["interpreters"][0]["threads_end"]
        if got != end:
            raise Failure(f"with garbage in place of thread.{field} the threads end by {got}, and not by {end}")
        if by_address(after) != {it: those[it] for it in wanted}:
            raise Failure(f"with garbage in place of thread.{field} another thread is not as before")
    return 3


def check_words(core: Path, layouts: str, left: Left) -> int:
    """Sets words of the thread that recurs to garbage, one at a time. How many were tried."""
    before = left()
    walker = Walker(reader(core.read_bytes()), layout_of(layouts))
    recurs = [it for it in by_address(before).values()
              if any(one.get("name") == FUNCTION for one in it["frames"]["first"])]
    if len(recurs) != 1:
        raise Failure(f"{len(recurs)} threads have a frame of {FUNCTION}")
    thread = int(recurs[0]["address"], 16)
    return sum(check(core, walker, thread, before, left) for check in (check_frames, check_threads))
