"""Runs of `pysalvage` on broken chains of which docs/USAGE.md tells the answer: as JSON, and by that as a text."""

from dataclasses import dataclass, replace
from random import Random
from typing import List, Optional, Sequence, Tuple

from changes import Files
from made import EXAMPLE, Objects, Section, Segment, Symbol, core_file, image_file, layout_of
from small_core import BSS, CALLER, CODE, FILE, FRAME, FUNCTION, HEAP, MODULE_CODE, PROGRAM, THREAD, bss, files_of, heap, mapped
from rows_salvage import NAMED, RUNTIME, status_record
from salvage_text import INTERPRETERS, MEMBERS, THREADS, Tree, json_of, text_of
from told import WORDS, Told, Teller, cut, cut_image, large_bss, nowhere

CHAIN, RECORDS = 0x10000000, 0x20000000
"""Where the frames of a longer chain stand, and the records of more threads."""

APART = 64
"""A frame and a thread have as many bytes each, and stand one behind the other."""

IDLE = 64
"""Past how many interpreters without threads in a row a record leads."""

HOLDER = 568
"""Where `_PyRuntime` of 3.9 names the current thread."""

WHOLE: Tree = {"kind": "whole"}
CUT: Tree = {"kind": "cut"}


def lost(at: int, group: str) -> Tree:
    """The record of a group that isn't in memory."""
    return {"kind": "unreadable", "address": hex(at), "length": heap().group(group)["size"]}


def named(name: str) -> Tree:
    """A frame in `a.py`."""
    return {"filename": "a.py", "line": 0, "locals": None, "locals_fault": None, "name": name}


@dataclass(frozen=True)
class Left:
    """What is left of a process: the segments of its core, its interpreters in the order in which they are found, with
    the threads of each in the order of its chain, and whether there are more."""

    segments: Sequence[Segment]
    interpreters: Sequence[Tree]
    more: bool = False


def interpreter(address: int, threads: Sequence[Tree], end: Tree = WHOLE, searched: bool = False) -> Tree:
    """An interpreter whose lock nobody holds."""
    lock = {"holder": 0, "kind": "read"}
    return {"address": hex(address), "lock": lock, "searched": searched, "threads": list(threads), "threads_end": end}


def thread(address: int, number: int, frames: Tree) -> Tree:
    """A thread without marks."""
    return {"address": hex(address), "crashed": False, "frames": frames, "gil": False, "name": None,
            "os_thread_id": None, "thread_id": number}


def around(count: int, first: int, most: int) -> Sequence[int]:
    """The order of a chain of so many members that goes back to one of them, up to a limit."""
    return [at if at < count else first + (at - first) % (count - first) for at in range(most)]


# ---- frames


def frames_of(order: Sequence[int], standings: Sequence[Optional[Tree]], end: Tree, limit: int) -> Tree:
    """The frames of a chain whose members were met in an order, each of which stands for something, or is left out."""
    kept = [at for at in order if standings[at] is not None]
    few = len(kept) <= 2 * limit
    first, last = (kept, []) if few else (kept[:limit], kept[-limit:])
    return {"between": len(kept) - len(first) - len(last), "end": end, "first": [standings[at] for at in first],
            "last": [standings[at] for at in last], "met": len(order)}


TWO = [named("f"), named("<module>")]
"""What the chain of the small core has."""


@dataclass(frozen=True)
class Kind:
    """A member of a chain: its code, and what it stands for, if it is shown."""

    code: int
    shown: Optional[Tree]


def kinds(objects: Objects, random: Random) -> List[Kind]:
    """Codes of frames that are shown, of members that are left out, and of members without names."""
    gone, length = nowhere(random), random.choice((-1, -(2 ** 63), 4096, 2 ** 63 - 1))
    long, odd = objects.text("x"), objects.text("x")
    objects.word(long + objects.group("string")["length"], length)
    # (a compact text with characters of three bytes each, which CPython has not)
    objects.word(odd + objects.group("string")["state"], 1 << 5 | 3 << 2)
    shim = objects.record("code", None, filename=objects.text("<shim>"), name=FUNCTION)
    empty = objects.record("code", None, filename=objects.text(""), name=FUNCTION)
    nameless = objects.record("code", None, filename=0, name=FUNCTION)
    found = [Kind(CODE, TWO[0]), Kind(MODULE_CODE, TWO[1]), *(Kind(it, None) for it in (shim, empty, nameless))]
    whys = (gone, lost(gone, "string")), (long, {"kind": "too long", "length": length}), (odd, {"kind": "no text"})
    for bad, why in whys:
        for file, name in ((FILE, bad), (bad, FUNCTION)):
            found.append(Kind(objects.record("code", None, filename=file, name=name), {"why": why}))
    return found


def standing(kind: Kind, at: int) -> Optional[Tree]:
    """What a member at an address stands for."""
    return {"address": hex(at), **kind.shown} if kind.shown and "why" in kind.shown else kind.shown


def chain(random: Random, limit: int) -> Left:
    """A chain of frames that ends at null, in a ring, where no memory is, or at the end of a segment that is cut."""
    objects, far = heap(), Objects(layout_of(EXAMPLE), CHAIN)
    known = kinds(objects, random)
    count = random.choice((1, 2, 3, 7, 40, 300))
    members = [random.choice(known[: random.choice((2, len(known)))]) for _ in range(count)]
    places = [CHAIN + APART * at for at in range(count)]
    for at, kind, after in zip(places, members, places[1:] + [0]):
        far.frame(at=at, code=kind.code, back=after)
    order, end, data = ended(random, far, places)
    objects.word(THREAD + objects.group("thread")["frame"], CHAIN)
    frames = frames_of(order, [standing(*it) for it in zip(members, places)], end, limit)
    maps = [objects.segment(6), Segment(CHAIN, data, 6)]
    return Left(maps, [interpreter(HEAP, [thread(THREAD, 0x7F00, frames)])])


def ended(random: Random, far: Objects, places: Sequence[int]) -> Tuple[Sequence[int], Tree, bytes]:
    """Gives a chain of frames its end: which members are met in order, how it ends, and its memory."""
    count, gone, how = len(places), nowhere(random), random.randrange(21)
    back, code = (places[-1] + far.group("frame")[it] for it in ("back", "code"))
    if how == 0:
        first = random.randrange(count)
        far.word(back, places[first])
        return around(count, first, MEMBERS), CUT, bytes(far.data)
    if how <= 5:
        far.word(back, gone)
        return range(count), lost(gone, "frame"), bytes(far.data)
    if how <= 10:
        far.word(code, gone)
        return range(count - 1), lost(gone, "code"), bytes(far.data)
    if how <= 15:
        length = random.randrange(APART * count)
        return range(length // APART), lost(places[length // APART], "frame"), bytes(far.data[:length])
    return range(count), WHOLE, bytes(far.data)


# ---- threads


def threads(random: Random, limit: int) -> Left:
    """A chain of threads that ends at null, in a ring, past the limit, where no memory is, or at one of another
    interpreter."""
    objects, far = heap(), Objects(layout_of(EXAMPLE), RECORDS)
    how = random.randrange(13)
    count = random.randrange(THREADS + 1, THREADS + 3) if how == 0 else random.choice((1, 2, 3, 7, 40))
    places = [RECORDS + APART * at for at in range(count)]
    fronts = [random.choice((0, FRAME, CALLER)) for _ in places]
    for nth, (at, front, after) in enumerate(zip(places, fronts, places[1:] + [0])):
        far.record("thread", at, **{"next": after, "interp": HEAP, "frame": front, "id": 0x8000 + nth})
    objects.word(HEAP + objects.group("interpreter")["threads"], RECORDS)
    order, end, data = parted(random, how, far, places)
    shown = {0: [], FRAME: TWO, CALLER: TWO[1:]}
    found = [thread(places[at], 0x8000 + at, frames_of(range(len(shown[fronts[at]])), shown[fronts[at]], WHOLE, limit))
             for at in order]
    return Left([objects.segment(6), Segment(RECORDS, data, 6)], [interpreter(HEAP, found, end)])


def parted(random: Random, how: int, far: Objects, places: Sequence[int]) -> Tuple[Sequence[int], Tree, bytes]:
    """Gives a chain of threads its end: which are met in order, how it ends, and its memory."""
    count, gone, fields = len(places), nowhere(random), far.group("thread")
    if how == 0:
        return range(THREADS), CUT, bytes(far.data)
    if how == 1:
        first = random.randrange(count)
        far.word(places[-1] + fields["next"], places[first])
        return around(count, first, THREADS), CUT, bytes(far.data)
    if how <= 4:
        far.word(places[-1] + fields["next"], gone)
        return range(count), lost(gone, "thread"), bytes(far.data)
    if how <= 7 and count > 1:
        stray = random.randrange(1, count)
        far.word(places[stray] + fields["interp"], gone)
        return range(stray), {"kind": "stray", "interpreter": hex(gone)}, bytes(far.data)
    if how <= 10:
        length = random.randrange(APART * count)
        return range(length // APART), lost(places[length // APART], "thread"), bytes(far.data[:length])
    return range(count), WHOLE, bytes(far.data)


# ---- interpreters


def interpreters(random: Random, limit: int) -> Left:
    """Interpreters of which each names the next one, in a ring or not, with some in a row that have no threads: those
    behind up to 64 of these are found, of which the head is none."""
    count, idle = random.choice((1, 2, 3, 15, 16, 17, 20)), random.choice((0, 0, 1, 2, IDLE, IDLE + 1))
    before = random.randrange(count + 1)
    objects, found = Objects(layout_of(EXAMPLE), HEAP), []
    places = [objects.record("interpreter") for _ in range(count + idle)]
    for number, place in enumerate([*places[:before], *places[before + idle :]], 1):
        at = objects.threads(place, [{"id": number}])
        found.append(interpreter(place, [thread(at, number, frames_of([], [], WHOLE, limit))]))
    for place, after in zip(places, [*places[1:], random.choice((0, *places))]):
        objects.word(place, after)
    known = found if idle <= IDLE or before == 0 else found[:before]
    return Left([objects.segment(6)], known[:INTERPRETERS], len(known) > INTERPRETERS)


# ---- the whole


def marked(random: Random, left: Left) -> Tuple[Left, List[bytes], int]:
    """Has a thread get the signal or hold the lock, or none: what is left then, the notes, and the holder's address."""
    places = {it["thread_id"]: int(it["address"], 16) for one in left.interpreters for it in one["threads"]}
    crashed, held = (random.choice((None, random.choice([0x99, *places]))) for _ in range(2))
    holder = places.get(held, 0)
    told = [with_marks(one, crashed, held if holder else None) for one in left.interpreters]
    at = next((nth for nth, one in enumerate(told) if any(it["crashed"] for it in one["threads"])), 0)
    notes = [] if crashed is None else [status_record(11, 4, crashed)]
    return replace(left, interpreters=[told[at], *told[:at], *told[at + 1 :]]), notes, holder


def with_marks(one: Tree, crashed: Optional[int], held: Optional[int]) -> Tree:
    """An interpreter with marks, and its threads in the order of the text: the crashed one, and the others reversed."""
    told = [{**it, "crashed": it["thread_id"] == crashed, "gil": it["thread_id"] == held} for it in one["threads"]]
    at = next((nth for nth, it in enumerate(told) if it["crashed"]), None)
    ordered = told[::-1] if at is None else [told[at], *told[:at:-1], *told[:at][::-1]]
    return {**one, "lock": {"holder": held or 0, "kind": "read"}, "threads": ordered}


def runtime(head: int, holder: int) -> Segment:
    """The memory of the runtime, with the newest interpreter and the thread that holds the lock."""
    data = bytes(32) + head.to_bytes(8, "little")
    return Segment(RUNTIME, data.ljust(HOLDER, b"\0") + holder.to_bytes(8, "little") + bytes(16), 6)


SEARCHED = 25
"""A section of up to 2^25 bytes is looked at whole; of a longer one it is said that the search ended, beside what is shown."""


def image_of(random: Random, most: int) -> Tuple[bytes, int]:
    """The program's file with the symbol of the runtime, and how many words are looked at in its section: those that are there,
    though it claims more, up to 2^most bytes."""
    if random.random() < 0.5:
        return NAMED, 74
    size = random.choice((1 << random.randrange(10, most + 1), random.randrange(593, 2 ** most)))
    sections = [Section(".PyRuntime", 1, RUNTIME, None, size)]
    return image_file([Segment(0x400000, b"", 5, 0x1000)], (BSS, 16), [Symbol("_PyRuntime", RUNTIME)], sections), 74


def told_of(random: Random, files: Files, tree: Tree, options: Sequence[str]) -> Told:
    """A run with some options, as JSON or as a text."""
    words, is_json = WORDS["pysalvage"], random.random() < 0.5
    out = json_of(tree) if is_json else text_of(tree, "core")
    return Told((*words, *options, *(["-j"] if is_json else [])), files, 0, out=out.encode())


NONE_TOLD = {"exceptions": None, "names": None, "native": None, "tasks": None}
"""The sections that are read in memory, where none is asked for."""


def left(random: Random, command: str) -> Told:
    """A process of one of these forms, whose interpreter the symbol of the runtime leads to."""
    limit = random.choice((1, 2, 3, 100, 4096))
    form = random.choice((chain, chain, threads, interpreters))
    whole, notes, holder = marked(random, form(random, limit))
    is_shown = any(it["threads"] for it in whole.interpreters)
    image, words = image_of(random, SEARCHED if is_shown else 63)
    files = files_of(core_file([*whole.segments, mapped(), bss(0, 0), runtime(HEAP, holder)], notes), program=image)
    if not is_shown:
        # (the head, the word in front of its threads, those of the runtime section, and the bss' two)
        return Told(WORDS["pysalvage"], files, 1, f"no interpreter found: {4 + words} addresses looked at, 0 members walked")
    tree = {"interpreters": list(whole.interpreters), "more": whole.more, "process": None,
            **NONE_TOLD, "layout_check": None, "missing": None, "registers": None, "search_ended": None,
            "signal": 11 if notes else None, "signal_info": None, "stacks": None, "version": "3.9.0", "heap": None, "version_by_names": False, "waits": None}
    return told_of(random, files, tree, () if limit == 100 else ("-n", str(limit)))


def searched(random: Random, command: str) -> Told:
    """Without the symbol an interpreter is found by search, and shown where its chain of threads is whole."""
    whole = threads(random, 100)
    files = files_of(core_file([*whole.segments, mapped(), bss()]), program=PROGRAM)
    one = whole.interpreters[0]
    if one["threads_end"] != WHOLE:
        line = f"no interpreter found: 2 addresses looked at, {len(one['threads'])} members walked"
        return Told(WORDS["pysalvage"], files, 1, line)
    tree = {"interpreters": [with_marks({**one, "searched": True}, None, None)], "more": False, "process": None,
            **NONE_TOLD, "layout_check": None, "missing": None, "registers": None, "search_ended": None,
            "signal": None, "signal_info": None, "stacks": None, "version": "3.9.0", "heap": None, "version_by_names": False, "waits": None}
    return told_of(random, files, tree, ())


def named_by_files(random: Random, command: str) -> Told:
    """Of a bss that claims more than there is, so that the version can't be read, the names of files tell it; and of a long one it is said
    that the search ended."""
    known = large_bss(random, command)
    size = int(known.line.split()[-2])
    ended = "... the search ended after 1 members and 2 addresses\n" if size // 8 > 1 << 22 else ""
    out = f"Python v3.9 (by the names of files)\n\nThread 0x7F00\n    f (a.py)\n    <module> (a.py)\n{ended}"
    return Told(known.words, known.files, 0, out=out.encode())


SALVAGE_TELLERS: Tuple[Teller, ...] = (cut, cut_image, named_by_files, left, left, left, left, left, searched)
"""What is told of `pysalvage`."""
