"""What a program told of a core: its interpreters, their threads and frames, and how each chain ends. Whatever the tool
shows is made of this, and of nothing else.
"""

from typing import Dict, List, NamedTuple, Optional, Sequence, Tuple


class Local(NamedTuple):
    """A local of a frame."""

    name: str
    value: Optional[str]
    """Nothing where it isn't shown."""
    is_argument: bool = False
    is_python: bool = False
    """Whether it is written as Python writes it."""


class Frame(NamedTuple):
    """A frame, or a member of the chain that has no names."""

    name: str = ""
    filename: str = ""
    line: int = 0
    """0 where it isn't known."""
    locals: Optional[Tuple[Local, ...]] = None
    """Nothing where they weren't asked for."""
    fault: str = ""
    """Why its locals can't be read, if they can't."""
    why: str = ""
    """Why it has no names, if it has none."""

    @property
    def place(self) -> Tuple[str, str, int, str]:
        """What frames are compared by: function, file, line, or why there are none."""
        return self.name, self.filename, self.line, self.why


class Wait(NamedTuple):
    """What a thread waits for."""

    kind: str
    """What it is, in a word."""
    address: str = ""
    """The object's address, where it is one."""
    owner: Optional[int] = None
    """The id, as the interpreter gave it, of the thread that holds it, where that is known."""


class Thread(NamedTuple):
    """A thread, with its newest frame first."""

    number: int
    """The id that the interpreter gave."""
    frames: Tuple[Frame, ...]
    native: Optional[int] = None
    """The id that the system gave, where that is known."""
    name: Optional[str] = None
    is_holder: bool = False
    """Whether it held the interpreter's lock."""
    is_crashed: bool = False
    """Whether it got the signal."""
    first: Optional[int] = None
    """How many frames stand before those that aren't shown, where there are such."""
    between: int = 0
    """How many frames aren't shown."""
    end: str = ""
    """How its chain ends, where it doesn't end as a whole one does."""
    kept: Optional[int] = None
    """The system's id for it that Python kept, where that is another one: a process that was forked has it of its parent."""
    exceptions: Tuple[str, ...] = ()
    """The lines of what it raises and handles, where that is asked for."""
    exception: Tuple[str, str] = ("", "")
    """The first of it in a line, and which it is: raised or handled."""
    wait: Optional[Wait] = None
    """What it waits for, where that is asked for and known."""
    waits: str = ""
    """The same in words."""
    address: str = ""
    """The address of its record, where that is told."""

    @property
    def label(self) -> str:
        """Its id: the system's in decimal, or else the interpreter's."""
        if self.native is None:
            return f"0x{self.number:X}"
        return str(self.native) if self.kept is None else f"{self.native} ({self.kept} by Python)"

    @property
    def marks(self) -> Tuple[str, ...]:
        """Its marks."""
        return ("gil",) * self.is_holder + ("crashed",) * self.is_crashed

    @property
    def is_empty(self) -> bool:
        """Whether nothing is told of it: it has neither frames nor a mark, and its chain is whole."""
        return not (self.frames or self.between or self.end or self.marks or self.exceptions)


class Interpreter(NamedTuple):
    """An interpreter, with its threads in the order in which they are shown."""

    threads: Tuple[Thread, ...]
    address: Optional[int] = None
    is_searched: bool = False
    """Whether it was found by search alone."""
    lock: str = ""
    """Why its lock can't be read, if it can't."""
    end: str = ""
    """How its chain of threads ends, where it doesn't end as a whole one does."""
    last: Tuple[str, ...] = ()
    """The lines of the last exception that no code handled, where that is asked for and there is one."""
    last_said: str = ""
    """The first of it in a line."""


class Registers(NamedTuple):
    """The registers of a thread of the process."""

    native: int
    """The id that the system gave."""
    number: Optional[int] = None
    """The id of the Python thread that it is, where it is one."""
    values: Tuple[Tuple[str, int], ...] = ()
    """Each by its name; none where they aren't told."""


class NativeFrame(NamedTuple):
    """A native frame."""

    pc: int
    """Where it stood."""
    function: Optional[str]
    """Its function, where its file has a symbol for it."""
    offset: Optional[int]
    """How far behind that function's start."""
    file: Optional[str]
    """Its file; nothing where it is in none."""
    address: Optional[int]
    """Its address in that file."""
    is_signal: bool = False
    """Whether the system called it, by a signal."""
    is_guess: bool = False
    """Whether it follows from a guess."""
    mark: str = ""
    """By what else than a table its caller was found, if it was."""


class PairedItem(NamedTuple):
    """What stands in one stack of Python's frames and native ones."""

    kind: str
    """`python` or `native`, or a mark: `not found` or `beside`."""
    frame: int = 0
    """The frame's number among Python's, or among the native ones, those behind a guess last."""
    is_hidden: bool = False
    """Whether a native frame is the interpreter's own, between Python's."""


class NativeStack(NamedTuple):
    """The native stack of a thread of the process."""

    native: int
    """The id that the system gave."""
    number: Optional[int]
    """The id of the Python thread that it is, where it is one."""
    is_crashed: bool
    frames: Tuple[NativeFrame, ...] = ()
    """The first ones, the newest before others."""
    between: int = 0
    """How many frames aren't shown."""
    last: Tuple[NativeFrame, ...] = ()
    end: str = ""
    """How it ends, where it doesn't end as a whole one does."""
    is_told: bool = True
    """Whether the thread's registers are known."""
    guessed: Tuple[NativeFrame, ...] = ()
    """What follows from a guess."""
    guessed_between: int = 0
    guessed_end: str = ""
    guess: str = ""
    """By what that was guessed."""
    pairing: str = ""
    """By what Python's frames stand among them: address, order or apart; nothing where that isn't told."""
    thread: str = ""
    """The address of the record of Python's thread, where that is told."""
    items: Tuple[PairedItem, ...] = ()
    """Both in one, the newest first."""


class Task(NamedTuple):
    """A task of asyncio."""

    address: str
    name: Optional[str]
    """Nothing where it has none, or it can't be read."""
    kind: str
    """What it does, in a word: running, ready, not started, waiting, done."""
    condition: str
    """The same, with what it waits for, or the thread in which it runs."""
    frames: Tuple[Frame, ...]
    """Those of the coroutines that it awaits, the innermost first."""
    end: str = ""
    """How their chain breaks off, where it does."""


class Tasks(NamedTuple):
    """The tasks of an interpreter."""

    interpreter: str
    """Its address."""
    tasks: Tuple[Task, ...] = ()
    others: Tuple[str, ...] = ()
    """What is said of what is registered and no task, of tasks that aren't told, and of other frameworks, which aren't read."""
    fault: str = ""
    """Why they aren't told, if they aren't."""
    done: int = 0
    """How many that are done aren't among them."""
    has_asyncio: bool = True
    """Whether it has asyncio: else others alone are said."""


class HeapClass(NamedTuple):
    """A class of which the collector tracks objects."""

    name: str
    objects: int
    size: int
    """How many bytes their own blocks have, of those whose size is known."""
    more: int = 0
    """How many lists, dicts and sets have in other blocks."""
    unknown: int = 0
    """Of how many of them it isn't."""
    unread: int = 0
    """Of how many of them the bytes in other blocks aren't known."""
    largest: Tuple[Tuple[str, int], ...] = ()
    """The largest of them, at most three: the address and the bytes. Of classes with fewer bytes they aren't told."""

    @property
    def total(self) -> int:
        """All of these bytes."""
        return self.size + self.more


class Heap(NamedTuple):
    """What the heap of an interpreter holds."""

    interpreter: str
    """Its address; nothing of the runtime's, up to 3.8."""
    classes: Tuple[HeapClass, ...] = ()
    """Those with the most bytes first."""
    lists: Tuple[Tuple[str, int], ...] = ()
    """The lists of the collector, each with how many objects it has."""
    marks: Tuple[str, ...] = ()
    """What is said of lists that aren't whole."""
    fault: str = ""
    """Why it isn't told, if it isn't."""


class Growth(NamedTuple):
    """How much more there is of a class than in an earlier core."""

    name: str
    objects: int
    size: int
    """In bytes."""


class Mapped(NamedTuple):
    """The mappings of one kind."""

    kind: str
    """A file's name, or what they are."""
    count: int
    size: int
    """How many bytes they have."""
    held: int
    """How many of them are in the core."""


class Number(NamedTuple):
    """A number of a layout that the dead process tells itself."""

    key: str
    """As in frame.locals."""
    layout: int
    process: int


class LayoutTold(NamedTuple):
    """What the dead process told of the layout by which it was read."""

    verdict: str
    told: Tuple[Number, ...] = ()
    differ: Tuple[Number, ...] = ()
    """Those of them that differ."""
    not_told: Tuple[str, ...] = ()
    """The keys that nothing tells."""
    build: str = ""
    """Which other build it is of, if it is of one that was recognised."""
    known: Optional[Tuple[int, int]] = None
    """How many of the answers that are known are right, and how many there are."""
    doubt: str = ""
    """What makes it doubtful, where it is and the program says so."""


LONGEST = 79
"""The most bytes of the arguments that Linux keeps in a core (ELF_PRARGSZ, less a nul)."""


def whole_or_cut(arguments: str) -> str:
    """The arguments as they are shown: where the kernel cut them off two dots say so. (Those that it kept whole end with a blank.)"""
    is_cut = len(arguments.encode("utf-8", "replace")) >= LONGEST and not arguments.endswith(" ")
    return arguments + ".." if is_cut else arguments


class Report(NamedTuple):
    """What is left of a process."""

    interpreters: Tuple[Interpreter, ...]
    version: str
    signal: Optional[int] = None
    process: Optional[Tuple[int, str]] = None
    """Its id and its arguments."""
    has_more: bool = False
    """Whether there are more interpreters than are shown."""
    is_salvaged: bool = False
    """Whether it is known which thread got the signal, and how chains end."""
    core: str = ""
    """The user's name for the core."""
    signal_told: str = ""
    """How the signal came about, where that is told."""
    registers: Tuple[Registers, ...] = ()
    """Those of each thread, where they are asked for."""
    layout: Tuple[str, ...] = ()
    """What is said of the layout: nothing where the process agrees with it."""
    tasks: Tuple[Tasks, ...] = ()
    """The tasks of the interpreters that have asyncio or another framework of tasks, where they are asked for."""
    native: Tuple[NativeStack, ...] = ()
    """Native stacks, where they were asked for, or may tell where the process died."""
    shows_native: bool = False
    """Whether they are shown."""
    other: Optional[int] = None
    """The system's id of the thread that got the signal, where that is none of Python's."""
    ended: str = ""
    """What is said of the search for interpreters, where it ended before all was looked at."""
    left_out: str = ""
    """What is said of values of locals that are not shown, where there are any."""
    deadlocks: Tuple[str, ...] = ()
    """The rings of threads that wait for each other, each in a line."""
    heaps: Tuple[Heap, ...] = ()
    """What the heaps hold, where that is asked for."""
    growth: Optional[Tuple[Growth, ...]] = None
    """How the classes grew since an earlier core, where one is named: what grew most first. A class that didn't isn't there."""
    mapped: Tuple[Mapped, ...] = ()
    """The memory of the process by kinds of mappings, where heaps are asked for."""

    @property
    def threads(self) -> List[Thread]:
        """All threads, in the order in which they are shown."""
        return [thread for it in self.interpreters for thread in it.threads]


class Stack:
    """Threads of one stack, of which the first has its frames."""

    def __init__(self, threads: Sequence[Thread] = ()) -> None:
        self.threads = list(threads)

    @property
    def one(self) -> Thread:
        """The one that is shown: the first, with the locals of all."""
        return one_of(self.threads)


def key_of(thread: Thread) -> Tuple[object, ...]:
    """What threads are compared by: functions, files, lines and ends, and what kind of thing they wait for, and who holds that."""
    frames = tuple((it.place, it.fault) for it in thread.frames)
    wait = None if thread.wait is None else (thread.wait.kind, thread.wait.owner)
    return frames, thread.first if thread.between else None, thread.between, thread.end, wait


def stacks_of(threads: Sequence[Thread], is_merged: bool = True) -> List[Stack]:
    """The threads by stacks, in the order of the first of each. One that has a mark, or an exception, stands alone."""
    found: Dict[object, Stack] = {}
    for place, thread in enumerate(threads):
        key = place if thread.marks or thread.exceptions or not is_merged else key_of(thread)
        found.setdefault(key, Stack()).threads.append(thread)
    return list(found.values())


# ---- threads of one stack


def told_by(values: Sequence[Optional[str]], count: int) -> Optional[str]:
    """What is said of a local of so many threads: its value, or how many it has."""
    kinds = dict.fromkeys(values)
    if len(values) == count:
        return next(iter(kinds)) if len(kinds) == 1 else f"{len(kinds)} values"
    where = f"in {len(values)} of {count} threads"
    return f"1 value {where}: {values[0] or '?'}" if len(kinds) == 1 else f"{len(kinds)} values {where}"


def frame_of_all(frames: Sequence[Frame]) -> Frame:
    """One frame of several threads, with the locals of all: those that differ are said once."""
    found: Dict[Tuple[str, bool, int], List[Optional[str]]] = {}
    for it in frames:
        turns: Dict[Tuple[str, bool], int] = {}
        for row in it.locals or ():
            turn = turns[row.name, row.is_argument] = turns.get((row.name, row.is_argument), -1) + 1
            found.setdefault((row.name, row.is_argument, turn), []).append(row.value)
    rows = tuple(Local(name, told_by(values, len(frames)), is_argument) for (name, is_argument, _), values in found.items())
    return frames[0]._replace(locals=rows) if rows else frames[0]


def one_of(threads: Sequence[Thread]) -> Thread:
    """The first of some threads of one stack, with the locals of all."""
    first = threads[0]
    if len(threads) == 1 or not any(frame.locals for it in threads for frame in it.frames):
        return first
    return first._replace(frames=tuple(frame_of_all(frames) for frames in zip(*(it.frames for it in threads))))


# ---- the order in which they are shown


def arranged(report: Report) -> Report:
    """The report in the order in which it is shown: interpreters with frames first, and in each the threads of which nothing is
    told last. A thread without frames has no mark that one with frames of the same id has: the record of a sub-interpreter up
    to 3.12 keeps the id of the thread that made it."""
    crashed, holders = ({it.number for it in report.threads if it.frames and getattr(it, mark)} for mark in ("is_crashed", "is_holder"))
    found = []
    for one in report.interpreters:
        threads = [it if it.frames else it._replace(is_crashed=it.is_crashed and it.number not in crashed,
                                                is_holder=it.is_holder and it.number not in holders) for it in one.threads]
        threads.sort(key=lambda it: it.is_empty)
        found.append(one._replace(threads=tuple(threads)))
    found.sort(key=lambda one: not any(it.frames for it in one.threads))
    return report._replace(interpreters=tuple(found))
