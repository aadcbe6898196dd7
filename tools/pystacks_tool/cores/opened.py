"""A core as it is handed to a program: prepared where it has to be, with its images and layouts."""

import os
from typing import IO, Iterable, List, Optional, Sequence, Tuple

from pystacks_tool.ask.run import knows, tells_missed
from pystacks_tool.cores.headers import headers_of
from pystacks_tool.cores.images import Root, finder_below, image_words, maps_in, opened, read_core, size_of, trouble_of
from pystacks_tool.cores.kinds import check_kind
from pystacks_tool.cores.known import Known, known_at
from pystacks_tool.cores.maps import Use, Wanted, is_text
from pystacks_tool.cores.parts import BLOCK, Part, Shrunk
from pystacks_tool.cores.prepare import SHRUNK, Prepared, Unprepared, Wishes, available, prepared
from pystacks_tool.cores.progress import shown_for
from pystacks_tool.cores.tables import Entry, entries_of
from pystacks_tool.faults import BAD_WORDS, CANNOT_READ, NO_ROOM, NO_STACKS, Fault, say, shown
from pystacks_tool.options import Options
from pystacks_tool.places import layouts_of, records_of, salvage_program
from pystacks_tool.spare import spare_folder

STILL = "copy it first, once nothing writes it"
"""What to do where a core became shorter."""

ROOM = "make room, or name another folder by TMPDIR, or another file by --keep"
"""What to do where a core that is prepared can't be written."""


class OpenedCore:
    """A core that a program is asked of."""

    def __init__(self, name: str, prepared: Optional[IO[bytes]], layouts: str, images: List[bytes], part: Optional[Part] = None,
                 rest: Sequence[Wanted] = (), entries: Sequence[Entry] = (), root: Root = b"", machine: Optional[int] = None,
                 records: str = "", done: Tuple[str, ...] = (), handed: Tuple[int, ...] = (), others: Sequence[Wanted] = ()) -> None:
        self.name = name
        """The user's name for it."""
        self.prepared = prepared
        """The file that was prepared of it, if one was."""
        self.layouts, self.images = layouts, images
        self.part = part
        """What the prepared file is of the core, where it is a part of it."""
        self.rest = list(rest)
        """Files that are handed over once an address in them was missed."""
        self.entries = list(entries)
        """Where files were mapped."""
        self.root, self.machine = root, machine
        self.records = records
        """The file of records, where there is one."""
        self.done = done
        """What was done to prepare it."""
        self.handed = handed
        """The files that were handed to the tool, which a program inherits."""
        self.others = list(others)
        """Files that may be on a native stack, beside those that are handed over in any case."""
        self.read = 0
        """How many bytes the files have that were handed over once they were missed."""

    def other_images(self) -> List[bytes]:
        """The words for these files. (A stack that goes on in a file which is left out says so itself.)"""
        budget = None if self.part is None else self.part.budget - self.read
        had = {it.partition(b"=")[0] for it in self.images}
        return image_words([it for it in self.others if it.name not in had], self.root, self.machine, budget, is_told=False)

    @property
    def known(self) -> Known:
        """What its notes tell of the process."""
        if self.prepared is None:
            return known_at(self.name)
        # (the file has no name, and its place in it is nobody's)
        return known_at(f"/proc/self/fd/{self.prepared.fileno()}")

    @property
    def has_interpreter(self) -> bool:
        """Whether an interpreter may have been there when the process ended: false where Python's own record names none."""
        from pystacks_tool.cores.running import has_no_interpreter

        return not has_no_interpreter(self.word, self.images)

    @property
    def word(self) -> str:
        """The programs' word for it."""
        return f"/proc/self/fd/{self.prepared.fileno()}" if self.prepared else self.name

    @property
    def fds(self) -> List[int]:
        """The files that a program inherits."""
        return [*self.handed, *([self.prepared.fileno()] if self.prepared else [])]

    def give(self, blocks: List[int], run: int) -> bool:
        """Gives what a run missed, as far as the core and the files have it. Whether anything was given."""
        assert self.part is not None
        try:
            grew = self.part.grow(blocks, run)
        except OSError as error:
            line = f"cannot write a file in {spare_folder()} (TMPDIR names another folder): {error.strerror}"
            raise Fault(line, NO_ROOM, ROOM) from None
        except Shrunk:
            raise Fault(SHRUNK, NO_STACKS, STILL) from None
        return self.give_files(blocks) or grew

    def give_files(self, blocks: List[int]) -> bool:
        """Hands over the files in which some blocks were mapped. Whether there are any that weren't."""
        assert self.part is not None
        spans = [(block * BLOCK, (block + 1) * BLOCK) for block in blocks]
        names = {it.name for it in self.entries for start, end in spans if it.start < end and start < it.end}
        wanted = [it for it in self.rest if it.name in names]
        self.rest = [it for it in self.rest if it.name not in names]
        words = image_words(wanted, self.root, self.machine, self.part.budget - self.read)
        self.read += sum(map(size_of, words))
        self.images += words
        return bool(words)


def free_memory() -> Optional[int]:
    """How much memory the system has free, where it tells."""
    try:
        with open("/proc/meminfo", encoding="ascii", errors="replace") as file:
            return available(file.read())
    except OSError:
        return None


def check_text(words: Iterable[bytes]) -> None:
    """Refuses words that are no text: a program takes no others."""
    for word in words:
        if not is_text(word):
            line = f"a name that is not UTF-8 can't be handed over: {shown(word)}"
            raise Fault(line, BAD_WORDS, "rename it, or make a link of another name to it")


def wishes_of(options: Options) -> Wishes:
    """How a core is to be prepared. Of a long one a part is made where `pysalvage` is asked, which tells what it missed, but not for what heaps
    hold, of which each object is read; else it is cut at its zero pages where it is longer than half of the free memory."""
    maps, finder = maps_in(options.maps), finder_below(options.files)
    program = None if options.plain or options.groups_exactly or options.whole or options.heap else salvage_program(options.salvage, options.program)
    if program is None:
        free = free_memory()
        return Wishes(options.keep, None if free is None else free // 2, maps=maps, finder=finder)
    budget, asked = options.memory * 1_000_000, program
    return Wishes(options.keep, budget, budget, lambda: tells_missed(asked), maps=maps, finder=finder)


def prepare_core(options: Options, name: str, core: Optional[IO[bytes]]) -> Optional[Prepared]:
    """The core that is prepared, if it has to be. What is none is refused, if the words don't ask for the program's own
    answer."""
    if core is None:
        return None
    try:
        wishes = wishes_of(options)
        with shown_for(os.fstat(core.fileno()).st_size):
            new = prepared(core, wishes)
    except Unprepared as reason:
        then = ROOM if reason.status == NO_ROOM else STILL if reason.status == NO_STACKS else ""
        raise Fault(str(reason), reason.status, then) from None
    if new and new.said:
        say("; ".join(new.said))
    elif options.keep and not new:
        say(f"the core needs no preparing, and {options.keep} isn't written")
    read = new.file if new else core
    if not options.plain and not options.groups_exactly:
        check_kind(read, os.fsencode(name))
    return new


def is_asked_for(options: Options, wanted: Wanted) -> bool:
    """Whether a file is handed over for the bytes that the core leaves out: with locals and heaps each, where names of types stand, and for the
    tasks of asyncio its module."""
    if options.heap:
        return True
    if options.locals or options.plain or not options.tasks or not os.path.basename(wanted.name).startswith(b"_asyncio."):
        return options.locals > 0
    program = salvage_program(options.salvage, options.program)
    return program is not None and knows(program, "--tasks")


def open_core(options: Options, name: str) -> OpenedCore:
    """A core with its images, of which the missing ones have a line."""
    core = opened(name)
    if core is None and not options.plain:
        path = os.fsencode(name)
        check_text([path])
        raise Fault(trouble_of(path) or f"there is no file {shown(path)}", CANNOT_READ, "name the core's file; `ls -l` says who may read it")
    new = prepare_core(options, name, core)
    machine, files = read_core(new.file if new else core)
    layouts = options.layouts or layouts_of(machine)
    wanted = [it for it in files if it.use is not Use.MEMORY or is_asked_for(options, it)]
    records = options.records or records_of(machine) or ""
    check_text(os.fsencode(it) for it in (name, layouts, records))
    root, others = options.files, [it for it in files if it.use is Use.MEMORY]
    if new is None or new.part is None:
        done = new.said if new else ()
        return OpenedCore(name, new.file if new else None, layouts, image_words(wanted, root, machine),
                          root=root, machine=machine, records=records, done=done, handed=options.handed, others=others)
    images = image_words([it for it in wanted if it.use is not Use.MEMORY], root, machine)
    rest = [it for it in wanted if it.use is Use.MEMORY]
    entries = entries_of(new.file, headers_of(new.file) or [])
    return OpenedCore(name, new.file, layouts, images, new.part, rest, entries, root, machine, records, new.said, options.handed, others=others)
