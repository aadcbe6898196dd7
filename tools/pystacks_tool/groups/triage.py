"""Several cores handed to one run of the program: the images that they need together, and the user's names for those of
them that were prepared.

The program takes one file for a path, for all cores. So where two cores have files of different builds under one path,
or were written on different machines, they can't be handed over together.
"""

import os
from dataclasses import dataclass, field
from typing import IO, Collection, Dict, List, Optional, Sequence

from pystacks_tool.ask.run import Answer, answer_of
from pystacks_tool.cores.maps import Use, Wanted, machine_of, wanted_files
from pystacks_tool.show.escape import in_line


class Apart(Exception):
    """Why some cores can't be handed over together."""


@dataclass
class Core:
    """A core of several, as it is handed over."""

    name: bytes
    """The user's name for it."""
    machine: Optional[int]
    """The machine that it was written on, if it is a core."""
    wanted: List[Wanted]
    """The files into which the program looks."""
    prepared: Optional[IO[bytes]]
    """The file that was prepared of it, if one was. The core's own is closed, so that there may be more cores than files
    may be open."""

    @property
    def word(self) -> bytes:
        """The program's word for it."""
        return b"/proc/self/fd/%d" % self.prepared.fileno() if self.prepared else self.name


def read_core_of_group(name: bytes, file: Optional[IO[bytes]], prepared: Optional[IO[bytes]]) -> Core:
    """A core by what its file tells, or the one that was prepared of it; nothing where it can't be read."""
    read = prepared or file
    try:
        machine, found = (machine_of(read), wanted_files(read)) if read else (None, [])
    except OSError:
        machine, found = None, []
    if file:
        file.close()
    return Core(name, machine, [it for it in found if it.use is not Use.MEMORY], prepared)


def shared_machine(cores: Sequence[Core]) -> Optional[int]:
    """The machine of all the cores that tell one."""
    first: Optional[Core] = None
    for core in cores:
        if core.machine is None:
            continue
        first = first or core
        if core.machine != first.machine:
            raise Apart(f"{os.fsdecode(first.name)} and {os.fsdecode(core.name)} are of different machines")
    return first.machine if first else None


def shared_files(cores: Sequence[Core]) -> List[Wanted]:
    """The files of all the cores, each once, in their order, with all builds that they have of it."""
    found: Dict[bytes, Wanted] = {}
    owners: Dict[bytes, Core] = {}
    for core in cores:
        for it in core.wanted:
            known = found.get(it.name)
            if known and known.builds and it.builds and known.builds != it.builds:
                first = os.fsdecode(owners[it.name].name)
                raise Apart(f"{first} and {os.fsdecode(core.name)} have different builds of {os.fsdecode(it.name)}")
            if it.builds:
                owners.setdefault(it.name, core)
            builds = it.builds | (known.builds if known else frozenset())
            is_needed = it.use is Use.NEEDED or bool(known and known.use is Use.NEEDED)
            found[it.name] = Wanted(it.name, builds, Use.NEEDED if is_needed else it.use)
    return list(found.values())


def renamed(line: bytes, names: Dict[bytes, bytes]) -> bytes:
    """A line of groups, with the user's name for a core: it stands behind four blanks, to the end of the line or to a
    colon."""
    if line.startswith(b"    "):
        name, colon, rest = line[4:].partition(b": ")
        if name in names:
            return b"    " + names[name] + colon + rest
    return line


@dataclass
class Group:
    """A part of the program's text: a group with its cores, or those that are refused."""

    title: str
    cores: List[bytes] = field(default_factory=list)
    """The names of its cores; of those that are refused with the cause behind each."""
    is_group: bool = True
    """Whether it is one of cores that have stacks."""

    @property
    def first(self) -> bytes:
        """The name of its first core."""
        return self.cores[0] if self.cores else b""

    @property
    def lines(self) -> List[str]:
        """Its lines: causes name paths of the core, and so no line is as it stands there."""
        return [in_line(self.title), *(f"    {in_line(it.decode('utf-8', 'backslashreplace'))}" for it in self.cores)]


def renamed_text(text: bytes, cores: Sequence[Core]) -> bytes:
    """The program's text, with the user's names for cores that were prepared."""
    own = {core.word: core.name for core in cores if core.prepared}
    return b"\n".join(renamed(line, own) for line in text.split(b"\n"))


def groups_of(text: bytes, names: Collection[bytes]) -> List[Group]:
    """The program's text in parts. A core's name is one of these, none of which has a newline; a cause may have any, and
    stands behind all groups."""
    front, refused, causes = text.partition(b"Refused: ") if text.startswith(b"Refused: ") else text.partition(b"\nRefused: ")
    groups: List[Group] = []
    for line in front.split(b"\n"):
        if line.startswith(b"    ") and groups:
            groups[-1].cores.append(line[4:])
        elif line:
            groups.append(Group(line.decode("utf-8", "backslashreplace")))
    if refused:
        title, *lines = causes.split(b"\n")
        groups.append(Group("Refused: " + title.decode("ascii", "replace"), refused_of(lines, names), False))
    return groups


def refused_of(lines: Sequence[bytes], names: Collection[bytes]) -> List[bytes]:
    """The refused cores with their causes. A line that begins with no core's name goes on with the cause before it."""
    found: List[bytes] = []
    for line in lines:
        if line.startswith(b"    ") and any(line[4:].startswith(name + b": ") for name in names):
            found.append(line[4:])
        elif found:
            found[-1] += b"\n" + line
    # (the text ends with a newline)
    return [*found[:-1], found[-1].rstrip(b"\n")] if found else []


def group_answer(command: Sequence[bytes], cores: Sequence[Core]) -> Answer:
    """Runs the program over several cores, with the user's names in its lines of faults."""
    fds = [core.prepared.fileno() for core in cores if core.prepared]
    answer = answer_of(command, fds, b"", b"")
    said = answer.said
    for core in cores:
        if core.prepared:
            said = said.replace(b": " + core.word + b"\n", b": " + core.name + b"\n")
            said = said.replace(b" " + core.word + b"\n", b" " + core.name + b"\n")
    return Answer(answer.status, answer.out, said)
