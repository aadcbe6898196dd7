"""What the tool is asked for: its words, each with its type. They are made once, by `cli`."""

import os
from typing import Mapping, NamedTuple, Optional, Tuple, Union


ALL_FRAMES = 4096
"""How many frames the programs tell at most at each end of a stack: `--frames all`."""


BY = ("crash", "stacks", "exact")
"""What cores are grouped by: the signal and the stack of the thread that got it; all threads' stacks; `pystacks triage`."""


class Options(NamedTuple):
    """The words of a run."""

    cores: Tuple[str, ...] = ()
    """The cores' files, by the user's names for them."""
    locals: int = 0
    """How often locals are asked for."""
    hidden: Tuple[str, ...] = ()
    """The words by whose names and keys values are hidden."""
    signal: bool = True
    """Whether it is asked how the signal came about."""
    registers: bool = False
    """Whether the registers of each thread are."""
    tasks: bool = True
    """Whether the tasks of asyncio are."""
    exceptions: bool = True
    """Whether the exceptions of threads are."""
    waits: bool = True
    """Whether it is told what threads wait for."""
    heap: bool = False
    """Whether it is told what heaps hold."""
    diff: str = ""
    """The file of an earlier core's JSON, since which it is told what grew, if one is named."""
    native: bool = False
    """Whether native stacks are."""
    all_native: bool = False
    """Whether the interpreter's own native frames are shown between Python's."""
    strict: bool = False
    """Whether no native frame is shown that follows from a guess."""
    where: bool = True
    """Whether it is said where in native code a process died."""
    shows_all: bool = False
    """Whether each thread has its own stack, however many there are."""
    shows_stacks: bool = False
    """Whether each stack is shown whole, however many there are."""
    frames: Optional[int] = None
    """How many frames are shown at each end of a stack, where that is said: `ALL_FRAMES` of `all`."""
    source: Optional[str] = None
    """The folder of sources, which is empty where the frames' own names are meant; nothing where no source lines are shown."""
    json: bool = False
    collapsed: bool = False
    html: str = ""
    """The page's file, if one is written."""
    group: bool = False
    by: str = "crash"
    """What cores are grouped by: one of `BY`."""
    keys: bool = False
    """Whether a line for each core is written, with its keys."""
    key_line: bool = False
    """Whether this is the process that makes the line of one core."""
    lines: Tuple[str, ...] = ()
    """The files of such lines that are grouped."""
    timeout: int = 60
    """How many seconds the line of a core may take."""
    jobs: int = 0
    """How many cores are looked at at a time; 0 stands for as many as there are processors."""
    host: str = ""
    """The host that a line names."""
    plain: bool = False
    """Whether the program's own text and status are passed on."""
    root: str = ""
    """The folder below which the files of the process are looked for."""
    images: Optional[Mapping[bytes, bytes]] = None
    """The files of the process by its names for them, where these alone are taken."""
    handed: Tuple[int, ...] = ()
    """The files, by their descriptors, that a program inherits."""
    maps: str = ""
    """A copy of the process's /proc/PID/maps, if one is named."""
    keep: str = ""
    """The file that keeps the core that was prepared, if one is named."""
    memory: int = 512
    """How many MB of a core may be read, and of the files that the process had mapped."""
    whole: bool = False
    """Whether a core is handed over whole, however long it is."""
    any_layout: bool = False
    """Whether stacks are shown by a layout with which the dead process disagrees."""
    layouts: Optional[str] = None
    records: Optional[str] = None
    program: Optional[str] = None
    salvage: Optional[str] = None
    version: bool = False
    kept_list: str = ""
    """The folder of crashes that are listed."""
    kept_one: str = ""
    """The crash whose report is shown."""

    @property
    def files(self) -> Union[bytes, Mapping[bytes, bytes]]:
        """Where the files of the process are looked for."""
        return os.fsencode(self.root) if self.images is None else self.images

    @property
    def groups_exactly(self) -> bool:
        """Whether cores are grouped by `pystacks triage`, which is handed them whole."""
        return self.group and self.by == "exact"
