"""The files that a core's process had mapped, where they are on the machine at hand, as the program's words for images.

Handed over are those into which the program looks, and with locals those from which it reads bytes that the core leaves
out; each under the path that the core has for it, and none of another build or machine.
"""

import os
from typing import IO, Callable, Dict, List, Mapping, Optional, Tuple, Union

from pystacks_tool.cores.gaps import entries_in
from pystacks_tool.cores.maps import Use, Wanted, build_id, builds_in, is_text, machine_of, maps_of, wanted_files
from pystacks_tool.cores.tables import Entry
from pystacks_tool.faults import BAD_WORDS, Fault, say, shown
from pystacks_tool.places import machine_name

DELETED = b" (deleted)"
"""How the kernel ends the name of a file that had been deleted, or replaced, while it was mapped."""

LONGEST = 1 << 36
"""The most bytes of a file that the program reads."""

MOST = 1000
"""The most images that are handed over beside the two that the program looks into."""

OTHER_FILE = "of a container or another host: --root FOLDER, below which its files are; of an upgraded package: install the old one"
"""What to do where a file isn't the one that was mapped."""


MORE = "--memory MB lets more be read"
"""What to do where something was left out for memory."""

Root = Union[bytes, Mapping[bytes, bytes]]
"""Where files are: below this folder, which is the system's where it is empty; or by name those that were handed over, and no others."""


class Missing(Exception):
    """Why there is no image under a name, and what to do next."""

    def __init__(self, line: str, then: str = OTHER_FILE) -> None:
        super().__init__(line)
        self.then = then


class TooLong(Missing):
    """That an image is longer than may be read."""


def path_of(root: Root, name: bytes) -> bytes:
    """The file of a name that a core has."""
    if isinstance(root, bytes):
        return path_below(root, name)
    if name not in root:
        raise Missing("the process itself could not read it, or it is no regular file", "")
    return root[name]


def trouble_of(path: bytes) -> str:
    """Why what has a name can't be read; nothing where it can, or where there is none."""
    try:
        if os.path.islink(path) and not os.path.exists(path):
            return f"{shown(path)} is a link to {shown(os.readlink(path))}, which isn't there"
        if os.path.isdir(path):
            return f"{shown(path)} is a folder"
        if os.path.exists(path) and not os.access(path, os.R_OK):
            return f"{shown(path)} may not be read by this user"
    except OSError:
        pass
    return ""


def path_below(root: bytes, name: bytes) -> bytes:
    """The same below this folder, if one is given."""
    path = name[: -len(DELETED)] if name.endswith(DELETED) else name
    if not path.startswith(b"/"):
        raise Missing("that is no path")
    path = os.path.join(root, path[1:]) if root else path
    if not os.path.isfile(path):
        trouble = trouble_of(path)
        if trouble:
            raise Missing(trouble)
        if root:
            raise Missing(f"there is no file {shown(path)}", "copy it there, or name by --root where the process's files are")
        raise Missing(f"there is no file {shown(path)}; --root FOLDER looks below FOLDER", "")
    size = os.path.getsize(path)
    if not 0 < size <= LONGEST:
        # (such are the files in which a system tells of itself; a hostile core can name any file)
        raise Missing(f"{shown(path)} has {size} bytes")
    # (a name or a link that leads out of the folder would be that of another system's file)
    if root and not os.path.realpath(path).startswith(os.path.join(os.path.realpath(root), b"")):
        raise Missing(f"{shown(path)} leads out of {shown(root)}", "copy the file itself below that folder")
    return path


def check_file(path: bytes, wanted: Wanted, machine: Optional[int]) -> None:
    """Refuses an ELF file of another machine than the core's, and one whose build id isn't the one that the core has
    of the mapped file, where both have one: the program takes what it is handed. Where only bytes of it are wanted,
    it has to be an ELF file: nothing of Python stands in others, which may be large."""
    try:
        with open(path, "rb") as file:
            own_machine, own = machine_of(file), build_id(file)
    except OSError as error:
        raise Missing(f"cannot read {shown(path)}: {error.strerror}") from None
    if wanted.use is Use.MEMORY and own_machine is None:
        raise Missing(f"{shown(path)} is no ELF file")
    if own_machine is not None and own_machine != machine:
        raise Missing(f"{shown(path)} is of another machine, {machine_name(own_machine)}")
    others = sorted(it for it in wanted.builds if it != own)
    if own and others:
        raise Missing(f"{shown(path)} is of another build: its id is {own.hex()}, and {others[0].hex()} was mapped")


def image_word(wanted: Wanted, root: Root, machine: Optional[int], budget: Optional[int] = None) -> bytes:
    """The program's word for an image. One that is longer than may be read isn't handed over."""
    if b"=" in wanted.name:
        raise Missing("a path with an equals sign can't be handed over")
    path = path_of(root, wanted.name)
    if budget is not None and os.path.getsize(path) > budget:
        raise TooLong(f"{shown(path)} has {os.path.getsize(path)} bytes, and is left out for memory")
    word = wanted.name + b"=" + path
    if not is_text(word):
        raise Missing("a path that is not UTF-8 can't be handed over")
    check_file(path, wanted, machine)
    return word


def size_of(word: bytes) -> int:
    """How many bytes the file of such a word has."""
    return os.path.getsize(word.partition(b"=")[2])


def image_words(files: List[Wanted], root: Root, machine: Optional[int], budget: Optional[int] = None, is_told: bool = True) -> List[bytes]:
    """The words for the images that are there and of the core's machine, in the order of the maps, after the line that
    names those that the program looks into and that are not, and after one for each that is longer than what may still be read, where
    it is said that this is told."""
    words, left = [], MOST
    missing: Dict[Use, str] = {}
    then = ""
    for wanted in files:
        left -= wanted.use is Use.MEMORY
        if wanted.use is Use.MEMORY and left < 0:
            continue
        try:
            words.append(image_word(wanted, root, machine, budget))
            budget = None if budget is None else budget - size_of(words[-1])
        except TooLong as reason:
            if is_told:
                say(str(reason), MORE)
        except Missing as reason:
            if wanted.use is not Use.MEMORY:
                missing[wanted.use] = f"{shown(wanted.name)} ({wanted.use.value}; {reason})"
                then = reason.then if wanted.use is Use.NEEDED else then
    if missing:
        lines = [missing[use] for use in Use if use in missing]
        say(f"no image of {', '.join(lines)}", then)
    return words


def read_core(file: Optional[IO[bytes]]) -> Tuple[Optional[int], List[Wanted]]:
    """The machine and the files of a core. Where it can't be read there are none; the program has a line for it."""
    if file is None:
        return None, []
    try:
        return machine_of(file), wanted_files(file)
    except OSError:
        return None, []


def opened(path: str) -> Optional[IO[bytes]]:
    """The core's file, where it can be read; the program has a line for another."""
    try:
        return open(path, "rb")
    except OSError:
        return None


def finder_below(root: Root) -> Callable[[IO[bytes]], Callable[[bytes], Optional[bytes]]]:
    """What finds the files of a core that are there, and of its machine and build."""

    def finder(file: IO[bytes]) -> Callable[[bytes], Optional[bytes]]:
        machine, builds = machine_of(file), builds_in(file, maps_of(file))

        def find(name: bytes) -> Optional[bytes]:
            try:
                path = path_of(root, name)
                check_file(path, Wanted(name, frozenset(builds.get(name, ())), Use.LOOKED_INTO), machine)
            except Missing:
                return None
            return path

        return find

    return finder


def maps_in(path: str) -> Tuple[Entry, ...]:
    """The mappings of files in a copy of /proc/PID/maps, if one is named."""
    if not path:
        return ()
    try:
        with open(path, "rb") as file:
            found = tuple(entries_in(file.read()))
    except OSError as error:
        line = f"cannot read {shown(os.fsencode(path))}: {error.strerror}"
        raise Fault(line, BAD_WORDS, "--maps names a copy of the process's /proc/PID/maps") from None
    if not found:
        line = f"{shown(os.fsencode(path))} has no line of a mapped file, as /proc/PID/maps has them"
        raise Fault(line, BAD_WORDS, "--maps names a copy of the process's /proc/PID/maps")
    return found
