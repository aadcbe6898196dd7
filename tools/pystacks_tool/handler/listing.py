"""What was kept: a line for each crash, the report of one, and their lines for groups."""

import json
import os
import time
from typing import Dict, Iterator, List, Tuple

from pystacks_tool.faults import BAD_WORDS, NO_STACKS, Fault, shown
from pystacks_tool.handler.settings import Settings
from pystacks_tool.handler.store import CRASH, ID, MORE
from pystacks_tool.show.escape import in_line, signal_name

REPORT, LINE, SAID = "report.txt", "line", "said"

LONGEST = 1 << 24
"""The most bytes of a file that are read."""

Tree = Dict[str, object]


def read(path: str, most: int = LONGEST) -> bytes:
    """The first bytes of a file; none of one that isn't there, or is no regular file."""
    try:
        with open(os.open(path, os.O_RDONLY | os.O_NOFOLLOW | os.O_NONBLOCK | os.O_CLOEXEC), "rb") as file:
            return file.read(most)
    except OSError:
        return b""


def object_in(data: bytes) -> Tree:
    """An object of JSON; an empty one where there is none."""
    try:
        tree = json.loads(data)
    except (ValueError, RecursionError):
        return {}
    return tree if isinstance(tree, dict) else {}


def more_at(path: str) -> int:
    """How many more crashes there were of the kind, that weren't looked at."""
    text = read(os.path.join(path, MORE), 20)
    return int(text) if text.isdigit() else 0


def crashes_in(folder: str) -> List[str]:
    """The crashes of a folder, the oldest first."""
    try:
        return [os.path.join(folder, it) for it in sorted(os.listdir(folder)) if ID.fullmatch(it)]
    except OSError as error:
        raise Fault(f"cannot read the folder {shown(os.fsencode(folder))}: {error.strerror}", BAD_WORDS, "it is root's: see that you may read it") from None


def kept_lines(folder: str) -> Iterator[Tree]:
    """The lines of the crashes of a folder. One for which there is none, or a damaged one, is left out."""
    from pystacks_tool.groups.gathered import is_line

    for path in crashes_in(folder):
        line = object_in(read(os.path.join(path, LINE)))
        if is_line(line):
            line["core"], line["more"] = path, more_at(path)
            yield line


# ---- a line for each


def text_in(tree: Tree, key: str) -> str:
    """A text of an object, in a line."""
    it = tree.get(key)
    return in_line(str(it)) if it is not None else "?"


def newest_in(line: Tree) -> str:
    """Where a process stood, or why that isn't known."""
    frames = line.get("frames")
    return in_line(str(frames[0])) if isinstance(frames, list) and frames else text_in(line, "cause")


def row_of(path: str) -> str:
    """A crash in a line."""
    record, line = object_in(read(os.path.join(path, CRASH))), object_in(read(os.path.join(path, LINE)))
    number = record.get("signal")
    signal = signal_name(number) or str(number) if isinstance(number, int) else "?"
    more = more_at(path)
    parts = [os.path.basename(path), signal, f"user {text_in(record, 'user')}", text_in(record, "executable"), newest_in(line)]
    return ", ".join([*parts, *[f"and {more} more that weren't looked at"] * bool(more)])


def limit_said(paths: List[str]) -> List[str]:
    """What the kernel may have skipped."""
    limit = object_in(read(os.path.join(paths[-1], CRASH))).get("pipe_limit") if paths else None
    if not isinstance(limit, int):
        return []
    if limit == 0:
        return ["the kernel doesn't wait for the handler (kernel.core_pipe_limit is 0): files of a process may be lost"]
    return [f"lost above {limit}: the kernel skips dumps above so many at once (kernel.core_pipe_limit)"]


def list_lines(folder: str) -> List[str]:
    """The lines of a folder's crashes."""
    paths = crashes_in(folder)
    return [*(row_of(it) for it in paths), *limit_said(paths)]


# ---- one of them


def path_of(name: str) -> str:
    """The folder of a crash: of a name alone the one in the usual folder."""
    path = name if os.sep in name else os.path.join(Settings.folder, name)
    if not ID.fullmatch(os.path.basename(path)) or not os.path.isdir(path):
        raise Fault(f"there is no crash {shown(os.fsencode(path))}", BAD_WORDS, "--list FOLDER lists those that were kept")
    return path


def sizes(path: str) -> Iterator[Tuple[str, int]]:
    """The files of a crash, and how many bytes each has."""
    for it in sorted(os.listdir(path)):
        yield it, os.stat(os.path.join(path, it), follow_symlinks=False).st_size


def show_lines(name: str) -> Tuple[List[str], int]:
    """The report of a crash, or why there is none, and what was kept; and the status. (What the worker wrote may have any bytes.)"""
    path = path_of(name)
    record = object_in(read(os.path.join(path, CRASH)))
    seconds = record.get("time")
    when = time.strftime("%Y-%m-%d %H:%M:%S", time.gmtime(seconds)) if isinstance(seconds, int) else "?"
    head = [f"{row_of(path)}, at {when} UTC, on {text_in(record, 'host')}"]
    said = record.get("said")
    head += [in_line(str(it)) for it in said] if isinstance(said, list) else []
    head += ["kept: " + ", ".join(f"{in_line(it)} ({size})" for it, size in sizes(path)), ""]
    text = read(os.path.join(path, REPORT)).decode("utf-8", "backslashreplace")
    if text:
        return head + [in_line(it) for it in text.split("\n")[:-1]], 0
    return head + [in_line(it) for it in read(os.path.join(path, SAID)).decode("utf-8", "backslashreplace").split("\n")[:-1]], NO_STACKS
