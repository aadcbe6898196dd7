"""The source lines of frames, where the files are there: below `--root`, or below a folder of sources.

A core can name any file. So only regular files of Python are opened, and none that leads out of the folder.
"""

import os
import re
import stat
from typing import Dict, List, Optional, Sequence, Set

ENDINGS = (".py", ".pyw", ".pyx", ".pxd", ".pxi")
LONGEST = 16 << 20
"""The most bytes of a source file."""

WIDEST = 200
"""The most characters of a line that are shown."""

NO_PATH = re.compile("[\0\ud800-\udfff]")
"""What no path has."""

NEWER = "    (the file is newer than the core)"
"""What stands behind a line that may have been another."""

MOST = 10_000
"""The most files that are looked for."""


class Sources:
    """The files of sources, each read once."""

    def __init__(self, root: str = "", folder: str = "", written: Optional[float] = None) -> None:
        self.root, self.folder = root, folder
        self.written = written
        """When the core was written, if that is known. A file that is newer may have had other lines then."""
        self.files: Dict[str, Sequence[str]] = {}
        self.newer: Set[str] = set()

    def places(self, name: str) -> List[str]:
        """Where a file may be: below the folder of sources by the longest end of its path that is there, and as it is
        named, below the root."""
        parts = [it for it in name.split("/") if it not in ("", ".")]
        if ".." in parts or NO_PATH.search(name) or not name.endswith(ENDINGS):
            return []
        found = [below(self.folder, "/".join(parts[at:])) for at in range(len(parts))] if self.folder else []
        if name.startswith("/"):
            found.append(below(self.root, "/".join(parts)) if self.root else name)
        return [it for it in found if it]

    def lines(self, name: str) -> Sequence[str]:
        """The lines of a file, or none."""
        if name not in self.files:
            path = next((it for it in self.places(name) if is_source(it)), None) if len(self.files) < MOST else None
            self.files[name] = self.read(path) if path else ()
            if path and self.written is not None and os.stat(path).st_mtime > self.written:
                self.newer.add(name)
        return self.files[name]

    def read(self, path: str) -> Sequence[str]:
        """The lines of the file at a path, none where it can't be read."""
        try:
            with open(path, encoding="utf-8", errors="replace") as file:
                return file.read().split("\n")
        except OSError:
            return ()

    def line(self, name: str, number: int) -> Optional[str]:
        """A line of a file, without the blanks around it; nothing where it isn't there or is empty."""
        lines = self.lines(name) if number > 0 else ()
        text = lines[number - 1].strip() if number <= len(lines) and number > 0 else ""
        shown = text if len(text) <= WIDEST else text[:WIDEST] + "..."
        return shown + (NEWER if name in self.newer else "") if shown else None


def below(folder: str, name: str) -> str:
    """A path below a folder; nothing where a link leads out of it."""
    path, top = os.path.join(folder, name), os.path.join(os.path.realpath(folder), "")
    return path if os.path.realpath(path).startswith(top) else ""


def is_source(path: str) -> bool:
    """Whether there is a regular file that isn't too long."""
    try:
        found = os.stat(path)
    except (OSError, ValueError):
        return False
    return stat.S_ISREG(found.st_mode) and found.st_size <= LONGEST
