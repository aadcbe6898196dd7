"""The handler's settings: root's file in /etc, of lines `key = value`."""

import os
import pwd
import stat
from dataclasses import dataclass, fields
from typing import Dict, Tuple

from pystacks_tool.faults import BAD_WORDS, Fault, shown

PATH = "/etc/pystacks/handler.conf"
"""Where they stand."""

LONGEST = 1 << 16
"""The most bytes that the file has."""


@dataclass(frozen=True)
class Settings:
    """What root has set. Sizes are in MB of 1,000,000 bytes."""

    folder: str = "/var/lib/pystacks/cores"
    """Where crashes are kept: root's, for nobody else."""
    reports: str = ""
    """Where users find the reports on their own processes, if that is set: root's, for all to read."""
    scratch: str = "/var/tmp"
    """Where the worker's own files stand, which have no names."""
    user: str = "pystacks"
    """The user that the worker is."""
    rate: int = 5
    """How many crashes an hour are looked at, of one executable, user and signal."""
    all_rate: int = 60
    """The same of all together."""
    space: int = 8000
    """How much of a core is taken, without its zero pages."""
    share: int = 50
    """The same, in percent of what the disk has free."""
    keep_core: bool = False
    """Whether whole cores are kept."""
    keep_space: int = 4000
    """How much is kept in all."""
    keep_days: int = 30
    memory: int = 3000
    """How much memory the worker and the programs may have, each."""
    seconds: int = 60
    """How long the worker may take."""
    file_seconds: int = 5
    """How long it may take to open the mapped files."""
    report_space: int = 16
    """How much the report, its JSON or the line of a crash may have."""
    namespaces: bool = True
    """Whether the worker has processes, network and /proc of its own."""
    program: str = ""
    """The program pystacks, where it isn't the one that was installed."""
    salvage: str = ""
    """The program pysalvage, where it isn't the one beside it."""

    @property
    def ids(self) -> Tuple[int, int]:
        """The ids of the worker's user and group. It can't be root."""
        try:
            found = pwd.getpwnam(self.user)
        except KeyError:
            raise Fault(f"there is no user {shown(os.fsencode(self.user))}", BAD_WORDS, "pystacks-core-handle --install makes it") from None
        if found.pw_uid == 0 or found.pw_gid == 0:
            raise Fault("the worker's user may not be root", BAD_WORDS, "name another one by `user` in the settings")
        return found.pw_uid, found.pw_gid


WORDS = {"yes": True, "no": False}
KINDS = {it.name: type(it.default) for it in fields(Settings)}


def value_of(key: str, word: str) -> object:
    """The value of a key."""
    kind = KINDS.get(key)
    if kind is str and (not word or os.path.isabs(word) or key == "user"):
        return word
    if kind is bool and word in WORDS:
        return WORDS[word]
    if kind is int and word.isascii() and word.isdecimal() and 0 < int(word) < 1 << 31:
        return int(word)
    raise Fault(f"settings: {key} = {shown(os.fsencode(word))}", BAD_WORDS, "docs/CORES.md has each key, and what it takes")


def settings_in(text: str) -> Settings:
    """The settings of a text."""
    found: Dict[str, object] = {}
    for row in text.splitlines():
        line = row.strip()
        if not line or line.startswith("#"):
            continue
        key, _, word = (it.strip() for it in line.partition("="))
        found[key] = value_of(key, word)
    if not 0 < int(str(found.get("share", 1))) <= 100:
        raise Fault(f"settings: share = {found['share']}", BAD_WORDS, "docs/CORES.md has each key, and what it takes")
    return Settings(**found)  # type: ignore[arg-type]


def read_settings(path: str = PATH) -> Settings:
    """Root's settings. Where there is no file each has its default; a file that others may write is refused."""
    try:
        fd = os.open(path, os.O_RDONLY | os.O_NOFOLLOW | os.O_NONBLOCK | os.O_CLOEXEC)
    except FileNotFoundError:
        return Settings()
    except OSError as error:
        raise Fault(f"cannot read {shown(os.fsencode(path))}: {error.strerror}", BAD_WORDS, "it has to be root's own file, and no link") from None
    with open(fd, "rb") as file:
        told = os.fstat(fd)
        if not stat.S_ISREG(told.st_mode) or told.st_uid != 0 or told.st_mode & 0o022:
            raise Fault(f"{shown(os.fsencode(path))} isn't root's alone", BAD_WORDS, "chown root FILE; chmod 644 FILE")
        return settings_in(file.read(LONGEST).decode("utf-8", "replace"))
