"""Sets the handler up on a system, and removes it: the pattern, its sysctl file, the folders, the user, and a timer that tidies."""

import json
import os
import pwd
import re
import stat
import subprocess
from pathlib import Path
from typing import Dict, List

from pystacks_tool.faults import BAD_WORDS, Fault, say, shown
from pystacks_tool.handler.crash import PATTERN
from pystacks_tool.handler.handle import WHO
from pystacks_tool.handler.settings import Settings
from pystacks_tool.pages import ROOT

DOOR = Path(ROOT) / "bin" / "pystacks-core-handle"

FIRST = (5, 6)
"""The first Linux that has openat2. (Before 5.3 the words of a pattern are split once names stand in them.)"""

LONGEST = 127
"""The most bytes of a pattern (CORENAME_MAX_SIZE)."""

AT_ONCE = 8
"""How many dumps at once the kernel hands over; it skips more."""

KERNEL = "proc/sys/kernel"
BEFORE = "var/lib/pystacks/before.json"
"""What took cores before."""

OWN = {
    "etc/sysctl.d/60-pystacks.conf": "kernel.core_pattern = {pattern}\nkernel.core_pipe_limit = {at_once}\n",
    "etc/tmpfiles.d/pystacks.conf": "d /var/lib/pystacks 0755 root root -\nd /var/lib/pystacks/cores 0700 root root -\n",
    "etc/systemd/system/pystacks-tidy.service":
        "[Unit]\nDescription=Removes old crashes of pystacks\n\n[Service]\nType=oneshot\nExecStart={door} --tidy\n",
    "etc/systemd/system/pystacks-tidy.timer":
        "[Unit]\nDescription=Removes old crashes of pystacks\n\n[Timer]\nOnCalendar=hourly\nPersistent=true\n\n[Install]\nWantedBy=timers.target\n",
}
"""The files that are written, and removed again."""

SETTINGS = "etc/pystacks/handler.conf"

KNOWN = {"systemd-coredump": "systemd-coredump", "apport": "apport", "abrt-hook-ccpp": "abrt", "pystacks-core-handle": "pystacks"}


def taker_of(pattern: str) -> str:
    """What takes cores by a pattern."""
    if not pattern.startswith("|"):
        return f"files of the name {pattern}" if pattern else "nothing"
    name = os.path.basename(pattern[1:].split(" ", 1)[0])
    return f"{KNOWN.get(name, name)}, by the pattern {pattern}"


def release() -> List[int]:
    """The kernel's numbers."""
    return [int(it) for it in re.findall(r"\d+", os.uname().release)[:2]]


def check_kernel() -> None:
    """Refuses a kernel that is too old."""
    if release() < list(FIRST):
        raise Fault(f"Linux {os.uname().release} is older than {FIRST[0]}.{FIRST[1]}, and has no openat2", BAD_WORDS)


def check_door(door: Path) -> None:
    """Refuses a program that others than root could put something else in the place of."""
    if not door.is_file():
        raise Fault(f"there is no program {shown(os.fsencode(door))}", BAD_WORDS, "tools/install.py --to /opt/pystacks makes it")
    for path in (door, *door.parents):
        told = os.lstat(path)
        if told.st_uid != 0 or stat.S_ISLNK(told.st_mode) or told.st_mode & 0o022:
            line = f"{shown(os.fsencode(path))} isn't root's alone, or is a link"
            raise Fault(line, BAD_WORDS, "install into a folder of root's, as /opt/pystacks")
    if re.search(r"[\s%]", os.fspath(door)) or len(pattern_of(door)) > LONGEST:
        raise Fault(f"the pattern takes no path as {shown(os.fsencode(door))}", BAD_WORDS, "install into a folder of a short name without blanks")


def pattern_of(door: Path) -> str:
    """The pattern by which the kernel starts the handler."""
    return f"|{door} {PATTERN}"


def kernel_values(base: Path) -> Dict[str, str]:
    """What the kernel has."""
    return {it: (base / KERNEL / it).read_text(encoding="utf-8", errors="replace").strip() for it in ("core_pattern", "core_pipe_limit")}


def set_kernel(base: Path, values: Dict[str, str]) -> None:
    """Sets what the kernel has."""
    for name, value in values.items():
        (base / KERNEL / name).write_text(value + "\n", encoding="utf-8")


def write(path: Path, text: str) -> None:
    """Writes a file for all to read."""
    path.parent.mkdir(parents=True, exist_ok=True)
    path.write_text(text, encoding="utf-8")
    path.chmod(0o644)


def make_user(base: Path, name: str) -> None:
    """Makes the worker's user, where the system itself is set up."""
    try:
        pwd.getpwnam(name)
    except KeyError:
        if base == Path("/"):
            subprocess.run(["useradd", "--system", "--no-create-home", "--home-dir=/", "--shell=/usr/sbin/nologin", name], check=False)


def make_folders(base: Path) -> None:
    """The folder of crashes, for root alone, in one for all."""
    folder = base / Settings.folder[1:]
    folder.parent.mkdir(parents=True, exist_ok=True)
    folder.parent.chmod(0o755)
    folder.mkdir(mode=0o700, exist_ok=True)
    folder.chmod(0o700)


def systemd(base: Path, *words: str) -> None:
    """Tells systemd, where it runs the system itself."""
    if base == Path("/") and os.path.isdir("/run/systemd/system"):
        subprocess.run(["systemctl", *words], check=False)


def install(root: str, door: Path = DOOR) -> int:
    """Sets the handler up. Returns 0."""
    base = Path(root)
    check_kernel()
    check_door(door)
    now, own = kernel_values(base), pattern_of(door)
    say(f"cores are taken by {taker_of(now['core_pattern'])}", who=WHO)
    if "apport" in now["core_pattern"]:
        say("apport sets its pattern at each start: disable it, by systemctl disable apport", who=WHO)
    make_user(base, Settings.user)
    make_folders(base)
    if now["core_pattern"] != own:
        write(base / BEFORE, json.dumps(now) + "\n")
    if not (base / SETTINGS).exists():
        write(base / SETTINGS, "# docs/CORES.md has each key\n")
    for name, text in OWN.items():
        write(base / name, text.format(pattern=own, at_once=AT_ONCE, door=door))
    set_kernel(base, {"core_pipe_limit": str(AT_ONCE), "core_pattern": own})
    systemd(base, "daemon-reload")
    systemd(base, "enable", "--now", "pystacks-tidy.timer")
    say("cores are taken by pystacks from now on; --remove puts back what took them", who=WHO)
    return 0


def values_before(base: Path) -> Dict[str, str]:
    """What the kernel had, before the handler was set up."""
    try:
        tree = json.loads((base / BEFORE).read_text(encoding="utf-8"))
        return {it: str(tree[it]) for it in ("core_pattern", "core_pipe_limit")}
    except (OSError, ValueError, KeyError, TypeError):
        return {"core_pattern": "core", "core_pipe_limit": "0"}


def removed(root: str, door: Path = DOOR) -> int:
    """Removes the handler, and puts back what took cores. Returns 0."""
    base = Path(root)
    if kernel_values(base)["core_pattern"] == pattern_of(door):
        set_kernel(base, values_before(base))
    systemd(base, "disable", "--now", "pystacks-tidy.timer")
    for name in (*OWN, BEFORE):
        if (base / name).exists():
            (base / name).unlink()
    systemd(base, "daemon-reload")
    say(f"cores are taken by {taker_of(kernel_values(base)['core_pattern'])}", who=WHO)
    say(f"crashes and settings stay: {Settings.folder}, /{SETTINGS}", who=WHO)
    return 0
