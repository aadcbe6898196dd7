"""A Debian package of the programs, the tools, the layouts and the pages for users.

What tools/install.py puts into a folder stands in usr/lib/pystacks, its doors are linked from usr/bin, and its pages stand in
usr/share/doc/pystacks. Manual pages are made by `help2man`, where it is there, and debug symbols left out by `strip`.
"""

import gzip
import hashlib
import os
import re
import shutil
import struct
import subprocess
import sys
import tempfile
from email.utils import formatdate
from pathlib import Path
from typing import Dict, Iterator, List, Optional, Sequence

from install import DOORS, put
from pystacks_tool import pages
from pystacks_tool.faults import CANNOT_WRITE, NO_PROGRAM, Fault, shown
from pystacks_tool.version import VERSION

ROOT = Path(pages.ROOT)

MAINTAINER = "the pystacks authors <pystacks@example.org>"
"""Who is named where nobody else is: a place for a name, since the project has no address."""

ARCHITECTURES = {62: "amd64", 183: "arm64"}
"""Debian's names for the machines of ELF files."""

LIBRARY = Path("usr/lib/pystacks")
PAGES = Path("usr/share/doc/pystacks")
MANUAL = Path("usr/share/man/man1")

CONTROL = """\
Package: pystacks
Version: {version}
Architecture: {architecture}
Maintainer: {maintainer}
Installed-Size: {size}
Depends: libc6, python3 (>= 3.8)
Recommends: zstd, lz4
Suggests: gdb
Section: utils
Priority: optional
Description: Python stacks from core dumps
 pystacks reads the core dump of a dead 64-bit Linux process and shows the
 signal, the process and, for every Python thread, its frames with function,
 file, line and locals. pysalvage shows what is left of a broken process, and
 pystacks-core finds the files that a core needs, prepares it and shows both.
"""

SCRIPTS = {
    "postinst": """\
#!/bin/sh
set -e
if [ "$1" = configure ] && [ -z "$DPKG_ROOT" ] && command -v py3compile >/dev/null 2>&1; then
    py3compile -p pystacks /usr/lib/pystacks/tools
fi
""",
    "prerm": """\
#!/bin/sh
set -e
if [ -z "$DPKG_ROOT" ] && command -v py3clean >/dev/null 2>&1; then
    py3clean -p pystacks /usr/lib/pystacks/tools
fi
""",
}
"""What dpkg runs: Debian's own way to compile modules, and to leave none of that behind."""

WHATS = {
    "pystacks": "Shows the Python stacks in the core dump of a 64-bit Linux process",
    "pysalvage": "Shows what is left of the Python stacks in the core of a broken process",
    **{it.name: it.what for it in DOORS},
}
"""What each program does, as the first line of its manual page has it."""

USAGE = """\
pystacks COMMAND WORDS..

Shows the Python stacks in the core dump of a 64-bit Linux process. pystacks-core finds the files that it needs; by hand a command
is handed the core, the layouts and the files that the process had mapped, as PATH=FILE.

Commands:
  dump -c CORE --layouts FILE [-l].. [-j] [PATH=FILE]..  the signal, the process, and each thread's frames
  walk CORE LAYOUTS VERSION INTERP LOCK  the threads of an interpreter that is told by hand
  triage LAYOUTS CORE.. [PATH=FILE]..  cores grouped by their stacks
  reach CORE LAYOUTS INDEX [PATH=FILE]..  the objects that a thread's locals lead to
  merge CORE LAYOUTS INDEX ADDRESSES [PATH=FILE]..  a thread with its native frames
  locate CORE LAYOUTS [PATH=FILE]..  the version, the interpreter and its lock
  slim CORE LAYOUTS LEVEL [PATH=FILE]..  a small core, with what its stacks need
  sample N [core]  a core of a made-up program

The pages of /usr/share/doc/pystacks/docs say more of each.
"""
"""The words of `pystacks`, which prints none itself."""


def architecture_of(program: Path) -> str:
    """Debian's name for a program's machine."""
    with open(program, "rb") as file:
        head = file.read(20)
    machine = struct.unpack_from("<H", head, 18)[0] if head.startswith(b"\x7fELF\2\1") and len(head) == 20 else 0
    if machine not in ARCHITECTURES:
        line = f"{shown(os.fsencode(program))} is no program of a machine that Debian has a name for"
        raise Fault(line, NO_PROGRAM, "name one by --program")
    return ARCHITECTURES[machine]


def ran(command: Sequence[str], **environment: str) -> str:
    """Runs a program of Debian's, and returns what it prints."""
    try:
        done = subprocess.run(
            list(command), stdin=subprocess.DEVNULL, stdout=subprocess.PIPE, stderr=subprocess.PIPE, text=True, check=False,
            env={**os.environ, "LC_ALL": "C.UTF-8", **environment})
    except OSError as error:
        line = f"cannot run {command[0]}: {error.strerror}"
        raise Fault(line, NO_PROGRAM, "install Debian's packages dpkg and help2man") from None
    if done.returncode != 0:
        said = (done.stderr.strip().splitlines() or [f"status {done.returncode}"])[-1]
        raise Fault(f"{command[0]} says: {said}", CANNOT_WRITE)
    return done.stdout


def packed(path: Path, data: bytes) -> None:
    """Writes a packed file, the same bytes for the same data."""
    path.parent.mkdir(parents=True, exist_ok=True)
    path.write_bytes(gzip.compress(data, 9, mtime=0))


def when() -> int:
    """The time that the package has: the commit's, where it is known."""
    try:
        return int(ran(["git", "-C", str(ROOT), "log", "-1", "--format=%ct"]))
    except (Fault, ValueError):
        return int((ROOT / "CHANGELOG.md").stat().st_mtime)


# ---- what stands in it


def put_texts(root: Path, maintainer: str, time: int) -> None:
    """The pages, the licences and the changes."""
    library, pages = root / LIBRARY, root / PAGES
    pages.parent.mkdir(parents=True, exist_ok=True)
    shutil.move(str(library / "docs"), str(pages / "docs"))
    for name in ("README.md", "SECURITY.md", "NOTICE"):
        # (the licence and the changes have Debian's names)
        text = (library / name).read_text(encoding="utf-8").replace("](LICENSE)", "](copyright)").replace("](CHANGELOG.md)", "](NEWS.gz)")
        (pages / name).write_text(text, encoding="utf-8")
        (library / name).unlink()
    # (a page is named by its place beside the tool)
    (library / "docs").symlink_to(Path("../../share/doc/pystacks/docs"))
    licence = (library / "LICENSE").read_text(encoding="utf-8")
    (pages / "copyright").write_text(f"{licence}\n\n{(pages / 'NOTICE').read_text(encoding='utf-8')}", encoding="utf-8")
    packed(pages / "NEWS.gz", (library / "CHANGELOG.md").read_bytes())
    for name in ("LICENSE", "CHANGELOG.md"):
        (library / name).unlink()
    entry = f"pystacks ({VERSION}) unstable; urgency=medium\n\n  * As NEWS.gz has it.\n\n -- {maintainer}  {formatdate(time)}\n"
    packed(pages / "changelog.gz", entry.encode("utf-8"))


def put_links(root: Path) -> None:
    """The programs in usr/bin. What runs by Python runs by Debian's."""
    (root / "usr/bin").mkdir()
    for path in sorted((root / LIBRARY / "bin").iterdir()):
        (root / "usr/bin" / path.name).symlink_to(Path("../lib/pystacks/bin") / path.name)
    for path in sorted((root / LIBRARY).rglob("*")):
        if path.is_file() and path.read_bytes().startswith(b"#!/usr/bin/env python3\n"):
            text = path.read_text(encoding="utf-8")
            path.write_text(text.replace("#!/usr/bin/env python3\n", "#!/usr/bin/python3\n", 1), encoding="utf-8")


def help_of(path: Path) -> str:
    """What a program says of its words, as help2man takes it: their line in one piece behind its own name for it."""
    is_door = path.name in {it.name for it in DOORS}
    text = USAGE if path.name == "pystacks" else ran([sys.executable, str(path), "--help"] if is_door else [str(path), "--help"])
    words, blank, rest = text.partition("\n\n")
    line = " ".join(words.split())
    # (a row of `pysalvage` is an argument, blanks and what it is)
    rest = re.sub(r"^(\S+(?: \S+)?)  +(?=\S)", r"  \1  ", rest, flags=re.MULTILINE)
    return f"Usage: {line[len('usage: '):] if line.startswith('usage: ') else line}{blank}{rest}"


def put_manual(root: Path, time: int) -> List[str]:
    """The manual pages. Returns what there is to say."""
    if not shutil.which("help2man"):
        return ["there is no help2man, and so no manual page"]
    with tempfile.TemporaryDirectory(prefix="manual-") as folder:
        for path in sorted((root / LIBRARY / "bin").iterdir()):
            # (the place where the package is made has no meaning)
            text = help_of(path).replace(f"{root}/{LIBRARY}", f"/{LIBRARY}")
            told = Path(folder) / path.name
            told.write_text(f"#!/bin/sh\ncat <<'END'\n{text}END\n", encoding="utf-8")
            told.chmod(0o755)
            words = ["--no-info", "--section=1", f"--name={WHATS[path.name]}", f"--version-string={VERSION}", "--source=pystacks"]
            page = ran(["help2man", *words, str(told)], SOURCE_DATE_EPOCH=str(time))
            packed(root / MANUAL / f"{path.name}.1.gz", page.encode("utf-8"))
    return []


def strip(root: Path) -> None:
    """Leaves symbols for debuggers out of the programs, where `strip` is there."""
    for name in ("pystacks", "pysalvage"):
        path = root / LIBRARY / "bin" / name
        if path.is_file() and shutil.which("strip"):
            ran(["strip", "--strip-unneeded", "--remove-section=.comment", "--remove-section=.note", str(path)])


def files_in(root: Path) -> Iterator[Path]:
    """The regular files, in order."""
    return (it for it in sorted(root.rglob("*")) if it.is_file() and not it.is_symlink() and "DEBIAN" not in it.relative_to(root).parts)


def put_control(root: Path, architecture: str, maintainer: str) -> None:
    """What dpkg reads."""
    files = list(files_in(root))
    sums = "".join(f"{hashlib.md5(it.read_bytes()).hexdigest()}  {it.relative_to(root)}\n" for it in files)
    size = sum(-(-it.stat().st_size // 1024) for it in files)
    (root / "DEBIAN").mkdir()
    words: Dict[str, object] = {"version": VERSION, "architecture": architecture, "maintainer": maintainer, "size": size}
    (root / "DEBIAN/control").write_text(CONTROL.format(**words), encoding="utf-8")
    (root / "DEBIAN/md5sums").write_text(sums, encoding="utf-8")
    for name, text in SCRIPTS.items():
        (root / "DEBIAN" / name).write_text(text, encoding="ascii")
        (root / "DEBIAN" / name).chmod(0o755)


def set_rights(root: Path) -> None:
    """Folders and programs are for all to read and run, other files to read."""
    for path in (root, *root.rglob("*")):
        if not path.is_symlink():
            path.chmod(0o755 if path.is_dir() or os.access(path, os.X_OK) and path.stat().st_mode & 0o100 else 0o644)


def packaged(file: Path, program: Path, salvage: Optional[Path], maintainer: str) -> List[str]:
    """Makes the package. Returns what there is to say."""
    time, maintainer = when(), maintainer or MAINTAINER
    with tempfile.TemporaryDirectory(prefix="package-") as folder:
        root = Path(folder)
        architecture = architecture_of(program)
        said = put(root / LIBRARY, program, salvage)[:-1]
        strip(root)
        put_texts(root, maintainer, time)
        put_links(root)
        said += put_manual(root, time)
        set_rights(root)
        put_control(root, architecture, maintainer)
        ran(["dpkg-deb", "--root-owner-group", "--build", folder, str(file)], SOURCE_DATE_EPOCH=str(time))
    return [*said, f"{file} is the package: pystacks {VERSION} for {architecture}"]
