#!/usr/bin/env python3
"""The kernel's handler, run by hand beside processes that stand still, as the kernel runs it.

    tools/check/real/real_handler.py --program P --salvage S [--all]

Tried are a whole core; mapped files that lie outside a process's root, that it couldn't read, that block, or are those of a dead server;
cores that break off, that are long, or for which there is no room; a folder that is a link; storms; programs that run into their limits;
what the worker must not do; and a handler that is ended. With --all the core has 16.8 GB. With PYSTACKS_LIVE_HANDLER=1 the machine's own
core_pattern is set for a moment, so that the kernel itself starts the handler.
"""

import argparse
import json
import os
import resource
import shutil
import signal
import socket
import stat
import subprocess
import sys
import tempfile
import time
from concurrent.futures import ThreadPoolExecutor
from contextlib import contextmanager
from pathlib import Path
from unittest import mock

import rooms  # (first: it makes the other rooms known)
from child_cores import Failure, Skip, core_names, find_core, raise_core_limit
from pystacks_tool.handler import confine, finder, system
from pystacks_tool.handler.crash import PATTERN, crash_of, process_of
from pystacks_tool.handler.settings import Settings

ROOT = Path(__file__).resolve().parents[3]
CHILD = Path(__file__).with_name("handler_child.py")
USER = "nobody"
UNLIMITED = str((1 << 64) - 1)
SECONDS = 300
"""How long anything may take, however slow the machine is."""

NEW_NAMES = 0x4000000
"""The namespace of a host's name (CLONE_NEWUTS)."""


def expect(is_right, what):
    """Fails where something isn't so."""
    if not is_right:
        raise Failure(what)


def forked(call):
    """What a call in a process of its own says: nothing where all is right. A refusal of the system is a skip."""
    own, its = os.pipe()
    pid = os.fork()
    if pid == 0:
        try:
            said = call() or ""
        except Skip as reason:
            said = f"skip: {reason}"
        except BaseException as error:
            said = f"{type(error).__name__}: {error}"
        os.write(its, said.encode("utf-8", "replace")[:4000])
        os._exit(0)
    os.close(its)
    with open(own, "rb") as file:
        said = file.read().decode()
    os.waitpid(pid, 0)
    if said.startswith("skip: "):
        raise Skip(said[6:])
    return said


def can_be_apart():
    """Whether this machine gives the worker namespaces of its own."""
    def call():
        system.apart(system.NEW_PROCESSES | system.NEW_FILES | system.NEW_IPC | system.NEW_NETWORK)
        pid = os.fork()
        if pid == 0:
            try:
                system.mount_own_processes()
                os._exit(0)
            except OSError:
                os._exit(1)
        return "" if os.waitpid(pid, 0)[1] == 0 else "no /proc"

    return not forked(call)


class Room:
    """A folder that all may look into, with the tool as it is installed, and a folder of crashes."""

    def __init__(self, folder, programs):
        self.folder = folder
        folder.chmod(0o755)
        self.cores = folder / "cores"
        self.is_apart = can_be_apart()
        self.number = 0
        self.opt = self.installed("opt", *programs)

    def installed(self, name, program, salvage):
        """Installs the tool with these programs."""
        command = [sys.executable, "-B", ROOT / "tools" / "install.py", "--to", self.folder / name, "--program", program]
        command += ["--salvage", salvage] if Path(salvage).is_file() else []
        subprocess.run([str(it) for it in command], check=True, stdout=subprocess.DEVNULL)
        return self.folder / name

    def script(self, text):
        """A program that stands in for both."""
        self.number += 1
        path = self.folder / f"program-{self.number}"
        path.write_text(f"#!/bin/sh\n{text}\n")
        path.chmod(0o755)
        return path

    def settings(self, **more):
        """A file of settings, with an empty folder of crashes."""
        shutil.rmtree(self.cores, ignore_errors=True)
        self.cores.mkdir(mode=0o700)
        own = {"folder": self.cores, "user": USER, "namespaces": "yes" if self.is_apart else "no", "seconds": SECONDS // 2, "file_seconds": 60, **more}
        path = self.folder / "settings"
        path.write_text("".join(f"{key} = {value}\n" for key, value in own.items()))
        path.chmod(0o644)
        return path

    def command(self, settings, pid, limit=UNLIMITED, when=None, signal_number=6):
        """The command by which the kernel starts the handler. (Here by the Python of this check.)"""
        door = self.opt / "bin" / "pystacks-core-handle"
        numbers = [pid, pid, 1, signal_number, int(time.time()) if when is None else when, limit]
        return [sys.executable, "-I", str(door), "--settings", str(settings), *map(str, numbers)]

    def started(self, settings, pid, core, **more):
        """The handler, which reads the core from a pipe."""
        preexec = more.pop("preexec", None)
        reader = subprocess.Popen(["cat", str(core)], stdout=subprocess.PIPE, stderr=subprocess.DEVNULL)
        process = subprocess.Popen(
            self.command(settings, pid, **more), stdin=reader.stdout, stdout=subprocess.DEVNULL, stderr=subprocess.PIPE, preexec_fn=preexec)
        reader.stdout.close()
        return process, reader

    def handled(self, settings, pid, core, **more):
        """Runs the handler over a core. Returns its status, and what it said."""
        process, reader = self.started(settings, pid, core, **more)
        try:
            said = process.communicate(timeout=SECONDS)[1].decode("utf-8", "replace")
        except subprocess.TimeoutExpired:
            process.kill()
            raise Failure(f"the handler had not ended after {SECONDS} s") from None
        finally:
            reader.kill()
            reader.wait()
        return process.returncode, said

    def crashes(self):
        """The crashes that were kept, the oldest first; none that isn't whole may be there."""
        names = sorted(it.name for it in self.cores.iterdir() if it.name != "storms")
        expect(not [it for it in names if it.startswith(".")], f"the folder has {names}")
        return [self.cores / it for it in names]

    def only(self):
        """The one crash that was kept, with its record and its line."""
        found = self.crashes()
        expect(len(found) == 1, f"{len(found)} crashes are kept, and not 1")
        record, line = (json.loads((found[0] / it).read_text()) for it in ("crash", "line"))
        return found[0], record, line


@contextmanager
def standing(room, *words, python=sys.executable, user=None):
    """A process that stands still, with a core of what it has mapped: its id, and the core's file."""
    folder = Path(tempfile.mkdtemp(dir=room.folder))
    folder.chmod(0o777)

    def begin():
        raise_core_limit()
        if user is not None:
            os.setgroups([])
            os.setresgid(user[1], user[1], user[1])
            os.setresuid(*[user[0]] * 3)

    shutil.copy(CHILD, folder / "child.py")
    (folder / "child.py").chmod(0o755)
    since = time.time()
    process = subprocess.Popen(
        [python, "-B", str(folder / "child.py"), *words], cwd=folder, stdin=subprocess.DEVNULL, stdout=subprocess.PIPE, preexec_fn=begin)
    try:
        told = process.stdout.readline().split()
        expect(len(told) == 2, "the child told nothing")
        yield process.pid, find_core(core_names(), int(told[1]), folder, since)
    finally:
        process.kill()
        process.wait()
        shutil.rmtree(folder, ignore_errors=True)


def size_below(folder):
    """How many bytes the files of a folder have."""
    return sum(it.stat().st_size for it in folder.rglob("*") if it.is_file())


def said_in(path):
    """What the tool said of a crash."""
    return (path / "said").read_text() if (path / "said").exists() else ""


# ---- what is kept


def whole(room, pid, core):
    """A whole core: the report, its JSON, the line and the small core are kept, root's alone."""
    # (the kernel gives it the pipe, and neither standard output nor standard error)
    status, said = room.handled(room.settings(), pid, core, preexec=lambda: os.closerange(1, 3))
    expect(status == 0, f"the handler ended with status {status}: {said}")
    path, record, line = room.only()
    expect(line["cause"] is None and (path / "report.txt").exists(), f"there is no report: {line['cause']}; {record['said']}; {said_in(path)}")
    text, report = (path / "report.txt").read_text(), json.loads((path / "report.json").read_text())
    expect("fall (" in text and "child.py:" in text, f"the report is {text[:300]!r}")
    expect(report["interpreters"][0]["threads"][0]["frames"]["first"], "the JSON has no frames")
    expect(line["cause"] is None and line["frames"][0].startswith("fall ("), f"the line is {line}")
    expect(line["core"] == path.name and record["ended"] == "by itself" and record["files"] > 2, f"the record is {record}")
    expect((path / "slim").exists() and (path / "slim").stat().st_size > 1000, f"there is no small core: {said_in(path)}")
    modes = {(it.name, it.stat().st_uid, stat.S_IMODE(it.stat().st_mode)) for it in path.iterdir()}
    expect(all(it[1:] == (0, 0o600) for it in modes), f"files are {modes}")
    door = room.opt / "bin" / "pystacks-core"
    for words, wanted in ((["--list", room.cores], path.name), (["--show", path], "fall ("), (["--group", room.cores], "Group 1: 1 core")):
        ran = subprocess.run([sys.executable, "-B", door, *words], stdout=subprocess.PIPE, stderr=subprocess.STDOUT, text=True)
        expect(ran.returncode == 0 and wanted in ran.stdout, f"{words[0]} says {ran.stdout[:300]!r}")


def whole_core_kept(room, pid, core):
    """With keep_core the whole core is kept too, as it was; not where the process's limit is shorter."""
    room.handled(room.settings(keep_core="yes"), pid, core)
    path = room.only()[0]
    expect((path / "core").read_bytes() == core.read_bytes(), "the core that is kept is another one")
    room.handled(room.settings(keep_core="yes"), pid, core, limit="4096")
    expect(not (room.only()[0] / "core").exists(), "a core longer than the process's limit is kept")


def limit_of_nothing(room, pid, core):
    """A limit of 0 is honoured."""
    status, said = room.handled(room.settings(), pid, core, limit="0")
    expect(status == 0 and not room.crashes() and "limit on cores is 0" in said, f"{status}, {said}")


def breaks_off(room, pid, core):
    """A pipe that breaks off: what came is looked at."""
    half = room.folder / "half"
    half.write_bytes(core.read_bytes()[: core.stat().st_size // 2])
    status, said = room.handled(room.settings(), pid, half)
    path, record, line = room.only()
    expect(status == 0 and record["length"] == half.stat().st_size, f"{status}, {said}, {record}")
    expect("core is cut" in said_in(path) and line["signal"] == 6, f"{line}")
    room.handled(room.settings(), pid, "/dev/null")
    expect(room.only()[2]["cause"], "an empty core has no line with its cause")


def is_long(room, megabytes):
    """A long core of zero pages: little of it is stored, and little kept."""
    with standing(room, str(megabytes)) as (pid, core):
        used, length = core.stat().st_blocks * 512, core.stat().st_size
        settings, begun = room.settings(), time.monotonic()
        process, reader = room.started(settings, pid, core)
        _, status, used_by = os.wait4(process.pid, 0)
        process.returncode = status
        reader.wait()
        seconds = time.monotonic() - begun
        path, record, line = room.only()
        expect(length >= megabytes * 1_000_000 and record["length"] == length, f"{record} of {length} bytes")
        expect(record["stored"] <= used and line["cause"] is None, f"{record['stored']} bytes of {used} are stored, {line['cause']}")
        expect(size_below(path) < 20_000_000, f"{size_below(path)} bytes are kept")
        memory = used_by.ru_maxrss * 1024
        expect(memory < 200_000_000 + used, f"it took {memory} bytes of memory")
        print(f"real_handler: a core of {length / 1e9:.1f} GB: {seconds:.1f} s, {memory / 1e6:.0f} MB, {size_below(path) / 1e3:.0f} KB kept")


def of_a_user(room):
    """A process of a user who may dump it: the user finds the report."""
    import pwd
    found = pwd.getpwnam(USER)
    python = "/usr/bin/python3"
    if not os.path.exists(python) or subprocess.run([python, "--version"], stdout=subprocess.DEVNULL).returncode:
        raise Skip("there is no Python that another user may run")
    reports = room.folder / "reports"
    reports.mkdir(exist_ok=True)
    reports.chmod(0o755)
    with standing(room, python=python, user=(found.pw_uid, found.pw_gid)) as (pid, core):
        room.handled(room.settings(reports=reports), pid, core)
        path, record, _ = room.only()
        given = reports / f"{path.name}.txt"
        told = given.stat()
        expect((told.st_uid, stat.S_IMODE(told.st_mode)) == (found.pw_uid, 0o400) and record["user"] == found.pw_uid, f"{told}, {record}")
        expect(given.read_text() == (path / "report.txt").read_text(), "the user's report is another one")


# ---- what was mapped


def mapped_by(room, prepare, has_map_files):
    """The files that are handed over of a process that was prepared so, by the names that the core has."""
    process = subprocess.Popen(
        [sys.executable, "-B", "-c", f"import ctypes, mmap, os, signal\n{prepare}\nprint(1, flush=True)\nsignal.pause()"],
        stdin=subprocess.DEVNULL, stdout=subprocess.PIPE)
    try:
        if process.stdout.readline() != b"1\n":
            raise Skip("no such process can be made here")
        known = process_of(crash_of([str(process.pid)] * 2 + ["1", "6", "1", UNLIMITED]))
        refuse = mock.patch.object(finder, "opened_in_memory", side_effect=PermissionError) if not has_map_files else mock.patch.object(finder, "MOST", 1024)
        with refuse:
            found, said = finder.files_of(known, 20)
        os.close(known.folder)
        expect(said == "", said)
        files = {name: os.fstat(fd) for name, fd in found.items()}
        for fd in found.values():
            os.close(fd)
        return files
    finally:
        process.kill()
        process.wait()


def links_out(room):
    """A container whose files are links out of it, or FIFOs: nothing is handed over that the process hadn't mapped."""
    secret, box = room.folder / "secret", room.folder / "box"
    secret.write_text("a secret")
    (box / "lib").mkdir(parents=True, exist_ok=True)
    for name in ("kept", "linked", "blocked", "swapped"):
        (box / "lib" / name).write_bytes(bytes(8192))
    own_root = f"""
libc = ctypes.CDLL(None)
box = {os.fsencode(box)!r}
assert libc.unshare(0x20000) == 0
assert libc.mount(b'none', b'/', None, 1 << 18 | 1 << 14, None) == 0
assert libc.mount(box, box, None, 1 << 12, None) == 0
os.chdir(box)
assert libc.mount(b'.', b'/', None, 1 << 13, None) == 0
os.chroot('.')
"""
    prepare = """
{}
its = [mmap.mmap(os.open('/lib/' + it, os.O_RDONLY), 8192, prot=mmap.PROT_READ) for it in ('kept', 'linked', 'blocked', 'swapped')]
for it in ('linked', 'blocked', 'swapped'):
    os.unlink('/lib/' + it)
open('/lib/swapped (deleted)', 'w').write('another file')
os.symlink('../../secret', '/lib/linked (deleted)')
os.mkfifo('/lib/blocked (deleted)')
"""
    for root, has_map_files in ((own_root, True), (own_root, False), (f"os.chroot({str(box)!r})", True), (f"os.chroot({str(box)!r})", False)):
        for it in (box / "lib").glob("*(deleted)"):
            it.unlink()
        for name in ("linked", "blocked", "swapped"):
            (box / "lib" / name).write_bytes(bytes(8192))
        files = mapped_by(room, prepare.format(root), has_map_files)
        expect(b"/lib/kept" in files, f"a mapped file is lost: {sorted(files)}")
        own = {(it.st_dev, it.st_ino) for it in files.values()}
        told = secret.stat()
        expect((told.st_dev, told.st_ino) not in own, "a file outside the process's root is handed over")
        expect(all(stat.S_ISREG(it.st_mode) for it in files.values()), "what is no regular file is handed over")
        if not has_map_files:
            expect(not [it for it in files if it.endswith(b"(deleted)")], f"{sorted(files)} are handed over")


def not_its_own(room):
    """A file that the process itself could not read, though it has it mapped: not handed over."""
    secret = room.folder / "unreadable"
    secret.write_bytes(bytes(8192))
    secret.chmod(0o600)
    prepare = f"""
it = mmap.mmap(os.open({str(secret)!r}, os.O_RDONLY), 8192, prot=mmap.PROT_READ)
os.setgroups([]); os.setresgid(65534, 65534, 65534); os.setresuid(65534, 65534, 65534)
"""
    for has_map_files in (True, False):
        files = mapped_by(room, prepare, has_map_files)
        expect(os.fsencode(secret) not in files, "a file that the process could not read is handed over")


def dead_server(room):
    """A file that nobody answers for: the child is left behind, and what it opened before is there."""
    known = process_of(crash_of([str(os.getpid())] * 2 + ["1", "6", "1", UNLIMITED]))
    its = iter(range(1000))
    real = finder.opened_file

    def slow(*words):
        if next(its) >= 2:
            signal.pause()
        return real(*words)

    with mock.patch.object(finder, "opened_file", slow):
        found, said = finder.files_of(known, 2)
    for fd in found.values():
        os.close(fd)
    os.close(known.folder)
    expect(0 < len(found) <= 2 and "within 2 s" in said, f"{len(found)} files, {said}")


# ---- folders, disks, storms


def folder_is_a_link(room, pid, core):
    """A folder that is a link, or that others may look into, is refused."""
    settings = room.settings(folder=room.folder / "link")
    (room.folder / "link").symlink_to(room.cores)
    status, said = room.handled(settings, pid, core)
    expect(status == 2 and "no part of its path a link" in said and not list(room.cores.iterdir()), f"{status}, {said}")
    (room.folder / "link").unlink()
    settings = room.settings()
    room.cores.chmod(0o755)
    status, said = room.handled(settings, pid, core)
    expect(status == 2 and "isn't root's alone" in said, f"{status}, {said}")


def disk_is_full(room, pid, core):
    """A disk that is nearly full: the core is cut, and the line is there. One that is full: nothing is left behind."""
    def call():
        disk = room.folder / "disk"
        disk.mkdir(exist_ok=True)
        try:
            system.apart(system.NEW_FILES)
            system.checked(system.LIBC.mount(b"none", b"/", None, system.PRIVATE | system.RECURSIVE, None), "mount")
            system.checked(system.LIBC.mount(b"disk", os.fsencode(disk), b"tmpfs", 0, b"size=2m,mode=700"), "mount")
        except OSError as error:
            raise Skip(f"no disk can be made that is full: {error}") from None
        room.cores = disk / "cores"
        status, said = room.handled(room.settings(share=90), pid, core)
        record, line = room.only()[1:]
        expect(status == 0 and "more than there is room for" in said and line["signal"] == 6, f"{status}, {said}, {record}")
        settings = room.settings()
        rest = os.open(disk / "rest", os.O_WRONLY | os.O_CREAT)
        try:
            while True:
                os.write(rest, bytes(4096))
        except OSError:
            pass
        status, said = room.handled(settings, pid, core)
        expect(status == 4 and "nothing is kept" in said and not room.crashes(), f"{status}, {said}")

    said = forked(call)
    expect(not said, said)


def storm(room, pid, count):
    """Many crashes at once, of which three are looked at: no byte of another is read, and one of the three counts them."""
    settings = room.settings(rate=3, program=room.script("exit 1"), salvage=room.script("exit 1"))

    def one(number):
        with open(room.folder / "some", "rb") as file:
            done = subprocess.run(room.command(settings, pid), stdin=file, stdout=subprocess.DEVNULL, stderr=subprocess.DEVNULL)
            return done.returncode, os.lseek(file.fileno(), 0, os.SEEK_CUR)

    (room.folder / "some").write_bytes(b"some bytes")
    with ThreadPoolExecutor(8) as pool:
        ended = list(pool.map(one, range(count)))
    expect(all(status == 0 for status, _ in ended), f"handlers ended with {sorted({it for it, _ in ended})}")
    expect(sum(at > 0 for _, at in ended) == 3, f"{sum(at > 0 for _, at in ended)} cores were read, and not 3")
    found = room.crashes()
    more = sum(int((it / "more").read_text()) for it in found if (it / "more").exists())
    expect(len(found) == 3 and more == count - 3, f"{len(found)} crashes, and {more} more")


# ---- the worker


def odd_host(room, pid, core):
    """A host's name with blanks and options in it is a text, and no word."""
    name = "a -j --root=/ b"

    def begin():
        system.checked(system.LIBC.unshare(NEW_NAMES), "unshare")
        socket.sethostname(name)

    try:
        status, said = room.handled(room.settings(), pid, core, preexec=begin)
    except subprocess.SubprocessError:
        raise Skip("no host's name can be set here") from None
    record, line = room.only()[1:]
    expect(status == 0 and record["host"] == line["host"] == name and line["cause"] is None, f"{status}, {said}, {record}, {line}")


def runs_into_limits(room, pid, core):
    """Programs that use up their memory, their time or the disk: the line and the rest are there, and nothing runs on."""
    for text, more in (
        ("x=$(tr '\\0' x </dev/zero)\nexit 1", {"memory": 400, "seconds": 20}), ("while :; do :; done", {"seconds": 2}),
        ("setsid sh -c 'while :; do sleep 1; done' &\nsleep 1000", {"seconds": 2}), ("exec cat /dev/zero", {"space": 50}),
    ):
        program = room.script(f"case \"$*\" in *--help*) exit 0;; esac\n{text}")
        status, said = room.handled(room.settings(program=program, salvage=program, **more), pid, core)
        path, record, line = room.only()
        expect(status == 0 and line["signal"] == 6 and line["cause"], f"of {text!r}: {status}, {said}, {line}")
        expect(size_below(path) < 1_000_000, f"of {text!r} {size_below(path)} bytes are kept")
        if room.is_apart:
            left = subprocess.run(["grep", "-lsa", str(program), *map(str, Path("/proc").glob("[0-9]*/cmdline"))], stdout=subprocess.PIPE).stdout
            expect(not left, f"of {text!r} processes go on")


def waits_for_nothing(room, pid, core):
    """The pipe is closed before the core is looked at; and a handler that is ended then leaves nothing behind."""
    go = room.folder / "go"
    program = room.script(f"case \"$*\" in *--help*) exit 0;; esac\nwhile [ ! -e {go} ]; do sleep 0.05; done\nexit 1")
    for is_ended in (False, True):
        go.unlink() if go.exists() else None
        process, reader = room.started(room.settings(program=program, salvage=program), pid, core)
        # (with the worker beside it, it has a folder that isn't whole, with a core that was taken)
        wait_until(process, lambda: any(json.loads(it.read_text())["ended"] == "taken" for it in room.cores.glob(".new-*/crash")))
        expect(os.readlink(f"/proc/{process.pid}/fd/0") == "/dev/null", "the pipe is still open")
        process.terminate() if is_ended else go.touch()
        process.communicate(timeout=SECONDS)
        reader.wait()
        expect(len(room.crashes()) == (0 if is_ended else 1), f"{len(room.crashes())} crashes are kept")


def wait_until(process, is_so):
    """Waits until something is so, while a process runs."""
    deadline = time.monotonic() + SECONDS
    while not is_so():
        expect(process.poll() is None, "the handler has ended too early")
        expect(time.monotonic() < deadline, "the handler doesn't come that far")
        time.sleep(0.02)


def attempts(room, parent, port):
    """What the worker must not do, each by name."""
    def write(path):
        with open(path, "w") as file:
            file.write("x")

    def reach():
        with socket.create_connection(("127.0.0.1", port), 2):
            pass

    def trace():
        system.checked(system.LIBC.ptrace(16, parent, None, None), "ptrace")

    def raise_limit():
        soft, hard = resource.getrlimit(resource.RLIMIT_AS)
        resource.setrlimit(resource.RLIMIT_AS, (hard + 1, hard + 1))

    found = {
        "open the folder": lambda: os.listdir(room.cores), "write into the folder": lambda: write(room.cores / "x"),
        "read another's file": lambda: open(room.folder / "unreadable").read(), "write beside the tool": lambda: write(room.opt / "x"),
        "be root": lambda: os.setresuid(0, 0, 0), "end the parent": lambda: os.kill(parent, 0), "trace the parent": trace,
        "read the parent's memory": lambda: open(f"/proc/{parent}/mem", "rb").read(1),
        "mount": lambda: system.checked(system.LIBC.mount(b"x", b"/tmp", b"tmpfs", 0, None), "mount"), "raise a limit": raise_limit,
        "change the root": lambda: os.chroot("/tmp"), "make a device": lambda: os.mknod(room.folder / "device", 0o600 | stat.S_IFCHR, 259),
    }
    return {**found, "reach the network": reach} if room.is_apart else found


def told_of_itself(room):
    """What is wrong with what a worker's process says of itself."""
    status = Path("/proc/self/status").read_text()
    for line in ("NoNewPrivs:\t1", *(f"Cap{it}:\t{0:016x}" for it in ("Inh", "Prm", "Eff", "Bnd", "Amb")), "Groups:\t \n"):
        if line not in status:
            return f"its status lacks {line!r}"
    if system.LIBC.prctl(3, 0, 0, 0, 0) != 0:
        return "it is dumpable"
    if room.is_apart and len([it for it in os.listdir("/proc") if it.isdigit()]) != 1:
        return "it sees other processes"
    return ""


def confined(room, parent, port, said):
    """What the worker's process could do, though it must not."""
    (room.folder / "unreadable").write_bytes(b"a secret")
    (room.folder / "unreadable").chmod(0o600)
    its = attempts(room, parent, port)
    settings = Settings(user=USER, scratch=str(room.folder), namespaces=room.is_apart)
    confine.confine(settings, settings.ids, (said,), said)
    done = []
    for what, call in its.items():
        try:
            call()
        except (OSError, ValueError):
            continue
        done.append(what)
    wrong = told_of_itself(room)
    return ", ".join([*done, *[wrong] * bool(wrong)])


def worker_is_refused(room):
    """A worker that tries what it must not do is refused, each."""
    room.settings()
    # (what this needs can't be read any longer where it is tried)
    "x".encode("idna")
    with socket.create_server(("127.0.0.1", 0)) as server:
        port, parent = server.getsockname()[1], os.getpid()
        own, its = os.pipe()

        def call():
            if room.is_apart:
                system.apart(system.NEW_PROCESSES)
            pid = os.fork()
            if pid == 0:
                try:
                    told = confined(room, parent, port, its)
                except BaseException as error:
                    told = f"{type(error).__name__}: {error}"
                os.write(its, (told or "nothing").encode())
                os._exit(0)
            os.waitpid(pid, 0)

        wrong = forked(call)
        os.close(its)
        with open(own, "rb") as file:
            told = file.read().decode()
        expect(not wrong and told == "nothing", f"the worker could: {told} {wrong}")


# ---- the kernel itself


def live(room):
    """The kernel starts the handler: its pattern is set for a moment, and put back."""
    if os.environ.get("PYSTACKS_LIVE_HANDLER") != "1":
        raise Skip("the machine's core_pattern isn't set without PYSTACKS_LIVE_HANDLER=1")
    pattern, limit = (Path("/proc/sys/kernel") / it for it in ("core_pattern", "core_pipe_limit"))
    before = pattern.read_text(), limit.read_text()
    settings = room.settings()
    # (the kernel's words have room for 127 bytes)
    door = Path(tempfile.mkdtemp(prefix="h", dir="/tmp")) / "h"
    door.write_text(f"#!/bin/sh\nexec {room.opt}/bin/pystacks-core-handle --settings {settings} \"$@\"\n")
    door.chmod(0o755)
    try:
        limit.write_text("4")
        pattern.write_text(f"|{door} {PATTERN}")
        process = subprocess.Popen([sys.executable, "-c", "import os\ndef fall(): os.abort()\nfall()"], stderr=subprocess.DEVNULL, preexec_fn=raise_core_limit)
        process.wait()
    finally:
        pattern.write_text(before[0])
        limit.write_text(before[1])
    # (the handler may be at work still, and other processes may have died in that moment)
    deadline = time.monotonic() + SECONDS
    while not list(room.cores.glob(f"2*-{process.pid}-*")) and time.monotonic() < deadline:
        time.sleep(0.05)
    found = list(room.cores.glob(f"2*-{process.pid}-*"))
    expect(len(found) == 1, f"{len(found)} crashes of the process are kept")
    record, line = (json.loads((found[0] / it).read_text()) for it in ("crash", "line"))
    expect(record["ended"] == "by itself" and line["frames"] and line["frames"][0].startswith("fall ("), f"{record}, {line}")
    shutil.rmtree(door.parent)
    print("real_handler: the kernel itself started it, and the line is right")


def main():
    """The check."""
    parser = argparse.ArgumentParser(description=__doc__, formatter_class=argparse.RawDescriptionHelpFormatter)
    parser.add_argument("--program", required=True)
    parser.add_argument("--salvage", required=True)
    parser.add_argument("--all", action="store_true", help="a core of 16.8 GB, and 200 crashes")
    parser.add_argument("--only", default="", help="the situations in whose names this stands")
    words = parser.parse_args()
    try:
        return tried(words)
    except Skip as reason:
        print(f"real_handler: skipped: {reason}")
        return 0


def check_machine():
    """Skips where the handler can't be run at all."""
    if os.geteuid() != 0:
        raise Skip("it is root's program")

    def call():
        os.close(system.open_folder("/"))
        os.setgroups([])
        confine.drop_rights(65534, 65534)

    said = forked(call)
    if said:
        raise Skip(f"this machine doesn't let a process give up its rights: {said}")


def tried(words):
    """Tries each situation. Returns the status."""
    check_machine()
    with tempfile.TemporaryDirectory(prefix="handler-") as name:
        room = Room(Path(os.path.realpath(name)), (words.program, words.salvage))
        if not room.is_apart:
            print("real_handler: skipped: this machine gives the worker no namespaces of its own; it is tried without them")
        wrong = done = 0
        with standing(room) as (pid, core):
            for call, more in (
                (whole, (pid, core)), (whole_core_kept, (pid, core)), (limit_of_nothing, (pid, core)), (breaks_off, (pid, core)),
                (is_long, (16_800 if words.all else 1_000,)), (of_a_user, ()), (links_out, ()), (not_its_own, ()), (dead_server, ()),
                (folder_is_a_link, (pid, core)), (disk_is_full, (pid, core)), (storm, (pid, 200 if words.all else 20)), (odd_host, (pid, core)),
                (runs_into_limits, (pid, core)), (waits_for_nothing, (pid, core)), (worker_is_refused, ()), (live, ()),
            ):
                if words.only not in call.__name__:
                    continue
                try:
                    call(room, *more)
                    done += 1
                except Skip as reason:
                    print(f"real_handler: skipped: {call.__name__}: {reason}")
                except (Failure, OSError, ValueError, KeyError, IndexError) as reason:
                    wrong += 1
                    print(f"real_handler: {call.__name__}: {reason!r}")
    print(f"real_handler: {done} situations are right, {wrong} wrong")
    return 1 if wrong else 0


if __name__ == "__main__":
    sys.exit(main())
