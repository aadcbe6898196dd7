"""The parent: root's, which the kernel starts. It makes and names files and hands out descriptors; of a core it parses nothing."""

import json
import os
import re
import signal
import socket
import sys
import time
from dataclasses import dataclass, field
from types import FrameType
from typing import List, NoReturn, Optional, Sequence

from pystacks_tool.faults import BAD_WORDS, CANNOT_WRITE, NO_STACKS, Fault, say
from pystacks_tool.handler.crash import Crash, Process, crash_of, process_of
from pystacks_tool.handler.finder import Found, files_of
from pystacks_tool.handler.settings import Settings, read_settings
from pystacks_tool.handler.store import CORE, Entry, Record, begun, count_more, free_in, opened, tidied, unnamed
from pystacks_tool.handler.storms import counted, kind_of
from pystacks_tool.handler.stream import WHOLE, Taken, taken
from pystacks_tool.handler.system import NEW_PROCESSES, Lacks, apart

WHO = "core_handle"

MEGABYTE = 1_000_000

PIPE_LIMIT = "/proc/sys/kernel/core_pipe_limit"

SYSTEM_LOG = "/dev/log"

LONGEST_LINE = 1 << 16

ENDS = (signal.SIGTERM, signal.SIGHUP, signal.SIGINT)
"""The signals that end a handler."""

STATE = "ended"
"""The key of the parent's record that says how it went."""


class Ended(BaseException):
    """That this process is to end: a signal, or a shutdown."""


def end(number: int, _: Optional[FrameType]) -> NoReturn:
    """Ends what is done."""
    raise Ended(f"ended by {signal.Signals(number).name}")


def log(line: str, then: str = "") -> None:
    """Says a line on the standard error, and to the system's log where that takes it at once: a handler that waits for the log would
    wait for itself where the log's own process died."""
    say(line, then, WHO)
    with socket.socket(socket.AF_UNIX, socket.SOCK_DGRAM | socket.SOCK_NONBLOCK) as channel:
        try:
            channel.sendto(f"<28>pystacks-core-handle: {line}".encode("utf-8", "backslashreplace")[:2000], SYSTEM_LOG)
        except OSError:
            pass


@dataclass
class Kept:
    """A crash that is looked at."""

    crash: Crash
    process: Process
    entry: Entry
    record: Record
    said: List[str] = field(default_factory=list)


def pipe_limit() -> Optional[int]:
    """How many dumps at once the kernel hands over."""
    try:
        with open(PIPE_LIMIT, "rb") as file:
            return int(file.read(32))
    except (OSError, ValueError):
        return None


def brief(text: str) -> str:
    """A text of the process in a record."""
    return text.encode("utf-8", "backslashreplace").decode("utf-8")[:1000]


def record_of(name: str, crash: Crash, process: Process) -> Record:
    """What the kernel and /proc say."""
    return {
        "id": name, "time": crash.seconds, "pid": crash.process, "tid": crash.thread, "signal": crash.signal, "mode": crash.mode,
        "limit": crash.limit, "user": process.user, "executable": brief(process.executable), "host": brief(os.uname().nodename),
        "pipe_limit": pipe_limit(), "files": 0, "length": 0, "stored": 0, "said": [], STATE: "not yet",
    }


def room_in(folder: int, settings: Settings) -> int:
    """How many bytes of a core may be stored."""
    return min(settings.space * MEGABYTE, free_in(folder) * settings.share // 100)


# ---- the core and the files


def take_core(it: Kept, source: int, settings: Settings, group: int) -> int:
    """Takes the core, and lets go of the process. Returns a descriptor by which it is read: by root and that group."""
    is_kept = settings.keep_core and it.crash.limit > 0
    target = it.entry.file(CORE) if is_kept else unnamed(it.entry.folder)
    told = Taken()
    try:
        told = taken(source, target, room_in(it.entry.folder, settings))
    finally:
        # (the kernel waits for this, and the process is gone behind it)
        let_go(source)
    it.record.update(length=told.length, stored=told.stored)
    if told.end != WHOLE:
        it.said.append(f"the core is cut at {told.length} bytes: {told.end}")
    os.fchown(target, 0, group)
    os.fchmod(target, 0o440)
    core = os.open(f"/proc/self/fd/{target}", os.O_RDONLY | os.O_CLOEXEC)
    os.close(target)
    if is_kept and told.length > it.crash.limit:
        os.unlink(CORE, dir_fd=it.entry.fd)
        it.said.append("the whole core isn't kept: it is longer than the process's limit")
    return core


def let_go(source: int) -> None:
    """Closes the pipe of the core. Its number stays taken, so that no file gets it."""
    null = os.open("/dev/null", os.O_RDWR | os.O_CLOEXEC)
    os.dup2(null, source)
    os.close(null)


# ---- the worker


def worker_ended(pid: int, settings: Settings) -> str:
    """Waits for the worker, and says how it ended, if that wasn't by itself."""
    deadline = time.monotonic() + settings.seconds
    while True:
        done, status = os.waitpid(pid, os.WNOHANG)
        if done:
            break
        if time.monotonic() > deadline:
            kill(pid)
            return f"the worker took longer than {settings.seconds} s"
        time.sleep(0.01)
    if os.WIFSIGNALED(status):
        return f"the worker was ended by signal {os.WTERMSIG(status)}"
    return "" if status == 0 else f"the worker ended with status {os.WEXITSTATUS(status)}"


def kill_group(pid: int) -> None:
    """Ends what the worker started. (Where it has processes of its own the kernel ends them all with it.)"""
    try:
        os.killpg(pid, signal.SIGKILL)
    except (ProcessLookupError, PermissionError):
        pass


def kill(pid: int) -> None:
    """Ends the worker and what it started."""
    kill_group(pid)
    try:
        os.kill(pid, signal.SIGKILL)
    except ProcessLookupError:
        pass
    try:
        os.waitpid(pid, 0)
    except ChildProcessError:
        pass


def run_worker(it: Kept, core: int, found: Found, settings: Settings) -> None:
    """Runs the worker, which leaves its files."""
    # (so that a storm isn't counted by what this imports)
    from pystacks_tool.handler.worker import OUTPUTS, Task, child

    out = {name: it.entry.file(name) for name in OUTPUTS}
    task = Task(it.entry.name, it.crash, core, found, out, brief(os.uname().nodename))
    if settings.namespaces:
        apart(NEW_PROCESSES)
    ids = settings.ids
    pid = os.fork()
    if pid == 0:
        for number in ENDS:
            signal.signal(number, signal.SIG_DFL)
        child(task, settings, ids)
    try:
        ended = worker_ended(pid, settings)
    except BaseException:
        kill(pid)
        raise
    kill_group(pid)
    if ended:
        it.said.append(ended)
    for name, fd in out.items():
        check_output(it, name, fd, settings)
        os.close(fd)


def check_output(it: Kept, name: str, fd: int, settings: Settings) -> None:
    """Removes a file of the worker's that has nothing, or too much."""
    from pystacks_tool.handler.worker import SLIM

    length, most = os.fstat(fd).st_size, settings.report_space * MEGABYTE * (4 if name == SLIM else 1)
    if length > most:
        it.said.append(f"{name} has {length} bytes, and isn't kept")
    if length == 0 or length > most:
        os.unlink(name, dir_fd=it.entry.fd)


def own_line(it: Kept, cause: str) -> bytes:
    """The line of a crash of which the worker left none."""
    from pystacks_tool.groups.keys import cause_key

    name, key, when = it.entry.name, cause_key(cause, it.process.executable), it.crash.when
    tree = {
        "core": name, "host": it.record["host"], "time": f"{when[:4]}-{when[4:6]}-{when[6:11]}:{when[11:13]}:{when[13:]}",
        "signal": it.crash.signal, "signal_name": None, "told": "", "process": brief(it.process.executable), "version": "", "thread": None,
        "frames": [], "stack": [], "cause": cause, "keys": {"crash": key, "stacks": key},
    }
    return json.dumps(tree, sort_keys=True).encode("ascii") + b"\n"


def has_line(it: Kept, name: str) -> bool:
    """Whether the worker left one line, of characters that can be shown. (What it says isn't parsed here.)"""
    try:
        fd = os.open(name, os.O_RDONLY | os.O_NOFOLLOW | os.O_CLOEXEC, dir_fd=it.entry.fd)
    except OSError:
        return False
    with open(fd, "rb") as file:
        return re.fullmatch(rb"\{[\x20-\x7e]*\}\n", file.read(LONGEST_LINE)) is not None


# ---- the whole


def give_to_user(it: Kept, settings: Settings) -> None:
    """Gives the process's user the report, where it could be dumped as that user."""
    if not settings.reports or it.crash.mode != 1 or not it.process.is_of_one_user or it.process.user == 0:
        return
    folder = opened(settings.reports, True)
    try:
        text = os.open("report.txt", os.O_RDONLY | os.O_NOFOLLOW | os.O_CLOEXEC, dir_fd=it.entry.fd)
    except FileNotFoundError:
        return
    flags = os.O_WRONLY | os.O_CREAT | os.O_EXCL | os.O_NOFOLLOW | os.O_CLOEXEC
    with open(text, "rb") as file, open(os.open(f"{it.entry.name}.txt", flags, 0o400, dir_fd=folder), "wb") as target:
        target.write(file.read(settings.report_space * MEGABYTE))
        os.fchown(target.fileno(), it.process.user, -1)


def look_at(it: Kept, source: int, settings: Settings) -> None:
    """Takes the files and the core of a crash, and lets the worker look at them."""
    user, group = settings.ids
    found, said = files_of(it.process, settings.file_seconds)
    it.said += [said] * bool(said)
    it.record["files"] = len(found)
    core = take_core(it, source, settings, group)
    it.record.update({STATE: "taken", "said": it.said})
    it.entry.record(it.record)
    run_worker(it, core, found, settings)
    os.close(core)


def completed(it: Kept, settings: Settings, ended: str) -> None:
    """Writes what is known, whatever came of it, and gives the crash its name."""
    from pystacks_tool.handler.worker import LINE

    if not has_line(it, LINE):
        it.entry.write(LINE, own_line(it, "; ".join(it.said) or "no line was left"))
    it.record.update({STATE: ended, "said": it.said})
    it.entry.record(it.record)
    it.entry.finish()
    give_to_user(it, settings)


def kept(crash: Crash, process: Process, folder: int, name: str, source: int, settings: Settings) -> int:
    """Keeps a crash. What isn't whole in the end is removed."""
    entry = begun(folder, name)
    it = Kept(crash, process, entry, record_of(name, crash, process))
    try:
        entry.record(it.record)
        look_at(it, source, settings)
        completed(it, settings, "by itself")
    except (Fault, OSError, Lacks) as reason:
        let_go(source)
        it.said.append(str(reason))
        try:
            completed(it, settings, "early")
        except OSError:
            entry.remove()
            raise
    except BaseException:
        entry.remove()
        raise
    log(f"{name}: signal {crash.signal} of process {crash.process}" + "".join(f"; {part}" for part in it.said))
    return 0


def name_of(crash: Crash) -> str:
    """The name of a crash, which no other has."""
    return f"{crash.when}-{crash.process}-{os.urandom(2).hex()}"


def handle(words: Sequence[str], settings: Settings, source: int = 0) -> int:
    """Does what the kernel asks for. Returns the status, of which the kernel takes no note."""
    crash = crash_of(words)
    process = process_of(crash)
    folder = opened(settings.folder)
    if crash.limit == 0:
        let_go(source)
        log(f"process {crash.process}: signal {crash.signal}; its limit on cores is 0, and nothing is kept")
        return 0
    name = name_of(crash)
    count = counted(folder, kind_of(process.executable, process.user, crash.signal), name, settings.rate, settings.all_rate)
    if count.is_over:
        let_go(source)
        more = count_more(folder, count.last) if count.last else 0
        log(f"process {crash.process}: signal {crash.signal}; above the rate, counted at {count.last or 'none'} ({more})")
        return 0
    status = kept(crash, process, folder, name, source, settings)
    tidied(folder, settings.keep_space * MEGABYTE, settings.keep_days)
    return status


def open_streams() -> None:
    """Opens the standard streams that aren't: the kernel gives its handler the pipe alone, and no file may have their numbers."""
    fd = os.open("/dev/null", os.O_RDWR)
    while fd <= 2:
        fd = os.open("/dev/null", os.O_RDWR)
    os.close(fd)
    if sys.stderr is None:
        sys.stderr = open(2, "w", encoding="utf-8", errors="backslashreplace", buffering=1, closefd=False)


def run(words: Sequence[str], path: str) -> int:
    """The command by the kernel's words, and the file of settings. Returns the status."""
    open_streams()
    if os.geteuid() != 0:
        say("the kernel starts this as root", "docs/CORES.md says how it is set up", WHO)
        return BAD_WORDS
    os.umask(0o077)
    for number in ENDS:
        signal.signal(number, end)
    try:
        return handle(words, read_settings(path))
    except Fault as fault:
        log(str(fault), fault.then)
        return fault.status
    except Lacks as reason:
        log(f"{reason}, and no core is taken")
        return NO_STACKS
    except OSError as error:
        log(f"nothing is kept: {error.strerror}")
        return CANNOT_WRITE
    except Ended as reason:
        log(f"nothing is kept: {reason}")
        return CANNOT_WRITE
