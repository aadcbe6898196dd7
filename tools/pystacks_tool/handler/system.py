"""Calls of the system that Python has no names for."""

import ctypes
import errno
import os

LIBC = ctypes.CDLL(None, use_errno=True)

OPENAT2 = 437
"""The number of openat2, the same on all machines (Linux 5.6)."""

NO_MAGIC_LINKS, NO_LINKS, IN_ROOT = 0x02, 0x04, 0x10
"""How a path is resolved: RESOLVE_NO_MAGICLINKS, RESOLVE_NO_SYMLINKS, RESOLVE_IN_ROOT (linux/openat2.h)."""

NEW_FILES, NEW_IPC, NEW_PROCESSES, NEW_NETWORK = 0x20000, 0x8000000, 0x20000000, 0x40000000
"""Namespaces: CLONE_NEWNS, CLONE_NEWIPC, CLONE_NEWPID, CLONE_NEWNET (linux/sched.h)."""

PRIVATE, RECURSIVE, PLAIN = 1 << 18, 1 << 14, 2 | 4 | 8
"""How a mount is made: MS_PRIVATE, MS_REC, and MS_NOSUID with MS_NODEV and MS_NOEXEC (linux/mount.h)."""

SET_DUMPABLE, DROP_BOUNDING, NO_NEW_PRIVILEGES, CLEAR_AMBIENT = 4, 24, 38, (47, 4)
"""What prctl sets (linux/prctl.h)."""

CAPABILITIES = 0x20080522
"""The version of a set of capabilities: _LINUX_CAPABILITY_VERSION_3."""


class How(ctypes.Structure):
    """struct open_how."""

    _fields_ = [("flags", ctypes.c_uint64), ("mode", ctypes.c_uint64), ("resolve", ctypes.c_uint64)]


class Lacks(Exception):
    """What this kernel lacks."""


def checked(result: int, what: str) -> int:
    """The result of a call. One that fails is an OSError."""
    if result < 0:
        number = ctypes.get_errno()
        if number == errno.ENOSYS:
            raise Lacks(f"this kernel has no {what}")
        raise OSError(number, os.strerror(number), what)
    return int(result)


def open_by(folder: int, path: bytes, flags: int, resolve: int) -> int:
    """Opens a path below a folder, resolved so."""
    how = How(flags | os.O_CLOEXEC, 0, resolve)
    return checked(LIBC.syscall(OPENAT2, folder, ctypes.c_char_p(path), ctypes.byref(how), ctypes.c_size_t(ctypes.sizeof(how))), "openat2")


def open_folder(path: str) -> int:
    """Opens a folder, by a path in which no part is a link."""
    root = os.open("/", os.O_PATH | os.O_DIRECTORY | os.O_CLOEXEC)
    try:
        return open_by(root, os.fsencode(path), os.O_RDONLY | os.O_DIRECTORY, NO_LINKS)
    finally:
        os.close(root)


def look_as(user: int, group: int) -> None:
    """Lets files be looked up and opened with the rights of this user and group."""
    for call, number in ((LIBC.setfsgid, group), (LIBC.setfsuid, user)):
        call(number)
        if call(-1) != number:
            raise OSError(errno.EPERM, os.strerror(errno.EPERM))


def apart(kinds: int) -> None:
    """Moves this process, or of processes those that it makes, into namespaces of their own."""
    checked(LIBC.unshare(kinds), "unshare")


def mount_own_processes() -> None:
    """Shows in /proc the processes of this namespace alone, to this namespace of files alone."""
    checked(LIBC.mount(b"none", b"/", None, PRIVATE | RECURSIVE, None), "mount")
    checked(LIBC.mount(b"proc", b"/proc", b"proc", PLAIN, None), "mount")


def set_for_process(what: int, value: int = 0) -> None:
    """Sets what a process has (prctl)."""
    checked(LIBC.prctl(what, ctypes.c_ulong(value), ctypes.c_ulong(0), ctypes.c_ulong(0), ctypes.c_ulong(0)), "prctl")


def drop_bounding() -> None:
    """Drops every capability that a program could be given."""
    for number in range(64):
        try:
            set_for_process(DROP_BOUNDING, number)
        except OSError as error:
            if error.errno == errno.EINVAL:
                return
            raise


def drop_capabilities() -> None:
    """Drops every capability."""
    head, none = (ctypes.c_uint32 * 2)(CAPABILITIES, 0), (ctypes.c_uint32 * 6)()
    checked(LIBC.capset(head, none), "capset")
