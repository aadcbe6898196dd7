#!/usr/bin/env python3
"""The kernel's handler, part by part: its words and settings, what it takes from a pipe, storms, the folder, the lists, and its setup."""

import contextlib
import io
import json
import os
import tempfile
import threading
import time
import unittest
from pathlib import Path
from unittest import mock

import rooms  # (first: it makes the other rooms known)
from pystacks_tool.faults import Fault
from pystacks_tool.handler import crash, finder, handle, listing, setup, settings, store, storms, stream
from pystacks_tool.groups.gathered import gathered
from pystacks_tool.groups.lines import line_without_stacks

IS_ROOT = os.geteuid() == 0
PAGE = stream.PAGE
NAME = "20261130T080000Z-77-00ff"


class Case(unittest.TestCase):
    """A folder of root's own."""

    def setUp(self):
        folder = tempfile.TemporaryDirectory(prefix="handler-")
        self.addCleanup(folder.cleanup)
        self.path = Path(os.path.realpath(folder.name))
        self.fd = os.open(self.path, os.O_RDONLY | os.O_DIRECTORY)
        self.addCleanup(os.close, self.fd)

    def crash(self, name, size=0, line=None, **record):
        """A crash that was kept."""
        entry = store.begun(self.fd, name)
        entry.record({"id": name, "signal": 11, "user": 1000, "executable": "/bin/x", **record})
        if line is not None:
            entry.write("line", line)
        if size:
            entry.write("core", b"x" * size)
        entry.finish()
        os.close(entry.fd)
        return self.path / name


class Words(unittest.TestCase):
    """What the kernel hands over."""

    def test_numbers_alone(self):
        """Six numbers are taken, and nothing else."""
        self.assertEqual(crash.crash_of(["7", "8", "1", "11", "1700000000", "0"]), crash.Crash(7, 8, 1, 11, 1700000000, 0))
        for words in (["7"] * 5, ["7"] * 7, ["7", "8", "1", "11", "x", "0"], ["-7", "8", "1", "11", "1", "0"], ["0", "8", "1", "11", "1", "0"],
                      ["7", "8", "1", "11", "1", str(1 << 64)], ["٣", "8", "1", "11", "1", "0"], ["7\n", "8", "1", "11", "1", "0"]):
            self.assertRaises(Fault, crash.crash_of, words)

    def test_status(self):
        """Numbers of /proc/PID/status stand in lines of their own."""
        status = b"Name:\tx\\nUid:\\t0\nUid:\t1\t2\t3\t4\nGroups:\t5 6 \n"
        self.assertEqual(crash.numbers_in(status, b"Uid"), (1, 2, 3, 4))
        self.assertEqual(crash.numbers_in(status, b"Groups"), (5, 6))
        self.assertEqual(crash.numbers_in(status, b"Gid"), ())

    def test_leader_is_gone(self):
        """Where the leader is gone the thread's folder is opened."""
        with mock.patch.object(crash, "read_file", return_value=b"State:\tZ (zombie)\n"):
            folder = crash.folder_of(crash.Crash(os.getpid(), os.getpid(), 1, 6, 1, 1))
        self.assertEqual(os.readlink(f"/proc/self/fd/{folder}"), f"/proc/{os.getpid()}/task/{os.getpid()}")
        os.close(folder)


class OfSettings(Case):
    """Root's file."""

    def test_values(self):
        """Each key has its kind."""
        found = settings.settings_in("# a line\n\n rate = 9\nkeep_core=yes\nfolder = /var/x\n")
        self.assertEqual((found.rate, found.keep_core, found.folder, found.memory), (9, True, "/var/x", settings.Settings().memory))
        for text in ("rate = -1", "rate = 0", "rate = x", "keep_core = 1", "folder = var", "other = 1", "rate", "share = 101"):
            self.assertRaises(Fault, settings.settings_in, text)

    @unittest.skipUnless(IS_ROOT, "it is root's file")
    def test_others_may_not_write(self):
        """A file that others may write, or a link to one, is refused; none is all defaults."""
        path = self.path / "conf"
        self.assertEqual(settings.read_settings(str(path)), settings.Settings())
        path.write_text("rate = 9\n")
        path.chmod(0o644)
        self.assertEqual(settings.read_settings(str(path)).rate, 9)
        path.chmod(0o664)
        self.assertRaises(Fault, settings.read_settings, str(path))
        path.chmod(0o644)
        os.chown(path, 65534, 0)
        self.assertRaises(Fault, settings.read_settings, str(path))
        (self.path / "link").symlink_to(path)
        self.assertRaises(Fault, settings.read_settings, str(self.path / "link"))

    def test_worker_is_not_root(self):
        """Neither root nor a user that isn't there."""
        for user in ("root", "no such user"):
            with self.assertRaises(Fault):
                print(settings.Settings(user=user).ids)


class Maps(unittest.TestCase):
    """What is read of /proc/PID/maps."""

    def test_files(self):
        """Files alone, each once, by the names that the core has."""
        maps = (b"00400000-00401000 r-xp 00000000 fe:01 12 /usr/bin/a b\n7f00-7f01 r--p 0 fe:01 12 /usr/bin/a b\n"
                b"7f01-7f02 rw-p 0 00:00 0 [heap]\n7f02-7f03 rw-p 0 00:00 0 \n7f03-7f04 r--p 0 00:01 5 /box/lib/x\\012y (deleted)\n")
        found = list(finder.mapped_in(maps, b"/"))
        self.assertEqual([it.name for it in found], [b"/usr/bin/a b", b"/box/lib/x\ny (deleted)"])
        self.assertEqual((found[0].device, found[0].inode, finder.shortened(found[0].place)), ((0xFE, 1), 12, b"400000-401000"))
        self.assertEqual([it.name for it in finder.mapped_in(maps, b"/box")], [b"/usr/bin/a b", b"/lib/x\ny (deleted)"])


class Stream(Case):
    """What is taken from a pipe."""

    def taken(self, data, room=1 << 30):
        """What comes of these bytes, and the file."""
        source, sink = os.pipe()

        def feed():
            left = data
            try:
                while left:
                    left = left[os.write(sink, left[:70_001]) :]
            except BrokenPipeError:
                pass
            finally:
                os.close(sink)

        feeder = threading.Thread(target=feed)
        feeder.start()
        target = store.unnamed(self.fd)
        try:
            told = stream.taken(source, target, room)
        finally:
            os.close(source)
            feeder.join()
        with open(target, "rb") as file:
            file.seek(0)
            return told, file.read()

    def test_bytes(self):
        """Each byte stands where it stood, and zero pages take nothing."""
        for data in (b"", b"x", os.urandom(3 * PAGE) + bytes(300 * PAGE) + b"y", bytes(100 * PAGE), os.urandom(70) + bytes(9 * PAGE) + b"z" * 5,
                     bytes(stream.BLOCK) + os.urandom(2 * stream.BLOCK + 17)):
            told, found = self.taken(data)
            self.assertEqual((told.length, told.end, found == data), (len(data), "", True))
            zeros = sum(data[at : at + PAGE] == stream.NO_PAGE for at in range(0, len(data), PAGE))
            self.assertLessEqual(told.stored, len(data) - zeros * PAGE)

    def test_room(self):
        """What has more than there is room for is cut, and what stands before is there."""
        data = os.urandom(40 * stream.BLOCK)
        told, found = self.taken(data, 9 * stream.BLOCK)
        self.assertIn("more than there is room for", told.end)
        self.assertEqual((told.length, told.stored), (9 * stream.BLOCK, 9 * stream.BLOCK))
        self.assertEqual(found, data[: told.length])
        told, _ = self.taken(bytes(100 * stream.BLOCK), 1)
        self.assertEqual((told.length, told.end), (100 * stream.BLOCK, ""))

    def test_stall(self):
        """A pipe that gives nothing isn't waited for."""
        source, sink = os.pipe()
        with mock.patch.object(stream, "STALL", 0.01):
            told = stream.taken(source, store.unnamed(self.fd), 1 << 20)
        os.close(source)
        os.close(sink)
        self.assertIn("no byte came", told.end)


class Storms(Case):
    """How crashes are counted."""

    def count(self, kind, rate=2, all_rate=5):
        """Counts one."""
        return storms.counted(self.fd, kind, NAME, rate, all_rate)

    def test_rates(self):
        """By kind, and all together."""
        self.assertEqual([self.count("a").is_over for _ in range(4)], [False, False, True, True])
        self.assertEqual([self.count("b").is_over for _ in range(3)], [False, False, True])
        self.assertEqual([self.count("c").is_over for _ in range(3)], [False, True, True])
        self.assertEqual(self.count("a").last, NAME)
        with mock.patch.object(time, "time", return_value=time.time() + 3601):
            self.assertFalse(self.count("a").is_over)

    def test_damaged(self):
        """A file that can't be read counts nothing, and one of a time to come neither."""
        for text in (b"{", b"[]", b'{"a": [1]}', b'{"a": ["x", 1, ""]}', b"[" * 100_000, json.dumps({"a": [time.time() + 9999, 99, ""]}).encode()):
            (self.path / storms.NAME).write_bytes(text)
            self.assertFalse(self.count("a").is_over)

    def test_many_kinds(self):
        """More kinds than are counted apart count as one."""
        with mock.patch.object(storms, "MOST", 3):
            # (those of two kinds and of all have a place; of the third kind on each counts at that of all, which has three by then)
            self.assertEqual([self.count(f"{it}", 4, 9).is_over for it in range(6)], [False, False, False, False, True, True])

    def test_kind(self):
        """Executable, user and signal, none of which can look like another."""
        kinds = {storms.kind_of(*it) for it in (("a", 1, 2), ("a", 12, 2), ("a', 1", 2, 2), ("a", 1, 3), ("\udc80", 1, 2))}
        self.assertEqual(len(kinds), 5)


class Folder(Case):
    """What is kept, and removed."""

    def test_names(self):
        """A crash has its name once it is whole; one that nobody keeps goes."""
        entry = store.begun(self.fd, NAME)
        self.assertEqual(store.names_in(self.fd), [])
        with mock.patch.object(store, "LEFT", -1):
            store.tidied(self.fd, 1 << 30, 30000)
            self.assertTrue((self.path / f".new-{NAME}").is_dir())
            os.close(entry.fd)
            store.tidied(self.fd, 1 << 30, 30000)
        self.assertFalse((self.path / f".new-{NAME}").exists())

    def test_age_and_space(self):
        """What is too old goes, then the oldest cores, then the oldest crashes; the newest stays."""
        old, one, two, three = (self.crash(f"{it}T080000Z-1-0000", 100_000) for it in ("20010101", "20261101", "20261102", "20261103"))
        with mock.patch.object(time, "time", return_value=store.time_in("20261104T080000Z")):
            self.assertEqual(store.tidied(self.fd, 260_000, 30), [old.name])
            self.assertEqual([(it / "core").exists() for it in (one, two, three)], [False, True, True])
            self.assertEqual(store.tidied(self.fd, 1, 30), [one.name, two.name])
            self.assertTrue((three / "core").exists())

    def test_links_are_not_followed(self):
        """A link in the folder is no crash."""
        (self.path / "elsewhere").mkdir()
        (self.path / "elsewhere/file").write_text("x")
        (self.path / NAME).symlink_to("elsewhere")
        store.tidied(self.fd, 1, 1)
        self.assertTrue((self.path / "elsewhere/file").exists())
        self.assertEqual(store.count_more(self.fd, NAME), 0)

    def test_more(self):
        """More crashes are counted at one that is there, or that is being looked at."""
        entry = store.begun(self.fd, NAME)
        self.assertEqual([store.count_more(self.fd, NAME) for _ in range(3)], [1, 2, 3])
        entry.finish()
        self.assertEqual(store.count_more(self.fd, NAME), 4)
        os.close(entry.fd)

    @unittest.skipUnless(IS_ROOT, "it is root's folder")
    def test_opened(self):
        """The folder is root's alone, and no part of its path a link."""
        folder = self.path / "a/b"
        folder.mkdir(parents=True, mode=0o700)
        folder.chmod(0o700)
        os.close(store.opened(str(folder)))
        (self.path / "link").symlink_to("a")
        self.assertRaises(Fault, store.opened, str(self.path / "link/b"))
        for mode, is_for_all in ((0o711, False), (0o701, False), (0o775, True)):
            folder.chmod(mode)
            self.assertRaises(Fault, store.opened, str(folder), is_for_all)
        folder.chmod(0o700)
        os.chown(folder, 65534, 0)
        self.assertRaises(Fault, store.opened, str(folder))


class Lists(Case):
    """What is shown of what was kept."""

    def line(self, **more):
        """A line, as the parent writes one."""
        base = {"core": NAME, "host": None, "time": None, "told": "", "version": "", "thread": None, "frames": [], "stack": []}
        return json.dumps({**line_without_stacks(base, 11, "python3 a.py", "why"), **more}).encode()

    def test_lines(self):
        """A line for each, with what was counted; nothing that was kept forges another."""
        path = self.crash(NAME, line=self.line(frames=["f (a.py:1)\n\x1b[31mx"]), pipe_limit=4, executable="/bin/x\ny")
        store.count_more(self.fd, NAME)
        self.crash("20261130T080001Z-78-0000", line=b"[" * 100_000, pipe_limit=4)
        found = listing.list_lines(str(self.path))
        self.assertEqual(found[0], f"{NAME}, SIGSEGV, user 1000, /bin/x\\u{{a}}y, f (a.py:1)\\u{{a}}\\u{{1b}}[31mx, and 1 more that weren't looked at")
        self.assertEqual(found[1], "20261130T080001Z-78-0000, SIGSEGV, user 1000, /bin/x, ?")
        self.assertEqual(found[2], "lost above 4: the kernel skips dumps above so many at once (kernel.core_pipe_limit)")
        kept = list(listing.kept_lines(str(self.path)))
        self.assertEqual([(it["core"], it["more"]) for it in kept], [(str(path), 1)])
        self.assertEqual(gathered(kept, "crash")[0].count, 2)

    def test_report(self):
        """A report is shown with what could turn a terminal escaped; where there is none what was said is."""
        path = self.crash(NAME, said=["the worker took longer than 9 s"], time=0, host="h")
        (path / "said").write_text("dump_core: why\n")
        lines, status = listing.show_lines(str(path))
        self.assertEqual((status, lines[1], lines[-1]), (1, "the worker took longer than 9 s", "dump_core: why"))
        (path / "report.txt").write_bytes(b"Thread 1\n    f\x1b[2J\xff\n")
        lines, status = listing.show_lines(str(path))
        self.assertEqual((status, lines[-1]), (0, "    f\\u{1b}[2J\\xff"))
        self.assertRaises(Fault, listing.show_lines, str(self.path / "other"))

    def test_worker_has_one_line(self):
        """What the worker wrote is a line where it is one of characters that can be shown."""
        entry = store.begun(self.fd, NAME)
        it = mock.Mock(entry=entry)
        for text, is_line in ((b'{"a": 1}\n', True), (b'{"a": 1}', False), (b'{"a": 1}\n{}\n', False), (b'{"\x1b": 1}\n', False), (b"", False),
                              (b"{" + b" " * 70_000 + b"}\n", False)):
            (self.path / f".new-{NAME}/line").write_bytes(text)
            self.assertEqual(handle.has_line(it, "line"), is_line, text[:20])
        os.unlink(self.path / f".new-{NAME}/line")
        os.symlink("/etc/passwd", self.path / f".new-{NAME}/line")
        self.assertFalse(handle.has_line(it, "line"))
        os.close(entry.fd)


class Setup(Case):
    """How the handler is set up, in a folder that stands for the root."""

    def setUp(self):
        super().setUp()
        kernel = self.path / setup.KERNEL
        kernel.mkdir(parents=True)
        self.pattern, self.limit = kernel / "core_pattern", kernel / "core_pipe_limit"
        self.pattern.write_text("|/usr/lib/systemd/systemd-coredump %P %u\n")
        self.limit.write_text("16\n")

    def said(self, call, *words):
        """The lines that a call says."""
        with contextlib.redirect_stderr(io.StringIO()) as out:
            self.assertEqual(call(*words), 0)
        return out.getvalue()

    @mock.patch.object(setup, "check_kernel", lambda: None)
    @mock.patch.object(setup, "check_door", lambda door: None)
    def test_there_and_back(self):
        """What took cores is said, and put back; what was kept stays."""
        door = Path("/opt/pystacks/bin/pystacks-core-handle")
        self.assertIn("cores are taken by systemd-coredump, by the pattern |/usr/lib", self.said(setup.install, str(self.path), door))
        self.assertEqual(self.pattern.read_text(), f"|{door} %P %I %d %s %t %c\n")
        self.assertEqual(self.limit.read_text(), "8\n")
        self.assertIn(f"kernel.core_pattern = |{door} %P", (self.path / "etc/sysctl.d/60-pystacks.conf").read_text())
        self.assertEqual((self.path / "var/lib/pystacks/cores").stat().st_mode & 0o777, 0o700)
        # (once more: what took them before stays known)
        self.assertIn("cores are taken by pystacks, by the pattern", self.said(setup.install, str(self.path), door))
        (self.path / "etc/pystacks/handler.conf").write_text("rate = 9\n")
        self.assertIn("cores are taken by systemd-coredump", self.said(setup.removed, str(self.path), door))
        self.assertEqual((self.pattern.read_text(), self.limit.read_text()), ("|/usr/lib/systemd/systemd-coredump %P %u\n", "16\n"))
        self.assertEqual([it for it in setup.OWN if (self.path / it).exists()], [])
        self.assertTrue((self.path / "etc/pystacks/handler.conf").exists() and (self.path / "var/lib/pystacks/cores").exists())

    @mock.patch.object(setup, "check_kernel", lambda: None)
    @mock.patch.object(setup, "check_door", lambda door: None)
    def test_another_took_over(self):
        """Where another program took cores since, its pattern stays."""
        self.pattern.write_text("|/usr/share/apport/apport %p\n")
        self.assertIn("apport sets its pattern at each start", self.said(setup.install, str(self.path), Path("/opt/x")))
        self.pattern.write_text("/var/core.%p\n")
        self.assertIn("cores are taken by files of the name /var/core.%p", self.said(setup.removed, str(self.path), Path("/opt/x")))

    def test_refused(self):
        """A kernel that is too old; a program that isn't root's alone; a path that the pattern can't have."""
        with mock.patch.object(setup, "release", return_value=[5, 2]):
            self.assertRaises(Fault, setup.check_kernel)
        self.assertRaises(Fault, setup.check_door, self.path / "none")
        (self.path / "door").write_text("")
        self.assertRaises(Fault, setup.check_door, self.path / "door")
        with mock.patch.object(os, "lstat", return_value=mock.Mock(st_uid=0, st_mode=0o100755)):
            setup.check_door(self.path / "door")
            for name in ("a door", "do%or", "d" * 120):
                (self.path / name).write_text("")
                self.assertRaises(Fault, setup.check_door, self.path / name)


if __name__ == "__main__":
    unittest.main()
