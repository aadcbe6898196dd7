#!/usr/bin/env python3
"""The tool's text of a report: heads, marks, ends, overviews, equal stacks, escapes, floats and source lines."""

import os
import tempfile
import unittest
from pathlib import Path

import rooms  # (first: it makes the other rooms known)

from pystacks_tool.model import Frame, Interpreter, Local, Report, Thread, arranged
from pystacks_tool.show.escape import as_name, in_line, signal_name, with_decimals
from pystacks_tool.show.sources import Sources
from pystacks_tool.show.text import LINES, Style, report_lines, stack_lines
from pystacks_tool.show.widths import width_of

HEAD = "Signal 11 (SIGSEGV): core\nProcess 7: python3 a.py\nPython v3.11.7\n"

F, MAIN = Frame("f", "a.py", 5), Frame("<module>", "a.py", 9)


def text(*interpreters, style=Style(), **more):
    """The text of some interpreters."""
    report = Report(interpreters, "3.11.7", **{"signal": 11, "process": (7, "python3 a.py"), "core": "core", **more})
    return "".join(f"{line}\n" for line in report_lines(report, style))


def threads(*its, **more):
    """An interpreter with threads."""
    return Interpreter(its, **more)


class Heads(unittest.TestCase):
    """What stands before the threads."""

    def test_parts(self):
        self.assertEqual(text(threads()), HEAD + "\n")
        self.assertEqual(text(threads(), signal=None, process=None), "Python v3.11.7\n\n")
        self.assertTrue(text(threads(), signal=0).startswith("No signal, as a core has that `gcore` took of a living process: core\n"))
        odd = text(threads(), core="a\nThread 1", process=(7, "x\x1b[2J \"y\""))
        self.assertTrue(odd.startswith("Signal 11 (SIGSEGV): a\\u{a}Thread 1\nProcess 7: x\\u{1b}[2J \"y\"\n"), odd)

    def test_signals(self):
        names = {1: "SIGHUP", 6: "SIGABRT", 7: "SIGBUS", 9: "SIGKILL", 11: "SIGSEGV", 15: "SIGTERM", 17: "SIGCHLD", 31: "SIGSYS",
                 34: "SIGRTMIN", 64: "SIGRTMIN+30", 0: None, 32: None, 65: None, -1: None}
        self.assertEqual({number: signal_name(number) for number in names}, names)

    def test_nobody_crashed(self):
        line = "No Python thread got the signal: another thread of the process did, or its record is lost\n"
        self.assertEqual(text(threads(Thread(1, (F,))), is_salvaged=True), HEAD + line + "\nThread 0x1\n    f (a.py:5)\n")
        for more in ({"is_salvaged": False}, {"is_salvaged": True, "signal": 0}, {"is_salvaged": True, "signal": None}):
            self.assertNotIn(line, text(threads(Thread(1, (F,))), **more))
        self.assertNotIn("got the signal", text(threads(Thread(1, (F,), is_crashed=True)), is_salvaged=True))

    def test_several_crashed(self):
        # (where interpreters share an id, each of their threads has the mark)
        both = Thread(1, (F,), is_crashed=True)
        line = "One of 2 threads got the signal: in other interpreters a thread keeps the id of the one that made it\n"
        self.assertTrue(text(threads(both, both), is_salvaged=True).startswith(HEAD + line + "\n"))
        self.assertNotIn(line, text(threads(both, both)))


class Stacks(unittest.TestCase):
    """Threads and frames."""

    def test_marks(self):
        one = Thread(0x7F00, (F, MAIN), 13, "Main\"Thread\n", True, True)
        wanted = "Thread 13 (gil) (crashed): \"Main\\u{22}Thread\\u{a}\"\n    f (a.py:5)\n    <module> (a.py:9)\n"
        self.assertEqual(text(threads(one)), f"{HEAD}\n{wanted}")

    def test_ends(self):
        one = Thread(0xAB, (F, Frame(why="unreadable at 0x10, 48 bytes"), MAIN), first=2, between=18324, end="unreadable at 0x20008, 8 bytes")
        wanted = (
            "Thread 0xAB\n    f (a.py:5)\n    ? unreadable at 0x10, 48 bytes\n    ... 18324 more frames\n    <module> (a.py:9)\n"
            "    ... unreadable at 0x20008, 8 bytes\n")
        self.assertEqual(text(threads(one)), HEAD + "\n" + wanted)

    def test_interpreters(self):
        two = [threads(Thread(1, (F,)), address=0x10000, lock="lock unreadable at 0x8, 8 bytes"),
               threads(Thread(2, ()), address=0x20000, is_searched=True, end="more than 4096 threads")]
        wanted = (
            "Interpreter 0x10000\n... lock unreadable at 0x8, 8 bytes\nThread 0x1\n    f (a.py:5)\n"
            "Interpreter 0x20000 (found by search)\n... more than 4096 threads\n1 thread without frames: 0x2\n... more than 16 interpreters\n")
        self.assertEqual(text(*two, has_more=True), HEAD + "\n" + wanted)
        self.assertNotIn("Interpreter", text(two[0]))

    def test_locals(self):
        rows = (Local("n", "3", True), Local("x", "float 0x3ff8000000000000"), Local("hid\nden", None), Local("s", "\"a\x07\""))
        frame = Frame("f", "a.py", 0, rows, "locals unreadable at 0x8, 8 bytes")
        wanted = (
            "    f (a.py)\n        Arguments:\n            n: 3\n        Locals:\n            x: 1.5 (float 0x3ff8000000000000)\n"
            "            hid\\u{a}den: ?\n            s: \"a\\u{7}\"\n        ... locals unreadable at 0x8, 8 bytes\n")
        self.assertEqual(text(threads(Thread(1, (frame,)))), HEAD + "\nThread 0x1\n" + wanted)

    def test_a_name_forges_no_line(self):
        frame = Frame("f\nThread 0x2 (crashed)", "a\\u{a}\u2028.py", 1)
        wanted = "    f\\u{a}Thread 0x2 (crashed) (a\\u{5c}u{a}\\u{2028}.py:1)\n"
        self.assertEqual(text(threads(Thread(1, (frame,)))), HEAD + "\nThread 0x1\n" + wanted)

    def test_a_name_forges_no_mark(self):
        why = "unreadable at 0x70000000, 72 bytes"
        for odd in (Frame("?", why), Frame(f"? {why}", ""), Frame("... 7 more frames"), Frame("... " + why, "a)\n")):
            lines = list(stack_lines(Thread(1, (odd,)), Style()))
            self.assertEqual([it.endswith(")") for it in lines], [True], odd)
        marks = list(stack_lines(Thread(1, (Frame(why=why), MAIN), first=1, between=7, end=why), Style()))
        self.assertEqual(marks, [f"    ? {why}", "    ... 7 more frames", "    <module> (a.py:9)", f"    ... {why}"])

    def test_colours(self):
        one = Thread(1, (F,), None, None, True, True)
        shown = text(threads(one), style=Style(has_colours=True))
        self.assertIn("Thread 0x1 \x1b[33m(gil)\x1b[0m \x1b[1;31m(crashed)\x1b[0m\n    \x1b[1mf\x1b[0m (a.py:5)\n", shown)
        self.assertNotIn("\x1b", text(threads(one)))


class Many(unittest.TestCase):
    """More than eight threads."""

    def pool(self, count):
        """Threads of one stack, and two others, one of which holds the lock."""
        equal = [Thread(number, (F, MAIN), name=f"pool-{number}") for number in range(count)]
        return [Thread(0x100, (F, MAIN), 4, "Main", True), *equal, Thread(0x200, (MAIN,))]

    def test_few(self):
        self.assertEqual(text(threads(*self.pool(6))).count("Thread "), 8)
        self.assertNotIn("threads", text(threads(*self.pool(6))))

    def test_overview(self):
        shown = text(threads(*self.pool(7)))
        overview = ["9 threads", '    4 "Main" (gil): f (a.py:5)', "    7 of 9: f (a.py:5)", "    0x200: <module> (a.py:9)", ""]
        stacks = ["Thread 4 (gil): \"Main\"", "    f (a.py:5)", "    <module> (a.py:9)", "7 threads: pool-0, pool-1 and 5 more",
                  "    f (a.py:5)", "    <module> (a.py:9)", "Thread 0x200", "    <module> (a.py:9)"]
        self.assertEqual(shown.splitlines(), (HEAD + "\n").splitlines() + overview + stacks)

    def test_all(self):
        shown = text(threads(*self.pool(7)), style=Style(shows_all=True))
        self.assertEqual((shown.count("\nThread "), shown.count("7 threads")), (9, 0))

    def test_what_is_equal(self):
        # (a thread is like another by functions, files, lines and ends)
        base = [Thread(number, (F,)) for number in range(8)]
        for other, count in (
            (Thread(9, (F,)), 9), (Thread(9, (Frame("f", "a.py", 6),)), 8), (Thread(9, (Frame("g", "a.py", 5),)), 8),
            (Thread(9, (Frame("f", "b.py", 5),)), 8), (Thread(9, (F,), end="cut after 3 members"), 8), (Thread(9, (F,), is_crashed=True), 8),
            (Thread(9, (F,), is_holder=True), 8), (Thread(9, (F,), first=1, between=2), 8), (Thread(9, (F, MAIN)), 8),
            (Thread(9, (Frame("f", "a.py", 5, (Local("x", "1"),)),)), 9), (Thread(9, (F,), 7, "named", first=1), 9),
        ):
            self.assertIn(f"\n{count} threads: 0x0, 0x1 and {count - 2} more\n", text(threads(*base, other)), other)

    def test_two(self):
        rest = [Thread(number, (Frame(f"f{number}"),)) for number in range(10, 17)]
        self.assertIn("\n2 threads: 0x1, 0x2\n    f (a.py:5)\n", text(threads(Thread(1, (F,)), Thread(2, (F,)), *rest)))

    def test_empty(self):
        shown = text(threads(*[Thread(number, ()) for number in range(8)], Thread(9, (), end="cut after 3 members")))
        self.assertIn("    8 of 9: no frames\n    0x9: ... cut after 3 members\n\n", shown)
        self.assertTrue(shown.endswith("Thread 0x9\n    ... cut after 3 members\n8 threads without frames: 0x0, 0x1 and 6 more\n"), shown)

    def test_crashed_first(self):
        # (its stack stands before the table of the others)
        crashed = Thread(0x300, (MAIN,), 7, "Main", is_crashed=True)
        shown = text(threads(crashed, *self.pool(7))).splitlines()[4:]
        self.assertEqual(shown[:5], ['Thread 7 (crashed): "Main"', "    <module> (a.py:9)", "", "9 other threads", '    4 "Main" (gil): f (a.py:5)'])
        self.assertEqual(sum("(crashed)" in it for it in shown), 1)
        other = threads(Thread(5, (F,)), address=0x20000)
        shown = text(threads(crashed, *self.pool(7), address=0x10000, lock="lock unreadable at 0x8, 8 bytes"), other).splitlines()[4:]
        self.assertEqual(shown[:3], ["Interpreter 0x10000", "... lock unreadable at 0x8, 8 bytes", 'Thread 7 (crashed): "Main"'])
        self.assertEqual([it for it in shown if "nterpreter" in it or "lock" in it], [*shown[:2], "Interpreter 0x10000", "Interpreter 0x20000"])

    def test_short(self):
        # (a service of 2000 threads: all but the first stack has at most 40 lines, and what is left out is counted)
        deep = [Frame(f"f{at}", "a.py", at + 1) for at in range(30)]
        for kinds, depth in ((1, 3), (7, 30), (300, 30), (2000, 9)):
            pool = [Thread(at, (Frame(f"wait_{at % kinds}", "b.py", 5), *deep[:depth])) for at in range(1999)]
            one = threads(Thread(0x7F00, tuple(deep), is_crashed=True), *pool)
            report = Report((one,), "3.11.7", 11, (7, "python3 a.py"), is_salvaged=True, core="core", signal_told="SIGSEGV at 0x10")
            shown = list(report_lines(report, Style()))
            self.assertLessEqual(len(shown) - 31, LINES, kinds)
            rows = [int(it.split()[0]) if " of 2000: " in it else 1 for it in shown[shown.index("1999 other threads") + 1 :] if it.startswith("    ")
                    and it.endswith(")") and ": wait_" in it]
            more = [int(it.split()[1]) for it in shown if "other places" in it]
            self.assertEqual(sum(rows) + sum(more), 1999)
            stacks = [int(it.split()[0]) for it in shown if " threads: " in it and it[0].isdecimal()] + [1 for it in shown if it.startswith("Thread 0x") and "(crashed)" not in it]
            left = [int(it.split(" of ")[1].split()[0]) for it in shown if it.startswith("... ") and " more stack" in it]
            self.assertEqual(sum(stacks) + sum(left), 1999, shown)
            self.assertEqual("\n".join(shown).count("more frames") > 0, depth > 7)
            for style, count in ((Style(shows_stacks=True), kinds), (Style(shows_all=True), 1999)):
                whole = list(report_lines(report, style))
                self.assertEqual(sum(it.startswith(("Thread 0x", "1999 threads: ")) or " threads: " in it for it in whole) - 1, min(count, 1999))
                self.assertNotIn("more frames", "\n".join(whole))

    def test_values_said_once(self):
        rows = lambda at: (Local("self", f"<Thread at {at}>", True), Local("n", "3"), *([Local("x", str(at % 2))] if at < 3 else []), *([Local("y", "7")] if at == 1 else []))
        pool = [Thread(at, (Frame("run", "a.py", 5, rows(at)), MAIN)) for at in range(190)]
        shown = text(threads(*pool), style=Style(shows_stacks=True))
        self.assertTrue(shown.endswith(
            "190 threads: 0x0, 0x1 and 188 more\n    run (a.py:5)\n        Arguments:\n            self: 190 values\n        Locals:\n"
            "            n: 3\n            x: 2 values in 3 of 190 threads\n            y: 1 value in 1 of 190 threads: 7\n    <module> (a.py:9)\n"), shown)


class Recursions(unittest.TestCase):
    """Runs of one frame, of pairs and of triples."""

    def stack(self, *frames, style=Style(), **more):
        """The lines of a stack of these frames."""
        return [it.strip() for it in stack_lines(Thread(1, tuple(Frame(name, "a.py", line) for name, line in frames), **more), style)]

    def test_folded(self):
        one, two, three = ("d", 9), ("b", 10), ("c", 0)
        for unit, line in (([one], "... d: 450 times (line 9)"), ([one, two], "... d, b: 450 times (lines 9, 10)"),
                           ([one, two, three], "... d, b, c: 450 times (lines 9, 10, ?)"), ([three], "... c: 450 times")):
            lines = self.stack(("x", 1), *unit * 451, ("z", 2))
            shown = [f"{name} (a.py{f':{number}' if number else ''})" for name, number in unit]
            self.assertEqual(lines, ["x (a.py:1)", *shown, line, "z (a.py:2)"])
            for style in (Style(shows_frames=True), Style(shows_all=True)):
                self.assertEqual(len(self.stack(("x", 1), *unit * 451, ("z", 2), style=style)), 2 + 451 * len(unit))

    def test_not_folded(self):
        for frames in ([("d", 9)] * 3, [("d", 9), ("d", 10)] * 3, [("d", at) for at in range(1, 9)], [("a", 1), ("b", 1), ("c", 1), ("d", 1)] * 5):
            self.assertEqual(len(self.stack(*frames)), len(frames))
        self.assertEqual(len(list(stack_lines(Thread(1, (Frame(why="a name that is no text"),) * 9), Style()))), 9)

    def test_gap(self):
        # (what isn't shown stands between two runs)
        lines = self.stack(*[("d", 10)] * 200, ("z", 2), first=100, between=19804)
        self.assertEqual(lines, ["d (a.py:10)", "... d: 99 times (line 10)", "... 19804 more frames", "d (a.py:10)", "... d: 99 times (line 10)", "z (a.py:2)"])

    def test_locals(self):
        frames = tuple(Frame("d", "a.py", 10, (Local("n", str(at // 3)), Local("m", "1"))) for at in range(9))
        lines = list(stack_lines(Thread(1, frames), Style()))
        self.assertEqual(lines[-1], "    ... d: 8 times (line 10), 12 locals left out")

    def test_forged(self):
        odd = Frame("... d: 4 times", "line 10", 0)
        self.assertEqual(list(stack_lines(Thread(1, (odd,)), Style())), ["    \\u{2e}.. d: 4 times (line 10)"])


class Order(unittest.TestCase):
    """Interpreters and threads without frames."""

    def test_idle_interpreters(self):
        # (up to 3.12 the record of an idle sub-interpreter keeps the id of the thread that made it, and so its marks)
        idle = [threads(Thread(1, (), is_holder=True, is_crashed=True), address=at * 0x10000, is_searched=at == 2) for at in (2, 3, 4)]
        main = threads(Thread(2, (), is_holder=False), Thread(1, (F, MAIN), is_holder=True, is_crashed=True), Thread(3, ()), address=0x10000)
        report = arranged(Report((*idle, main), "3.12.1", 11, is_salvaged=True, core="core"))
        self.assertEqual(list(report_lines(report, Style()))[3:], [
            "Interpreter 0x10000", "Thread 0x1 (gil) (crashed)", "    f (a.py:5)", "    <module> (a.py:9)", "2 threads without frames: 0x2, 0x3",
            "Interpreter 0x20000 (found by search): 1 thread without frames: 0x1", "Interpreter 0x30000: 1 thread without frames: 0x1",
            "Interpreter 0x40000: 1 thread without frames: 0x1"])
        self.assertEqual(list(report_lines(report, Style(shows_all=True)))[7:], [
            "Thread 0x2", "Thread 0x3", "Interpreter 0x20000 (found by search)", "Thread 0x1", "Interpreter 0x30000", "Thread 0x1",
            "Interpreter 0x40000", "Thread 0x1"])

    def test_marks_stay(self):
        # (where no thread with frames has the mark it is all that is known)
        report = arranged(Report((threads(Thread(1, (), is_crashed=True), Thread(2, (F,))),), "3.12.1", 11, is_salvaged=True, core="core"))
        self.assertEqual(list(report_lines(report, Style()))[3:], ["Thread 0x1 (crashed)", "Thread 0x2", "    f (a.py:5)"])
        broken = threads(Thread(1, (), end="unreadable at 0x8, 8 bytes"), Thread(2, (F,)))
        self.assertEqual([it.number for it in arranged(Report((broken,), "3.12.1")).threads], [1, 2])


class Widths(unittest.TestCase):
    """Paths on a terminal."""

    def test_shortened(self):
        path = "/root/.pyenv/versions/3.11.7/lib/python3.11/site-packages/application/views.py"
        deep = Thread(1, (Frame("handle", path, 327), Frame("f", "a.py", 1), Frame("g", "x" * 90, 1), Frame("é" * 30, "/日本/" + "語" * 40 + "/a.py", 1)))
        lines = list(stack_lines(deep, Style(width=60)))
        self.assertEqual([lines[0], lines[1]], ["    handle (/root/.pyenv/v...kages/application/views.py:327)", "    f (a.py:1)"])
        self.assertEqual((len(lines[0]), width_of(lines[3]) <= 60, lines[3].endswith("/a.py:1)")), (60, True, True), lines)
        self.assertIn("x" * 90, lines[2])
        self.assertEqual(list(stack_lines(deep, Style()))[0], f"    handle ({path}:327)")
        for width in range(20, 120):
            line = next(iter(stack_lines(deep, Style(width=width))))
            self.assertTrue(line.endswith("/views.py:327)") and (len(line) <= width or width < 40), line)
        many = [Thread(at, (Frame("handle", path, 327),), name="w" * at) for at in range(9)]
        self.assertLessEqual(max(map(len, text(threads(*many), style=Style(width=70)).splitlines()[4:])), 70)

class Values(unittest.TestCase):
    """Texts and numbers within a line."""

    def test_floats(self):
        one = "1.5 (float 0x3ff8000000000000)"
        for value, wanted in (
            ("float 0x3ff8000000000000", one), ("[float 0x3ff8000000000000, 2]", f"[{one}, 2]"), ("float 0x3fc00000", "1.5 (float 0x3fc00000)"),
            ('{"k": float 0x3ff8000000000000, 2: (float 0x3ff8000000000000)}', f'{{"k": {one}, 2: ({one})}}'),
            ("float 0x7ff8000000000000", "nan (float 0x7ff8000000000000)"), ("float 0xfff0000000000000", "-inf (float 0xfff0000000000000)"),
            ("float 0x3fb999999999999a", "0.1 (float 0x3fb999999999999a)"), ("float 0x8000000000000000", "-0.0 (float 0x8000000000000000)"),
            ('"float 0x3ff8000000000000"', '"float 0x3ff8000000000000"'), ("float 0x3ff80", "float 0x3ff80"), ("float 0x3ff8000000000000...", "float 0x3ff8000000000000..."),
            ('"he said "float 0x3ff8000000000000""', '"he said "float 0x3ff8000000000000""'), ("<afloat 0x3ff8000000000000>", "<afloat 0x3ff8000000000000>"),
        ):
            self.assertEqual(with_decimals(value), wanted)

    def test_escapes(self):
        self.assertEqual(in_line("a\"\\\n\x7f\x9f\u2029\ud800é"), "a\"\\\\u{a}\\u{7f}\\u{9f}\\u{2029}\\u{d800}é")
        self.assertEqual(as_name("a\"\\"), "a\\u{22}\\u{5c}")


class Lines(unittest.TestCase):
    """Source lines."""

    def setUp(self):
        folder = tempfile.TemporaryDirectory(prefix="sources-")
        self.addCleanup(folder.cleanup)
        self.folder = Path(os.path.realpath(folder.name))

    def put(self, name, lines):
        """Writes a file, and returns its path."""
        path = self.folder / name
        path.parent.mkdir(parents=True, exist_ok=True)
        path.write_text(lines, encoding="utf-8")
        return str(path)

    def test_named(self):
        path = self.put("srv/a.py", "one\n\n    x = 'ü'\t\n" + "y" * 300)
        sources = Sources()
        self.assertEqual([sources.line(path, at) for at in (1, 2, 3, 0, -1, 5)], ["one", None, "x = 'ü'", None, None, None])
        self.assertEqual(sources.line(path, 4), "y" * 200 + "...")
        shown = text(threads(Thread(1, (Frame("f", path, 3),))), style=Style(sources=sources))
        self.assertIn(f"    f ({path}:3)\n        > x = 'ü'\n", shown)

    def test_root(self):
        self.put("root/srv/a.py", "in the container")
        self.assertEqual(Sources(str(self.folder / "root")).line("/srv/a.py", 1), "in the container")
        (self.folder / "root/srv/out.py").symlink_to(self.put("b.py", "outside"))
        for name in ("/srv/out.py", "/../b.py", "srv/a.py"):
            self.assertIsNone(Sources(str(self.folder / "root")).line(name, 1))

    def test_folder(self):
        self.put("checkout/pack/a.py", "longest")
        self.put("checkout/a.py", "shortest")
        sources = Sources("", str(self.folder / "checkout"))
        self.assertEqual([sources.line(it, 1) for it in ("/srv/pack/a.py", "/srv/other/a.py", "a.py")], ["longest", "shortest", "shortest"])

    def test_no_source(self):
        # (a core can name any file)
        os.mkfifo(self.folder / "pipe.py")
        (self.folder / "folder.py").mkdir()
        for name in (self.put("secret", "key"), str(self.folder / "pipe.py"), str(self.folder / "folder.py"), "/dev/zero", "/a\0.py", "/\ud800.py", "/" + "a" * 5000 + ".py", ""):
            self.assertIsNone(Sources().line(name, 1), name)

    def test_newer(self):
        path = self.put("a.py", "one")
        self.assertEqual(Sources("", "", os.stat(path).st_mtime - 1).line(path, 1), "one    (the file is newer than the core)")
        self.assertEqual(Sources("", "", os.stat(path).st_mtime).line(path, 1), "one")

    def test_escaped(self):
        path = self.put("a.py", "x = 1  # \x1b[2J")
        self.assertIn("        > x = 1  # \\u{1b}[2J\n", text(threads(Thread(1, (Frame("f", path, 1),))), style=Style(sources=Sources())))


if __name__ == "__main__":
    unittest.main(verbosity=0)
