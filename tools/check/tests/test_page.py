#!/usr/bin/env python3
"""The page of a core: what is escaped, how long it is, that the graph's widths add up, and that it says what the text says."""

import os
import re
import shutil
import subprocess
import tempfile
import unittest
from collections import Counter
from html.parser import HTMLParser
from pathlib import Path

import rooms  # (first: it makes the other rooms known)

from pystacks_tool.groups.triage import groups_of
from pystacks_tool.model import Frame, Interpreter, Local, NativeFrame, NativeStack, Report, Task, Tasks, Thread
from pystacks_tool.show.collapse import places
from pystacks_tool.show.flame import WIDTH, fitted, flame_of
from pystacks_tool.show.page import LARGEST, group_page, report_page
from pystacks_tool.show.sources import Sources
from pystacks_tool.show.text import Style

HOSTILE = "</title><script>alert(1)</script>\"'&<img src=x onerror=alert(2)>\n\x00\u202e]]><!--"
"""A name that would be markup, if it weren't escaped."""

VOID = {"meta", "input", "br", "link"}
OPEN_ENDED = {"li"}
"""Elements that have no end, and that may go without one."""


class Reader(HTMLParser):
    """Reads a page: its elements with their attributes, its texts, and whether each element is closed in its turn."""

    def __init__(self, page):
        super().__init__(convert_charrefs=True)
        self.elements, self.texts, self.stack, self.faults = [], [], [], []
        self.feed(page)
        self.close()

    def handle_starttag(self, tag, attrs):
        if tag == "li" and self.stack[-1:] == ["li"]:
            self.stack.pop()
        self.elements.append((tag, dict(attrs), self.stack[-1] if self.stack else ""))
        if tag not in VOID and not self.get_starttag_text().endswith("/>"):
            self.stack.append(tag)

    def handle_startendtag(self, tag, attrs):
        self.elements.append((tag, dict(attrs), self.stack[-1] if self.stack else ""))

    def handle_endtag(self, tag):
        while self.stack[-1:] and self.stack[-1] in OPEN_ENDED and self.stack[-1] != tag:
            self.stack.pop()
        if self.stack[-1:] == [tag]:
            self.stack.pop()
        else:
            self.faults.append((tag, list(self.stack)))

    def handle_data(self, data):
        self.texts.append((data, self.stack[-1] if self.stack else ""))

    def of(self, tag):
        """The attributes of all elements of a tag."""
        return [attributes for own, attributes, _ in self.elements if own == tag]

    def text(self, *tags):
        """The texts within elements of these tags."""
        return "".join(data for data, tag in self.texts if tag in tags)


def report(*threads, **more):
    """A report of one interpreter."""
    given = {"signal": 11, "process": (7, "python3 a.py"), "core": "core", "is_salvaged": True}
    return Report((Interpreter(threads),), "3.11.7", **{**given, **more})


F, G, MAIN = Frame("f", "a.py", 5), Frame("g", "a.py", 7), Frame("<module>", "a.py", 9)

SMALL = report(Thread(1, (F, MAIN), 99, "Main", True, True), Thread(2, (F, G, MAIN)), Thread(3, (G, MAIN)), Thread(4, (G, MAIN)), Thread(5, ()))


class Pages(unittest.TestCase):
    """The page of a core."""

    def test_well_formed(self):
        reader = Reader(report_page(SMALL, Style()))
        self.assertEqual((reader.faults, reader.stack), ([], []))
        identifiers = [it["id"] for _, it, _ in reader.elements if "id" in it]
        self.assertEqual(len(identifiers), len(set(identifiers)))
        links = [it["href"] for it in reader.of("a")]
        self.assertTrue(links and all(it.startswith("#") and it[1:] in identifiers for it in links))

    def test_alone(self):
        # (nothing is asked for from elsewhere: no source, no link, no address)
        page = report_page(SMALL, Style())
        reader = Reader(page)
        self.assertFalse([it for _, it, _ in reader.elements if set(it) & {"src", "action", "style", "onclick"}])
        self.assertFalse(reader.of("link") + reader.of("img") + reader.of("iframe"))
        self.assertNotRegex(page, r"https?://|@import|url\(|//[a-z]")

    def test_head(self):
        head = Reader(report_page(SMALL, Style())).text("dd", "b")
        for it in ("11 (SIGSEGV)", "7: python3 a.py", "3.11.7", '99 "Main" in f (a.py:5)', "core"):
            self.assertIn(it, head)
        self.assertIn("No Python thread got the signal", report_page(report(Thread(1, (F,))), Style()))
        both = Thread(1, (F,), is_crashed=True)
        self.assertIn("; One of 2 threads got the signal", Reader(report_page(report(both, both), Style())).text("dd"))

    def test_stacks_once(self):
        reader = Reader(report_page(SMALL, Style()))
        titles = [data for data, tag in reader.texts if tag == "h3"]
        self.assertEqual(["".join(titles).count(it) for it in ("Thread 99", "Thread 0x2", "2 threads: 0x3, 0x4", "Thread 0x5")], [1, 1, 1, 1])
        self.assertEqual(len(reader.of("li")), 2 + 3 + 2)
        self.assertEqual(len(Reader(report_page(SMALL, Style(shows_all=True))).of("li")), 2 + 3 + 2 + 2)

    def test_frames_in_order(self):
        items = re.findall(r"<li>(.*?) <i>(.*?)</i>", report_page(report(Thread(2, (F, G, MAIN))), Style()))
        self.assertEqual(items, [("f", "(a.py:5)"), ("g", "(a.py:7)"), ("&lt;module&gt;", "(a.py:9)")])

    def test_ends(self):
        one = Thread(1, (F, Frame(why="a name that is no text"), MAIN), first=2, between=7, end="cut after 10 members")
        page = report_page(Report((Interpreter((one,), 0x10, True, "lock unreadable at 0x8, 8 bytes", "more than 4096 threads"), Interpreter((), 0x20)),
                                  "3.9.0", has_more=True), Style())
        for it in ("? a name that is no text", "... 7 more frames", "... cut after 10 members", "Interpreter 0x10 (found by search)", "Interpreter 0x20",
                   "... lock unreadable at 0x8, 8 bytes", "... more than 4096 threads", "... more than 16 interpreters"):
            self.assertEqual(sum(page.count(f"{front}{it}") for front in ('class="end">', "<h3>")), 1, it)

    def test_locals(self):
        frame = Frame("f", "a.py", 1, (Local("x", "float 0x3ff8000000000000", True), Local("y", None)), "locals with a bad name or count")
        reader = Reader(report_page(report(Thread(1, (frame,))), Style()))
        self.assertEqual(len(reader.of("details")), 1)
        self.assertNotIn("open", reader.of("details")[0])
        self.assertEqual(reader.text("summary"), "2 locals")
        self.assertTrue(reader.text("dt").endswith("x (argument)y") and reader.text("dd").endswith("1.5 (float 0x3ff8000000000000)?"))

    def test_recursions(self):
        # (one line that opens, which has each frame; and a bar in the graph)
        page = report_page(report(Thread(1, (F, *(G, MAIN) * 9))), Style())
        reader = Reader(page)
        self.assertEqual((reader.faults, page.count("<summary>... g, &lt;module&gt;: 8 times (lines 7, 9)</summary>")), ([], 1))
        self.assertEqual(len(re.findall(r"<li>(.*?) <i>(.*?)</i>", page)), 19)
        self.assertEqual(len(re.findall(r"<g data-a", page)), 5)
        self.assertIn("<title>... g, &lt;module&gt;: 8 times (lines 7, 9): 1 thread</title>", page)

    def test_values_said_once(self):
        rows = [Thread(at, (Frame("f", "a.py", 1, (Local("self", f"<T at {at}>", True), Local("n", "3"))),)) for at in range(9)]
        self.assertTrue(Reader(report_page(report(*rows), Style())).text("dd").endswith("9 values3"))

    def test_sources(self):
        with tempfile.TemporaryDirectory(prefix="page-") as name:
            path = os.path.join(os.path.realpath(name), "a.py")
            Path(path).write_text("if a < b:\n", encoding="utf-8")
            page = report_page(report(Thread(1, (Frame("f", path, 1),))), Style(sources=Sources()))
            self.assertIn("<pre>if a &lt; b:</pre>", page)


def tasks(count, *frames, name="worker", kind="waiting", end=""):
    """Tasks of one place."""
    return tuple(Task(hex(at), f"{name} {at}", kind, kind, frames, end) for at in range(count))


class Sections(unittest.TestCase):
    """What stands beside the stacks of Python: tasks, and native stacks."""

    def test_tasks(self):
        own = Tasks("0x1", (*tasks(3, F, MAIN), *tasks(1, G, name="odd", end="awaits an object at 0x9"), *tasks(2, kind="done")), ("Registered, and no task: <T at 0x2>",))
        page = report_page(report(Thread(1, (F,)), tasks=(own,)), Style())
        reader = Reader(page)
        self.assertEqual((reader.faults, reader.stack, page.count('href="#tasks"'), page.count('href="#native"')), ([], [], 1, 0))
        self.assertIn("Tasks 4 (4 waiting; 2 finished aren't shown)", reader.text("p"))
        self.assertIn('3 tasks (waiting): "worker 0", "worker 1" and 1 moreTask "odd 0" (waiting)', reader.text("b"))
        self.assertIn('"worker 0", "worker 1", "worker 2"', reader.text("p"))
        self.assertEqual((page.count("<summary>all of them</summary>"), reader.text("li").count("... awaits an object at 0x9")), (1, 1))
        self.assertEqual(page.count('<p class="end">Registered, and no task: &lt;T at 0x2&gt;</p>'), 1)
        each = report_page(report(Thread(1, (F,)), tasks=(own,)), Style(shows_all=True))
        self.assertEqual(each.count("<summary><b>Task "), 4)

    def test_faults(self):
        page = report_page(report(Thread(1, (F,)), tasks=(Tasks("0x1", fault="not <b>"), Tasks("0x2"))), Style())
        self.assertIn('<p class="end">Interpreter 0x1: Tasks are not told: not &lt;b&gt;</p>', page)
        self.assertIn("<p>Interpreter 0x2: Tasks 0 (none that isn&#x27;t done)</p>", page)

    def test_many(self):
        # (those of one place once, and of them not each name; only the first places are open)
        own = Tasks("0x1", (*tasks(20000, F, MAIN), *(it for at in range(20) for it in tasks(1, Frame(f"f{at}", "a.py", 1)))))
        page = report_page(report(Thread(1, (F,)), tasks=(own,)), Style())
        self.assertLess(len(page), 100_000)
        self.assertIn(" and 19000 more</p>", page)
        self.assertEqual((page.count("<details open>"), page.count("<details>")), (8, 13 + 1))

    def test_native(self):
        frames = (NativeFrame(1, "memset", 0x46, "/lib/libc.so.6", 9), NativeFrame(2, None, None, "/lib/fast.so", 0x77, is_signal=True), NativeFrame(3, None, None, None, None))
        guess = (NativeFrame(4, "f", 1, "/lib/fast.so", 5, is_guess=True),)
        stacks = (NativeStack(8, None, False, frames, 7, frames[:1], "unreadable at 0x8"), NativeStack(9, 1, True, frames, guessed=guess), NativeStack(10, None, False, is_told=False))
        whole = report(Thread(1, (F,), 9, "Main"), native=stacks, shows_native=True)
        page = report_page(whole, Style())
        reader = Reader(page)
        self.assertEqual((reader.faults, reader.stack, page.count('href="#native"')), ([], [], 1))
        self.assertIn('Native stack of thread 9 (0x1 "Main") (crashed)Native thread 8Native thread 10: no registers', reader.text("b"))
        shown = reader.text("li")
        for it in ("memset+0x46 (libc.so.6)", "0x77 (fast.so) <signal>", "0x3 (in no file)", "f+0x1 (fast.so) <guess>", "... 7 more frames", "... unreadable at 0x8"):
            self.assertIn(it, shown)
        self.assertIn("In memset+0x46 (libc.so.6), called by f+0x1 (fast.so) <guess>", reader.text("dd"))
        self.assertNotIn("Native stacks", report_page(report(Thread(1, (F,)), native=stacks), Style()))

    def test_escapes(self):
        frame = NativeFrame(1, HOSTILE, 1, f"/{HOSTILE}", 2)
        native = (NativeStack(9, 1, True, (frame,), 1, (frame,), HOSTILE, guessed=(frame,), guessed_end=HOSTILE),)
        own = Tasks(HOSTILE, (Task("0x1", HOSTILE, "waiting", HOSTILE, (Frame(HOSTILE, HOSTILE, 1), Frame(why=HOSTILE)), HOSTILE),), (HOSTILE,))
        odd = report(Thread(1, (F,), name=HOSTILE), native=native, shows_native=True, tasks=(own, Tasks(HOSTILE, fault=HOSTILE)))
        reader = Reader(report_page(odd, Style()))
        self.assertEqual((reader.faults, reader.stack, len(reader.of("script")), reader.of("img")), ([], [], 1, []))
        self.assertFalse([it for _, it, _ in reader.elements if any(key.startswith("on") for key in it)])
        self.assertNotRegex(reader.text("li", "b", "p", "dd", "td", "summary"), "[\x00\u202e]")


class Escapes(unittest.TestCase):
    """Names that are markup."""

    def test_everywhere(self):
        frame = Frame(HOSTILE, HOSTILE, 1, (Local(HOSTILE, HOSTILE, True),), HOSTILE)
        threads = [Thread(number, (frame, Frame(why=HOSTILE)), name=HOSTILE, end=HOSTILE, is_crashed=number == 1) for number in range(3)]
        odd = Report((Interpreter(tuple(threads), 1, True, HOSTILE, HOSTILE), Interpreter(())), HOSTILE, 11, (7, HOSTILE), core=HOSTILE)
        reader, plain = Reader(report_page(odd, Style())), Reader(report_page(SMALL, Style()))
        self.assertEqual((reader.faults, reader.stack), ([], []))
        self.assertEqual(set(tag for tag, _, _ in reader.elements) - {"details", "summary", "br"}, set(tag for tag, _, _ in plain.elements) - {"details", "summary"})
        self.assertEqual((len(reader.of("script")), reader.of("img")), (1, []))
        self.assertFalse([it for _, it, _ in reader.elements if any(key.startswith("on") for key in it)])
        self.assertIn("<script>alert(1)</script>", reader.text("li"))
        self.assertNotRegex(reader.text("li", "h1", "h3", "dd", "dt", "td", "i", "title", "text", "a", "p"), "[\x00\u202e]")

    def test_script_is_shown(self):
        page = report_page(report(Thread(1, (Frame("<script>", "a.py", 1),), name="<script>")), Style())
        self.assertEqual((page.count("<script>"), page.count("</script>")), (1, 1))
        self.assertIn("<li>&lt;script&gt; <i>(a.py:1)</i>", page)

    def test_groups(self):
        text = f"Group 1: 2\n    {HOSTILE!r}\n    b\nRefused: 1\n    <script>: bad note\n".encode()
        groups = groups_of(text, [b"b", b"<script>"])
        page = group_page(groups, {groups[0].first: SMALL}, Style())
        reader = Reader(page)
        self.assertEqual((reader.faults, reader.stack, len(reader.of("script"))), ([], [], 1))
        self.assertIn("<script>: bad note", reader.text("li"))
        self.assertEqual(page.count("<h2>Group 1: 2</h2>"), 1)
        self.assertIn("f (a.py:5)", reader.text("td"))
        for it in ("11 (SIGSEGV)", "python3 a.py", "3.11.7"):
            self.assertIn(it, reader.text("td"))
        self.assertIn("7: python3 a.py", reader.text("dd"))

    def test_rule(self):
        # (the page's own rule lets its own style and script alone be taken, by their sums)
        page = report_page(SMALL, Style())
        rule = next(it["content"] for it in Reader(page).of("meta") if it.get("http-equiv") == "Content-Security-Policy")
        self.assertRegex(rule, r"^default-src 'none'; style-src 'sha256-[^']+'; script-src 'sha256-[^']+'; ")
        self.assertNotIn("unsafe", rule)


class Sizes(unittest.TestCase):
    """How long pages are."""

    def stack(self, number, depth, shared):
        """A stack of a service, with names of usual lengths."""
        own = [Frame(f"handle_request_{number}_{at}", f"/srv/application/lib/python3.11/site-packages/module_{at % 20}/views.py", at + 1) for at in range(depth - shared)]
        return tuple(own) + tuple(Frame(f"run_{at}", "/usr/lib/python3.11/threading.py", at + 1) for at in range(shared))

    def test_equal(self):
        threads = [Thread(number, self.stack(0 if number < 190 else number, 60, 5), number, f"pool-{number}") for number in range(200)]
        page = report_page(report(*threads), Style())
        self.assertLess(len(page.encode("utf-8")), 300_000)

    def test_different(self):
        for depth, has_sources in ((30, False), (60, False), (30, True)):
            threads = [Thread(number, self.stack(number, depth, 5), number, f"pool-{number}") for number in range(200)]
            page = report_page(report(*threads), Style(sources=Long() if has_sources else None))
            size = len(page.encode("utf-8"))
            self.assertLess(size, LARGEST if depth == 30 else 1.7 * LARGEST, (depth, has_sources))
            self.assertEqual(page.count("<li>"), 200 * depth)
            self.assertEqual("For want of room the source lines" in page, has_sources)


class Long(Sources):
    """Sources of long lines."""

    def line(self, name, number):
        return "x = " + "y" * 190


class Graphs(unittest.TestCase):
    """The graph."""

    def bars(self, svg):
        """The bars of a graph: label, first thread, threads, and the corners."""
        pattern = (r'<g data-a="(\d+)" data-n="(\d+)"><title>(.*?): \d+ threads?</title>'
                   r'<rect class="c\d" x="([\d.]+)" y="(\d+)" width="([\d.]+)" height="16"/>')
        return [(label, int(start), int(count), float(x), int(y), float(width)) for start, count, label, x, y, width in re.findall(pattern, svg)]

    def test_widths(self):
        stacks = [places(it) for it in SMALL.threads]
        bars = self.bars(flame_of(stacks).svg)
        self.assertEqual(bars[0], ("all threads", 0, 4, 0.0, 51, 1200.0))
        self.assertEqual(sorted(it[:3] for it in bars[1:]), sorted([
            ("&lt;module&gt; (a.py:9)", 0, 4), ("g (a.py:7)", 0, 3), ("f (a.py:5)", 0, 1), ("f (a.py:5)", 3, 1)]))
        for _, start, count, x, y, width in bars:
            self.assertAlmostEqual(x, WIDTH * start / 4, 1)
            self.assertAlmostEqual(width, WIDTH * count / 4, 1)

    def test_adds_up(self):
        # (on each level the bars stand side by side, and within those below)
        stacks = [tuple(f"f{(number * 7 + at * at) % (at + 2)}" for at in range(1 + number % 9)) for number in range(100)]
        bars = self.bars(flame_of(stacks).svg)
        levels = {}
        for it in bars:
            levels.setdefault(it[4], []).append(it)
        below = None
        for y in sorted(levels, reverse=True):
            row = sorted(levels[y], key=lambda it: it[1])
            self.assertTrue(all(one[1] + one[2] <= other[1] for one, other in zip(row, row[1:])))
            self.assertTrue(below is None or all(any(it[1] <= one[1] and one[1] + one[2] <= it[1] + it[2] for it in below) for one in row))
            below = row
        depth = {y: at for at, y in enumerate(sorted(levels, reverse=True))}
        counts = Counter((label, depth[y]) for label, _, count, _, y, _ in bars for _ in range(count))
        wanted = Counter((label, at) for stack in stacks for at, label in enumerate(stack, 1))
        self.assertEqual({key: count for key, count in counts.items() if key[1]}, dict(wanted))

    def test_cut_labels(self):
        why = "unreadable at 0x70000000, 72 bytes"
        frame, member = places(Thread(1, (Frame(f"? {why}", "a.py"), Frame(why=why))))[::-1]
        self.assertEqual([fitted(it, 100) for it in (frame, member, "f (a.py)")], ["? unreadabl..)", "? unreadable..", "f (a.py)"])
        self.assertEqual([fitted(it, 34) for it in (frame, member)], ["?..)", "? .."])
        self.assertEqual([fitted(it, 30) for it in (frame, member)], ["", ""])

    def test_order(self):
        # (a bar's threads are those whose places in the order it has)
        stacks = [("a", "b"), (), ("a",), ("c",), ("a", "b", "d"), ("a", "e"), ("a", "b")]
        found = flame_of(stacks)
        self.assertEqual(sorted(found.order), [0, 2, 3, 4, 5, 6])
        for label, start, count, *_ in self.bars(found.svg)[1:]:
            self.assertEqual(sorted(found.order[start : start + count]), [at for at, it in enumerate(stacks) if label in it], label)

    def test_empty(self):
        self.assertEqual((flame_of([]).svg, flame_of([(), ()]).order), ("", ()))
        self.assertIn("No thread has frames.", report_page(report(Thread(1, ())), Style()))

    def test_room(self):
        deep = [tuple(f"frame {at} of {number}" for at in range(50)) for number in range(100)]
        found = flame_of(deep, 100_000)
        self.assertEqual((found.is_whole, len(found.svg) < 110_000, "frame 0 of 7" in found.svg), (False, True, True))
        self.assertTrue(flame_of(deep[:2], 100_000).is_whole)


class Tidy(unittest.TestCase):
    """What `tidy` says."""

    @unittest.skipUnless(shutil.which("tidy"), "there is no tidy")
    def test_pages(self):
        groups = groups_of(b"Group 1: 1\n    core\nRefused: 1\n    b: bad note\n", [b"core", b"b"])
        for page in (report_page(SMALL, Style()), group_page(groups, {b"core": SMALL}, Style()), report_page(report(), Style())):
            ran = subprocess.run(["tidy", "-q", "-e"], input=page.encode(), stdout=subprocess.PIPE, stderr=subprocess.PIPE)
            self.assertEqual((ran.returncode, ran.stderr.decode()), (0, ""))


if __name__ == "__main__":
    unittest.main(verbosity=0)
