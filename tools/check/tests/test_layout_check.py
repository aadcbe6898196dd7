#!/usr/bin/env python3
"""What dump_core.py says of a layout with which the dead process disagrees, and what it withholds, by programs that stand in for the
built ones."""

import json
import re
import unittest

import rooms  # (first: it makes the other rooms known)

import stand_ins
from pystacks_tool.ask.layout import MOST
from stand_ins import frame, interpreter, layout_check, number, salvage, thread
from test_tool import HEAD, Case

ONE = thread(0x7F00, [frame("f"), frame("<module>", "a.py", 3)], 99, True, True)

AGREES = number("code.filename", 112)
WRONG = number("frame.locals", 360, 352)

LINE = "layout: frame.locals is 360, the process says 352"

NEXT = "dump_core: next: `pystacks-layout --from-core CORE` writes a layout by what the process says; --any-layout shows the stacks all the same\n"

STACK = "Thread 99 (gil) (crashed)\n    f (a.py:1)\n    <module> (a.py:3)\n"


class Layouts(Case):
    """A layout that the process was asked about."""

    def asked(self, check, *words, knows=True):
        """What the tool comes to where the program tells this of the layout."""
        self.programs(salvage(interpreter([ONE]), layout_check=check), help_text="--signal --check-layout" if knows else "--signal")
        return self.tool(*words)

    def words(self):
        """The words of the last run of `pysalvage`."""
        return (self.folder / "pysalvage.said" / "words").read_text().splitlines()

    def test_nothing_is_said_where_it_agrees(self):
        for check in (layout_check("agrees", [AGREES], ["frame.back"], None, {"right": 38, "of": 40}), None):
            self.assertEqual(self.asked(check), (0, HEAD.format(core=self.core) + STACK, ""))

    def test_is_asked_where_the_program_knows_it(self):
        self.asked(None)
        self.assertIn("--check-layout", self.words())
        self.asked(None, knows=False)
        self.assertNotIn("--check-layout", self.words())

    def test_no_stack_is_shown_where_it_differs(self):
        wanted = (1, "", f"dump_core: {LINE}: no stack is shown\n{NEXT}")
        page = self.folder / "page.html"
        for words in ((), ("-j",), ("--collapsed",), (f"--html={page}",), ("-l", "--all")):
            self.assertEqual(self.asked(layout_check("differs", [AGREES, WRONG]), *words), wanted, words)
        self.assertFalse(page.exists())

    def test_more_than_one_number(self):
        for count, rest in ((2, ", and 1 more number differs"), (3, ", and 2 more numbers differ")):
            numbers = [WRONG, *(number(f"code.k{at}", 8, 16) for at in range(count - 1))]
            status, out, said = self.asked(layout_check("differs", numbers))
            self.assertEqual((status, out, said), (1, "", f"dump_core: {LINE}{rest}: no stack is shown\n{NEXT}"))

    def test_another_build_is_named(self):
        check = layout_check("differs", [number("object.klass", 8, 24)], build="free-threaded")
        line = "layout: the process is of a free-threaded build, object.klass is 8, the process says 24: no stack is shown"
        self.assertEqual(self.asked(check)[2].splitlines()[0], f"dump_core: {line}")
        lines = self.asked(check, "--any-layout")[1].splitlines()
        self.assertEqual(lines[3:5], ["layout: the process is of a free-threaded build", "layout: object.klass is 8, the process says 24"])

    def test_any_layout(self):
        numbers = [number(f"code.k{at}", 8, 16) for at in range(MOST + 2)]
        for check, lines in (
            (layout_check("differs", [AGREES, WRONG]), [LINE]),
            (layout_check("differs", numbers), [*(f"layout: code.k{at} is 8, the process says 16" for at in range(MOST)), "layout: 2 more numbers differ"]),
            (layout_check("differs", numbers[:-1]), [*(f"layout: code.k{at} is 8, the process says 16" for at in range(MOST)), "layout: 1 more number differs"]),
        ):
            text = HEAD.format(core=self.core)[:-1] + "".join(f"{it}\n" for it in lines) + "\n" + STACK
            self.assertEqual(self.asked(check, "--any-layout"), (0, text, ""))
            tree = json.loads(self.asked(check, "--any-layout", "-j")[1])
            self.assertEqual(tree["layout_check"], check)
            page = self.folder / "page.html"
            self.assertEqual(self.asked(check, "--any-layout", f"--html={page}")[0], 0)
            text = page.read_text()
            self.assertEqual(re.findall(r"layout: [^<]*", text), lines)

    def test_nothing_is_withheld_without_a_difference(self):
        for check, line in (
            (layout_check("doubtful", known={"right": 0, "of": 40}, doubt="frames"), "layout: doubtful, 0 of 40 known answers are right"),
            (layout_check("doubtful", known={"right": 40, "of": 40}, doubt="type"), "layout: doubtful, `type` tells of itself what isn't known"),
            (layout_check("doubtful", doubt="type"), "layout: doubtful, `type` tells of itself what isn't known"),
            (layout_check("silent"), "layout: unconfirmed, since the process tells too little"),
            (layout_check("not described"), "layout: unconfirmed, since it isn't known where a process of this version tells it"),
        ):
            self.assertEqual(self.asked(check), (0, HEAD.format(core=self.core)[:-1] + f"{line}\n\n" + STACK, ""))

    def test_one_of_several_cores(self):
        self.programs(salvage(interpreter([ONE]), layout_check=layout_check("differs", [WRONG])), help_text="--check-layout")
        status, out, said = self.tool("--collapsed", core=[self.core, self.core])
        self.assertEqual((status, out), (1, ""))
        self.assertEqual(said, f"{self.core}: dump_core: {LINE}: no stack is shown\n" * 2)

    def test_the_first_core_of_a_group(self):
        text = f"Group 1: 1\n    {self.core}\n"
        self.programs(salvage(interpreter([ONE]), layout_check=layout_check("differs", [WRONG])), help_text="--check-layout")
        stand_ins.program(self.program, triage=text)
        said = f"{self.core}: dump_core: {LINE}: no stack is shown\n"
        self.assertEqual(self.tool("--group", "--by=exact"), (0, text, said))
        shown = self.tool("--group", "--by=exact", "--any-layout")
        self.assertEqual((shown[0], shown[2]), (0, ""))
        self.assertIn("        Thread 99 (gil) (crashed)\n", shown[1])

    def test_what_is_no_check(self):
        for check in ({"verdict": "differs"}, 7, [1]):
            status, out, said = self.asked(check)
            self.assertEqual((status, out), (127, ""))
            self.assertIn("dump_core: the program wrote what isn't read here: its JSON", said)


if __name__ == "__main__":
    unittest.main(verbosity=0)
