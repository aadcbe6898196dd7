#!/usr/bin/env python3
"""Tests values of locals as the tool has them: their texts by trees, what is hidden, and whose values are shown."""

import json
import unittest

import rooms  # noqa: F401
from pystacks_tool.ask.values import HIDDEN, SECRETS, hidden, hide, tells_values, text_of
from stand_ins import frame, interpreter, local, salvage, thread
from test_tool import Case


def text(value, length=None):
    """A text."""
    return {"kind": "str", "value": value, "length": len(value) if length is None else length}


def number(value):
    """An integer."""
    return {"kind": "int", "value": value}


def items(kind, *rows, more=0):
    """A container."""
    return {"kind": kind, "items": list(rows), "more": more}


def table(*pairs, more=0):
    """A dict."""
    return items("dict", *([key, value] for key, value in pairs), more=more)


def instance(*attributes, more=0):
    """An instance with its attributes."""
    return {"kind": "instance", "type": "m.C", "address": "0x10", "attributes": [list(it) for it in attributes], "more": more}


def valued(name, tree):
    """A local with its tree."""
    return {**local(name, text_of(tree)), "value": tree}


ROWS = (
    (text("it's"), '"it\'s"'), (text("ab", 4_500_000), "'ab'.. 4500000 characters"), (number(-5), "-5"), (number("12345678901234567890"), "12345678901234567890"),
    ({"kind": "int", "value": None, "digits": 120, "negative": True}, "<negative int of 120 digits of 30 bits>"),
    ({"kind": "long", "value": 5}, "5L"), ({"kind": "unicode", "value": "\u00e4", "length": 1}, "u'\\xe4'"),
    ({"kind": "bytes", "hex": "0041", "length": 2}, "b'\\x00A'"), ({"kind": "bytearray", "hex": "41", "length": 9}, "bytearray(b'A').. 9 bytes"),
    ({"kind": "none"}, "None"), ({"kind": "bool", "value": True}, "True"), ({"kind": "float", "bits": "0x3ff8000000000000", "text": "1.5"}, "1.5"),
    (items("list", number(1), number(2), more=999_997), "[1, 2, .. 999997 more]"), (items("list", more=3), "[.. 3 more]"),
    (items("tuple", number(1)), "(1,)"), (items("tuple", number(1), more=1), "(1, .. 1 more)"), (items("tuple"), "()"),
    (items("set"), "set()"), (items("frozenset"), "frozenset()"), (items("frozenset", number(1)), "frozenset({1})"),
    (table((text("a"), number(1)), more=2), "{'a': 1, .. 2 more}"), (items("cell", {"kind": "absent"}), "<cell: empty>"),
    ({"kind": "class", "name": "m.C", "address": "0x10"}, "<class 'm.C'>"), ({"kind": "object", "type": "m.C", "address": "0x10"}, "<m.C at 0x10>"),
    ({"kind": "object", "type": None, "address": "0x10"}, "<? at 0x10>"), ({"kind": "class", "name": None, "address": "0x10"}, "<class ?>"),
    ({"kind": "object", "type": "x at 0x1>, 'password': 'y", "address": "0x10"}, "<\"x at 0x1>, 'password': 'y\" at 0x10>"),
    ({"kind": "function", "name": "f", "file": "a b.py", "line": 3, "address": "0x10"}, "<function f at 0x10 ('a b.py':3)>"),
    ({"kind": "coroutine", "name": "fetch", "state": "suspended", "address": "0x10"}, "<coroutine fetch at 0x10: suspended>"),
    ({"kind": "generator", "name": "<genexpr>", "state": None, "address": "0x10"}, "<generator <genexpr> at 0x10>"),
    ({"kind": "async generator", "name": "x at 0x1: running>", "state": "finished", "address": "0x10"},
     "<async_generator 'x at 0x1: running>' at 0x10: finished>"),
    ({"kind": "coroutine", "name": None, "state": "running", "address": "0x10"}, "<coroutine at 0x10: running>"),
    (instance((text("id"), number(7)), (text("items"), items("list"))), "<m.C at 0x10: id=7, items=[]>"), (instance(more=3), "<m.C at 0x10: .. 3 more>"),
    (instance((text("a b"), number(1)), (text("1a"), number(2)), (text("gr\u00f6\u00dfe"), number(3)), (number(4), number(5)), more=1),
     "<m.C at 0x10: 'a b'=1, '1a'=2, gr\u00f6\u00dfe=3, 4=5, .. 1 more>"),
    (instance((text("x=1, y"), number(1)), (text("it's"), number(2)), (text(""), number(3))), "<m.C at 0x10: 'x=1, y'=1, \"it's\"=2, ''=3>"),
    ({"kind": "unreadable", "of": "str", "address": "0x10", "length": 4}, "<str: 4 bytes unreadable at 0x10>"),
    ({"kind": "damaged", "of": "int", "address": "0x10"}, "<int: broken at 0x10>"), ({"kind": "new"}, "<new>"),
)


class Texts(unittest.TestCase):
    """The text of a tree."""

    def test_each(self):
        for tree, wanted in ROWS:
            self.assertEqual(text_of(tree), wanted)

    def test_deep(self):
        tree = number(1)
        for _ in range(200):
            tree = items("list", tree)
        self.assertTrue(text_of(tree).endswith("<list>" + "]" * 64))


class Hidden(unittest.TestCase):
    """What is hidden."""

    def test_keys(self):
        inner = table((text("Authorization"), text("Basic eA==")), (text("host"), text("x")))
        tree = items("list", table((text("headers"), inner), ({"kind": "bytes", "hex": b"API_KEY".hex(), "length": 7}, number(1)), (number(7), number(8))))
        self.assertEqual(text_of(hidden(tree, SECRETS)), "[{'headers': {'Authorization': <hidden>, 'host': 'x'}, b'API_KEY': <hidden>, 7: 8}]")
        self.assertEqual(hidden(tree, ("nothing",)), tree)

    def test_attributes(self):
        inner = instance((text("_Password"), text("hunter2")), (text("host"), table((text("token"), number(1)))), (text("own"), instance((text("passwd"), number(2)))))
        self.assertEqual(text_of(hidden(items("list", inner), SECRETS)),
                         "[<m.C at 0x10: _Password=<hidden>, host={'token': <hidden>}, own=<m.C at 0x10: passwd=<hidden>>>]")
        row = valued("self", inner)
        hide(salvage(interpreter([thread(1, [frame("f", rows=[row])])])), SECRETS)
        self.assertNotIn("hunter2", json.dumps(row))

    def test_names(self):
        rows = [valued("db_Password", text("x")), valued("user", text("y")), local("token", "12"), local("s", "{\"cookie\": 1}"), local("t", "3"), local("cookie", None)]
        tree = salvage(interpreter([thread(1, [frame("f", rows=rows)])]))
        hide(tree, SECRETS)
        self.assertEqual([it["repr"] for it in rows], [HIDDEN, "'y'", HIDDEN, HIDDEN, "3", HIDDEN])
        self.assertEqual(rows[0]["value"], {"kind": "hidden"})

    def test_a_key_that_holds_it_deeper(self):
        tree = table((items("tuple", text("a"), text("password")), text("hunter2")))
        self.assertEqual(text_of(hidden(tree, SECRETS)), "{('a', 'password'): <hidden>}")

    def test_nothing_by_no_words(self):
        rows = [valued("password", text("x"))]
        hide(salvage(interpreter([thread(1, [frame("f", rows=rows)])])), ())
        self.assertEqual(rows[0]["repr"], "'x'")

    def test_tells_values(self):
        for rows, wanted in ((None, True), ([], True), ([local("n", "1")], False), ([valued("n", number(1))], True), ([{**local("n", None), "value": None}], True)):
            self.assertEqual(tells_values(salvage(interpreter([thread(1, [frame("e"), frame("f", rows=rows)])]))), wanted)


class Shown(Case):
    """What the tool shows of them."""

    def shown(self, *rows):
        """Programs that tell these locals."""
        self.programs(salvage(interpreter([thread(1, [frame("f", rows=list(rows))])])))

    def test_as_python_writes_them(self):
        # (a text that looks like the bits of a float stays as it is)
        self.shown(valued("s", text("float 0x3ff8000000000000")), valued("n", number(12)))
        self.assertTrue(self.tool("-l")[1].endswith("        Locals:\n            s: 'float 0x3ff8000000000000'\n            n: 12\n"))

    def test_dump_is_not_asked(self):
        # (names are told too)
        self.programs(salvage(interpreter([thread(1, [frame("f", rows=[valued("n", number(12))])])])), threads=[], help_text="--names")
        self.assertIn("            n: 12\n", self.tool("-l")[1])
        self.assertFalse((self.folder / "pystacks.said" / "words").exists())

    def test_hide(self):
        self.shown(valued("n", number(12)), valued("password", text("x")))
        self.assertIn("            n: <hidden>\n            password: 'x'\n", self.tool("-l", "--hide", "N")[1])
        self.assertIn("            n: 12\n            password: 'x'\n", self.tool("-l")[1])
        row = json.loads(self.tool("-l", "--json", "--hide", "pass")[1])["interpreters"][0]["threads"][0]["frames"]["first"][0]["locals"][1]
        self.assertEqual((row["repr"], row["value"]), (HIDDEN, {"kind": "hidden"}))

    def test_page(self):
        self.shown(valued("password", text("hunter2")))
        for words, wanted in (((), False), (("--show-secrets",), True)):
            path = self.folder / "page.html"
            self.tool("-l", "--html", path, *words)
            self.assertEqual("hunter2" in path.read_text(encoding="utf-8"), wanted)

    def test_left_out(self):
        self.programs({**salvage(interpreter([thread(1, [frame("f", rows=[{**local("n", None), "value": None}])])])), "values_left_out": 7})
        self.assertTrue(self.tool("-l")[1].endswith("            n: ?\n... 7 more values are not shown\n"))

    def test_clashes(self):
        self.shown(valued("n", number(12)))
        for words in (("--show-secrets",), ("--hide", "n", "--collapsed")):
            self.assertEqual(self.tool(*words)[0], 2)

    def test_plain_takes_no_hide(self):
        self.shown(valued("n", number(12)))
        status, _, said = self.tool("--plain", "--hide", "n")
        self.assertEqual((status, "--plain takes no --hide" in said), (2, True))


if __name__ == "__main__":
    unittest.main()
