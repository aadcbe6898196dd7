#!/usr/bin/env python3
"""The checks of pages: what the glossary takes of specs and of clauses, and what is said of links and of crates' pages."""

import tempfile
import unittest
from pathlib import Path

import rooms  # (first: it makes the other rooms known)
import definitions
import links
from definitions import Entry, Specs, call_of, parts_of, used

SPEC = """\
-- Numbers of a file.
-- The rule is this project's own.
use Rattle.below.specs.Base.{base, other as renamed}

-- the first number
abbrev pub first : List ℕ → ℕ
first bytes = base bytes

unfoldable pub second : {T : Type 0} → List ℕ
    → ℕ
second bytes = first bytes

-- ---- records

-- what is <kept>
pub record Kept (bytes : List ℕ) : Type 0 where
  -- the name
  pub name : List ℕ
  pub size : ℕ

unfoldable mutual
  -- how many there are
  pub count : Tree → ℕ
  count t = 1
"""

CODE = """\
ghost use Rattle.top.specs.Numbers.{first};

impl Reader {
    pub fn first(&self) -> u64
        ensures { result ≡ first self.now }
    {
    }

    fn hidden(&self) -> u64
        ensures { result ≡ first self.now }
    {
    }
}

pub fn alone() -> u64
    ensures { ⊤ }
{
}
"""


class Specifications(unittest.TestCase):
    def test_entries(self):
        """Each public definition is there, with the comment above it, its fields' and its kind."""
        head, parts = parts_of("top.Numbers", SPEC)
        self.assertEqual(head, "Numbers of a file. The rule is this project's own.")
        entries = [it for it in parts if isinstance(it, Entry)]
        told = [(it.name, it.kind, it.type, it.comment) for it in entries]
        self.assertEqual(told[0], ("first", "abbrev", " : List ℕ → ℕ", "the first number"))
        self.assertEqual(told[1], ("second", "unfoldable", " : {T : Type 0} → List ℕ → ℕ", ""))
        self.assertEqual(told[2], ("Kept", "record", " (bytes : List ℕ) : Type 0", "what is \\<kept>"))
        self.assertEqual(told[3], ("count", "unfoldable", " : Tree → ℕ", "how many there are"))
        self.assertEqual(entries[2].fields, ["  - `name`: the name."])
        self.assertEqual([it for it in parts if isinstance(it, str)], ["**Records**"])
        self.assertIn("first", entries[1].words)

    def test_lines(self):
        """An entry ends with a stop, and names four calls at most."""
        entry = Entry("a.B", "name", "abbrev", " : ℕ", "what it is", cited=["a", "b", "c", "d", "e", "f"])
        self.assertEqual(entry.lines(), ["- `name : ℕ`, abbrev: what it is. Cited by `a`, `b`, `c`, `d`, 2 more."])

    def test_used(self):
        names, wholes = used(SPEC + "use Rattle.below.specs.Whole as whole\n")
        self.assertEqual(names, {"base": ("below.Base", "base"), "renamed": ("below.Base", "other")})
        self.assertEqual(wholes, ["below.Whole"])

    def test_calls(self):
        """Public calls and those of traits are named, with their type; private ones are not."""
        found = [call_of(CODE, it.start(), it[0]) for it in definitions.CLAUSED.finditer(CODE)]
        self.assertEqual(found, ["Reader::first", "", "alone"])
        clause = "impl Memory for Part {\n    fn read(&self)\n    {\n"
        self.assertEqual([call_of(clause, it.start(), it[0]) for it in definitions.CLAUSED.finditer(clause)], ["Part::read"])

    def test_led(self):
        """What a definition leads to is led to, by what its file brings."""
        specs = Specs.__new__(Specs)
        parts = [Entry("a.B", it, "abbrev", "", "", words={other}) for it, other in (("one", "two"), ("two", "far"), ("three", "one"))]
        far = Entry("c.D", "far", "abbrev", "", "")
        specs.modules = {"a.B": definitions.Module("a", "B", "", list(parts), {"far": ("c.D", "far")}, []),
                         "c.D": definitions.Module("c", "D", "", [far], {}, [])}
        specs.by_key = {(it.module, it.name): it for it in [*parts, far]}
        self.assertEqual(specs.led({("a.B", "one")}), {("a.B", "one"), ("a.B", "two"), ("c.D", "far")})


class Pages(unittest.TestCase):
    def test_links(self):
        """A link to a file, or to a heading, that isn't there is told; one in code, or to another host, is not."""
        with tempfile.TemporaryDirectory() as folder:
            page = Path(folder) / "page.md"
            page.write_text("# A page: its `head`\n[a](#a-page-its-head) [b](other.md) `[c](none.md)` [d](https://host/x) [e](page.md#none)\n", encoding="utf-8")
            before, links.ROOT = links.ROOT, Path(folder)
            try:
                lost = list(links.lost_links(page))
            finally:
                links.ROOT = before
        self.assertEqual(lost, ["page.md links to other.md, which is not there", "page.md links to page.md#none, which is not there"])

    def test_crates(self):
        """Each crate has a page; one that isn't there is told."""
        self.assertIn("pystacks", links.crates())
        self.assertEqual(list(links.lacking("pystacks")), [])
        begun = links.begun("native_pairs")
        self.assertTrue(begun.startswith("# native_pairs\n\n") and begun.endswith("## What is proved, and what is not\n"))
        self.assertEqual([it for it in links.modules("native_pairs") if f"- `{it}`: " not in begun], [])
        self.assertEqual(list(links.lacking("no_such_crate")), ["crates/no_such_crate has no README.md: --begin no_such_crate begins one"])


if __name__ == "__main__":
    unittest.main()
