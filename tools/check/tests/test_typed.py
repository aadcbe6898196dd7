#!/usr/bin/env python3
"""What the check of types finds, over small packages."""

import contextlib
import io
import tempfile
import unittest
from pathlib import Path
from unittest import mock

import rooms  # (first: it makes the other rooms known)
import typed

RIGHT = "import sys\n\n\ndef twice(number: int) -> int:\n    return number * 2 if sys.argv else 0\n"


class Typed(unittest.TestCase):
    """A folder of a package and its scripts."""

    def checked(self, text):
        """The status and what is printed of a package that has this module."""
        with tempfile.TemporaryDirectory(prefix="typed-") as name:
            package = Path(name) / "pystacks_tool"
            package.mkdir()
            for script in typed.SCRIPTS:
                (Path(name) / f"{script}.py").write_text("")
            (package / "__init__.py").write_text("")
            (package / "one.py").write_text(text)
            with mock.patch("typed.TOOLS", Path(name)), contextlib.redirect_stdout(io.StringIO()) as out:
                return typed.main(), out.getvalue()

    @unittest.skipUnless(typed.python_with("mypy"), "there is no mypy")
    def test_types(self):
        self.assertEqual(self.checked(RIGHT)[0], 0)
        for wrong in (RIGHT.replace("-> int", "-> str"), RIGHT.replace("number: int", "number"), RIGHT.replace("-> int", "")):
            status, out = self.checked(wrong)
            self.assertEqual(status, 1, out)
            self.assertIn("typed: pystacks_tool/one.py:", out)

    @unittest.skipUnless(typed.python_with("pyflakes"), "there is no pyflakes")
    def test_names(self):
        status, out = self.checked(RIGHT.replace("import sys", "import os, sys"))
        self.assertEqual((status, "'os' imported but unused" in out), (1, True), out)
        self.assertEqual(self.checked(f"import rooms\n{RIGHT}")[1].count("rooms"), 1 if typed.python_with("mypy") else 0)

    def test_skipped(self):
        with mock.patch("typed.python_with", return_value=None):
            status, out = self.checked("")
        self.assertEqual((status, out.count("typed: skipped: there is no ")), (0, 2))


if __name__ == "__main__":
    unittest.main(verbosity=0)
