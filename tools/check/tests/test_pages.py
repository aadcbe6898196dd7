#!/usr/bin/env python3
"""That pages.py notices a page that doesn't do what it should: each is changed in one place. It needs a Chromium."""

import os
import shutil
import tempfile
import unittest
from pathlib import Path
from unittest import mock

import rooms  # (first: it makes the other rooms known)

from pystacks_tool.show import page as page_module
from browser import Browser, browser_path
from pystacks_tool.show.text import Style
from pages import Failure, check_page, wide

SCRIPTS = (
    ("rows.sort(function", "[].sort(function", "isn't sorted"),
    ("down ? -by : by", "by", "isn't sorted after 2"),
    (".indexOf(text) < 0", ".indexOf(text) > 0", "a search for"),
    ('found.set(row, lower(row) + " " + (own.get(part(row)) || ""));', "found.set(row, lower(row));", "a search for"),
    ("shown = hide(parts, text)", "shown = parts.length", "stacks wrongly"),
    ("it.open = it.open || ", "it.open = it.open && ", "opens nothing"),
    ("it[0] <= at && at < it[1]", "it[0] <= at && at <= it[1]", "threads"),
    ('event.key === "Enter"', 'event.key === "F1"', "Enter doesn't show"),
    ("it[2] < own[2] && own[0]", "it[2] > own[2] && own[0]", "an arrow doesn't lead"),
    ('"use strict";', '"use strict"; console.error("no");', "it complains"),
    ("find.hidden = false;", "find.hidden = false; fetch(\"https://example.invalid/\").catch(function () {});", "it complains"),
)
"""Changes of the script, and what is to be said of them."""

MARKUP = (
    ('width="1200"', 'width="1100"', "wide"),
    ('data-n="8"', 'data-n="12"', "wide"),
    ("</main>", "<script>document.title = 'x';</script></main>", "another script"),
    ("</main>", "<img src=\"file:///none.png\" alt=\"\"></main>", "it complains"),
    ('<p id="find" hidden>', '<p id="find">', "without scripts"),
)
"""Changes of the page itself."""


@unittest.skipUnless(browser_path(), "there is no Chromium")
class Noticed(unittest.TestCase):
    """Pages that are wrong in one place."""

    @classmethod
    def setUpClass(cls):
        cls.folder = tempfile.TemporaryDirectory(prefix="pages-")
        cls.browser = Browser(browser_path())
        cls.page = Path(os.path.realpath(cls.folder.name)) / "page.html"

    @classmethod
    def tearDownClass(cls):
        cls.browser.__exit__()
        cls.folder.cleanup()

    def tried(self, page):
        """What is said of a page; nothing of a right one."""
        self.page.write_text(page, encoding="utf-8")
        try:
            check_page(self.browser, self.page)
        except Failure as reason:
            return str(reason)
        return ""

    def test_right(self):
        self.assertEqual(self.tried(page_module.report_page(wide(), Style())), "")

    def test_scripts(self):
        for old, new, line in SCRIPTS:
            self.assertEqual(page_module.SCRIPT.count(old), 1, old)
            with mock.patch.object(page_module, "SCRIPT", page_module.SCRIPT.replace(old, new)):
                said = self.tried(page_module.report_page(wide(), Style()))
            self.assertIn(line, said or "nothing", old)

    def test_markup(self):
        page = page_module.report_page(wide(), Style())
        for old, new, line in MARKUP:
            self.assertTrue(old in page, old)
            self.assertIn(line, self.tried(page.replace(old, new, 1)) or "nothing", old)

    @unittest.skipUnless(shutil.which("tidy"), "there is no tidy")
    def test_tidy(self):
        page = page_module.report_page(wide(), Style())
        self.assertIn("tidy says", self.tried(page.replace("</main>", "</i></main>", 1)))

    def test_dark(self):
        style = page_module.STYLE.replace("prefers-color-scheme: dark", "max-width: 1px").replace("light dark", "light")
        with mock.patch.object(page_module, "STYLE", style):
            self.assertIn("light and dark are the same", self.tried(page_module.report_page(wide(), Style())))


if __name__ == "__main__":
    unittest.main(verbosity=0)
