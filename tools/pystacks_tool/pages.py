"""The root of the tool's files, in the repository or in a folder that was installed, and the pages of docs below it."""

import os
import re

ROOT = os.path.dirname(os.path.dirname(os.path.dirname(os.path.realpath(__file__))))

NAMED = re.compile(r"(?<![\w/])docs/[A-Z]+\.md")
"""A page within a line, by its name in the repository."""


def with_places(text: str) -> str:
    """A text in which each page that it names stands with its place."""
    return NAMED.sub(lambda found: os.path.join(ROOT, found.group()), text)
