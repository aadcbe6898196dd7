#!/usr/bin/env python3
"""Sees that what docs/HEADLINE.md quotes of the sources is what they say today.

    tools/check/quotes.py            # compares
    tools/check/quotes.py --write    # writes the quotes anew

A quote is a block of code behind a line `<!-- FILE NAME.. -->`. It has the definitions of these names as they stand in
the file, one after the other, up to the empty line that ends each, without the space before their lines. Of a file of
code (`.rt`) a name is that of a clause.
"""

import re
import sys
import textwrap
from pathlib import Path
from typing import Iterator, List

ROOT = Path(__file__).resolve().parent.parent.parent
PAGE = ROOT / "docs" / "HEADLINE.md"
QUOTE = re.compile(r"(?P<head><!-- (?P<file>\S+) (?P<names>[^>]+?) -->\n\n```\n)(?P<body>.*?)(?P<tail>```\n)", re.DOTALL)
DEFINES = r"^ *(?:(?:abbrev|unfoldable|pub|record|data) )+{name}(?=[ :])"
CLAUSE = r"^ *ensures {name} "


class NoDefinition(Exception):
    """A name that the file doesn't define."""


def definition(lines: List[str], name: str, pattern: str) -> Iterator[str]:
    """The lines of a definition, up to the empty line behind it, or to the next clause."""
    start = next((at for at, line in enumerate(lines) if re.match(pattern.format(name=re.escape(name)), line)), None)
    if start is None:
        raise NoDefinition(name)
    for at, line in enumerate(lines[start:]):
        is_next = at > 0 and (line.lstrip().startswith(("ensures ", "// ")) or line == "{")
        if not line.strip() or is_next:
            return
        yield line


def quoted(file: str, names: List[str]) -> str:
    """What a block has to be."""
    lines = (ROOT / file).read_text(encoding="utf-8").split("\n")
    pattern = CLAUSE if file.endswith(".rt") else DEFINES
    parts = [textwrap.dedent("\n".join(definition(lines, name, pattern))) for name in names]
    return "\n\n".join(parts) + "\n"


def main(words: List[str]) -> int:
    """The check, or the page written anew."""
    page, faults = PAGE.read_text(encoding="utf-8"), []

    def renewed(match: "re.Match[str]") -> str:
        try:
            body = quoted(match["file"], match["names"].split())
        except (NoDefinition, OSError) as error:
            faults.append(f"{match['file']} has no {error}")
            return match[0]
        if body != match["body"]:
            faults.append(f"{match['names']} of {match['file']} is not as it stands there")
        return match["head"] + body + match["tail"]

    new = QUOTE.sub(renewed, page)
    count = len(QUOTE.findall(page))
    if words == ["--write"]:
        PAGE.write_text(new, encoding="utf-8")
        faults = [it for it in faults if " has no " in it]
    for fault in faults:
        print(f"quotes: {fault} (docs/HEADLINE.md; --write writes the quotes anew)")
    if not faults:
        print(f"quotes: all {count} quotes of docs/HEADLINE.md are as the sources have them")
    return 1 if faults or count == 0 else 0


if __name__ == "__main__":
    sys.exit(main(sys.argv[1:]))
