#!/usr/bin/env python3
"""Sees that all that tells a version tells the one of tools/pystacks_tool/version.py.

    tools/check/versions.py

That are `pysalvage`, whose constant is proved to be that of its spec, its row, and the newest part of CHANGELOG.md.
"""

import re
import sys
from typing import Iterator, Tuple

from rooms import ROOT

OWN = "tools/pystacks_tool/version.py"

PLACES = (
    (OWN, r'^VERSION = "(.*)"$'),
    ("crates/salvage_report/src/help.rt", r'b"pysalvage ([^\\"]*)\\n"'),
    ("crates/salvage_report/specs/Texts.antt", r'^program_version = codes "pysalvage ([^\\"]*)\\n"$'),
    ("tools/check/rows/rows_salvage.py", r'"--version", \{\}, "pysalvage ([^\\"]*)\\n"'),
    ("CHANGELOG.md", r"\A(?:(?!^## ).*\n)*?^## (\S+)$"),
)
"""The files that have a version, each with what it looks like there: exactly once."""


def versions() -> Iterator[Tuple[str, str]]:
    """The version of each file; a dash where it isn't there once."""
    for name, pattern in PLACES:
        found = re.findall(pattern, (ROOT / name).read_text(encoding="utf-8"), re.MULTILINE)
        yield name, found[0] if len(found) == 1 else "-"


def main() -> int:
    """The check."""
    told = dict(versions())
    wrong = {name: version for name, version in told.items() if version == "-" or version != told[OWN]}
    for name, version in wrong.items():
        print(f"versions: {name} has {version}, and {OWN} has {told[OWN]}")
    if not wrong:
        print(f"versions: {len(told)} places have {told[OWN]}")
    return 1 if wrong else 0


if __name__ == "__main__":
    sys.exit(main())
