#!/usr/bin/env python3
"""Sees that the table of records in docs/LAYOUTS.md is that of records_plan.py, or writes it.

    tools/layouts/records_table.py            # compares
    tools/layouts/records_table.py --write    # writes the table anew

A row has a group's name, CPython's struct (none where constants alone, or bytes before an object, tell), the versions, and the keys.
"""

import re
import sys
from pathlib import Path
from typing import Dict, List

from layout_plan import Field
from records_plan import FIRST, LAST, RECORDS, THREE, Record

PAGE = Path(__file__).resolve().parent.parent.parent / "docs" / "LAYOUTS.md"
HEAD = "<!-- tools/layouts/records_table.py --write -->\n\n| group | CPython's struct | versions | keys |\n|---|---|---|---|\n"
SPELLED = {"dequeobject.leftblock*": "block"}
"""Structs that the plan can only reach by a field."""

TABLE = re.compile(re.escape(HEAD) + r"(?:\|.*\n)*")


def version_text(version: "tuple[int, int]") -> str:
    """A version as people write it."""
    return f"{version[0]}.{version[1]}"


def versions(records: List[Record]) -> str:
    """The versions that have a group, which several records describe one after the other."""
    first, last = records[0].first, records[-1].last
    if (first, last) == (FIRST, LAST):
        return "all"
    if last == LAST:
        return "3.13" if first == LAST else f"from {version_text(first)}"
    if first in (FIRST, THREE):
        whole = f"to {version_text(last)}"
        return whole if first == FIRST else f"3.6 {whole}"
    return version_text(first) if first == last else f"{version_text(first)} to {version_text(last)}"


def key_text(key: str, width: int, is_plain: bool, is_constant: bool) -> str:
    """A key, with its width if that isn't 8 bytes."""
    return key + (" c" if is_constant else " p" if is_plain else f":{width}" if width != 8 else "")


def keys(records: List[Record]) -> str:
    """The keys of a group, its size first. The last record that has one says how wide it is."""
    found: Dict[str, str] = {}
    for record in records:
        if record.size:
            found["size"] = "size"
        for key, _, width in [] if record.is_python else record.members():
            found[key] = key_text(key, width, not width, False)
        if record.is_python:
            found.update({key: key for key, _, _ in record.members()})
        others: List[Field] = list(record.others)
        for it in others:
            key = it.key.partition(".")[2]
            plain = bool(it.struct) and not it.width
            found[key] = key_text(key, it.width or 8, plain, "bit" in key)
        found.update({key: f"{key} c" for key, _ in record.constants})
    return ", ".join(found.values())


def rows() -> str:
    """The table's rows, in the order of the plan."""
    groups: Dict[str, List[Record]] = {}
    for record in RECORDS:
        groups.setdefault(record.name, []).append(record)
    found = []
    for name, records in groups.items():
        structs = dict.fromkeys(it.struct.replace("struct ", "") for it in records)
        struct = ", ".join(f"`{SPELLED.get(it, it)}`" for it in structs if it) or "none"
        found.append(f"| `{name}` | {struct} | {versions(records)} | {keys(records)} |\n")
    return "".join(found)


def main(words: List[str]) -> int:
    """The check, or the table written anew."""
    page = PAGE.read_text(encoding="utf-8")
    if not TABLE.search(page):
        print("records_table: docs/LAYOUTS.md has no table of records")
        return 1
    written = TABLE.sub(lambda _: HEAD + rows(), page)
    if words == ["--write"]:
        PAGE.write_text(written, encoding="utf-8")
        return 0
    if written != page:
        print("records_table: the table of docs/LAYOUTS.md is another one: tools/layouts/records_table.py --write")
        return 1
    print(f"records_table: {len(set(it.name for it in RECORDS))} groups, as the plan has them")
    return 0


if __name__ == "__main__":
    sys.exit(main(sys.argv[1:]))
