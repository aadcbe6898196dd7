#!/usr/bin/env python3
"""Sees that the pages hold together.

    tools/check/links.py                  # compares
    tools/check/links.py --begin CRATE    # writes the page of a crate that has none, from what its files say of themselves

Each link of a page to a file leads to one, and to a heading that is there, if it names one. Each crate of crates.txt has a page, its
README.md, that names each of its modules. What is proved of it, and what is not, is then written by hand.
"""

import argparse
import re
import sys
import textwrap
from pathlib import Path
from typing import Dict, Iterator, List

ROOT = Path(__file__).resolve().parent.parent.parent
LINK = re.compile(r"\[[^]\n]*\]\(([^)\s]+)\)")
PLAIN = re.compile(r"```.*?```|`[^`\n]*`", re.DOTALL)
"""What is no text of a page: blocks and words of code."""


def pages() -> List[Path]:
    """All pages."""
    return [*sorted(ROOT.glob("*.md")), *sorted(ROOT.glob("docs/*.md")), *sorted(ROOT.glob("crates/*/README.md")), *sorted(ROOT.glob("tools/**/README.md"))]


def anchors(page: Path) -> List[str]:
    """The headings of a page, as links name them."""
    heads = re.findall(r"^#+ (.*)$", page.read_text(encoding="utf-8"), re.MULTILINE)
    return [re.sub(r"[^\w\- ]", "", it.lower()).replace(" ", "-") for it in heads]


def lost_links(page: Path) -> Iterator[str]:
    """The links of a page that lead nowhere."""
    for link in LINK.findall(PLAIN.sub("", page.read_text(encoding="utf-8"))):
        place, _, heading = link.partition("#")
        file = page.parent / place if place else page
        if "://" in link:
            continue
        if not file.exists() or (heading and file.suffix == ".md" and heading not in anchors(file)):
            yield f"{page.relative_to(ROOT)} links to {link}, which is not there"


def crates() -> Dict[str, List[str]]:
    """The crates of crates.txt, each with what it stands on."""
    lines = (ROOT / "crates.txt").read_text(encoding="utf-8").split("\n")
    heads = [it.partition(":") for it in lines if it and not it.startswith("#")]
    return {name.split()[0]: below.split() for name, _, below in heads}


def modules(crate: str) -> Dict[str, Path]:
    """The files of a crate's code but its root, by their names as modules."""
    source = ROOT / "crates" / crate / "src"
    found = {str(it.relative_to(source).with_suffix("")): it for it in sorted(source.rglob("*.rt"))}
    return {name: file for name, file in found.items() if name not in ("lib", "main")}


def said(file: Path) -> List[str]:
    """What a file says of itself, by paragraphs."""
    lines = re.match(r"(?://!.*\n)*", file.read_text(encoding="utf-8"))
    assert lines is not None
    text = re.sub(r"^//! ?", "", lines[0], flags=re.MULTILINE)
    return [it if it.startswith("|") else " ".join(it.split()) for it in text.strip().split("\n\n")]


def begun(crate: str) -> str:
    """The page of a crate without what is proved of it."""
    source = ROOT / "crates" / crate / "src"
    root = source / "lib.rt" if (source / "lib.rt").is_file() else source / "main.rt"
    texts = [it if it.startswith("|") else textwrap.fill(it, 120, break_long_words=False, break_on_hyphens=False) for it in said(root)]
    rows = [f"- `{name}`: {said(file)[0]}" for name, file in modules(crate).items()]
    listed = [textwrap.fill(it, 120, subsequent_indent="  ", break_long_words=False, break_on_hyphens=False) for it in rows]
    heads = [f"# {crate}", *texts, *(["## Modules", "\n".join(listed)] if listed else []), "## What is proved, and what is not"]
    return "\n\n".join(heads) + "\n"


def lacking(crate: str) -> Iterator[str]:
    """What the page of a crate lacks."""
    page = ROOT / "crates" / crate / "README.md"
    if not page.is_file():
        yield f"crates/{crate} has no README.md: --begin {crate} begins one"
        return
    text = page.read_text(encoding="utf-8")
    yield from (f"crates/{crate}/README.md does not name its module {it}" for it in modules(crate) if f"`{it}`" not in text)


def main() -> int:
    """The check, or a page that is begun."""
    parser = argparse.ArgumentParser(description=__doc__, formatter_class=argparse.RawDescriptionHelpFormatter)
    parser.add_argument("--begin", metavar="CRATE", help="write the page of a crate that has none")
    words = parser.parse_args()
    if words.begin:
        page = ROOT / "crates" / words.begin / "README.md"
        if page.exists() or words.begin not in crates():
            print(f"links: {words.begin} has a page, or is no crate of crates.txt")
            return 1
        page.write_text(begun(words.begin), encoding="utf-8")
        return 0
    faults = [it for page in pages() for it in lost_links(page)]
    faults += [it for crate in crates() for it in lacking(crate)]
    for fault in faults:
        print(f"links: {fault}")
    if not faults:
        print(f"links: the links of {len(pages())} pages lead to what is there, and the page of each crate names its modules")
    return 1 if faults else 0


if __name__ == "__main__":
    sys.exit(main())
