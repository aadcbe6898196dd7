#!/usr/bin/env python3
"""Sees that docs/DEFINITIONS.md is the glossary of the specs, or writes it.

    tools/check/definitions.py             # compares
    tools/check/definitions.py --write     # writes the page
    tools/check/definitions.py --strict    # compares, and fails on what has no comment, and on more than LOOSE that no clause leads to

An entry is a public definition of crates/CRATE/specs/MODULE.antt: its name, its type if that is short, its kind, the comment right
above it, and the public calls whose clauses name it. The end of the page lists what no public clause leads to: by the names in it, and in
the definitions that they lead to.
"""

import argparse
import re
import sys
import textwrap
from dataclasses import dataclass, field
from pathlib import Path
from typing import Dict, Iterator, List, Set, Tuple, Union

ROOT = Path(__file__).resolve().parent.parent.parent
PAGE = ROOT / "docs" / "DEFINITIONS.md"
WIDTH = 120

SHORT = 48
"""A type of at most so many characters is shown."""

LOOSE = 105
"""So many definitions may serve proofs alone: no clause leads to them, neither of a public call nor of a private one."""

MOST = 4
"""So many calls are named that cite a definition; the others are counted."""

HEAD = """\
# Definitions

`tools/check/definitions.py --write` generates this page from the comments of the specs, and the gate compares it. Don't change it
here. Change the comment in the spec, and write the page anew; do so after a merge, too.

- It has each public definition with its comment, by crate and by file. Those that serve private clauses and proofs are listed at the end.
- An entry has the name, the type if that is short, the kind, the comment, and the public calls whose clauses name it.
- The kinds are the source's. An `abbrev` or an `unfoldable` is a function or a value. A `record` has fields, `data` has cases.
- "The same" and "by" in a comment refer to the definition above it.
- [HEADLINE.md](HEADLINE.md) explains the words that comments use: member, skipped, mark, fault, piece, range, holder.
- The README.md of a crate says what its public calls are proved to do.
"""

STARTS = re.compile(r" *(?:(?P<kind>abbrev|unfoldable) pub|pub (?P<type>record|data)) (?!use )(?P<name>[^\s:]+)(?P<rest>.*)")
INNER = re.compile(r"  pub (?!record |data |use |mod )(?P<name>[^\s:]+)(?P<rest>.*)")
"""A function in a block of definitions that need each other."""

FIELD = re.compile(r"  +(?:pub )?([^\s:]+) : ")
"""A field of a record, or a case of data."""

BLOCK = re.compile(r"(\w*) ?mutual$")
USED = re.compile(r"use Rattle\.([a-z0-9_]+)\.specs\.([\w.]+?)(?:\.\{([^}]*)\}| as (\w+))?;?$", re.MULTILINE)
WORD = re.compile(r"[A-Za-z_]\w*|◌[^\s,}]+◌")
CLAUSED = re.compile(r"^( *)(?:pub fn|fn) .*?(?=^\1\{|;$)|^ *ghost \w+ ?[=:] ?\{.*?\};", re.MULTILINE | re.DOTALL)
"""A function's head with its clauses, and what a type or a trait means."""

OWNER = re.compile(r"^(?:impl(?:<.*?>)? (?:.* for )?&?(?:mut )?|pub trait |pub struct |pub enum )(\w+)|^}", re.MULTILINE)
"""Where the body of a type or a trait begins, or one ends."""

Key = Tuple[str, str]
"""A module, as CRATE.MODULE, and a name in it."""


@dataclass
class Entry:
    """A public definition."""

    module: str
    name: str
    kind: str
    type: str
    comment: str
    fields: List[str] = field(default_factory=list)
    words: Set[str] = field(default_factory=set)
    cited: List[str] = field(default_factory=list)

    def lines(self) -> List[str]:
        """The entry as the page has it."""
        by = [f"`{it}`" for it in self.cited[:MOST]] + ([f"{len(self.cited) - MOST} more"] if len(self.cited) > MOST else [])
        head = f"`{self.name}{self.type if len(self.type) <= SHORT else ''}`"
        told = f"- {head}, {self.kind}{': ' + ended(self.comment) if self.comment else '.'}" + (f" Cited by {', '.join(by)}." if by else "")
        return [line for it in [told, *self.fields] for line in wrapped(it, "    " if it.startswith("  ") else "  ")]


Part = Union[Entry, str]
"""A definition, or a text that stands apart from them."""


@dataclass
class Module:
    """A file of specs: what its head says, its parts in order, and what it brings: names, and modules as a whole."""

    crate: str
    name: str
    head: str
    parts: List[Part]
    names: Dict[str, Key]
    wholes: List[str]

    def lines(self) -> List[str]:
        """What the page has of it: nothing where nothing has a comment."""
        parts = [it for it in self.parts if isinstance(it, str) or it.comment or it.fields]
        if not parts and not self.head:
            return []
        lines = ["", f"### {self.crate}/specs/{self.name.replace('.', '/')}.antt", ""]
        lines += [*wrapped(self.head), ""] if self.head else []
        for it in parts:
            is_text = isinstance(it, str)
            lines += [""] if is_text and lines[-1] else []
            lines += [*wrapped(it), ""] if isinstance(it, str) else it.lines()
        return lines[:-1] if not lines[-1] else lines


def wrapped(text: str, indent: str = "") -> List[str]:
    """The lines of a text."""
    return textwrap.wrap(text, WIDTH, subsequent_indent=indent, break_long_words=False, break_on_hyphens=False)


def ended(text: str) -> str:
    """A text with a stop at its end."""
    return text if text.endswith((".", ":", ";")) else f"{text}."


def titled(text: str) -> str:
    """A text as the title of what follows it."""
    return f"**{text[:1].upper()}{text[1:]}**"


def said(lines: List[str]) -> str:
    """A comment as one line of the page, where no sign in it is read as a mark."""
    text = " ".join(re.sub(r"^ *--( ----)? ?", "", it).strip() for it in lines)
    plain = re.split(r"(`[^`]*`)", text)
    return "".join(it if it.startswith("`") else re.sub(r"[<*]|__", lambda found: f"\\{found[0]}", it) for it in plain)


def used(text: str) -> Tuple[Dict[str, Key], List[str]]:
    """What the lines `use` of a file bring: names, each with where it comes from, and modules as a whole."""
    names: Dict[str, Key] = {}
    wholes: List[str] = []
    for crate, module, brought, alias in USED.findall(text):
        for it in filter(None, re.split(r",\s*", brought.strip())):
            name, _, renamed = it.partition(" as ")
            names[renamed or name] = (f"{crate}.{module}", name)
        wholes += [f"{crate}.{module}"] if alias else []
    return names, wholes


def type_of(found: "re.Match[str]", behind: List[str], is_function: bool) -> str:
    """The type of a definition that has these lines behind its first one."""
    own = [found["rest"].strip()]
    for line in behind if is_function else []:
        if line.strip().startswith(f"{found['name']} ") or not line.startswith(" "):
            break
        own.append(line.strip())
    text = " ".join(own) if is_function else own[0].replace(" where", "")
    return f" {text}" if text else ""


def entry_at(module: str, lines: List[str], at: int, block: str, comment: str) -> Union[Entry, None]:
    """The definition that begins in a line, in a block of definitions or in none."""
    found = STARTS.match(lines[at])
    if found:
        kind = found["kind"] or found["type"]
        return Entry(module, found["name"], kind, type_of(found, lines[at + 1 :], bool(found["kind"])), comment)
    found = INNER.match(lines[at]) if block else None
    return Entry(module, found["name"], block, type_of(found, lines[at + 1 :], True), comment) if found else None


def parts_of(module: str, text: str) -> Tuple[str, List[Part]]:
    """What the head of a file says, and its parts in order."""
    head, block = "", ""
    parts: List[Part] = []
    comment: List[str] = []
    lines = text.split("\n")
    for at, line in enumerate(lines):
        opens = BLOCK.match(line)
        block = (opens[1] or "unfoldable") if opens else block if line.startswith((" ", "--")) or not line else ""
        if line.startswith(("--", "  --", "    --")) or (comment and line.startswith("infix")):
            comment += [line] if line.lstrip().startswith("--") else []
            continue
        entry = entry_at(module, lines, at, block, said(comment))
        inner = FIELD.match(line)
        if entry:
            parts.append(entry)
        elif comment and inner and parts and isinstance(parts[-1], Entry):
            parts[-1].fields.append(f"  - `{inner[1]}`: {ended(said(comment))}")
        elif comment and line.startswith(("use ", "pub ")) and not parts:
            head = said(comment)
        elif comment and not line.strip():
            parts.append(titled(said(comment)) if re.match(r" *-- ----", comment[0]) else ended(said(comment)))
        comment = []
        if parts and isinstance(parts[-1], Entry):
            parts[-1].words.update(WORD.findall(line.partition("--")[0]))
    return head, parts


def modules() -> Dict[str, Module]:
    """The files of all specs."""
    found = {}
    for file in sorted(ROOT.glob("crates/*/specs/**/*.antt")):
        crate, _, *places = file.relative_to(ROOT / "crates").with_suffix("").parts
        name = ".".join(places)
        text = file.read_text(encoding="utf-8")
        found[f"{crate}.{name}"] = Module(crate, name, *parts_of(f"{crate}.{name}", text), *used(text))
    return found


def call_of(text: str, at: int, head: str) -> str:
    """What a call or a meaning that begins at a place is named by, with its type; nothing of what is private."""
    before = list(OWNER.finditer(text, 0, at))
    owner = before[-1] if before and head.startswith(" ") and before[-1][1] else None
    name = re.match(r" *(pub )?fn (\w+)", head)
    if name is None:
        return owner[1] if owner else "a type"
    line = text[owner.start() : text.find("\n", owner.start())] if owner else ""
    is_of_trait = " for " in line or line.startswith("pub trait")
    if not name[1] and not is_of_trait:
        return ""
    return f"{owner[1]}::{name[2]}" if owner else name[2]


class Specs:
    """All definitions, and what each leads to."""

    def __init__(self) -> None:
        self.modules = modules()
        entries = [it for each in self.modules.values() for it in each.parts if isinstance(it, Entry)]
        self.by_key: Dict[Key, Entry] = {(it.module, it.name): it for it in entries}

    def origin(self, key: Key) -> Key:
        """Where a name is defined that a module hands on."""
        seen = set()
        while key not in self.by_key and key not in seen and key[0] in self.modules and key[1] in self.modules[key[0]].names:
            seen.add(key)
            key = self.modules[key[0]].names[key[1]]
        return key

    def meant(self, words: Set[str], own: str, names: Dict[str, Key], wholes: List[str]) -> Set[Key]:
        """The definitions that some words mean, in the file of a module that brings these names and modules."""
        places = [(own, word) for word in words] + [names[word] for word in words if word in names]
        places += [(whole, word) for whole in wholes for word in words]
        return {it for it in map(self.origin, places) if it in self.by_key}

    def cite(self) -> Tuple[Set[Key], Set[Key]]:
        """Notes at each definition the public calls whose clauses name it. Gives all that are named so, and all that any clause names."""
        found: Set[Key] = set()
        every: Set[Key] = set()
        for file in sorted(ROOT.glob("crates/*/src/**/*.rt")):
            text = file.read_text(encoding="utf-8")
            names, wholes = used(text)
            for head in CLAUSED.finditer(text):
                call = call_of(text, head.start(), head[0])
                meant = self.meant(set(WORD.findall(head[0])), "", names, wholes)
                every |= meant
                for key in meant if call else ():
                    found.add(key)
                    if call not in self.by_key[key].cited:
                        self.by_key[key].cited.append(call)
        return found, every

    def led(self, left: Set[Key]) -> Set[Key]:
        """All that these definitions lead to, they themselves too."""
        found: Set[Key] = set()
        while left:
            key = left.pop()
            if key not in found:
                found.add(key)
                module = self.modules[key[0]]
                left.update(self.meant(self.by_key[key].words, key[0], module.names, module.wholes))
        return found


def listed(heading: str, why: str, entries: List[Entry], count: int) -> Iterator[str]:
    """Names by their files, below a heading."""
    yield from ["", f"## {heading}", "", f"{len(entries)} of {count} public definitions. {why}", ""]
    by: Dict[str, List[str]] = {}
    for it in entries:
        by.setdefault(it.module.replace(".", "/", 1), []).append(f"`{it.name}`")
    for module, names in by.items():
        yield from wrapped(f"- {module}: {', '.join(names)}", "  ")


def page_of(specs: Specs, bare: List[Entry], unled: List[Entry]) -> str:
    """The page."""
    lines, crate = [HEAD.rstrip("\n")], ""
    for it in specs.modules.values():
        own = it.lines()
        lines += ["", f"## {it.crate}"] if own and it.crate != crate else []
        crate = it.crate if own else crate
        lines += own
    count = len(specs.by_key)
    lines += listed("Without a comment", "Each has to get one.", bare, count) if bare else []
    lines += listed("To which no public clause leads", "They serve the clauses of private functions, and proofs.", unled, count)
    return "\n".join(lines) + "\n"


def main() -> int:
    """The check, or the page written anew."""
    parser = argparse.ArgumentParser(description=__doc__, formatter_class=argparse.RawDescriptionHelpFormatter)
    parser.add_argument("--write", action="store_true", help="write the page")
    parser.add_argument("--strict", action="store_true", help="fail on what has no comment, and on too many that no clause leads to")
    words = parser.parse_args()
    specs = Specs()
    public, every = specs.cite()
    led, reached = specs.led(public), specs.led(every)
    bare = [it for it in specs.by_key.values() if not it.comment]
    unled = [it for key, it in specs.by_key.items() if key not in led]
    page = page_of(specs, bare, unled)
    if words.write:
        PAGE.write_text(page, encoding="utf-8")
    is_same = PAGE.is_file() and PAGE.read_text(encoding="utf-8") == page
    faults = [] if is_same else ["docs/DEFINITIONS.md is not what the specs say: --write writes it anew"]
    faults += [f"{it.module}.{it.name} has no comment" for it in bare] if words.strict else []
    loose = [f"no clause leads to {it.module}.{it.name}" for key, it in specs.by_key.items() if key not in reached]
    faults += loose if words.strict and len(loose) > LOOSE else []
    for fault in faults:
        print(f"definitions: {fault}")
    if not faults:
        print(f"definitions: docs/DEFINITIONS.md has the {len(specs.by_key)} public definitions of the specs, {len(bare)} without a comment")
    return 1 if faults or not specs.by_key else 0


if __name__ == "__main__":
    sys.exit(main())
