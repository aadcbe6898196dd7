"""Texts of a core within a line: what could end the line, be taken for a quote, or turn the direction of the text is escaped as
Rust's literals have it; the numbers of floats in decimal; and signals by name.
"""

import re
import struct
from typing import Optional

ODD = "\x00-\x1f\x7f-\x9f\u061c\u200e\u200f\u2028-\u202e\u2066-\u2069\ud800-\udfff"
"""What no text is shown with: control characters, what ends a line, and what turns the direction of the text around it. None of it is
printable, so that most texts need no pattern; patterns are compiled where they are first used."""

CONTROL = f"[{ODD}]"
NAME = f'["\\\\{ODD}]'
PLACE = f"[;\\\\{ODD}]"
"""What would end a place of a collapsed stack, too."""

FLOAT = r"(?<![^\[({ ])float 0x([0-9a-f]{16}|[0-9a-f]{8})(?![^\])},:])"
"""A float by its bits, within a value."""

QUOTED = r'"[^"]*"(?=$|[\])},:])'
"""A text within a value. One with quotes of its own can't be told from several."""

SIGNALS = (
    "HUP INT QUIT ILL TRAP ABRT BUS FPE KILL USR1 SEGV USR2 PIPE ALRM TERM STKFLT CHLD CONT STOP TSTP TTIN TTOU URG XCPU "
    "XFSZ VTALRM PROF WINCH IO PWR SYS").split()
"""Linux' signals from 1 on, as x86-64 and aarch64 have them."""

FIRST_REAL_TIME, LAST_SIGNAL = 34, 64


def escaped(found: "re.Match[str]") -> str:
    """A character as Rust's literals have it."""
    return f"\\u{{{ord(found.group()):x}}}"


def in_line(text: str) -> str:
    """A value or an argument within a line."""
    return text if text.isprintable() else re.sub(CONTROL, escaped, text)


def as_name(text: str) -> str:
    """A name within a line: it has neither quotes nor backslashes of its own."""
    is_plain = text.isprintable() and '"' not in text and "\\" not in text
    return text if is_plain else re.sub(NAME, escaped, text)


def as_function(text: str) -> str:
    """The name of a function at the front of a frame's line: no such line begins as one does that tells a gap."""
    name = as_name(text)
    return f"\\u{{2e}}{name[1:]}" if name.startswith("...") else name


def decimal(found: "re.Match[str]") -> str:
    """A float in decimal beside its bits."""
    digits = found.group(1)
    number = struct.unpack(">d" if len(digits) == 16 else ">f", bytes.fromhex(digits))[0]
    return f"{number!r} ({found.group()})"


def in_place(text: str) -> str:
    """A text within a place of a collapsed stack."""
    return re.sub(PLACE, escaped, text)


def with_decimals(value: str) -> str:
    """A value with its floats in decimal beside their bits. Texts within it stay as they are; and so does all of it where
    they can't be told from what is around them."""
    parts = re.split(QUOTED, value)
    if any('"' in it for it in parts):
        return value
    texts = re.findall(QUOTED, value)
    plain = [re.sub(FLOAT, decimal, it) for it in parts]
    return plain[0] + "".join(text + part for text, part in zip(texts, plain[1:]))


def signal_name(number: int) -> Optional[str]:
    """A signal's name."""
    if 1 <= number <= len(SIGNALS):
        return f"SIG{SIGNALS[number - 1]}"
    if FIRST_REAL_TIME <= number <= LAST_SIGNAL:
        return f"SIGRTMIN+{number - FIRST_REAL_TIME}" if number > FIRST_REAL_TIME else "SIGRTMIN"
    return None


HIDDEN = f"[{ODD}\ufdd0-\ufdef\ufffe\uffff]"
"""What a page shows escaped: also what is no character of HTML."""


def in_page(text: str) -> str:
    """A text of a core as a page shows it, before its markup is escaped."""
    return re.sub(HIDDEN, escaped, text)
