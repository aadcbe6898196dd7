"""A row: a run of the program, and what must come of it."""

from dataclasses import dataclass, field
from typing import Dict, Optional, Sequence, Tuple, Union


@dataclass(frozen=True)
class Row:
    """The words of a run and the files that lie in its folder; then the status, what it prints, and what it says."""

    what: str
    words: Tuple[str, ...]
    files: Dict[str, bytes]
    status: int
    out: bytes
    said: bytes
    lengths: Dict[str, int] = field(default_factory=dict)
    """Files that are this long, by a hole behind their bytes."""
    memory: Optional[int] = None
    """The most bytes of memory that the run may have, if that is limited."""
    file_size: Optional[int] = None
    """The longest file that it may write, if that is limited."""


def row(
    what: str, words: Union[str, Sequence[str]], files: Dict[str, bytes], out: Union[str, bytes] = b"",
    line: Union[str, bytes] = b"", status: Optional[int] = None, **more: object,
) -> Row:
    """A row: words with blanks between them; a text that is printed, or the line why there is none, after
    `pystacks: `. The status is 0 with a text, and else 1, if none is said."""
    out = out.encode() if isinstance(out, str) else out
    line = line.encode() if isinstance(line, str) else line
    parts = tuple(words.split(" ")) if isinstance(words, str) else tuple(words)
    said = b"pystacks: " + line + b"\n" if line else b""
    return Row(what, parts, files, (1 if line else 0) if status is None else status, out, said, **more)
