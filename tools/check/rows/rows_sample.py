"""Rows of `pystacks sample`: the words, the counts, and the core as the input of other commands."""

from typing import Iterator, List

from made import EXAMPLE
from row import Row, row
from sample_cores import LARGEST, counts_text


def rows() -> List[Row]:
    """All of them."""
    return [it for part in (words, counts) for it in part()]


def words() -> Iterator[Row]:
    """Which words are taken."""
    for what, text in (
        ("the command alone", "sample"), ("no number", "sample x"), ("a number below 0", "sample -1"), ("2^64", "sample 18446744073709551616"),
        ("another part", "sample 7 image"), ("a front of the part", "sample 7 cor"), ("a third word", "sample 7 core core"),
        ("a front of the word", "sampl 7"), ("an empty number", "sample "),
    ):
        yield row(f"sample: words: {what}", text, {"layouts": EXAMPLE.encode()}, line="bad words", status=2)


def counts() -> Iterator[Row]:
    """The three lines, with the number in decimal whatever form the word had."""
    for text, seed in (("7", 7), ("0x7", 7), ("07", 7), ("0", 0), (str(LARGEST), LARGEST), ("0xffffffffffffffff", LARGEST)):
        yield row(f"sample: {text}", f"sample {text}", {}, counts_text(seed))
