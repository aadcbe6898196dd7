"""Tries Pythons side by side, as many at a time as there are processors, and tells of each in order."""

import os
from concurrent.futures import ThreadPoolExecutor
from typing import Callable, Iterator, Sequence, Tuple, Type

from child_cores import Failure


def each_python(tried: Callable[[str], str], found: Sequence[str]) -> Iterator[Tuple[str, Callable[[], str]]]:
    """Each Python in order, with what gives the line that tells of it, or raises why there is none."""
    with ThreadPoolExecutor(os.cpu_count() or 1) as pool:
        waiting = [(python, pool.submit(tried, python)) for python in found]
        for python, answer in waiting:
            yield python, answer.result


def tell_each(name: str, tried: Callable[[str], str], found: Sequence[str], passed_by: Tuple[Type[Exception], ...] = (),
              begins: str = "{name}: ") -> int:
    """Tells of each Python in order in a line that begins so, and answers how many failed.

    One that raises any of `passed_by` has a line that says why it is skipped, and fails nothing.
    """
    failed = 0
    for python, told in each_python(tried, found):
        try:
            print(begins.format(name=name, python=python) + told(), flush=True)
        except passed_by as reason:
            print(f"{name}: skipped: {python}: {getattr(reason, 'brief', reason)}", flush=True)
        except Failure as reason:
            failed += 1
            print(f"{name}: FAILED: {python}: {reason}", flush=True)
    return failed
