"""What `pysalvage --waits` told of what threads wait for: a line at each thread, and the rings of threads that wait for each other."""

from typing import Dict, Iterator, List, Mapping, Optional, Sequence, Set, Tuple

from pystacks_tool.ask.dump import Tree
from pystacks_tool.model import Interpreter, Report, Thread, Wait
from pystacks_tool.show.escape import in_line

FLAG = "--waits"
"""The section's flag."""

KEY = "waits"
"""Its key in the JSON."""

WORDS = {"gil": "the GIL", "lock": "Lock", "rlock": "RLock", "queue": "SimpleQueue"}
"""What is waited for, in words."""

Edges = Mapping[Tuple[int, int], Tuple[int, int]]
"""Threads by interpreter and id, each with the one that holds what it waits for."""


def wait_of(tree: Optional[Tree]) -> Optional[Wait]:
    """What a thread waits for, where that is known."""
    if tree is None:
        return None
    return Wait(WORDS[tree["kind"]], tree.get("address", ""), tree.get("owner"))


def label_of(number: int, threads: Mapping[int, Thread]) -> str:
    """A thread of an interpreter in words, by its id."""
    thread = threads.get(number)
    if thread is None:
        return f"thread 0x{number:X}"
    return f"thread {thread.label}" + ("" if thread.name is None else f' "{in_line(thread.name)}"')


def words_of(wait: Wait, threads: Mapping[int, Thread]) -> str:
    """What is waited for in words: its kind, its address, and who holds it."""
    owner = "" if wait.owner is None else f" of {label_of(wait.owner, threads)}"
    return f"{wait.kind}{f' {wait.address}' if wait.address else ''}{owner}"


def with_waits(interpreter: Interpreter, told: Mapping[int, Optional[Wait]]) -> Interpreter:
    """An interpreter, with what its threads wait for."""
    by_number = {it.number: it for it in interpreter.threads}
    threads = []
    for it in interpreter.threads:
        wait = told.get(it.number)
        threads.append(it if wait is None else it._replace(wait=wait, waits=words_of(wait, by_number)))
    return interpreter._replace(threads=tuple(threads))


def told_in(trees: Sequence[Tree]) -> Dict[int, Dict[int, Optional[Wait]]]:
    """What threads wait for, by the addresses of interpreters and the ids of threads."""
    return {int(it["interpreter"], 16): {row["thread_id"]: wait_of(row["for"]) for row in it["threads"]} for it in trees}


def edges_in(told: Mapping[int, Mapping[int, Optional[Wait]]]) -> Edges:
    """Which thread holds what another one waits for."""
    return {(at, number): (at, wait.owner) for at, rows in told.items() for number, wait in rows.items()
            if wait is not None and wait.owner is not None}


def rings_in(edges: Edges) -> Iterator[List[Tuple[int, int]]]:
    """The threads that wait for each other in a ring, each ring once, from its first thread in order on. A thread waits for one at most, so that
    each leads into one ring at most."""
    seen: Set[Tuple[int, int]] = set()
    for first in edges:
        path: List[Tuple[int, int]] = []
        at: Optional[Tuple[int, int]] = first
        while at is not None and at not in seen:
            seen.add(at)
            path.append(at)
            at = edges.get(at)
        if at in path:
            yield path[path.index(at):]


def from_first(ring: Sequence[Tuple[int, int]], places: Mapping[Tuple[int, int], int]) -> List[Tuple[int, int]]:
    """A ring from the thread on that stands first in the text."""
    first = min(range(len(ring)), key=lambda at: places.get(ring[at], len(places)))
    return [*ring[first:], *ring[:first]]


def ring_line(ring: Sequence[Tuple[int, int]], told: Mapping[int, Mapping[int, Optional[Wait]]], threads: Mapping[int, Mapping[int, Thread]]) -> str:
    """A ring in a line."""
    parts = []
    for address, number in ring:
        wait, its = told[address][number], threads.get(address, {})
        assert wait is not None and wait.owner is not None
        parts.append(f"waits for {wait.kind} {wait.address} of {label_of(wait.owner, its)}")
    address, number = ring[0]
    return f"Deadlock: {label_of(number, threads.get(address, {}))} {', which '.join(parts)}"


def with_all_waits(report: Report, trees: Optional[List[Tree]]) -> Report:
    """A report, with what threads wait for."""
    told = told_in(trees or [])
    interpreters = tuple(with_waits(it, told.get(it.address or 0, {})) for it in report.interpreters)
    threads = {it.address or 0: {thread.number: thread for thread in it.threads} for it in interpreters}
    places = {(it.address or 0, thread.number): at for it in interpreters for at, thread in enumerate(it.threads)}
    rings = tuple(ring_line(from_first(it, places), told, threads) for it in rings_in(edges_in(told)))
    return report._replace(interpreters=interpreters, deadlocks=rings)
