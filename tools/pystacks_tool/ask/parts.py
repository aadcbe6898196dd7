"""Asks `pysalvage` over a part of a core, which grows by what the program missed until it misses nothing that the core has.

A run over a part is a run over a memory, whole: what is answered last is shown, and nothing of the runs before.
"""

import json
from typing import Callable, List, Sequence, Tuple

from pystacks_tool.ask.programs import ask, salvage_command
from pystacks_tool.ask.run import Answer
from pystacks_tool.cores.images import MORE
from pystacks_tool.cores.opened import OpenedCore
from pystacks_tool.faults import say
from pystacks_tool.options import Options

RUNS = 24
"""How often a program is run over a core at most: a hostile one's chains lead on and on."""


def missed_in(answer: Answer) -> Tuple[List[int], int]:
    """The numbers of the blocks that a run missed, and how many of its refused reads lie in none of them."""
    try:
        missed = json.loads(answer.out.decode("utf-8", "replace"))["missing"]
        return [int(it) for it in missed["blocks"]], int(missed["above"])
    except (ValueError, KeyError, TypeError):
        return [], 0


def say_left_out(core: OpenedCore, blocks: Sequence[int], above: int) -> None:
    """Says how much the part lacks that the core has: how many of the blocks that were missed. Of a refused read for which there was no
    room among these it isn't known whether the core has it, where it has more than the part."""
    assert core.part is not None
    left, unknown = core.part.left_out(blocks), 0 if core.part.is_whole else above
    if left or unknown:
        ranges = "1 range" if left + unknown == 1 else f"{left + unknown} ranges"
        lie = "may lie" if unknown else "lies" if left == 1 else "lie"
        say(f"{ranges} {lie} in parts that were left out for memory", MORE)


def ask_growing(core: OpenedCore, command: Callable[[], List[bytes]], is_told: bool = True) -> Answer:
    """What `pysalvage` answers of a core, or of the largest part of it that was given, by the words as they are for the files that are
    handed over so far. Whether it is told what is left out is said."""
    answer = ask(core, command())
    if core.part is None:
        return answer
    blocks, above = missed_in(answer)
    for run in range(1, RUNS):
        if not core.give(blocks, run):
            break
        core.part.runs += 1
        answer = ask(core, command())
        blocks, above = missed_in(answer)
    if is_told:
        say_left_out(core, blocks, above)
    return answer


def ask_over(options: Options, core: OpenedCore, program: str, with_native: bool = False) -> Answer:
    """What `pysalvage` answers of a core, with the sections that are asked for, and with native stacks where that is said."""
    return ask_growing(core, lambda: salvage_command(options, program, core, with_native))
