"""What `pystacks triage` and `pystacks reach` say of real cores, compared with what the processes told.

Cores of one build are grouped by the stacks that the processes told, each core taken twice under two names. And what the
locals of a thread lead to must have each object that the process found from them by `gc.get_referents`, by way of
lists, tuples and dicts alone; the rules leave out what is held in any other way.
"""

import os
from pathlib import Path
from typing import Dict, List, Sequence, Tuple

from child_cores import Core, Failure

Key = Tuple[Tuple[Tuple[str, str, int], ...], ...]


def key_of(core: Core) -> Key:
    """What the stacks of a core are compared by."""
    return tuple(
        tuple((function, file, line) for (function, file), line in zip(thread.frames, thread.lines))
        for thread in core.told.threads)


def kept(core: Core, room: Path, number: int) -> List[Path]:
    """Two more names for a core."""
    names = [room / f"kept-{number}", room / f"kept-{number}-again"]
    for name in names:
        os.link(core.path, name)
    return names


def groups_text(cores: Sequence[Core], names: Sequence[Sequence[Path]]) -> str:
    """The text of the cores in groups, each under its first name, and behind all of them under its second."""
    groups: Dict[Key, List[Path]] = {}
    for turn in (0, 1):
        for core, own in zip(cores, names):
            groups.setdefault(key_of(core), []).append(own[turn])
    text = ""
    for number, group in enumerate(groups.values(), 1):
        text += f"Group {number}: {len(group)}\n" + "".join(f"    {name}\n" for name in group)
    return text


def check_objects(out: str, led: Sequence[int]) -> int:
    """Fails where a list of objects lacks one that the process found, or has it as broken. Returns how many it has."""
    lines = out.splitlines()
    listed = {int(line.split()[0], 16): line.endswith(" ?") for line in lines[1:]}
    if lines[0] != f"Objects {len(listed)}" or list(listed) != sorted(listed):
        raise Failure(f"the list of objects begins with {lines[0]!r}, and has {len(listed)}")
    missing = [it for it in led if it not in listed]
    broken = [it for it in led if listed.get(it)]
    if missing or broken:
        raise Failure(f"of the objects that locals lead to {missing[:3]} are missing, and {broken[:3]} broken")
    return len(listed)
