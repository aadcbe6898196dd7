"""What `dump_core.py` shows of a core, compared with what the program wrote: that no frame is added, dropped or moved.

Both are read anew here, by no code of the tool: the program's JSON as it is, and of the tool its text, its JSON, its collapsed
stacks and its page. A line that folds a recursion is read as the frames that it stands for, one of a gap as so many frames, and one
that counts stacks or threads as so many: nothing may be left out without its number.
"""

import html
import json
import re
import subprocess
import sys
from collections import Counter
from dataclasses import dataclass, field
from pathlib import Path
from typing import Any, Dict, List, Sequence, Tuple

from rooms import TOOLS  # (first: it makes the other rooms known)

from child_cores import Failure

TOOL = TOOLS / "dump_core.py"

SECONDS = 120

MANY = 8
"""Above so many threads there is a table."""

Frames = Tuple[str, ...]


@dataclass
class Shown:
    """A stack that the tool shows: its line, how many threads have it, and its frames."""

    title: str
    count: int = 1
    frames: List[str] = field(default_factory=list)
    between: int = 0
    """How many frames aren't shown."""
    at: int = 0
    """How many stand before these."""


def unescaped(line: str) -> str:
    """A line without the tool's escapes."""
    return re.sub(r"\\u\{([0-9a-f]+)\}", lambda it: chr(int(it.group(1), 16)), line)


FOLD = re.compile(r"    \.\.\. (.*): (\d+) times(?: \(lines? [0-9?, ]+\))?(?:, \d+ locals left out)?$")
"""A line that stands for frames that are as those above it."""


def function_in(frame: str) -> str:
    """A frame's function, by its line."""
    return frame.rsplit(" (", 1)[0]


def unfolded(frames: Sequence[str], names: str, times: int) -> List[str]:
    """The frames for which such a line stands, behind those above it."""
    for length in (1, 2, 3):
        unit = list(frames[-length:])
        if len(unit) == length and ", ".join(function_in(it) for it in unit) == names:
            return unit * times
    raise Failure(f"a line stands for {times} times {names}, which isn't above it")


TITLE = re.compile(r"(?:Interpreter 0x[0-9a-f]+(?: \(found by search\))?: )?(\d+) threads?(?: without frames)?: ")
"""The line of several threads."""


def stacks_in(text: str) -> List[Shown]:
    """The stacks of the tool's text. Lines between them, as those of locals and ends, are left out."""
    found: List[Shown] = []
    for line in text.split("\n\n", 1)[1].split("\n"):
        several, fold, gap = TITLE.match(line), FOLD.match(line), re.fullmatch(r"    \.\.\. (\d+) more frames", line)
        if line.startswith("Thread ") or several:
            found.append(Shown(line, int(several.group(1)) if several else 1))
        elif re.match(r"\d+ (other )?threads?$|\.\.\. |Interpreter |Registers |Tasks? |\d+ tasks \(|Registered, |Native (stack of|thread) |    Native, thread \d+:|$", line):
            # (what follows is no stack's)
            found.append(Shown("", 0))
        elif fold and found:
            found[-1].frames += unfolded(found[-1].frames, unescaped(fold.group(1)), int(fold.group(2)))
        elif gap and found:
            found[-1].between, found[-1].at = int(gap.group(1)), len(found[-1].frames)
        elif re.match(r"    [^ ]", line) and not line.startswith("    ... ") and found:
            found[-1].frames.append(unescaped(line[4:]))
    return [it for it in found if it.count]


def label(frame: Dict[str, Any]) -> str:
    """A frame of the program's JSON in a line."""
    line = f":{frame['line']}" if frame["line"] else ""
    return f"{frame['name']} ({frame['filename']}{line})"


def stacks_of(tree: Sequence[Dict[str, Any]]) -> List[Frames]:
    """The stacks of `dump -j`, in the order of its text."""
    return [tuple(label(it) for it in thread["frames"]) for thread in reversed(tree)]


def ran(command: Sequence[object]) -> str:
    """What a command prints. It has to pass."""
    run = subprocess.run([str(it) for it in command], stdin=subprocess.DEVNULL, stdout=subprocess.PIPE, stderr=subprocess.PIPE, timeout=SECONDS)
    if run.returncode != 0:
        raise Failure(f"{command[0]} ended with status {run.returncode}: {run.stderr.decode('utf-8', 'replace')[-300:]}")
    return run.stdout.decode("utf-8")


def check_same(wanted: Sequence[object], got: Sequence[object], what: str) -> None:
    """Fails with the first place in which two lists differ."""
    if list(wanted) != list(got):
        at = next((at for at, (one, other) in enumerate(zip(wanted, got)) if one != other), min(len(wanted), len(got)))
        pair = [str(it[at])[:200] if at < len(it) else "nothing" for it in (wanted, got)]
        raise Failure(f"{what}: place {at} is {pair[0]}, and shown is {pair[1]}")


def check_merged(wanted: Sequence[Frames], shown: Sequence[Shown]) -> None:
    """Fails where equal stacks aren't shown once, each for all its threads."""
    counts = Counter(wanted)
    got: Counter = Counter()
    for it in shown:
        got[tuple(it.frames)] += it.count
    if counts != got:
        raise Failure(f"the stacks that are shown once are {len(got)} of {sum(got.values())} threads, and told are {len(counts)} of {len(wanted)}")


def check_brief(wanted: Sequence[Frames], text: str) -> None:
    """Fails where the text without further words doesn't count all threads, or shows frames that are none of a stack's: of many
    threads the newest frames of some stacks, and how many there are below, and the number of the threads of the others."""
    shown, left = stacks_in(text), re.findall(r"^(?:\x1b\[2m)?\.\.\. (?:\d+ )?more(?: stacks?)? of (\d+) threads: ", text, re.MULTILINE)
    count = sum(it.count for it in shown) + sum(map(int, left))
    if count != len(wanted):
        raise Failure(f"the text counts {count} threads, and told are {len(wanted)}")
    rest = Counter(wanted)
    for it in shown:
        end = len(it.frames) + it.between
        fits = [stack for stack in rest if len(stack) == end and list(stack[: it.at if it.between else end]) == it.frames[: it.at if it.between else end]
                and list(stack[it.at + it.between :] if it.between else ()) == it.frames[it.at :] * bool(it.between) and rest[stack] >= it.count]
        if not fits:
            raise Failure(f"the stack below {it.title} is none that is told of {it.count} threads")
        rest[fits[0]] -= it.count


def check_table(wanted: Sequence[Frames], text: str) -> None:
    """Fails where the table of many threads doesn't count each that got no signal by its newest frame."""
    rows = re.search(r"^(\d+) (?:other )?threads?\n((?:    .*\n)+)\n", text, re.MULTILINE)
    if rows is None:
        if len(wanted) > MANY:
            raise Failure("there is no table of many threads")
        return
    newest, got = Counter(it[0] for it in wanted if it), 0
    for line in rows.group(2).splitlines():
        several, more = re.match(r"    (\d+) of (\d+): (.*)", line), re.match(r"    \.\.\. (\d+) more at \d+ other places", line)
        count = int((more or several).group(1)) if more or several else 1
        got += count
        frame = unescaped(several.group(3)) if several else ""
        if several and frame in newest and newest[frame] < count:
            raise Failure(f"the table has {count} threads at {frame}, and told are {newest[frame]}")
        if several and frame not in newest and frame != "no frames" and not frame.startswith(("? ", "... ")):
            raise Failure(f"the table has {frame}, which no thread is at")
    if got != int(rows.group(1)):
        raise Failure(f"the table has {got} threads, and says {rows.group(1)}")


def in_order(interpreters: Sequence[Dict[str, Any]]) -> List[Frames]:
    """The stacks of the tool's JSON in the order of its text: interpreters with frames first, and in each the threads without frames
    last, but for those that have a mark of their own, or a broken chain."""
    threads = [it for one in interpreters for it in one["threads"]]
    framed = {mark: {it["thread_id"] for it in threads if frames_of(it) and it[mark]} for mark in ("gil", "crashed")}

    def is_empty(it: Dict[str, Any]) -> bool:
        marked = any(it[mark] and it["thread_id"] not in framed[mark] for mark in framed)
        return not frames_of(it) and not marked and it["frames"]["end"]["kind"] == "whole"

    rows = sorted(interpreters, key=lambda one: not any(frames_of(it) for it in one["threads"]))
    placed = [it for one in rows for it in sorted(one["threads"], key=is_empty)]
    # (those that got the signal stand before all others)
    placed.sort(key=lambda it: not (it["crashed"] and (frames_of(it) or it["thread_id"] not in framed["crashed"])))
    return [tuple(label(it) for it in frames_of(it)) for it in placed]


def frames_of(thread: Dict[str, Any]) -> List[Dict[str, Any]]:
    """The frames of a thread of the tool's JSON."""
    return thread["frames"]["first"] + thread["frames"]["last"]


def stacks_in_page(page: str) -> List[Frames]:
    """The stacks of a page, in order."""
    found = []
    for part in re.findall(r"<section id=\"s\d+\">(.*?)</section>", page, re.DOTALL):
        rows = re.findall(r"<li>(.*?) <i>(.*?)</i>", part)
        found.append(tuple(unescaped(html.unescape(f"{name} {place}")) for name, place in rows))
    return found


def values_of(thread: Dict[str, Any], frames: Sequence[Dict[str, Any]]) -> Tuple[object, ...]:
    """A thread's locals, with their values."""
    return thread["thread_id"], [[(row["name"], row["repr"]) for row in it["locals"] or ()] for it in frames]


def check_values(tool: Sequence[object]) -> None:
    """Fails where the tool's locals have other values than the program told."""
    wanted = [values_of(it, it["frames"]) for it in json.loads(ran([*tool, "-l", "-j", "--plain"]))]
    told = json.loads(ran([*tool, "-l", "--json"]))
    got = [values_of(it, frames_of(it)) for one in told["interpreters"] for it in one["threads"]]
    check_same(sorted(wanted), sorted(got), "the values of locals")


def check_tool(program: Path, core: Path, layouts: Path, images: Sequence[str]) -> None:
    """Fails where the tool shows other stacks of a core than the program told it."""
    tree = json.loads(ran([program, "dump", "-c", core, "--layouts", layouts, "-j", *images]))
    wanted = stacks_of(tree)
    tool = [sys.executable, "-B", TOOL, core, "--program", program, "--layouts", layouts]
    shown = stacks_in(ran([*tool, "--all"]))
    # (the thread that got the signal stands first, and those without frames last: `in_order` has that order of the JSON)
    check_same(sorted(wanted), sorted(tuple(it.frames) for it in shown), "the text")
    check_merged(wanted, stacks_in(ran([*tool, "--stacks"])))
    text = ran(tool)
    check_brief(wanted, text)
    check_table(wanted, text)
    told = json.loads(ran([*tool, "--json"]))
    if not (program.parent / "pysalvage").is_file():
        rows = [it for one in told["interpreters"] for it in one["threads"]]
        check_same(wanted, [tuple(label(it) for it in frames_of(row)) for row in rows], "the order of the JSON")
    check_same([tuple(it.frames) for it in shown], in_order(told["interpreters"]), "the JSON")
    lines = Counter({tuple(reversed(stack)): count for stack, count in Counter(wanted).items() if stack})
    got = Counter({tuple(line.rsplit(" ", 1)[0].split(";")): int(line.rsplit(" ", 1)[1]) for line in ran([*tool, "--collapsed"]).splitlines()})
    if lines != got:
        raise Failure("the collapsed stacks are others")
    check_values(tool)
    page = core.with_name("page.html")
    ran([*tool, f"--html={page}"])
    check_same(sorted(set(wanted)), sorted(set(stacks_in_page(page.read_text(encoding="utf-8")))), "the page")
    page.unlink()
