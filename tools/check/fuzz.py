#!/usr/bin/env python3
"""Runs the built programs on hostile input: valid files and words after changes of bytes, numbers, links and lengths.

    tools/check/fuzz.py --program crates/pystacks/out/pystacks [--salvage crates/pysalvage/out/pysalvage]
                        [--listing crates/listing/out/listing]
                        [--seed S] [--first N] [--count N] [--command dump].. [--workers N] [--keep DIR]

Each run must end within 10 seconds of the processor and 300 MB, with a status that its command has, and with either a
text of that command or one line that docs/MESSAGES.md has for that status. The text of `dump` and of `pysalvage` must
show what its JSON says; `listing frames` must show entries and rows in order, or say why there are none. One run of eight has a change of which the rules tell the answer, and must give it; of `sample`
one of two. A case is told by its command, its seed and its number: files of those that fail are kept in DIR. The status
is 0 exactly where none fails.
"""

import argparse
import json
import os
import re
import resource
import subprocess
import sys
import tempfile
from collections import Counter
from concurrent.futures import ProcessPoolExecutor
from dataclasses import dataclass
from pathlib import Path
from random import Random
from typing import Any, Callable, Dict, Iterator, List, Optional, Sequence, Tuple

from rooms import BUILT_LISTING, BUILT_SALVAGE, ROOT  # (first: it makes the other rooms known)

import changes
import rows_dump
import rows_frames
import rows_heap
import rows_layout_check
import rows_merge
import rows_names
import rows_native
import rows_reach
import rows_salvage
import rows_slim
import rows_tasks
import rows_triage
import rows_walk
from child_cores import Failure
from row import Row, row
from sample_cores import walk_text
from salvage_text import text_of, tree_of
from section_text import check_missing
from slim_reader import check_slim
from told import TELLERS, Told, number_of
from told_salvage import SALVAGE_TELLERS
from told_tasks import tasks

SECONDS, MEMORY = 10, 300 * 10 ** 6

COMMANDS: Dict[str, Callable[[], List[Row]]] = {
    "dump": rows_dump.rows, "walk": rows_walk.rows, "triage": rows_triage.rows, "reach": rows_reach.rows,
    "merge": rows_merge.rows, "locate": rows_slim.rows, "slim": rows_slim.slim_rows, "sample": lambda: [],
    "pysalvage": lambda: [*rows_salvage.rows(), *rows_names.rows(), *rows_native.rows(), *rows_tasks.rows(), *rows_heap.rows(), *rows_layout_check.rows()], "frames": rows_frames.rows}
"""The commands, and whose rows the cases begin with. (`pysalvage` and `listing`, which has `frames`, are programs of their
own. Those of `sample` begin with cores that it writes.)"""

FURTHER = {"merge": {7}, "slim": {8}, "reach": {9}}
STATUSES = {**{name: {0, 1, 2, 3, 5, 6} | FURTHER.get(name, set()) for name in COMMANDS}, "frames": {0}}
"""The statuses that a command has, less 4: the output can always be written here."""

TOLD = {**TELLERS, "pysalvage": (*SALVAGE_TELLERS, tasks, tasks)}

HOLES = {"ADDR": rb"0x[0-9a-f]+", "N": rb"-?\d+", "M": rb"\d+", "V": rb"\S+",
         "KEY": rb".*", "PATH": rb".*", "NAME": rb".*"}

Lines = Dict[int, List["re.Pattern[bytes]"]]


def rows_of_page() -> Iterator[Tuple[str, int, str]]:
    """The lines that docs/MESSAGES.md has of the programs: the program's name, the status, and the line behind both."""
    page, program = (ROOT / "docs" / "MESSAGES.md").read_text(encoding="utf-8").split("\n## ")[1], ""
    for line in page.splitlines():
        head = re.fullmatch(r"\| (?:status \| )?line, after `(\w+): ` \|.*", line)
        cells = re.fullmatch(r"\| (?:(\d) \| )?`([^`]+)` \|.*", line)
        if head:
            program = head.group(1)
        elif cells:
            yield program, int(cells.group(1) or 1), cells.group(2)


def patterns_of(program: str, rows: Sequence[Tuple[str, int, str]]) -> Lines:
    """The lines of some rows as patterns, by their status, behind a program's name."""
    found: Lines = {}
    for _, status, line in rows:
        parts = re.sub(r"\b(" + "|".join(HOLES) + r")\b", "\0\\1\0", line).split("\0")
        pattern = b"".join(HOLES[part] if at % 2 else re.escape(part.encode()) for at, part in enumerate(parts))
        found.setdefault(status, []).append(re.compile(program.encode() + b": " + pattern + rb"\n", re.DOTALL))
    return found


def lines_of_page() -> Dict[str, Lines]:
    """The lines of each program. `pysalvage` has its own; those of status 1 that a report has before it looks for its
    interpreter; and those of the statuses 2 to 6."""
    rows = list(rows_of_page())
    shared, own = ([it for it in rows if it[0] == name] for name in ("pystacks", "pysalvage"))
    before = [line for _, _, line in shared].index("no interpreter found")
    others = [it for it in shared if 2 <= it[1] <= 6]
    own += shared[:before] + others
    return {name: patterns_of(name, found) for name, found in (("pystacks", shared), ("pysalvage", own))}


LINES = lines_of_page()


@dataclass(frozen=True)
class Answer:
    """What a run came to."""

    status: int
    out: bytes
    said: bytes


def limited() -> None:
    """Limits the memory of this process' children, and its own."""
    resource.setrlimit(resource.RLIMIT_AS, (MEMORY, MEMORY))


def used() -> float:
    """How many seconds of the processor the children took that have ended."""
    found = resource.getrusage(resource.RUSAGE_CHILDREN)
    return found.ru_utime + found.ru_stime


def ran(program: str, words: Sequence[str], folder: str) -> Answer:
    """Runs the program in a folder. On a machine that has other work it gets more time than it may use."""
    begun = used()
    done = subprocess.run([program, *words], cwd=folder, env={}, timeout=6 * SECONDS, stdin=subprocess.DEVNULL,
                          stdout=subprocess.PIPE, stderr=subprocess.PIPE)
    if used() - begun > SECONDS:
        raise subprocess.TimeoutExpired(program, SECONDS)
    return Answer(done.returncode, done.stdout, done.stderr)


# ---- texts


def text_of_threads(threads: List[dict]) -> str:
    """The text of the threads of a JSON answer, as docs/COMMANDS.md has it: an empty line, and then one after another."""
    lines = [""]
    for it in reversed(threads):
        number, name = it["os_thread_id"], it["thread_name"]
        head = f"Thread {'0x%X' % it['thread_id'] if number is None else number}{' (gil)' if it['owns_gil'] else ''}"
        lines.append(head + (f': "{name}"' if name is not None else ""))
        for frame in it["frames"]:
            lines.append(f"    {frame['name']} ({frame['filename']}{':%d' % frame['line'] if frame['line'] else ''})")
            lines += lines_of_locals(frame["locals"] or [])
    return "".join(f"{line}\n" for line in lines)


def lines_of_locals(variables: List[dict]) -> List[str]:
    """The lines of a frame's locals, with a head before the first argument and the first other one."""
    lines: List[str] = []
    for head, is_argument in (("Arguments:", True), ("Locals:", False)):
        chosen = [it for it in variables if it["arg"] is is_argument]
        lines += [f"        {head}"] if chosen else []
        lines += [f"            {it['name']}: {'?' if it['repr'] is None else it['repr']}" for it in chosen]
    return lines


TEXTS = {
    "dump": re.compile(rb"(Signal \d+: .*\n)?(Process -?\d+: .*\n)?Python v\d+\.\d+.*\n", re.DOTALL),
    "walk": re.compile(rb"Python v\d+\.\d+\.\d+\n\n(Thread (0x[0-9A-F]+|\d+)( \(gil\))?\n.*)?", re.DOTALL),
    "triage": re.compile(rb"(Group 1: \d+\n|Refused: \d+\n).*", re.DOTALL),
    "merge": re.compile(rb"(    .*\n)?", re.DOTALL),
    "locate": re.compile(rb"Python v\d+\.\d+.*\nInterpreter 0x[0-9a-f]+\nLock 0x[0-9a-f]+\n", re.DOTALL),
}


@dataclass(frozen=True)
class Run:
    """A run of a command: the program, its words, and the folder in which it ran."""

    command: str
    program: str
    words: Sequence[str]
    folder: str

    def again(self, *words: str) -> Answer:
        """The same with other words."""
        return ran(self.program, words, self.folder)


def options_of(words: Sequence[str]) -> Sequence[str]:
    """The words before two dashes."""
    return words[: words.index("--")] if "--" in words else words


def fault_of_dump(run: Run, out: bytes) -> Optional[str]:
    """A text must be that of its JSON; JSON must be an array."""
    if any(re.fullmatch(r"--json|-[lns]*j.*", it) for it in options_of(run.words)):
        return None if isinstance(json.loads(out), list) else "the JSON is no array"
    answer = run.again(run.words[0], "-j", *run.words[1:])
    if answer.status != 0 or answer.said:
        return f"status {answer.status} with -j: {answer.said!r}"
    threads = text_of_threads(json.loads(answer.out)).encode()
    head = out[: len(out) - len(threads)]
    return None if out.endswith(threads) and TEXTS["dump"].fullmatch(head) else "the text isn't that of its JSON"


def frames_asked(words: Sequence[str]) -> int:
    """How many frames at each end of a thread `pysalvage` is asked for."""
    found = re.search(r" (?:-[lj]*n|--frames) ?=?(\d+)(?= |$)", " ".join(["", *options_of(words)]))
    return int(found.group(1)) if found else 100


def core_named(words: Sequence[str]) -> str:
    """The word of `pysalvage` that names its core: the first one that is no option, nor the value of one."""
    at, is_open = 0, True
    while at < len(words):
        if is_open and words[at] == "--":
            is_open = False
        elif is_open and re.fullmatch(r"--layouts|--frames|-[lj]*n", words[at]):
            at += 1
        elif not is_open or not words[at].startswith("-"):
            return words[at]
        at += 1
    return ""


def sections_asked(words: Sequence[str]) -> Sequence[str]:
    """The flags of sections of which `pysalvage` is asked."""
    return [it for it in options_of(words) if it in SECTIONS]


SECTIONS = ("--signal", "--registers", "--missing", "--check-layout", "--names", "--tasks", "--exceptions", "--waits", "--native", "--heap")
"""The flags of all sections."""

OWN_TEXTS = ("--exceptions", "--native")
"""Those whose text isn't made again from the JSON here."""


def has_own_text(tree: Dict[str, Any], sections: Sequence[str]) -> bool:
    """Whether some of the text can't be made from the JSON: that of such a section, or where a list is looked for that is none."""
    return bool(set(OWN_TEXTS) & set(sections)) or any(it["kind"] == "no lists" for it in tree["heap"] or ())


def made_up_number(run: Run, tree: Dict[str, Any]) -> Optional[str]:
    """A number that the process tells of the layout stands in the files: the word of a member's place, or of how many bytes an instance
    has, of which up to 8 are taken off. (Where a type names its own is 8 or 24.)"""
    told = (tree["layout_check"] or {"told": []})["told"]
    data = b"\0".join(it.read_bytes() for it in Path(run.folder).iterdir() if it.is_file()) if told else b""
    for it in told:
        words = [((it["process"] + more) % 2 ** 64).to_bytes(8, "little") for more in (0, 1, 8)]
        if it["key"] != "object.klass" and not it["key"].startswith("gil.") and not any(word in data for word in words):
            return f"{it['key']} is told as {it['process']}, which stands in no file"
    return None


def fault_of_salvage(run: Run, out: bytes) -> Optional[str]:
    """JSON must have what docs/USAGE.md says, and a text must be that of its JSON."""
    limit, sections = frames_asked(run.words), sections_asked(run.words)
    if any(re.fullmatch(r"--json|-l*j.*", it) for it in options_of(run.words)):
        return made_up_number(run, tree_of(out, limit, sections))
    answer = run.again("-j", *run.words)
    if answer.status != 0 or answer.said:
        return f"status {answer.status} with -j: {answer.said!r}"
    tree = tree_of(answer.out, limit, sections)
    made_up = made_up_number(run, tree)
    if made_up or has_own_text(tree, sections):
        return made_up
    text = text_of(tree, core_named(run.words), sections)
    return None if out == text.encode() else "the text isn't that of its JSON"


def fault_of_reach(run: Run, out: bytes) -> Optional[str]:
    """The objects stand in the order of their addresses, behind their number."""
    count, *rows = out.decode().splitlines()
    places = [int(re.fullmatch(r"    0x([0-9a-f]+)( \?)?", row).group(1), 16) for row in rows]
    return None if count == f"Objects {len(rows)}" and places == sorted(set(places)) else "the objects aren't in order"


def fault_of_slim(run: Run, out: bytes) -> Optional[str]:
    """A small core has nothing but pieces of the core, and the same walk, where one over the core needs no images."""
    check_slim(Path(run.folder, run.words[1]).read_bytes(), out)
    Path(run.folder, "small").write_bytes(out)
    located = run.again("locate", *run.words[1:3], *run.words[4:])
    version, interpreter, lock = (line.split(b" ")[-1].decode() for line in located.out.splitlines())
    walks = [run.again("walk", name, run.words[2], version[1:], interpreter, lock) for name in (run.words[1], "small")]
    return None if walks[0].status or walks[0] == walks[1] else f"a walk over it is another one: {walks[1].said!r}"


def fault_of_sample(run: Run, out: bytes) -> Optional[str]:
    """A walk over the core of a number has the stacks of the program of that number."""
    Path(run.folder, "sampled").write_bytes(out)
    walked = run.again("walk", "sampled", "sample", "3.9.0", "0x600000", "0")
    wanted = walk_text(number_of(run.words[1])).encode()
    is_right = walked == Answer(0, wanted, b"")
    return None if is_right else f"a walk over it comes to status {walked.status}, {walked.said!r}"


def fault_of_frames(run: Run, out: bytes) -> Optional[str]:
    """Each entry has a line, and behind it its rows, by ascending addresses that it covers; or a line says why there are none."""
    begin, size, last, is_refused = 0, 0, -1, False
    for line in out.decode().splitlines():
        entry, at, why = (re.fullmatch(it, line) for it in (r"entry (\d+) (\d+) \d+( signal)?", r"row (\d+) (.*)", r"(entry )?refused .*"))
        if entry:
            begin, size, last, is_refused = int(entry.group(1)), int(entry.group(2)), -1, False
        elif at:
            if is_refused or not last < int(at.group(1)) - begin < size or not FRAME_ROW.fullmatch(at.group(2)):
                return f"the row {line!r}"
            last, is_refused = int(at.group(1)) - begin, at.group(2).startswith("refused")
        elif not why:
            return f"the line {line!r}"
    return None


FRAME_ROW = re.compile(r"refused \d+ \w+(\(\d+\))?|(-|exp|\d+[+-]\d+)( \d+=(u|s|exp|vexp|r\d+|[cv][+-]\d+))*( signed)?")
"""A row of `listing frames` behind its address."""

FAULTS: Dict[str, Callable[[Run, bytes], Optional[str]]] = {
    "dump": fault_of_dump, "pysalvage": fault_of_salvage, "reach": fault_of_reach, "slim": fault_of_slim,
    "sample": fault_of_sample, "frames": fault_of_frames}


def fault_of_text(run: Run, out: bytes) -> Optional[str]:
    """What is wrong with a text under status 0, if anything is."""
    if run.command in FAULTS:
        return FAULTS[run.command](run, out)
    return None if TEXTS[run.command].fullmatch(out) else "the text isn't one of its command"


def is_told_of_missed(run: Run, status: int) -> bool:
    """Whether an object that tells what was missed has to be there: under status 1, where it is asked for."""
    return run.command == "pysalvage" and status == 1 and "--missing" in sections_asked(run.words)


def is_missed_object(out: bytes) -> bool:
    """Whether a text is an object that tells what was missed, and nothing else."""
    tree = json.loads(out)
    check_missing(tree["missing"])
    return list(tree) == ["missing"]


def fault_of(run: Run, answer: Answer) -> Optional[str]:
    """What is wrong with an answer, if anything is."""
    if answer.status not in STATUSES[run.command]:
        return f"status {answer.status}"
    if answer.status == 0:
        return "a line under status 0" if answer.said else fault_of_text(run, answer.out)
    if is_told_of_missed(run, answer.status):
        if not is_missed_object(answer.out):
            return f"what was missed is told as {answer.out!r}"
    elif answer.out:
        return f"a text under status {answer.status}"
    lines = LINES["pysalvage" if run.command == "pysalvage" else "pystacks"][answer.status]
    return None if any(it.fullmatch(answer.said) for it in lines) else f"the line {answer.said!r}"


def fault_of_told(run: Run, answer: Answer, told: Told) -> Optional[str]:
    """Where an answer isn't the one that the rules tell."""
    name = "pysalvage" if run.command == "pysalvage" else "pystacks"
    said = f"{name}: {told.line}\n".encode() if told.line else b""
    if (answer.status, answer.said) != (told.status, said):
        return f"status {answer.status}, {answer.said!r} where status {told.status}, {said!r} is wanted"
    if told.out is None:
        return fault_of_text(run, answer.out)
    pairs = zip(answer.out, told.out)
    at = next((at for at, (one, two) in enumerate(pairs) if one != two), min(len(answer.out), len(told.out)))
    first = max(0, at - 60)
    shown, wanted = (it[first : at + 60] for it in (answer.out, told.out))
    return None if answer.out == told.out else f"at byte {at} {shown!r} where {wanted!r} is wanted"


# ---- cases


@dataclass(frozen=True)
class Part:
    """Some of the cases: those of a seed from a number on."""

    program: str
    command: str
    seed: int
    first: int
    count: int
    keep: str


@dataclass(frozen=True)
class Case:
    """The words of a run and its files; and what the rules tell of it, if they do."""

    words: Sequence[str]
    files: changes.Files
    told: Optional[Told] = None


def is_quick(row: Row) -> bool:
    """Whether there are files, and neither many nor long ones."""
    return 0 < len(row.files) < 20 and max(map(len, row.files.values())) < 300_000


def rows_of(part: Part) -> List[Row]:
    """The rows with which the cases begin."""
    if part.command == "sample":
        cores = [ran(part.program, ["sample", str(part.seed + nth), "core"], "/").out for nth in range(3)]
        return [row("a made-up core", "walk core sample 3.9.0 0x600000 0", {"core": it}) for it in cores]
    rows = [it for it in COMMANDS[part.command]() if it.status == 0 and it.memory is None and not it.lengths]
    return [it for it in rows if is_quick(it)]


def case_of(part: Part, number: int, rows: Sequence[Row]) -> Case:
    """A case by its number: one of which the rules tell the answer, or a row with a change of a word or of a file."""
    random = Random(f"{part.command} {part.seed} {number}")
    if part.command in TOLD and number % (2 if part.command == "sample" else 8) == 0:
        told = random.choice(TOLD[part.command])(random, part.command)
        return Case(told.words, told.files, told)
    begun = random.choice(rows)
    words, files = list(begun.words), dict(begun.files)
    name = random.choice(sorted(files))
    # (the words of `listing` are of no program that people run)
    if random.random() < 0.05 and len(words) > 1 and part.command != "frames":
        at = random.randrange(1, len(words))
        words[at] = changes.changed_word(random, words[at])
    else:
        files[name] = changes.changed(random, files[name])
    return Case(words, files)


def tried(part: Part, case: Case, folder: str) -> Tuple[Optional[int], Optional[str]]:
    """Runs one case: its status, and what is wrong, if anything is."""
    command = case.words[0] if case.words[0] in COMMANDS else part.command
    run = Run(command, part.program, case.words, folder)
    try:
        answer = run.again(*case.words)
        return answer.status, fault_of_told(run, answer, case.told) if case.told else fault_of(run, answer)
    except subprocess.TimeoutExpired:
        return None, f"no end within {SECONDS} seconds"
    except (AttributeError, Failure, KeyError, TypeError, ValueError) as reason:
        return None, f"an answer that isn't read: {reason!r}"


@dataclass
class Outcome:
    """How often each status came, what failed, and the run that took longest: its seconds and its number."""

    statuses: Counter
    faults: List[str]
    longest: Tuple[float, int]


def run_part(part: Part) -> Outcome:
    """Runs some cases."""
    limited()
    rows, outcome = rows_of(part), Outcome(Counter(), [], (0.0, 0))
    for number in range(part.first, part.first + part.count):
        case, begun = case_of(part, number, rows), used()
        with tempfile.TemporaryDirectory(prefix="fuzz-") as folder:
            for name, data in case.files.items():
                Path(folder, name).write_bytes(data)
            status, fault = tried(part, case, folder)
        outcome.statuses[status] += 1
        outcome.longest = max(outcome.longest, (used() - begun, number))
        if fault:
            outcome.faults.append(f"{part.command}, seed {part.seed}, case {number}: {fault}")
            keep(part.keep, f"{part.command}-{part.seed}-{number}", case)
    return outcome


def keep(folder: str, name: str, case: Case) -> None:
    """Keeps the files of a case, where that is asked for."""
    if folder:
        place = Path(folder, name)
        place.mkdir(parents=True, exist_ok=True)
        for file, data in case.files.items():
            (place / file).write_bytes(data)
        (place / "words").write_text(repr(list(case.words)), encoding="utf-8")


def parts_of(words: argparse.Namespace, program: str, command: str) -> List[Part]:
    """The cases of a command in parts, some for each worker."""
    share, end = max(1, min(500, -(-words.count // words.workers))), words.first + words.count
    return [Part(os.path.abspath(program), command, words.seed, first, min(share, end - first), words.keep)
            for first in range(words.first, end, share)]


def failures(words: argparse.Namespace, pool: ProcessPoolExecutor, program: str, command: str) -> int:
    """Runs the cases of a command: how many of them failed, each of which has a line."""
    statuses: Counter = Counter()
    failed, longest = 0, (0.0, 0)
    for outcome in pool.map(run_part, parts_of(words, program, command)):
        statuses += outcome.statuses
        failed += len(outcome.faults)
        longest = max(longest, outcome.longest)
        for fault in outcome.faults:
            print(f"fuzz: {fault}", flush=True)
    shares = ", ".join(f"{count} of status {status}" for status, count in sorted(statuses.items(), key=str))
    print(f"fuzz: {command}, seed {words.seed}: {sum(statuses.values())} cases: {shares}; {failed} wrong; "
          f"the longest, {longest[1]}, took {longest[0]:.2f} s", flush=True)
    return failed


def main() -> int:
    """The command."""
    parser = argparse.ArgumentParser(description=__doc__, formatter_class=argparse.RawDescriptionHelpFormatter)
    parser.add_argument("--program", required=True, help="the built program")
    parser.add_argument("--salvage", default=str(BUILT_SALVAGE), help="the built `pysalvage`")
    parser.add_argument("--listing", default=str(BUILT_LISTING), help="the built `listing`")
    parser.add_argument("--seed", type=int, default=1)
    parser.add_argument("--first", type=int, default=0, help="the number of the first case (default: 0)")
    parser.add_argument("--count", type=int, default=100, help="how many cases each command has (default: 100)")
    parser.add_argument("--command", choices=sorted(COMMANDS), action="append", help="this command alone")
    parser.add_argument("--workers", type=int, default=os.cpu_count() or 1, help="how many cases run at once")
    parser.add_argument("--keep", default="", help="a folder for the files of cases that fail")
    words = parser.parse_args()
    failed = 0
    with ProcessPoolExecutor(words.workers) as pool:
        for command in words.command or COMMANDS:
            program = {"pysalvage": words.salvage, "frames": words.listing}.get(command, words.program)
            if os.path.isfile(program):
                failed += failures(words, pool, program, command)
            else:
                print(f"fuzz: skipped: {command}: there is no {program}")
    return 1 if failed else 0


if __name__ == "__main__":
    sys.exit(main())
