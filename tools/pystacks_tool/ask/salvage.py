"""What `pysalvage -j` told of a core. How chains end is worded as its own text has it.

Of one that tells no values of locals those of `pystacks dump` are added, where that has a report, and of one that doesn't tell names
of threads these too.
"""

import json
from typing import Callable, Dict, Iterable, Optional, Sequence, Tuple

from pystacks_tool.ask.dump import Tree, Unexpected, local_of
from pystacks_tool.ask.layout import KEY, layout_lines, layout_told
from pystacks_tool.ask.exceptions import KEY as EXCEPTIONS, all_with
from pystacks_tool.ask.tasks import KEY as TASKS, all_tasks
from pystacks_tool.ask.values import hide
from pystacks_tool.model import Frame, Interpreter, Registers, Report, Thread

Words = Dict[str, Callable[[], str]]
"""What is said, by the kind of a fault or an end."""


def unreadable(tree: Tree) -> str:
    """A range that isn't in memory."""
    return f"unreadable at {tree['address']}, {tree['length']} bytes"


def frames_end(tree: Tree, met: int) -> str:
    """How a chain of frames ends; nothing of a whole one."""
    words: Words = {"whole": lambda: "", "cut": lambda: f"cut after {met} members", "unreadable": lambda: unreadable(tree),
                    "stray": lambda: f"of the interpreter at {tree['interpreter']}"}
    return words[tree["kind"]]()


def threads_end(tree: Tree) -> str:
    """How a chain of threads ends; nothing of a whole one."""
    words: Words = {"whole": lambda: "", "cut": lambda: "more than 4096 threads", "unreadable": lambda: f"threads {unreadable(tree)}",
                    "stray": lambda: f"threads of the interpreter at {tree['interpreter']}"}
    return words[tree["kind"]]()


def why_of(tree: Tree) -> str:
    """Why a member has no names."""
    words: Words = {"no text": lambda: "a name that is no text", "too long": lambda: "a name that is too long",
                    "unreadable": lambda: unreadable(tree)}
    return words[tree["kind"]]()


def locals_fault(tree: Optional[Tree]) -> str:
    """Why the locals of a frame can't be read, if they can't."""
    if tree is None:
        return ""
    found = tree
    words: Words = {"bad": lambda: "locals with a bad name or count", "too many": lambda: "locals more than 65535",
                    "unreadable": lambda: f"locals {unreadable(found)}"}
    return words[found["kind"]]()


def signal_told(tree: Optional[Tree]) -> str:
    """How the signal came about, where that is told."""
    if tree is None or tree.get("signal") is None or tree["kind"] == "another signal":
        return ""
    found, name = tree, tree["name"] or f"signal {tree['signal']}"
    words: Words = {
        "fault": lambda: f" at {found['address']}: {found['meaning'] or 'code %d' % found['code']}",
        "process": lambda: f" by process {found['pid']}, user {found['uid']}", "itself": lambda: " by itself",
        "no address": lambda: ", no address: an address that can't be one, or a protection fault",
        "system": lambda: " by the system", "code": lambda: f" with code {found['code']}",
        "call": lambda: f" at {found['call_address']}: a filter refused call {found['call']}",
    }
    return name + words[tree["kind"]]()


def registers_of(tree: Tree) -> Registers:
    """The registers of a thread."""
    rows = tree["registers"] or {}
    return Registers(tree["system_id"], tree["python"].get("thread_id"), tuple((name, int(value, 16)) for name, value in rows.items()))


def with_system_id(thread: Thread, ids: Dict[int, int]) -> Thread:
    """A thread with the system's id by its status record, where it has one."""
    own = ids.get(thread.number)
    if own is None or own == thread.native:
        return thread
    return thread._replace(native=own, kept=thread.native)


def with_system_ids(report: Report) -> Report:
    """A report in which each thread has the system's id by its status record, and of which is told which other thread got the signal, where none of
    Python's did: the first record is that thread's."""
    ids = {it.number: it.native for it in report.registers if it.number is not None}
    first = report.registers[0] if report.registers else None
    other = first.native if first and first.number is None and report.signal and not any(it.is_crashed for it in report.threads) else None
    its = tuple(one._replace(threads=tuple(with_system_id(it, ids) for it in one.threads)) for one in report.interpreters)
    return report._replace(interpreters=its, other=other)


def member_of(tree: Tree) -> Frame:
    """A frame, or a member without names."""
    if "why" in tree:
        return Frame(why=why_of(tree["why"]))
    rows = tree["locals"]
    shown = None if rows is None else tuple(local_of(it) for it in rows)
    return Frame(tree["name"], tree["filename"], tree["line"], shown, locals_fault(tree["locals_fault"]))


def thread_of(tree: Tree) -> Thread:
    """A thread."""
    frames = tree["frames"]
    first, last = ([member_of(it) for it in frames[part]] for part in ("first", "last"))
    end = frames_end(frames["end"], frames["met"])
    return Thread(tree["thread_id"], tuple(first + last), tree["os_thread_id"], tree["thread_name"], tree["gil"],
                  tree["crashed"], len(first), frames["between"], end, address=tree["address"])


def interpreter_of(tree: Tree) -> Interpreter:
    """An interpreter."""
    threads = tuple(thread_of(it) for it in tree["threads"])
    lock = tree["lock"]
    fault = f"lock {unreadable(lock)}" if lock["kind"] == "unreadable" else ""
    return Interpreter(threads, int(tree["address"], 16), tree["searched"], fault, threads_end(tree["threads_end"]))


class NamesAndValues:
    """What `pystacks dump` told that `pysalvage` doesn't."""

    def __init__(self) -> None:
        self.names: Dict[int, Optional[str]] = {}
        """The names of threads, by the interpreters' ids of them."""
        self.values: Dict[Tuple[str, str], str] = {}
        """The values that are shown, by the local's name and the value's address."""


def names_and_values(threads: Iterable[Tree]) -> NamesAndValues:
    """What is added, by the threads of `dump -j`."""
    found = NamesAndValues()
    for thread in threads:
        found.names[thread["thread_id"]] = thread["thread_name"]
        for frame in thread["frames"]:
            for row in frame["locals"] or ():
                if row["repr"] is not None:
                    found.values[row["name"], hex(row["addr"])] = row["repr"]
    return found


def names_told(tree: Tree) -> Dict[str, Dict[int, Optional[str]]]:
    """The names that the program told itself, of each interpreter by its address."""
    return {it["interpreter"]: {row["thread_id"]: row["name"] for row in it["threads"]} for it in tree.get("names") or ()}


def add(tree: Tree, added: NamesAndValues) -> None:
    """Gives each thread its name, of its own interpreter where the program told it, and adds values to the JSON of a core. A value
    that it has itself stays."""
    told = names_told(tree)
    for one in tree["interpreters"]:
        names = told.get(one["address"], added.names)
        for thread in one["threads"]:
            thread["thread_name"] = names.get(thread["thread_id"])
            for member in thread["frames"]["first"] + thread["frames"]["last"]:
                for row in member.get("locals") or ():
                    if row["repr"] is None:
                        row["repr"] = added.values.get((row["name"], row["address"]))


def version_told(tree: Tree) -> str:
    """The version, and that the names of files alone tell it, where they do."""
    version: str = tree["version"]
    return version + (" (by the names of files)" if tree.get("version_by_names") else "")


def ended_told(tree: Optional[Tree]) -> str:
    """What is said of a search for interpreters that ended before all was looked at; nothing of another one."""
    return "" if tree is None else f"the search ended after {tree['members']} members and {tree['addresses']} addresses"


def left_out_told(count: Optional[int]) -> str:
    """What is said of values of locals that are not shown, where there are any."""
    return f"{count} more values are not shown" if count else ""


def report_by_salvage(text: str, core: str, added: Callable[[Tree], NamesAndValues], hidden: Sequence[str] = ()) -> Tuple[Tree, Report]:
    """The JSON of one core with what is added to it, less what is hidden by words, and the report that it gives."""
    try:
        tree = json.loads(text)
        add(tree, added(tree))
        hide(tree, hidden)
        interpreters = all_with(tuple(interpreter_of(it) for it in tree["interpreters"]), tree.get(EXCEPTIONS))
        process = tree["process"]
        told: Optional[Tuple[int, str]] = None if process is None else (process["pid"], process["arguments"])
        registers = tuple(registers_of(it) for it in tree["registers"] or ())
        signal = signal_told(tree["signal_info"])
        layout = tuple(layout_lines(layout_told(tree.get(KEY))))
        return tree, Report(interpreters, version_told(tree), tree["signal"], told, tree["more"], True, core, signal, registers, layout,
                            all_tasks(tree.get(TASKS)), ended=ended_told(tree.get("search_ended")),
                            left_out=left_out_told(tree.get("values_left_out")))
    except (ValueError, KeyError, TypeError) as error:
        raise Unexpected(f"its JSON: {error!r}") from None
