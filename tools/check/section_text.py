"""What the sections of `pysalvage` have to have in its JSON, and in its text, by docs/USAGE.md."""

import re
from typing import Any, Collection, Dict, List, Optional, Sequence, Tuple

import rooms  # noqa: F401
from child_cores import Failure
from pystacks_tool.ask.salvage import signal_told

Tree = Dict[str, Any]

X86_64 = (
    "r15 r14 r13 r12 rbp rbx r11 r10 r9 r8 rax rcx rdx rsi rdi orig_rax rip cs eflags rsp ss fs_base gs_base ds es fs gs"
).split()
AARCH64 = [f"x{number}" for number in range(31)] + ["sp", "pc", "pstate"]
"""The registers of a status record, in its order."""

NAMES = (
    "HUP INT QUIT ILL TRAP ABRT BUS FPE KILL USR1 SEGV USR2 PIPE ALRM TERM STKFLT CHLD CONT STOP TSTP TTIN TTOU URG XCPU XFSZ "
    "VTALRM PROF WINCH IO PWR SYS"
).split()
"""Linux' signals from 1 on."""

TOLD = {
    "fault": {"address", "meaning"}, "no address": set(), "system": set(), "process": {"pid", "uid"}, "itself": {"pid", "uid"},
    "call": {"call", "call_address"}, "code": set(),
}
UNTOLD = {
    "no signal": "No signal is told by the first thread's record", "no note": "No note tells how the signal came about",
    "short note": "The note of the signal is too short",
}
"""The kinds of how a signal came about, each with its values; and of why that is not told, each with its line."""


def check_keys(tree: Tree, *keys: str) -> None:
    """Fails where an object hasn't these keys."""
    if set(tree) != set(keys):
        raise Failure(f"{tree!r} where an object of {', '.join(keys)} is wanted")


def check_value(value: object) -> None:
    """Fails where something is no number in hexadecimal digits."""
    if not isinstance(value, str) or not re.fullmatch(r"0x(0|[1-9a-f][0-9a-f]{0,15})", value):
        raise Failure(f"{value!r} is no number in hexadecimal digits")


def check_signal(tree: Tree) -> None:
    """Fails where an object doesn't say how a signal came about, or why that is not told."""
    kind = tree["kind"]
    if kind in TOLD:
        check_keys(tree, "code", "kind", "name", "signal", *TOLD[kind])
        for key in {"address", "call_address"} & set(tree):
            check_value(tree[key])
    elif kind != "another signal":
        check_keys(tree, "kind")
        if kind not in UNTOLD:
            raise Failure(f"{kind!r} is no kind of a signal")
    else:
        check_keys(tree, "kind", "signal")


def check_thread(tree: Tree) -> None:
    """Fails where an object isn't a thread with its registers."""
    check_keys(tree, "python", "registers", "system_id")
    whose, registers = tree["python"], tree["registers"]
    check_keys(whose, "kind", *["thread_id"] * (whose["kind"] == "thread"))
    if whose["kind"] not in ("thread", "none", "not told"):
        raise Failure(f"{whose!r} says of no thread whose it is")
    if registers is not None:
        if sorted(registers) not in (sorted(X86_64), sorted(AARCH64)):
            raise Failure(f"{sorted(registers)} are the registers of no machine")
        for value in registers.values():
            check_value(value)


def check_missing(tree: Tree) -> None:
    """Fails where an object doesn't tell what was missed: blocks of 64 KiB, ascending, and how many refused reads there were besides."""
    check_keys(tree, "above", "blocks")
    blocks = tree["blocks"]
    if sorted(set(blocks)) != blocks or len(blocks) > 4096 or any(not 0 <= it < 1 << 48 for it in blocks) or tree["above"] < 0:
        raise Failure(f"{tree!r} tells of no blocks")


VERDICTS = ("agrees", "differs", "doubtful", "silent", "not described")
"""What is said of a layout."""


KNOWN = 64 * (3 + 16 * 9) + 3
"""How many known answers there are at most: three of each of 64 threads, nine of each of its 16 frames, and three of modules."""


def check_known(known: Optional[Tree]) -> None:
    """Fails where known answers aren't so many of so many."""
    if known is None:
        return
    check_keys(known, "of", "right")
    if not 0 <= known["right"] <= known["of"] <= KNOWN or known["of"] == 0:
        raise Failure(f"{known['right']} of {known['of']} are no known answers")


def check_layout(tree: Tree) -> None:
    """Fails where an object isn't a layout beside what its process says of itself."""
    check_keys(tree, "build", "differ", "doubt", "known", "not_told", "other_table", "told", "verdict")
    if tree["verdict"] not in VERDICTS or tree["build"] not in (None, "free-threaded", "trace-refs"):
        raise Failure(f"{tree['verdict']!r} of {tree['build']!r} is no verdict")
    if tree["other_table"] is not None:
        check_keys(tree["other_table"], "major", "minor")
    if (tree["verdict"] == "doubtful") != (tree["doubt"] in ("frames", "type")):
        raise Failure(f"{tree['verdict']!r}, doubted by {tree['doubt']!r}")
    check_known(tree["known"])
    for it in (*tree["told"], *tree["differ"]):
        check_keys(it, "key", "layout", "process")
    others = [it for it in tree["told"] if it["layout"] != it["process"]]
    if others != tree["differ"] or bool(others) != (tree["verdict"] == "differs"):
        raise Failure(f"{tree['verdict']!r}, where {others} differ")


PAIRED_MARKS = {"not found", "beside"}
"""The marks of one stack of Python's frames and native ones."""


def check_paired_items(one: Tree, frames: int, natives: int) -> None:
    """Fails where not each frame of a thread stands once in one stack, in its order, or a mark stands where none does."""
    items = one["items"]
    for it in items:
        check_keys(it, "kind", *({"python": ("frame",), "native": ("frame", "hidden")}.get(it["kind"], ())))
    for kind, count in (("python", frames), ("native", natives)):
        if [it["frame"] for it in items if it["kind"] == kind] != list(range(count)):
            raise Failure(f"not {count} {kind} frames in order: {items}")
    marks = [it["kind"] for it in items if it["kind"] not in ("python", "native")]
    if not set(marks) <= PAIRED_MARKS or len(marks) > 1 or marks == ["beside"] and one["pairing"] != "apart":
        raise Failure(f"the marks {marks} by {one['pairing']}")


def frames_in(part: Optional[Tree]) -> int:
    """How many frames a stack has, or a part of one."""
    return 0 if part is None else len(part.get("frames", part.get("first", ()))) + part["between"] + len(part["last"])


def check_paired(tree: Tree) -> None:
    """Fails where what is told of the threads with native stacks isn't one stack of both for each of Python's."""
    if tree["native"] is None or len(tree["stacks"]) != len(tree["native"]):
        raise Failure(f"{len(tree['stacks'])} stacks of both")
    fronts = {it["address"]: it["frames"] for one in tree["interpreters"] for it in one["threads"]}
    for native, one in zip(tree["native"], tree["stacks"]):
        if (one is not None) != (native["python"]["kind"] == "thread"):
            raise Failure(f"a stack of both of {native['python']}")
        if one is not None:
            check_keys(one, "items", "pairing", "thread")
            if one["pairing"] not in ("address", "order", "apart"):
                raise Failure(f"{one['pairing']!r} is no pairing")
            check_paired_items(one, frames_in(fronts[one["thread"]]), frames_in(native["stack"]) + frames_in(native["guessed"]))


def check_sections(tree: Tree, asked: Collection[str]) -> None:
    """Fails where a section isn't there by its flag, or has not what it has to have."""
    for key, flag in (("signal_info", "--signal"), ("registers", "--registers"), ("missing", "--missing"),
                      ("layout_check", "--check-layout"), ("names", "--names"), ("tasks", "--tasks"), ("exceptions", "--exceptions"),
                      ("waits", "--waits"), ("native", "--native"), ("stacks", "--native")):
        if (tree[key] is not None) != (flag in asked):
            raise Failure(f"the section {key} is {tree[key]!r}, where {asked!r} are asked for")
    if tree["heap"] is not None:
        check_heap(tree, "--heap" in asked)
    if tree["signal_info"] is not None:
        check_signal(tree["signal_info"])
    for it in tree["registers"] or ():
        check_thread(it)
    if tree["missing"] is not None:
        check_missing(tree["missing"])
    if tree["layout_check"] is not None:
        check_layout(tree["layout_check"])
    if tree["names"] is not None:
        check_names(tree)
    if tree["waits"] is not None:
        check_waits(tree)
    if tree["stacks"] is not None:
        check_paired(tree)
    if tree["tasks"] is not None:
        check_tasks(tree)
    if tree["exceptions"] is not None:
        check_exceptions(tree)


LASTS = {"exception": ("address", "exceptions", "name"), "unreadable": ("name",)}
"""What is told of the last exception that no code handled, by its kind."""


def check_exceptions(tree: Tree) -> None:
    """Fails where the exceptions aren't those of each interpreter that is shown, or the last one of each is of no kind that there is."""
    if [it["interpreter"] for it in tree["exceptions"]] != [it["address"] for it in tree["interpreters"]]:
        raise Failure("exceptions of other interpreters")
    for it in tree["exceptions"]:
        check_keys(it, "interpreter", "kind", "last", "threads")
        last = it["last"]
        if last is None:
            continue
        check_one_of(last, LASTS)
        if last["name"] not in ("last_exc", "last_value") or it["kind"] != "read":
            raise Failure(f"the last exception is {last!r}")
        addresses = [one["address"] for one in last.get("exceptions", ())]
        if len(set(addresses)) != len(addresses) or "address" in last and addresses[:1] != [last["address"]]:
            raise Failure(f"the last exception leads to {addresses}")


def check_names(tree: Tree) -> None:
    """Fails where the names aren't those of the threads of each interpreter that is shown, or stand otherwise at the threads."""
    shown = {it["address"]: sorted((row["thread_id"], row["name"] or "") for row in it["threads"]) for it in tree["interpreters"]}
    for names in tree["names"]:
        check_keys(names, "fault", "interpreter", "threads", "unread")
        for row in names["threads"]:
            check_keys(row, "fault", "name", "thread_id")
            if row["fault"] and row["name"] is not None:
                raise Failure(f"a name that can't be read: {row!r}")
        if shown.pop(names["interpreter"], None) != sorted((it["thread_id"], it["name"] or "") for it in names["threads"]):
            raise Failure(f"names of other threads, or others at the threads: {names!r}")
        if names["fault"] and any(it["name"] is not None for it in names["threads"]):
            raise Failure(f"names under a fault: {names!r}")
    if shown:
        raise Failure(f"no names of {sorted(shown)}")


WAITED = {"gil": (), "lock": ("address",), "queue": ("address",), "rlock": ("address", "owner")}
"""What a thread may wait for, by its kind, and what is told of that."""


def check_waits(tree: Tree) -> None:
    """Fails where what is told isn't of the threads that are shown, in their order, or not of a kind that there is."""
    shown = {it["address"]: [row["thread_id"] for row in it["threads"]] for it in tree["interpreters"]}
    for waits in tree["waits"]:
        check_keys(waits, "interpreter", "threads")
        for row in waits["threads"]:
            check_keys(row, "for", "thread_id")
            if row["for"] is not None:
                check_keys(row["for"], "kind", *WAITED[row["for"]["kind"]])
        if sorted(shown.pop(waits["interpreter"], ())) != sorted(it["thread_id"] for it in waits["threads"]):
            raise Failure(f"waits of other threads: {waits!r}")
    if shown:
        raise Failure(f"no waits of {sorted(shown)}")


LIST_ENDS = {"whole": (), "torn": ("address",), "unreadable": ("address",), "cut": ("address",)}
"""How a list of the collector may end."""


def check_heap(tree: Tree, is_asked: bool) -> None:
    """Fails where a heap isn't told of each interpreter that is shown, or of the runtime, or not each object is counted in a class once. (Of a
    version that isn't described none is told, though one is asked for.)"""
    owners = [it["interpreter"] for it in tree["heap"]]
    if not is_asked or owners not in ([None], [it["address"] for it in tree["interpreters"]]):
        raise Failure(f"heaps of {owners}")
    for it in tree["heap"]:
        if it["kind"] != "heap":
            check_one_of(it, {"no lists": ("interpreter",), "no runtime": ("interpreter",)})
            continue
        check_keys(it, "classes", "collecting", "interpreter", "kind", "lists", "more_classes", "sets", "unreadable")
        check_keys(it["lists"], "middle", "oldest", "permanent", "youngest")
        for one in it["lists"].values():
            check_keys(one, "end", "objects")
            check_one_of(one["end"], LIST_ENDS)
        check_classes(it)


def check_classes(heap: Tree) -> None:
    """Fails where the classes of a heap stand twice or out of order, or have other objects in all than the lists."""
    rows = heap["classes"]
    for at, it in enumerate(rows):
        check_keys(it, "address", "bytes", "largest", "more", "name", "objects", "unknown", "unread")
        check_largest(it, at < LARGEST)
    keys = [(-it["bytes"], int(it["address"], 16)) for it in rows]
    if keys != sorted(set(keys)) or len({it["address"] for it in rows}) != len(rows):
        raise Failure("classes of a heap aren't in order, or stand twice")
    objects = sum(it["objects"] for it in rows) + heap["unreadable"] + heap["more_classes"]
    listed = sum(it["objects"] for it in heap["lists"].values())
    if objects > listed or not heap["more_classes"] and objects != listed:
        raise Failure(f"{objects} objects are counted, and others are in the lists")


LARGEST = 10
"""Of how many classes the largest objects are told."""


def check_largest(it: Tree, is_told: bool) -> None:
    """Fails where the largest objects of a class aren't in order, or are fewer or more than there are, or have more bytes than it has in all."""
    if not is_told:
        if it["largest"] is not None:
            raise Failure(f"the largest objects of a class behind the first {LARGEST} are told: {it!r}")
        return
    rows = [(-one["bytes"], int(one["address"], 16)) for one in it["largest"]]
    most = 2 ** 64 - 1
    if rows != sorted(rows) or len(rows) != min(it["objects"], 3) or min(-sum(row[0] for row in rows), most) > min(it["bytes"] + it["more"], most):
        raise Failure(f"the largest objects of a class: {it!r}")


def heap_lines(heaps: Optional[Sequence[Tree]], is_asked: bool) -> List[str]:
    """The lines of heaps. (Of a list that is none the JSON doesn't tell where it is looked for.)"""
    if heaps is None:
        return ["Heap: not described for this version"] if is_asked else []
    return [line for it in heaps for line in lines_of_heap(it)]


LISTS = (("youngest", "generation 0"), ("middle", "generation 1"), ("oldest", "generation 2"), ("permanent", "the permanent generation"))

LIST_END_WORDS = {"torn": "is torn at", "unreadable": "can't be read at", "cut": "has more, from"}

CLASSES = 40
"""How many classes have a line."""


def lines_of_heap(heap: Tree) -> List[str]:
    """The lines of a heap."""
    owner = "runtime" if heap["interpreter"] is None else f"interpreter at {heap['interpreter']}"
    if heap["kind"] != "heap":
        return [f"Heap of the {owner}: no symbol tells where it is"]
    youngest, middle, oldest, permanent = (heap["lists"][key]["objects"] for key, _ in LISTS)
    lines = [f"Heap of the {owner}: {youngest}, {middle}, {oldest} and {permanent} objects"]
    lines += [] if heap["sets"] else ["    tables of sets are not counted: no symbol names their classes"]
    lines += ["    a collection runs"] if heap["collecting"] else []
    for end, name in ((heap["lists"][key]["end"], name) for key, name in LISTS):
        words = LIST_END_WORDS.get(end["kind"])
        lines += [f"    {name} {words} {end['address']}{' on' if end['kind'] == 'cut' else ''}"] if words else []
    lines += [f"    {heap['unreadable']} objects whose class can't be read"] if heap["unreadable"] else []
    lines += [line for it in heap["classes"][:CLASSES] for line in lines_of_class(it)]
    more = len(heap["classes"]) + heap["more_classes"] - CLASSES
    return lines + ([f"    and {more} more classes"] if more > 0 else [])


def lines_of_class(it: Tree) -> List[str]:
    """The line of a class, and that of its largest objects where they are told."""
    blocks = f" and {it['more']} in other blocks" if it["more"] else ""
    unknown = f", {it['unknown']} of unknown size" if it["unknown"] else ""
    unread = f", {it['unread']} of unknown other blocks" if it["unread"] else ""
    line = f"    {it['objects']} objects, {it['bytes']} bytes{blocks}{unknown}{unread}: {'?' if it['name'] is None else it['name']}"
    if it["largest"] is None:
        return [line]
    largest = ", ".join(f"{one['bytes']} at {one['address']}" for one in it["largest"])
    return [line, f"        the largest: {largest}"]


def wait_lines(waits: Sequence[Tree]) -> List[str]:
    """The lines of what threads wait for, where it is known."""
    words = {"gil": "the GIL", "lock": "Lock", "rlock": "RLock", "queue": "SimpleQueue"}
    lines = []
    for row in (row for it in waits for row in it["threads"] if row["for"] is not None):
        told = row["for"]
        owner = f" of thread 0x{told['owner']:X}" if told.get("owner") is not None else ""
        lines.append(f"Thread 0x{row['thread_id']:X} waits for {' '.join([words[told['kind']], *filter(None, [told.get('address')])])}{owner}")
    return lines


def name_lines(tree: Tree) -> List[Tuple[str, str]]:
    """The lines of names, where these are asked for: the front of each, and what is escaped behind it."""
    lines = []
    for it in tree["names"] or ():
        if it["fault"]:
            lines.append((f"No names of the interpreter at {it['interpreter']}: {it['fault']}", ""))
        for row in it["threads"]:
            if row["name"] is not None:
                lines.append((f"Name of thread 0x{row['thread_id']:X}: ", row["name"]))
            if row["fault"]:
                lines.append((f"No name of thread 0x{row['thread_id']:X}: {row['fault']}", ""))
        if it["unread"]:
            lines.append((f"Names not read of the interpreter at {it['interpreter']}: {it['unread']}", ""))
    return lines


def signal_lines(tree: Tree) -> List[str]:
    """The line of how the signal came about, where it is asked for."""
    info = tree["signal_info"]
    if info is None:
        return []
    if info["kind"] == "another signal":
        number = info["signal"]
        named = f"SIG{NAMES[number - 1]}" if 0 < number <= len(NAMES) else f"signal {number}"
        return [f"The note is of {named}, another signal"]
    return [UNTOLD.get(info["kind"]) or signal_told(info)]


def whose_text(tree: Tree) -> str:
    """Whose thread it is."""
    texts = {"none": "none of Python's", "not told": "whose is not told"}
    return texts.get(tree["kind"]) or f"Python's 0x{tree['thread_id']:X}"


def register_lines(tree: Tree) -> List[str]:
    """The lines of the threads with their registers, where they are asked for."""
    lines = []
    for it in tree["registers"] or ():
        held = it["registers"]
        lines.append(f"Thread {it['system_id']} ({whose_text(it['python'])}){': no registers' if held is None else ''}")
        names = [] if held is None else X86_64 if "rip" in held else AARCH64
        cells = [f" {name:>8} {int(held[name], 16):016x}" for name in names]
        lines += ["   " + "".join(cells[at : at + 4]) for at in range(0, len(cells), 4)]
    return lines


def layout_lines(tree: Tree) -> List[str]:
    """The lines of what the process says of its layout, where that is asked for."""
    check = tree["layout_check"]
    if check is None:
        return []
    builds = {"free-threaded": "The process is of a free-threaded build", "trace-refs": "The process is of a build with trace refs"}
    lines = [builds[check["build"]]] if check["build"] else []
    table, known = check["other_table"], check["known"]
    lines += [f"The process has a table of places (_Py_DebugOffsets) that says it is of {table['major']}.{table['minor']}: nothing is read by it"] if table else []
    last = [f"Known answers: {known['right']} of {known['of']} are right"] if known else []
    return [*lines, *verdict_lines(check), *last]


def verdict_lines(check: Tree) -> List[str]:
    """The lines of what is said of a layout by its numbers."""
    if check["verdict"] == "differs":
        return [f"Layout differs: {it['key']} is {it['layout']}, the process says {it['process']}" for it in check["differ"]]
    if check["verdict"] == "not described":
        return ["Layout not confirmed: this version's types are not known"]
    by_frames = "Layout doubtful, no known answer of a frame is right"
    fronts = {"agrees": "Layout agrees", "silent": "Layout not confirmed", "doubtful": by_frames if check["doubt"] == "frames" else
              "Layout not confirmed, type's own table is none that is known"}
    return [f"{fronts[check['verdict']]}: {len(check['told'])} keys told, {len(check['not_told'])} not told"]


# ---- tasks

ENDS_OF_TASKS = {"future": ("address",), "object": ("address",), "cycle": ("address",), "cut": ("address",), "unreadable": ("address", "length"),
                 "yield": (), "created": (), "running": (), "finished": (), "not stored": ()}
"""How a chain ends, and what is told of that."""

FAULTS_OF_TASKS = {"unreadable": ("address", "length"), "too many": (), "malformed": (), "not described": (), "another size": ("size",)}
"""Why tasks aren't told."""


def check_one_of(tree: Tree, kinds: Dict[str, Sequence[str]]) -> None:
    """Fails where an object isn't one of these kinds, with its keys."""
    if tree.get("kind") not in kinds:
        raise Failure(f"{tree!r} is none of {sorted(kinds)}")
    check_keys(tree, "kind", *kinds[tree["kind"]])


def check_task(tree: Tree) -> None:
    """Fails where an object isn't a task."""
    check_keys(tree, "address", "chain", "condition", "kind", "loop", "must_cancel", "name", "state", "thread_id", "waiter")
    check_keys(tree["chain"], "end", "members")
    check_one_of(tree["chain"]["end"], ENDS_OF_TASKS)
    members = tree["chain"]["members"]
    for it in members:
        check_keys(it, "address", "frame", "kind")
        if it["kind"] not in ("coroutine", "generator", "async generator", "between") or it["kind"] == "between" and it["frame"] is not None:
            raise Failure(f"{it!r} is no member of a chain")
        if it["frame"] is not None:
            check_keys(it["frame"], "filename", "line", "name")
    if len({it["address"] for it in members}) != len(members) or len(members) > 16384:
        raise Failure(f"a chain of {len(members)} members, of which some stand twice")
    if tree["waiter"] is not None:
        check_keys(tree["waiter"], "address", "state", "type")
    if (tree["condition"] == "done") != (tree["state"] != "pending"):
        raise Failure(f"a task that is {tree['condition']} is {tree['state']}")
    if tree["condition"] not in ("done", "running", "not started", "ready", "waiting") or tree["condition"] == "waiting" and tree["waiter"] is None:
        raise Failure(f"a task that is {tree['condition']}")


def check_tasks(tree: Tree) -> None:
    """Fails where the tasks aren't those of each interpreter that is shown, each once."""
    if [it["interpreter"] for it in tree["tasks"]] != [it["address"] for it in tree["interpreters"]]:
        raise Failure("tasks of other interpreters")
    for it in tree["tasks"]:
        check_keys(it, "frameworks", "interpreter", "tasks")
        if it["frameworks"] is not None:
            check_keys(it["frameworks"], "curio", "greenlet", "trio")
    for told in (it["tasks"] for it in tree["tasks"] if it["tasks"] is not None):
        if told["kind"] != "read":
            check_one_of(told, FAULTS_OF_TASKS)
            continue
        check_keys(told, "entries", "kind")
        for it in told["entries"]:
            if it["kind"] == "task":
                check_task(it)
            elif it["kind"] == "lost":
                check_keys(it, "address", "fault", "kind")
                check_one_of(it["fault"], FAULTS_OF_TASKS)
            else:
                check_keys(it, "address", "kind", "type")
        if len({it["address"] for it in told["entries"]}) != len(told["entries"]):
            raise Failure("an object is registered twice")
