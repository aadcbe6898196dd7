"""What the JSON of `pysalvage` has to have, and the text of the same core, by docs/USAGE.md."""

import json
import re
import unicodedata
from typing import Any, Collection, Dict, Iterable, List, Optional, Sequence

import rooms  # noqa: F401
from child_cores import Failure
from section_text import check_sections, heap_lines, layout_lines, name_lines, register_lines, signal_lines, wait_lines
from tasks_text import task_lines
from pystacks_tool.ask.salvage import frames_end, locals_fault, threads_end, unreadable, why_of

Tree = Dict[str, Any]

MEMBERS, MEMBERS_IN_ALL, THREADS, INTERPRETERS = 2 ** 20, 2 ** 22, 4096, 16
"""The most members of a thread's chain that are met, those of all threads, the most threads, and of interpreters."""

ENDS = {"whole": set(), "cut": set(), "stray": {"interpreter"}}
LOCKS = {"read": {"holder"}}
CAUSES = {"no text": set(), "too long": {"length"}}
FAULTS = {"bad": set(), "too many": {"count"}}
"""The kinds of ends, of locks, of why a member has no names and of why locals aren't there, each with its values. What
isn't in memory is of a kind that all have."""

INTEGERS = ("int", "long")
TOO_LONG = ("digits", "negative", "value")
CONTAINERS = ("list", "tuple", "set", "frozenset", "range", "slice", "cell", "method", "dict")
VALUES = {
    **dict.fromkeys(("absent", "none", "ellipsis", "not implemented"), ()),
    **dict.fromkeys(("bool", *INTEGERS), ("value",)),
    "float": ("bits", "text"),
    "complex": ("imaginary", "real"),
    **dict.fromkeys(("str", "unicode"), ("length", "value")),
    **dict.fromkeys(("bytes", "bytearray", "byte string"), ("hex", "length")),
    **dict.fromkeys(CONTAINERS, ("items", "more")),
    **dict.fromkeys(("class", "builtin", "module"), ("address", "name")),
    "function": ("address", "file", "line", "name"),
    **dict.fromkeys(("coroutine", "generator", "async generator"), ("address", "name", "state")),
    "object": ("address", "type"),
    "instance": ("address", "attributes", "more", "type"),
    "unreadable": ("address", "length", "of"),
    "damaged": ("address", "of"),
}
"""The kinds of values, each with what it has; an integer that is too long to be told has other keys."""


def need(holds: object, what: str) -> None:
    """Fails where something doesn't hold."""
    if not holds:
        raise Failure(what)


# ---- what the JSON has


def need_keys(tree: object, *keys: str) -> None:
    """Fails where something is no object of these keys."""
    need(isinstance(tree, dict) and set(tree) == set(keys), f"{tree!r} where an object of {', '.join(keys)} is wanted")


def need_address(value: object) -> None:
    """Fails where something is no address."""
    need(isinstance(value, str) and re.fullmatch(r"0x(0|[1-9a-f][0-9a-f]{0,15})", value), f"{value!r} is no address")


def need_number(value: object) -> None:
    """Fails where something is no number from 0 on that 8 bytes can have."""
    need(type(value) is int and 0 <= value < 2 ** 64, f"{value!r} is no number")


def need_texts(*values: object) -> None:
    """Fails where one of some values is no text."""
    need(all(isinstance(it, str) for it in values), f"{values!r} are no texts")


def need_truths(*values: object) -> None:
    """Fails where one of some values is no truth value."""
    need(all(isinstance(it, bool) for it in values), f"{values!r} are no truth values")


def check_kind(tree: object, kinds: Dict[str, set]) -> None:
    """Fails where something is of none of some kinds, or has other values than its kind."""
    known = {**kinds, "unreadable": {"address", "length"}}
    need(isinstance(tree, dict) and tree.get("kind") in known, f"{tree!r} is of no kind of {', '.join(known)}")
    need_keys(tree, "kind", *known[tree["kind"]])
    for key in ("address", "interpreter"):
        if key in tree:
            need_address(tree[key])
    for key in ("holder", "length") if tree["kind"] != "too long" else ():
        if key in tree:
            need_number(tree[key])


def check_member(tree: object) -> None:
    """Fails where something is neither a member with a frame nor one without names."""
    if isinstance(tree, dict) and "why" in tree:
        need_keys(tree, "address", "why")
        need_address(tree["address"])
        check_kind(tree["why"], CAUSES)
        return
    need_keys(tree, "filename", "line", "locals", "locals_fault", "name")
    need_texts(tree["filename"], tree["name"])
    need_number(tree["line"])
    need(tree["locals"] is None or tree["locals_fault"] is None, "locals beside why there are none")
    if tree["locals_fault"] is not None:
        check_kind(tree["locals_fault"], FAULTS)
    for it in tree["locals"] or ():
        need_keys(it, "address", "arg", "kind", "name", "repr", "type", "value")
        need_address(it["address"])
        need_truths(it["arg"])
        need(it["kind"] == ("argument" if it["arg"] else "local"), f"{it['kind']!r} of a variable that is {it['arg']} an argument")
        need_texts(it["name"], it["repr"] or "", it["type"] or "")
        need((it["repr"] is None) == (it["value"] is None), "a value without its text, or a text without its value")
        need("\n" not in (it["repr"] or ""), f"{it['repr']!r} has a line's end")
        check_value(it["value"]) if it["value"] is not None else None


def check_value(tree: object) -> None:
    """Fails where something is no tree of a value."""
    need(isinstance(tree, dict) and tree.get("kind") in VALUES, f"{tree!r} is of no kind of {', '.join(VALUES)}")
    need_keys(tree, "kind", *VALUES[tree["kind"]] if tree["kind"] not in INTEGERS or tree["value"] is not None else TOO_LONG)
    for key in ("length", "more", "digits", "line"):
        need_number(tree.get(key, 0))
    for it in tree.get("items", tree.get("attributes", ())):
        for own in it if tree["kind"] in ("dict", "instance") else [it]:
            check_value(own)


def check_frames(tree: object) -> None:
    """Fails where something is no front of a thread's frames, or tells other counts than it has."""
    need_keys(tree, "between", "end", "first", "last", "met")
    need_number(tree["between"])
    need_number(tree["met"])
    check_kind(tree["end"], ENDS)
    first, last, between = tree["first"], tree["last"], tree["between"]
    for it in first + last:
        check_member(it)
    counts = f"{len(first)} and {len(last)} members, {between} between, {tree['met']} met"
    need(len(first) == len(last) > 0 if between else not last, counts)
    need(len(first) + between + len(last) <= tree["met"] <= MEMBERS, counts)


def check_thread(tree: object) -> None:
    """Fails where something is no thread."""
    need_keys(tree, "address", "crashed", "frames", "gil", "name", "os_thread_id", "thread_id")
    need_address(tree["address"])
    need_texts(tree["name"] or "")
    need_number(tree["thread_id"])
    need_number(tree["os_thread_id"] or 0)
    need_truths(tree["crashed"], tree["gil"])
    check_frames(tree["frames"])


def check_interpreter(tree: object) -> None:
    """Fails where something is no interpreter, or one that was found by search with a broken chain of threads."""
    need_keys(tree, "address", "lock", "searched", "threads", "threads_end")
    need_address(tree["address"])
    need_truths(tree["searched"])
    check_kind(tree["lock"], LOCKS)
    check_kind(tree["threads_end"], ENDS)
    kind = tree["threads_end"]["kind"]
    for it in tree["threads"]:
        check_thread(it)
    need(1 <= len(tree["threads"]) <= THREADS, f"{len(tree['threads'])} threads")
    need(kind == "whole" or not tree["searched"], "an interpreter that was found by search has a broken chain")
    need(kind != "cut" or len(tree["threads"]) == THREADS, f"a chain that is cut after {len(tree['threads'])} threads")
    is_held = any(it["gil"] for it in tree["threads"])
    need(not is_held or tree["lock"]["kind"] == "read", "a thread that holds a lock which can't be read")


def check_told(tree: object, limit: int, sections: Collection[str] = ()) -> None:
    """Fails where something is no JSON of this program, which shows so many frames at each end of a thread, and these
    sections."""
    need_keys(tree, "exceptions", "heap", "interpreters", "layout_check", "missing", "more", "names", "native", "process", "registers",
              "search_ended", "signal", "signal_info", "stacks", "tasks", *(["values_left_out"] if "values_left_out" in tree else []), "version",
              "version_by_names", "waits")
    need_number(tree.get("values_left_out", 0))
    check_sections(tree, sections)
    need_truths(tree["more"], tree["version_by_names"])
    need_texts(tree["version"])
    need(not tree["version_by_names"] or re.fullmatch(r"\d+\.\d+", tree["version"]), f"the version {tree['version']} by names of files")
    check_ended(tree["search_ended"])
    need(tree["signal"] is None or type(tree["signal"]) is int, "a signal that is no number")
    if tree["process"] is not None:
        need_keys(tree["process"], "arguments", "pid")
        need_texts(tree["process"]["arguments"])
    interpreters = tree["interpreters"]
    for it in interpreters:
        check_interpreter(it)
    need(1 <= len(interpreters) <= INTERPRETERS, f"{len(interpreters)} interpreters")
    need(len(interpreters) == INTERPRETERS or not tree["more"], "more interpreters, where there is room for them")
    need(len({it["address"] for it in interpreters}) == len(interpreters), "an interpreter that is told twice")
    check_counts(interpreters, limit)
    check_crashed(interpreters, tree["signal"])


def check_ended(tree: object) -> None:
    """Fails where something doesn't tell that a search ended before all was looked at, or that it looked at all."""
    if tree is not None:
        need_keys(tree, "addresses", "members")
        for it in tree.values() if isinstance(tree, dict) else ():
            need_number(it)


def check_counts(interpreters: Iterable[Tree], limit: int) -> None:
    """Fails where more members were met than may be, or a chain is cut before, or more or fewer frames are shown."""
    fronts = [thread["frames"] for it in interpreters for thread in it["threads"]]
    met = sum(it["met"] for it in fronts)
    need(met <= MEMBERS_IN_ALL, f"{met} members were met in all")
    for it in fronts:
        first, is_cut = len(it["first"]), it["end"]["kind"] == "cut"
        need(not is_cut or met == MEMBERS_IN_ALL or it["met"] == MEMBERS, f"cut after {it['met']} members")
        need(first == limit if it["between"] else first <= 2 * limit, f"{first} first frames")


def check_crashed(interpreters: Sequence[Tree], signal: Optional[int]) -> None:
    """Fails where a thread has the mark without a signal, or doesn't stand first."""
    marked = [[thread["crashed"] for thread in it["threads"]] for it in interpreters]
    need(signal or not any(any(it) for it in marked), "a thread that got no signal")
    need(any(marked[0]) or not any(any(it) for it in marked), "an interpreter before the one that got the signal")
    need(not any(any(it) and not it[0] for it in marked), "a thread before the one that got the signal")


# ---- the same as a text


def escaped(text: str, is_name: bool = True) -> str:
    """A text in which control characters and separators of lines are escaped; and quotes and backslashes, in a name."""
    def of_line(it: str) -> bool:
        return unicodedata.category(it) not in ("Cc", "Zl", "Zp") and not (is_name and it in '"\\')

    return "".join(it if of_line(it) else f"\\u{{{ord(it):x}}}" for it in text)


def lines_of_member(tree: Tree) -> List[str]:
    """The lines of a member."""
    if "why" in tree:
        return [f"    ? {why_of(tree['why'])}"]
    line = f":{tree['line']}" if tree["line"] else ""
    lines = [f"    {escaped(tree['name'])} ({escaped(tree['filename'])}{line})"]
    for it in tree["locals"] or ():
        lines.append(f"        {escaped(it['name'])}: {'?' if it['repr'] is None else it['repr']}")
    fault = locals_fault(tree["locals_fault"])
    return lines + ([f"        ... {fault}"] if fault else [])


def lines_of_thread(tree: Tree) -> List[str]:
    """The lines of a thread."""
    frames, native = tree["frames"], tree["os_thread_id"]
    marks = "".join(f" ({mark})" for mark, key in (("gil", "gil"), ("crashed", "crashed")) if tree[key])
    name = "" if tree["name"] is None else f': "{escaped(tree["name"])}"'
    lines = [f"Thread {'0x%X' % tree['thread_id'] if native is None else native}{marks}{name}"]
    lines += [line for it in frames["first"] for line in lines_of_member(it)]
    lines += [f"    ... {frames['between']} more frames"] if frames["between"] else []
    lines += [line for it in frames["last"] for line in lines_of_member(it)]
    end = frames_end(frames["end"], frames["met"])
    return lines + ([f"    ... {end}"] if end else [])


def lines_of_interpreter(tree: Tree, is_one_of_several: bool) -> List[str]:
    """The lines of an interpreter."""
    searched, lock = " (found by search)" if tree["searched"] else "", tree["lock"]
    lines = [f"Interpreter {tree['address']}{searched}"] if is_one_of_several else []
    lines += [f"... lock {unreadable(lock)}"] if lock["kind"] == "unreadable" else []
    end = threads_end(tree["threads_end"])
    lines += [f"... {end}"] if end else []
    return lines + [line for it in tree["threads"] for line in lines_of_thread(it)]


def text_of(tree: Tree, core: str, sections: Collection[str] = ()) -> str:
    """The text of a core of this name, of which these sections were asked for."""
    signal, process, interpreters = tree["signal"], tree["process"], tree["interpreters"]
    lines = [] if signal is None else [f"Signal {signal}: {escaped(core, False)}"]
    lines += signal_lines(tree)
    lines += [] if process is None else [f"Process {process['pid']}: {escaped(process['arguments'], False)}"]
    lines += [f"Python v{tree['version']}{' (by the names of files)' if tree['version_by_names'] else ''}", ""]
    lines += [line for it in interpreters for line in lines_of_interpreter(it, len(interpreters) > 1)]
    lines += ["... more than 16 interpreters"] if tree["more"] else []
    ended = tree["search_ended"]
    lines += [f"... the search ended after {ended['members']} members and {ended['addresses']} addresses"] if ended else []
    lines += [front + escaped(name, False) for front, name in name_lines(tree)]
    lines += task_lines(tree["tasks"] or [])
    lines += wait_lines(tree["waits"] or [])
    lines += heap_lines(tree["heap"], "--heap" in sections)
    lines += register_lines(tree)
    lines += layout_lines(tree)
    left_out = tree.get("values_left_out", 0)
    lines += [f"... {left_out} more values are not shown"] if left_out else []
    return "".join(f"{line}\n" for line in lines)


def json_of(tree: Tree) -> str:
    """The JSON as it is printed."""
    return json.dumps(tree, indent=2, ensure_ascii=False, sort_keys=True) + "\n"


def tree_of(out: bytes, limit: int, sections: Collection[str] = ()) -> Tree:
    """What some JSON tells; fails where it isn't as this program writes it."""
    tree = json.loads(out)
    check_told(tree, limit, sections)
    need(json_of(tree).encode() == out, "the JSON has another form")
    return tree
