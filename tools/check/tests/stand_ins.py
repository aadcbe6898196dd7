"""Programs that stand in for `pystacks` and `pysalvage` in tests of the tool: they write what they are told to. And what
such programs write: trees of threads, as the JSON of either has them.
"""

import json
import sys
from pathlib import Path
from typing import Any, Dict, List, Optional, Sequence

SCRIPT = """#!{python} -IS
import sys
words = sys.argv[1:]
if words == ["--help"]:
    print({help_text!r})
    sys.exit(0)
name = "json" if "-j" in words else "triage" if words[:1] == ["triage"] else "text"
try:
    open({folder!r} + "/words", "w").write(chr(10).join(words))
    out = open({folder!r} + "/" + name, "rb").read()
except OSError:
    out = b""
sys.stdout.buffer.write(b"" if {status} else out)
sys.stdout.flush()
sys.stderr.buffer.write({said!r})
sys.exit({status})
"""
"""A program that writes its help, or the file `json`, `triage` or `text`, by its words, which it notes in the file `words`."""

Tree = Dict[str, Any]

WHOLE = {"kind": "whole"}


def program(path: Path, json_text: str = "", text: str = "", triage: str = "", status: int = 0, said: bytes = b"", help_text: str = "") -> Path:
    """Writes a program that writes these, and by `--help` that text."""
    folder = path.with_name(f"{path.name}.said")
    folder.mkdir(exist_ok=True)
    for name, data in (("json", json_text), ("text", text), ("triage", triage)):
        (folder / name).write_text(data, encoding="utf-8", errors="surrogatepass")
    path.write_text(SCRIPT.format(python=sys.executable, folder=str(folder), status=status, said=said, help_text=help_text), encoding="utf-8")
    path.chmod(0o700)
    return path


# ---- what `pysalvage` writes


def frame(name: str, filename: str = "a.py", line: int = 1, rows: Optional[List[Tree]] = None, fault: Optional[Tree] = None) -> Tree:
    """A member with a frame."""
    return {"filename": filename, "line": line, "locals": rows, "locals_fault": fault, "name": name}


def local(name: str, value: Optional[str], is_argument: bool = False) -> Tree:
    """A local."""
    return {"address": "0x1000", "arg": is_argument, "name": name, "repr": value}


def thread(
    number: int, first: Sequence[Tree] = (), native: Optional[int] = None, gil: bool = False, crashed: bool = False,
    last: Sequence[Tree] = (), between: int = 0, end: Tree = WHOLE, met: Optional[int] = None,
) -> Tree:
    """A thread."""
    count = len(first) + between + len(last)
    frames = {"between": between, "end": end, "first": list(first), "last": list(last), "met": count if met is None else met}
    return {"address": hex(number), "crashed": crashed, "frames": frames, "gil": gil, "name": None, "os_thread_id": native,
            "thread_id": number}


def interpreter(threads: Sequence[Tree], address: int = 0x10000, searched: bool = False, lock: Optional[Tree] = None, end: Tree = WHOLE) -> Tree:
    """An interpreter."""
    holder = next((it["thread_id"] for it in threads if it["gil"]), 0)
    return {
        "address": hex(address), "lock": lock or {"holder": holder, "kind": "read"}, "searched": searched,
        "threads": list(threads), "threads_end": end,
    }


def salvage(
    *interpreters: Tree, signal: Optional[int] = 11, arguments: Optional[str] = "python3 a.py", more: bool = False,
    info: Optional[Tree] = None, registers: Optional[List[Tree]] = None, layout_check: Optional[Tree] = None,
    names: Optional[List[Tree]] = None,
    native: Optional[List[Tree]] = None, tasks: Optional[List[Tree]] = None, waits: Optional[List[Tree]] = None, heap: Optional[List[Tree]] = None,
) -> Tree:
    """All of a core."""
    process = None if arguments is None else {"arguments": arguments, "pid": 4711}
    return {
        "interpreters": list(interpreters), "layout_check": layout_check, "missing": None, "more": more,
        "names": names, "exceptions": None, "native": native, "process": process, "registers": registers, "signal": signal, "signal_info": info,
        "stacks": None,
        "search_ended": None, "tasks": tasks, "version": "3.11.7", "heap": heap, "version_by_names": False, "waits": waits,
    }


def task(name: Optional[str], frames: Sequence[Tree], condition: str = "waiting", waiter: Optional[str] = "_asyncio.Future",
         end: Optional[Tree] = None, must_cancel: bool = False, number: int = 0) -> Tree:
    """A task, with the frames of what it awaits, the innermost first."""
    members = [{"address": "0x10", "frame": it, "kind": "coroutine"} for it in frames]
    own = None if waiter is None else {"address": "0x20", "state": None, "type": waiter}
    return {
        "address": hex(0x5000 + number), "chain": {"end": end or {"address": "0x20", "kind": "future"}, "members": members}, "condition": condition,
        "kind": "task", "loop": "0x30", "must_cancel": must_cancel, "name": name, "state": "finished" if condition == "done" else "pending",
        "thread_id": 0x7F00 if condition == "running" else None, "waiter": own,
    }


def coroutine(name: str, line: int = 1, filename: str = "a.py") -> Tree:
    """The frame of a coroutine."""
    return {"filename": filename, "line": line, "name": name}


def tasks(*entries: Tree, address: int = 0x10000) -> Tree:
    """The tasks of an interpreter."""
    return {"frameworks": frameworks(), "interpreter": hex(address), "tasks": {"entries": list(entries), "kind": "read"}}


def frameworks(*names: str) -> Dict[str, bool]:
    """Which other frameworks an interpreter has."""
    return {it: it in names for it in ("curio", "greenlet", "trio")}


def native_frame(function: Optional[str], file: Optional[str], offset: int = 0x46, signal: bool = False, address: int = 0x1000) -> Tree:
    """A native frame."""
    return {
        "address": None if file is None else hex(address), "cfa": None, "exact": False, "file": file, "function": function,
        "offset": None if function is None else offset, "pc": hex(0x7F0000 + address), "signal": signal,
    }


def native_stack(*frames: Tree, last: Sequence[Tree] = (), between: int = 0, end: str = "whole", at: Optional[str] = None,
                 file: Optional[str] = None) -> Tree:
    """A part of a native stack."""
    return {"between": between, "end": {"at": at, "file": file, "kind": end}, "frames": list(frames), "last": list(last)}


def native_thread(system: int, stack: Optional[Tree], thread_id: Optional[int] = None, crashed: bool = False, guessed: Optional[Tree] = None) -> Tree:
    """The native stack of a thread of the process."""
    python = {"kind": "none"} if thread_id is None else {"kind": "thread", "thread_id": thread_id}
    return {"crashed": crashed, "guessed": guessed, "python": python, "stack": stack, "system_id": system}


def number(key: str, layout: int, process: Optional[int] = None) -> Tree:
    """A number of a layout that the process tells, which is the layout's unless it is said."""
    return {"key": key, "layout": layout, "process": layout if process is None else process}


def layout_check(verdict: str, told: Sequence[Tree] = (), not_told: Sequence[str] = (), build: Optional[str] = None,
                 known: Optional[Tree] = None, doubt: Optional[str] = None) -> Tree:
    """What a process tells of the layout, and why that is doubtful."""
    differ = [it for it in told if it["layout"] != it["process"]]
    return {"build": build, "differ": differ, "doubt": doubt, "known": known, "not_told": list(not_told), "other_table": None, "told": list(told),
            "verdict": verdict}


# ---- what `pystacks dump` writes


def dump_thread(tree: Tree, name: Optional[str] = None) -> Tree:
    """A thread of `dump`, by one of `pysalvage`."""
    rows = []
    for it in tree["frames"]["first"] + tree["frames"]["last"]:
        shown = it["locals"] and [{"addr": 4096, "arg": row["arg"], "name": row["name"], "repr": row["repr"]} for row in it["locals"]]
        rows.append({
            "filename": it["filename"], "is_entry": True, "is_shim_entry": False, "line": it["line"], "locals": shown,
            "module": None, "name": it["name"], "short_filename": None,
        })
    return {
        "active": True, "frames": rows, "os_thread_id": tree["os_thread_id"], "owns_gil": tree["gil"], "pid": 0,
        "process_info": None, "thread_id": tree["thread_id"], "thread_name": name,
    }


def dump_json(threads: Sequence[Tree], names: Optional[Dict[int, str]] = None) -> str:
    """The JSON of `dump`, whose threads are in the reverse of the text's order."""
    return json.dumps([dump_thread(it, (names or {}).get(it["thread_id"])) for it in reversed(threads)])


def text_of(threads: Sequence[Tree], head: str = "Signal 11: core\nProcess 4711: python3 a.py\n", names: Optional[Dict[int, str]] = None) -> str:
    """The text of `dump`."""
    lines = [f"{head}Python v3.11.7\n\n"]
    for it in threads:
        label = hex(it["thread_id"]).upper().replace("X", "x") if it["os_thread_id"] is None else it["os_thread_id"]
        name = (names or {}).get(it["thread_id"])
        lines.append(f"Thread {label}{' (gil)' * it['gil']}" + (f': "{name}"' if name else "") + "\n")
        for row in it["frames"]["first"]:
            lines.append(f"    {row['name']} ({row['filename']}{':%d' % row['line'] if row['line'] else ''})\n")
    return "".join(lines)
