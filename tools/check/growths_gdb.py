"""Runs in gdb: a program again and again, in which one call of a growth, a read or a write answers otherwise.

What is to be done comes as JSON in the file that GROWTHS names: the arguments, a file for what is printed and one for
what is said, one that has the whole text, the folder, and which faults. What came of each run is added to its file
`answers`, as lines of JSON, with null for the whole text.
"""

import json
import os
import re

import gdb

EIO, EINTR = 5, 4

COUNT_DOWN = bytes.fromhex("49bb"), bytes.fromhex("49ff0b 7404 41ff6308 31c0c3")
"""Code of x86-64 around an address, where it takes 1 from a number: where that comes to 0 the answer is null, and else
that of the function whose address stands behind the number. (A stop at each call would take hours, where there are
60,000.)"""

PAGE = 4096

FAR = 2 ** 62
"""A number that no run counts down to 0."""


def number(text):
    """A number that gdb tells."""
    return int(gdb.parse_and_eval(text))


def answer(value):
    """The call at whose begin the program stands answers this, and does nothing."""
    gdb.execute(f"set $rax = {value}")
    gdb.execute("set $rip = *(long *) $rsp")
    gdb.execute("set $rsp = $rsp + 8")


def fail(fault):
    """Has the call at whose begin the program stands answer otherwise."""
    if fault == "short":
        if number("$rdx") > 1:
            gdb.execute("set $rdx = 1")
    else:
        code = {"failed": EIO, "interrupted": EINTR}[fault]
        offset = number(f"*(long *) {named_at('__errno_location')}")
        gdb.execute(f"set *(int *) ($fs_base + {offset}) = {code}")
        answer(-1)


def ran(task, call, nth, fault):
    """A run in which the nth call, from 1 on, has a fault; how it ended, or null, and whether there was such a call."""
    gdb.execute("delete")
    point = gdb.Breakpoint(f"*'{call}@plt'")
    point.ignore_count = nth - 1
    begin(task)
    came = point.is_valid() and gdb.selected_inferior().pid != 0
    if came:
        fail(fault)
        point.enabled = False
        gdb.execute("continue", to_string=True)
    return status(), came


def begin(task):
    """Runs the program up to a breakpoint, or to its end."""
    gdb.execute("set $_exitcode = (void) 0")
    words = " ".join(f"'{it}'" for it in task["words"])
    gdb.execute(f"run {words} > '{task['out']}' 2> '{task['said']}' < /dev/null", to_string=True)


def status():
    """How the run ended, or null, where it didn't by itself."""
    if gdb.selected_inferior().pid != 0:
        gdb.execute("kill")
        return None
    ended = gdb.parse_and_eval("$_exitcode")
    return None if ended.type.code == gdb.TYPE_CODE_VOID else int(ended)


def named_at(code):
    """The address that the first of two instructions names which names one."""
    return int(re.search(r"# (0x[0-9a-f]+)", gdb.execute(f"x/2i {code}", to_string=True)).group(1), 16)


def room():
    """Where 16 bytes of the program's memory stand that nothing uses: behind its last data, on the same page."""
    ends = re.findall(r"- (0x[0-9a-f]+) is \.bss$", gdb.execute("info files", to_string=True), re.M)
    place = -(-int(ends[0], 16) // 16) * 16
    if place % PAGE == 0:
        raise gdb.GdbError("the program's data ends with a page")
    return place


def count_down(task, call, nth):
    """Begins a run in which the nth call answers null. Returns where its number stands that is counted down. The code
    takes the place of the program's first, which has run. (No function is called: gdb 13.1 can't on a processor with
    AMX.)"""
    gdb.execute("delete")
    gdb.Breakpoint("main", temporary=True)
    begin(task)
    place, code = room(), number("(long) &_start")
    memory, own = gdb.selected_inferior(), number(f"(long) &{call}")
    memory.write_memory(code, place.to_bytes(8, "little").join(COUNT_DOWN))
    memory.write_memory(place, nth.to_bytes(8, "little") + own.to_bytes(8, "little"))
    memory.write_memory(named_at(f"'{call}@plt'"), code.to_bytes(8, "little"))
    return place


def calls_of(task, call):
    """How many such calls a run makes."""
    place = count_down(task, call, FAR)
    gdb.Breakpoint("_exit", temporary=True)
    gdb.execute("continue", to_string=True)
    left = int.from_bytes(bytes(gdb.selected_inferior().read_memory(place, 8)), "little")
    gdb.execute("kill")
    return FAR - left


def refused(task, call, step, most):
    """The runs in which each so manyth call answers null, of which there are at most so many."""
    count = calls_of(task, call)
    for nth in range(1, count + 1, max(step, -(-count // most))):
        count_down(task, call, nth)
        gdb.execute("continue", to_string=True)
        yield nth, status()


def faulty(task, call, fault):
    """The runs in which each call has another fault."""
    nth = 1
    while True:
        ended, came = ran(task, call, nth, fault)
        if not came:
            return
        yield nth, ended
        nth += 1


def main():
    """All the runs that are asked for."""
    with open(os.environ["GROWTHS"], encoding="utf-8") as file:
        task = json.load(file)
    folder = f"cwd {task['folder']}"
    for line in ("pagination off", "confirm off", "breakpoint pending off", folder, "environment LC_ALL C"):
        gdb.execute(f"set {line}")
    with open(task["whole"], "rb") as file:
        whole = file.read()
    with open(task["answers"], "w", encoding="utf-8") as answers:
        for call, fault in task["faults"]:
            runs = refused(task, call, task["step"], task["most"]) if fault == "refused" else faulty(task, call, fault)
            for nth, ended in runs:
                with open(task["out"], "rb") as out, open(task["said"], "rb") as said:
                    text, line = out.read(), said.read().decode("latin-1")
                shown = None if text == whole else text.decode("latin-1")
                answers.write(json.dumps([call, fault, nth, ended, shown, line]) + "\n")


main()
