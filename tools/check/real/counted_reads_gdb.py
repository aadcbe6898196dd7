"""Runs in gdb: a program once, and tells how often its functions at some places were called.

What is to be run comes as JSON in COUNTED_READS: the program, its words, and the places from its begin on.
"""

import json
import os

import gdb

MOST = 10 ** 9
"""More calls than there are."""


def begin_of(program):
    """Where a program begins in memory."""
    lines = gdb.execute("info proc mappings", to_string=True).splitlines()
    return min(int(line.split()[0], 16) for line in lines if line.endswith(program))


def counted(task):
    """The calls of a run, and its status."""
    words = " ".join("'%s'" % it.replace("'", "'\\''") for it in task["words"])
    gdb.execute("starti %s > /dev/null 2> /dev/null < /dev/null" % words, to_string=True)
    begin = begin_of(task["program"])
    points = [gdb.Breakpoint("*%d" % (begin + place)) for place in task["places"]]
    for point in points:
        point.ignore_count = MOST
    gdb.execute("continue", to_string=True)
    return sum(it.hit_count for it in points), int(gdb.parse_and_eval("$_exitcode"))


gdb.execute("set pagination off")
gdb.execute("set confirm off")
print("reads %d status %d" % counted(json.loads(os.environ["COUNTED_READS"])))
