"""Run inside gdb: tells where the fields of layout_sources.py stand, by debug information.

The file that the environment's FIELDS names is a list, in JSON, of [key, struct, member, is_bit, after, code]. A line
`key number width` answers each, or `key ! reason`. The width is 0 for a struct or for what has none. A struct may be
named by what points to it, as in `dequeobject.leftblock*`. Where there is code, an expression of C, its value is told.
"""

import json
import os

import gdb


def member_of(struct, name):
    """A struct's field of that name, with its bit in the struct; fields of nameless members count as its own."""
    for field in struct.strip_typedefs().fields():
        if field.name == name:
            return field, field.bitpos
        if not field.name:
            found = member_of(field.type, name)
            if found:
                return found[0], field.bitpos + found[1]
    return None


def type_of(struct):
    """The type of this name, or that to which the named member of a struct points."""
    if not struct.endswith("*"):
        return gdb.lookup_type(struct)
    outer, _, member = struct[:-1].partition(".")
    found = member_of(gdb.lookup_type(outer), member)
    if not found:
        raise gdb.error("no field named %s" % member)
    return found[0].type.strip_typedefs().target()


def place(struct, member, is_bit):
    """The number and the width of a member: bits where it is a bit field, else bytes."""
    at, kind = 0, type_of(struct)
    for part in member.split("."):
        name, _, index = part.partition("[")
        found = member_of(kind, name)
        if not found:
            raise gdb.error("no field named %s" % name)
        field, bit = found
        at, kind = bit if is_bit else at + bit, field.type.strip_typedefs()
        if index:
            kind = kind.target().strip_typedefs()
    if is_bit:
        return at, field.bitsize
    return at // 8, kind.sizeof


def answer(key, struct, member, is_bit, after, code):
    """The line that answers for one field."""
    try:
        if code:
            return "%s %d 0" % (key, int(gdb.parse_and_eval(code)))
        before = gdb.lookup_type(after).sizeof if after else 0
        at, width = place(struct, member, is_bit) if member else (type_of(struct).sizeof, 0)
        return "%s %d %d" % (key, before + at, width)
    except (gdb.error, TypeError) as error:
        return "%s ! %s" % (key, str(error).replace("\n", " "))


with open(os.environ["FIELDS"]) as asked:
    for one in json.load(asked):
        print(answer(*one))
