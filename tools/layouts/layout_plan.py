"""What a layout of CPython 2.7 and 3.6 to 3.13 has to say, and in which structs each number is to be looked up.

No number of a layout stands here: the plan names structs and fields, and layout_sources.py looks them up. The
families, such as `lasti = "units"`, are the version's, as the comments and names of its headers tell them.
"""

from dataclasses import dataclass
from typing import List, Optional, Sequence, Tuple

Version = Tuple[int, int]
"""A version's major and minor."""

VERSIONS: Tuple[Version, ...] = ((2, 7), *((3, minor) for minor in range(6, 14)))
"""The versions that have a plan."""


@dataclass(frozen=True)
class Field:
    """A number to look up: where a member of a struct stands, or, with no member, how long the struct is."""

    key: str
    struct: str
    member: str = ""
    width: int = 0
    """How many bytes the field must have (a bit field: bits), or 0 where any number will do."""
    is_bit: bool = False
    """Whether the number is that of the member's lowest bit, in the member before the last dot."""
    after: str = ""
    """A struct that stands before this one, so that its length is added."""
    is_last: bool = False
    """Whether the number is that of the member's last byte."""
    code: str = ""
    """An expression of C that tells the number, where no member of a struct does."""

    @property
    def what(self) -> str:
        """The field as CPython spells it."""
        if self.code:
            return self.code
        spelled = f"{self.struct}.{self.member}" if self.member else f"sizeof({self.struct})"
        spelled = f"the last byte of {spelled}" if self.is_last else spelled
        return f"sizeof({self.after}) + {spelled}" if self.after else spelled

    def number_of(self, place: int) -> int:
        """The layout's number, where the member stands at this place."""
        return place + self.width - 1 if self.is_last else place

    @property
    def length(self) -> int:
        """How many bytes of the record it takes from its number on: 0 where they may be any, or are none."""
        return 1 if self.is_last else 0 if self.is_bit else self.width


@dataclass(frozen=True)
class Group:
    """A group of a layout, in the order in which it is written."""

    name: str
    fields: Tuple[Field, ...]
    has_size: bool = True
    size: Optional[Field] = None
    """What `size` is, where it isn't the end of the group's last field."""
    constants: Tuple[Tuple[str, int], ...] = ()
    """Keys whose numbers no struct tells."""

    @property
    def wanted(self) -> Tuple[Field, ...]:
        """All that has to be looked up."""
        return self.fields + ((self.size,) if self.size else ())


@dataclass(frozen=True)
class Plan:
    """All that a layout of one version has, and what is looked up beside it."""

    families: Tuple[Tuple[str, str], ...]
    groups: Tuple[Group, ...]
    extra: Tuple[Field, ...]
    """What no layout has: it is told in comments."""

    @property
    def wanted(self) -> List[Field]:
        """All that has to be looked up for the layout itself."""
        return [field for group in self.groups for field in group.wanted]


def group(
    name: str, struct: str, sized: Sequence[Tuple[str, str, int]] = (), plain: Sequence[Tuple[str, str]] = (), has_size: bool = True,
    size: Optional[Field] = None, constants: Sequence[Tuple[str, int]] = (),
) -> Group:
    """A group of one struct: `sized` has (key, member, width), `plain` has (key, member)."""
    fields = [Field(f"{name}.{key}", struct, member, width) for key, member, width in sized]
    fields += [Field(f"{name}.{key}", struct, member) for key, member in plain]
    return Group(name, tuple(fields), has_size, size, tuple(constants))


def families_of(version: Version, with_dicts: bool) -> Tuple[Tuple[str, str], ...]:
    """The families of a version."""
    # (3.13 has values inside its objects: `split` reaches those of objects with a weak reference, `tagged` none)
    managed = {(3, 11): "split", (3, 12): "tagged", (3, 13): "split"}.get(version, "none")
    runtime = "runtime" if version >= (3, 7) else "symbol"
    lines = "locations" if version >= (3, 11) else "ranges" if version == (3, 10) else "pairs"
    return (
        ("head", "offsets" if version >= (3, 13) else runtime),
        ("lock", "gil" if version >= (3, 12) else runtime),
        ("frames", "cframe" if version in ((3, 11), (3, 12)) else "direct"),
        ("lasti", "pointer" if version >= (3, 11) else "units" if version == (3, 10) else "bytes"),
        ("lines", lines),
        ("strings", "state" if version >= (3, 0) else "bytes"),
        ("integers", "tagged" if version >= (3, 12) else "signed"),
        ("dicts", "none" if not with_dicts else "compact" if version >= (3, 11) else "general"),
        ("managed", managed if with_dicts else "none"),
    )


def chain_groups(version: Version) -> List[Group]:
    """The groups of interpreters, threads and frames."""
    interpreter = [
        ("threads", "threads.head" if version >= (3, 11) else "tstate_head"),
        ("modules", "imports.modules" if version >= (3, 12) else "modules"),
    ]
    if version >= (3, 12):
        interpreter.append(("gil", "ceval.gil"))
    newest = "current_frame" if version >= (3, 13) else "cframe" if version >= (3, 11) else "frame"
    thread = [("next", "next", 8), ("interp", "interp", 8), ("id", "thread_id", 8), ("frame", newest, 8)]
    if version >= (3, 11):
        thread.append(("native_id", "native_thread_id", 8))
    groups = [
        group("interpreter", "PyInterpreterState", plain=interpreter, has_size=False),
        group("thread", "PyThreadState", sized=thread),
    ]
    if version in ((3, 11), (3, 12)):
        groups.append(group("cframe", "_PyCFrame", plain=[("current", "current_frame")], has_size=False))
    return groups + [frame_group(version)]


def frame_group(version: Version) -> Group:
    """The group of a frame's record."""
    tag = [("code_tag_bits", 0)]
    if version <= (3, 10):
        sized = [("code", "f_code", 8), ("back", "f_back", 8), ("instr", "f_lasti", 4)]
        return group("frame", "PyFrameObject", sized, [("locals", "f_localsplus")], constants=tag)
    struct = "struct _PyInterpreterFrame"
    fields = [
        Field("frame.code", struct, "f_executable" if version >= (3, 13) else "f_code", 8),
        Field("frame.back", struct, "previous", 8),
        Field("frame.instr", struct, "instr_ptr" if version >= (3, 13) else "prev_instr", 8),
        Field("frame.entry", struct, "is_entry", 1) if version == (3, 11) else never_entry(struct),
        Field("frame.locals", struct, "localsplus"),
    ]
    return Group("frame", tuple(fields), constants=tuple(tag))


NEVER_ENTRY = "f_globals"
"""A pointer of each frame that no key of a layout names."""


def never_entry(struct: str) -> Field:
    """The byte that says where C called into a frame, for versions that have members of their own there, which are not
    shown: it is to be 0 always, as the top byte of a pointer is."""
    return Field("frame.entry", struct, NEVER_ENTRY, 8, is_last=True)


def code_group(version: Version) -> Group:
    """The group of a code object's record."""
    sized = [
        ("argcount", "co_argcount", 4),
        ("nlocals", "co_nlocals", 4),
        ("first_line", "co_firstlineno", 4),
        ("filename", "co_filename", 8),
        ("name", "co_name", 8),
        ("table", "co_linetable" if version >= (3, 10) else "co_lnotab", 8),
        ("varnames", "co_localsplusnames" if version >= (3, 11) else "co_varnames", 8),
    ]
    plain = [("start", "co_code_adaptive")] if version >= (3, 11) else []
    return group("code", "PyCodeObject", sized, plain)


def string_group(version: Version) -> Group:
    """The group of a text. From 3.3 on its record is that of the longest of its three structs."""
    if version < (3, 0):
        return group("string", "PyStringObject", [("length", "ob_size", 8)], [("short_at", "ob_sval")])
    short = "PyASCIIObject"
    bits = (("kind_shift", "kind", 3), ("compact_bit", "compact", 1), ("ascii_bit", "ascii", 1))
    fields = [
        Field("string.length", short, "length", 8),
        Field("string.state", short, "state", 4),
        Field("string.pointer", "PyUnicodeObject", "data", 8),
        Field("string.short_at", short),
        Field("string.long_at", "PyCompactUnicodeObject"),
    ]
    fields += [Field(f"string.{key}", short, f"state.{bit}", width, is_bit=True) for key, bit, width in bits]
    return Group("string", tuple(fields))


def small_group(version: Version) -> Group:
    """The group of the integers that Python 2 has beside the long ones."""
    if version < (3, 0):
        return group("small", "PyIntObject", [("value", "ob_ival", 8)])
    return Group("small", (), has_size=False, constants=(("size", 8), ("value", 0)))


def object_groups(version: Version) -> List[Group]:
    """The groups of objects, dicts aside."""
    count = "ob_base.ob_size" if version >= (3, 0) else "ob_size"
    long = ("long_value.lv_tag", "long_value.ob_digit") if version >= (3, 12) else (count, "ob_digit")
    of_bytes = "PyBytesObject" if version >= (3, 0) else "PyStringObject"
    return [
        string_group(version),
        group("bytes", of_bytes, [("length", count, 8)], [("at", "ob_sval")]),
        group("tuple", "PyTupleObject", [("count", count, 8)], [("at", "ob_item")]),
        group("list", "PyListObject", [("count", count, 8), ("items", "ob_item", 8)]),
        group("object", "PyObject", [("klass", "ob_type", 8)], size=Field("object.size", "PyObject")),
        group(
            "klass",
            "PyTypeObject",
            [("name", "tp_name", 8), ("flags", "tp_flags", 8), ("dict_offset", "tp_dictoffset", 8)],
        ),
        Group(
            "long",
            (
                Field("long.count", "PyLongObject", long[0], 8),
                Field("long.digits", "PyLongObject", f"{long[1]}[0]", 4),
            ),
        ),
        small_group(version),
        group("float", "PyFloatObject", [("value", "ob_fval", 8)]),
    ]


def dict_groups(version: Version) -> List[Group]:
    """The groups of dicts, and of the dicts that objects manage."""
    has_log2 = version >= (3, 11)
    sized = [("used", "dk_nentries", 8)]
    sized += [("log2", "dk_log2_index_bytes", 1), ("kind", "dk_kind", 1)] if has_log2 else [("slots", "dk_size", 8)]
    keys = "struct _dictkeysobject"
    groups = [
        group("dict", "PyDictObject", [("keys", "ma_keys", 8), ("values", "ma_values", 8)]),
        group("keys", keys, sized, size=Field("keys.size", keys, "dk_indices")),
    ]
    if version >= (3, 11):
        # (from 3.13 on an object's values may stand behind its head, with a head of their own)
        cached = Field("heap.cached_keys", "PyHeapTypeObject", "ht_cached_keys", 8)
        inline = Field("heap.inline", "struct _dictvalues", "values", after="PyObject")
        groups.append(Group("heap", (cached, inline)))
    return groups


def extra_of(version: Version) -> Tuple[Field, ...]:
    """What the head of a file tells beside the layout: how interpreters are chained, and places in _PyRuntime."""
    extra = [Field("interpreter.next", "PyInterpreterState", "next", 8)]
    if version >= (3, 7):
        extra.append(Field("runtime.head", "_PyRuntimeState", "interpreters.head", 8))
    if (3, 7) <= version <= (3, 11):
        extra.append(Field("runtime.current", "_PyRuntimeState", "gilstate.tstate_current", 8))
    return tuple(extra)


def plan_of(version: Version, with_dicts: bool = True) -> Plan:
    """The plan for a version. Dicts have been read by one rule since 3.6, and those of 2.7 are none of theirs."""
    with_dicts = with_dicts and version >= (3, 6)
    groups = chain_groups(version) + [code_group(version)] + object_groups(version)
    if with_dicts:
        groups += dict_groups(version)
    if version >= (3, 12):
        gil = [("locked", "locked", 4), ("holder", "last_holder", 8)]
        groups.append(group("gil", "struct _gil_runtime_state", gil))
    if version >= (3, 13):
        head = [("head", "runtime_state.interpreters_head", 8)]
        groups.append(group("offsets", "struct _Py_DebugOffsets", head))
    return Plan(families_of(version, with_dicts), tuple(groups), extra_of(version))
