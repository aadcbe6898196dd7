"""Which records a file describes, by version, and in which structs of CPython each number is to be looked up.

No number of a record stands here, but for those of WITHOUT: the plan names structs, fields and expressions of C, which
layout_sources.py looks up and probe_records.py finds in a running interpreter.
"""

import re
from dataclasses import dataclass
from typing import Dict, Iterator, List, Tuple

from layout_plan import VERSIONS, Field, Version

FIRST, THREE, LAST = VERSIONS[0], VERSIONS[1], VERSIONS[-1]
"""The first version that is described, the first of Python 3, and the last."""

SIZEOF = "sizeof"
"""A record whose size is that of its struct."""


@dataclass(frozen=True)
class Bit(Field):
    """A field of one bit, of which a record has the byte, or the bit's number in that byte."""

    is_number: bool = False

    def number_of(self, place: int) -> int:
        """The byte, or the bit's number in it, where the member is the bit with this number."""
        return place % 8 if self.is_number else place // 8


class Held(Field):
    """A number that no struct and no macro tells, but only what a running interpreter holds. Its code is words."""


@dataclass(frozen=True)
class Record:
    """A group of the versions from the first to the last.

    `keys` has a word for each key: `key`, `key=member` or `key=member:width`. The width is 8 bytes where none is said,
    and - where something of unsaid length begins. `constants` are expressions of C."""

    name: str
    struct: str
    keys: str = ""
    first: Version = THREE
    last: Version = LAST
    size: str = SIZEOF
    """What `size` is: SIZEOF, an expression of C, or nothing where the group has none."""
    module: str = ""
    """The extension module in whose debug information the struct is, where that isn't the interpreter's own."""
    constants: Tuple[Tuple[str, str], ...] = ()
    others: Tuple[Field, ...] = ()
    """Fields of other structs than the group's, and of none."""
    is_python: bool = False
    """Whether `struct` is a class of Python, with slots."""
    alike: Tuple[Tuple[str, str], ...] = ()
    """Structs that have to have the same fields at the same places, and what their fields' names begin with."""

    def covers(self, version: Version) -> bool:
        """Whether a version has the group."""
        return self.first <= version <= self.last

    def members(self) -> Iterator[Tuple[str, str, int]]:
        """The keys, each with its member and width."""
        for key, member, width in re.findall(r"(\w+)(?:=([\w.]+))?(?::(\d+|-))?", self.keys):
            yield key, member or key, 0 if width == "-" else int(width or 8)

    def fields(self) -> List[Field]:
        """All that is looked up for the group, its size first."""
        if self.is_python:
            words = [("size", "__basicsize__", 0), *self.members()]
            return [Held(f"{self.name}.{key}", "", "", width, code=f"{self.struct}.{it}") for key, it, width in words]
        found: List[Field] = []
        if self.size:
            found.append(Field(f"{self.name}.size", self.struct, code="" if self.size == SIZEOF else self.size))
        found += [Field(f"{self.name}.{key}", self.struct, member, width) for key, member, width in self.members()]
        found += self.others
        return found + [Field(f"{self.name}.{key}", "", code=code) for key, code in self.constants]

    def same(self) -> List[Tuple[str, Field]]:
        """The keys, each with a field of another struct that has to stand at the same place."""
        found = []
        for struct, prefix in self.alike:
            for key, member, width in self.members():
                named = f"{prefix}_{member.partition('_')[2]}"
                found.append((f"{self.name}.{key}", Field(f"{self.name}.{key}@{struct}", struct, named, width)))
        return found


def place(struct: str, member: str) -> str:
    """An expression of C for a member's place, which debuggers know too."""
    return f"(unsigned long)&(({struct} *)0)->{member}"


FRAME = "struct _PyInterpreterFrame"

MANAGED = (
    "({ PyTypeObject it = {0}; it.tp_flags = -1; PyObject made = {.ob_type = &it};"
    " (char *)&made - (char *)%s(&made); })")
"""How far before an object a word stands whose address a function of the headers tells."""

BIT = "__builtin_ctzl(%s)"

USED = (
    "({ uint8_t it[64] = {0}; _PyDictValues_AddToInsertionOrder((PyDictValues *)(it + 32), 0);"
    " it[30] == 1 ? 2 : 0; })")
"""How far before the values the byte stands which a function of the headers counts up."""

TYPES = (
    Record(
        "type", "PyTypeObject",
        "basicsize=tp_basicsize itemsize=tp_itemsize repr=tp_repr str=tp_str flags=tp_flags weaklist=tp_weaklistoffset"
        " methods=tp_methods members=tp_members getset=tp_getset base=tp_base dict=tp_dict dictoffset=tp_dictoffset"
        " bases=tp_bases mro=tp_mro", FIRST),
    Record("heap_type", "PyHeapTypeObject", "qualname=ht_qualname cached_keys=ht_cached_keys"),
    Record("slots", "PyMemberDescrObject", "owner=d_type name=d_name member=d_member", FIRST, FIRST),
    Record("slots", "PyMemberDescrObject", "owner=d_common.d_type name=d_common.d_name member=d_member"),
    Record("member", "struct PyMemberDef", "name kind=type:4 offset", FIRST),
    Record("instance_split", "", first=(3, 11), last=(3, 11), size="", constants=(
        ("dict", "-MANAGED_DICT_OFFSET"), ("values", MANAGED % "_PyObject_ValuesPointer"),
        ("managed_bit", BIT % "Py_TPFLAGS_MANAGED_DICT"))),
    Record("instance_tagged", "", first=(3, 12), last=(3, 12), size="", constants=(
        ("word", MANAGED % "_PyObject_DictOrValuesPointer"),
        ("tag", "({ PyDictOrValues it = {.values = (char *)64}; (char *)_PyDictOrValues_GetValues(it) - it.values; })"),
        ("managed_bit", BIT % "Py_TPFLAGS_MANAGED_DICT"), ("weakref_bit", BIT % "Py_TPFLAGS_MANAGED_WEAKREF"))),
    Record("instance_inline", "", first=(3, 13), size="", constants=(
        ("dict", "-MANAGED_DICT_OFFSET"), ("managed_bit", BIT % "Py_TPFLAGS_MANAGED_DICT"),
        ("weakref_bit", BIT % "Py_TPFLAGS_MANAGED_WEAKREF"), ("inline_bit", BIT % "Py_TPFLAGS_INLINE_VALUES"))),
    Record("values", "struct _dictvalues", "capacity:1 used=size:1 embedded:1 valid:1 items=values:-", (3, 13),
           size=place("struct _dictvalues", "values")),
    # (3.11 and 3.12 have no struct: bytes before the values tell, and no header names the one of the prefix's length)
    Record("values_before", "", first=(3, 11), last=(3, 12), size="", others=(
        Held("values_before.prefix", "", code="which byte before values is the length of what stands before them"),
    ), constants=(("used", USED),)),
)
"""Types, what describes their members, and where the attributes of instances are."""

OBJECTS = (
    Record("set", "PySetObject", "used mask table small_table=smalltable:-"),
    Record("set_entry", "setentry", "key hash"),
    Record("list", "PyListObject", "allocated", FIRST),
    Record("dict", "PyDictObject", "used=ma_used"),
    Record("keys", "struct _dictkeysobject", "usable=dk_usable", size=""),
    Record("keys_log2", "struct _dictkeysobject", "slots=dk_log2_size:1", (3, 11), size=""),
    Record("ordered_dict", "struct _odictobject", "nodes=od_fast_nodes nodes_size=od_fast_nodes_size first=od_first"
           " last=od_last"),
    Record("ordered_node", "struct _odictnode", "key hash next previous=prev"),
    Record("default_dict", "defdictobject", "factory=default_factory"),
    Record("deque", "dequeobject", "count=ob_base.ob_size left_block=leftblock right_block=rightblock"
           " left_index=leftindex right_index=rightindex"),
    # (there are other structs named `block`)
    Record("deque_block", "dequeobject.leftblock*", "left=leftlink items=data:- right=rightlink"),
    Record("bytearray", "PyByteArrayObject", "count=ob_base.ob_size allocated=ob_alloc bytes=ob_bytes start=ob_start"),
    Record("complex", "PyComplexObject", "real=cval.real imag=cval.imag", FIRST),
    Record("range", "rangeobject", "start stop step length"),
    Record("slice", "PySliceObject", "start stop step", FIRST),
    Record("decimal", "PyDecObject", "flags=dec.flags:1 exponent=dec.exp digits=dec.digits words=dec.len data=dec.data",
           module="_decimal"),
    Record("date", "PyDateTime_Date", "data:4", module="_datetime"),
    Record("time", "PyDateTime_Time", "has_zone=hastzinfo:1 data:6 fold:1 zone=tzinfo", module="_datetime"),
    Record("datetime", "PyDateTime_DateTime", "has_zone=hastzinfo:1 data:10 fold:1 zone=tzinfo", module="_datetime"),
    Record("timedelta", "PyDateTime_Delta", "days:4 seconds:4 microseconds:4", module="_datetime"),
    Record("partial", "partialobject", "function=fn args keywords=kw"),
    Record("module", "PyModuleObject", "dict=md_dict name=md_name"),
    Record("function", "PyFunctionObject", "code=func_code globals=func_globals name=func_name qualname=func_qualname"
           " closure=func_closure dict=func_dict module=func_module"),
    Record("method", "PyMethodObject", "function=im_func self=im_self", FIRST),
    Record("builtin", "PyCFunctionObject", "def=m_ml self=m_self module=m_module", FIRST),
    Record("method_def", "struct PyMethodDef", "name=ml_name", FIRST),
    Record("cell", "PyCellObject", "value=ob_ref", FIRST),
    Record("weakref", "struct _PyWeakReference", "object=wr_object callback=wr_callback", FIRST),
)
"""Objects of common types."""

OWNED = "FRAME_OWNED_BY_"

FRAMES = (
    Record("code", "PyCodeObject", "flags=co_flags:4 stack_size=co_stacksize:4", FIRST, (3, 10)),
    Record("code", "PyCodeObject", "flags=co_flags:4 stack_size=co_stacksize:4", (3, 11),
           size=place("PyCodeObject", "co_code_adaptive")),
    Record("code_names", "PyCodeObject", "bytecode=co_code cells=co_cellvars frees=co_freevars", FIRST, (3, 10),
           size=""),
    Record("code_kinds", "PyCodeObject", "count=co_nlocalsplus:4 kinds=co_localspluskinds qualname=co_qualname",
           (3, 11), size=""),
    Record("frame_object", "struct _frame", "frame=f_frame", (3, 11),
           size=f"{place('struct _frame', '_f_frame_data')} + {place(FRAME, 'localsplus')}"),
    Record("owner", FRAME, "place=owner:1", (3, 11), size="", constants=(
        ("thread", f"{OWNED}THREAD"), ("generator", f"{OWNED}GENERATOR"), ("frame_object", f"{OWNED}FRAME_OBJECT"))),
    Record("shim", FRAME, first=(3, 12), size="", constants=(("owner", f"{OWNED}CSTACK"),)),
    Record("entry", FRAME, "place=is_entry:1", (3, 11), (3, 11), size=""),
    Record("cframe", "_PyCFrame", "current=current_frame previous", (3, 11), (3, 12)),
    Record("stack_pointer", "PyFrameObject", "bottom=f_valuestack top=f_stacktop", FIRST, (3, 9), size=""),
    Record("stack_depth", "PyFrameObject", "bottom=f_valuestack depth=f_stackdepth:4 state=f_state:1",
           (3, 10), (3, 10), size=""),
    Record("stack_count", FRAME, "top=stacktop:4", (3, 11), size=""),
    Record("states", "", first=(3, 10), size="", constants=(
        ("created", "FRAME_CREATED & 255"), ("suspended", "FRAME_SUSPENDED & 255"),
        ("running", "FRAME_EXECUTING & 255"))),
    Record("awaiting_state", "", first=(3, 13), size="", constants=(("state", "FRAME_SUSPENDED_YIELD_FROM & 255"),)),
    Record("yield_from", "", last=(3, 10), size="", constants=(("opcode", "YIELD_FROM"),)),
    Record("resume", "", first=(3, 11), last=(3, 11), size="", constants=(
        ("first", "RESUME"), ("second", "RESUME_QUICK"))),
    Record("resume", "", first=(3, 12), size="", constants=(("first", "RESUME"), ("second", "INSTRUMENTED_RESUME"))),
    Record("traceback", "struct _traceback", "next=tb_next frame=tb_frame lasti=tb_lasti:4 line=tb_lineno:4", FIRST),
)
"""Code, and frames beyond what layouts have of them."""

GENERATOR = "PyGenObject"
ALIKE = (("PyCoroObject", "cr"), ("PyAsyncGenObject", "ag"))
KINDS = (("generator", GENERATOR, "gi"), ("coroutine", *ALIKE[0]), ("async_generator", *ALIKE[1]))
INSIDE = f"{place('%s', '%s_iframe')} + {place(FRAME, 'localsplus')}"

COROUTINES = (
    *(Record(name, struct, f"name={short}_name qualname={short}_qualname", last=(3, 10))
      for name, struct, short in KINDS),
    *(Record(name, struct, f"name={short}_name qualname={short}_qualname", (3, 11), size=INSIDE % (struct, short))
      for name, struct, short in KINDS),
    Record("generator_frame", GENERATOR, "frame=gi_frame", last=(3, 10), size="", alike=ALIKE),
    Record("generator_running", GENERATOR, "running=gi_running:1", last=(3, 9), size="", alike=ALIKE),
    Record("generator_inside", GENERATOR, "frame=gi_iframe:- state=gi_frame_state:1", (3, 11), size="", alike=ALIKE),
    Record("generator_handled", GENERATOR, "item=gi_exc_state:-", (3, 7), size="", alike=ALIKE),
    Record("coroutine_wrapper", "PyCoroWrapper", "held=cw_coroutine"),
    Record("asend", "PyAsyncGenASend", "held=ags_gen"),
    Record("athrow", "PyAsyncGenAThrow", "held=agt_gen"),
    Record("anext_awaitable", "anextawaitableobject", "held=wrapped", (3, 10)),
)
"""Coroutines and generators, and what holds one of them while it is awaited."""

FUTURE = (
    "loop=fut_loop callback0=fut_callback0 callbacks=fut_callbacks exception=fut_exception result=fut_result"
    " state=fut_state:4")
TASK = "waiter=task_fut_waiter coro=task_coro"
CANCEL = "task_must_cancel"

ASYNCIO = (
    Record("future", "FutureObj", FUTURE, (3, 7), module="_asyncio"),
    Record("task", "TaskObj", f"{TASK} cancel={CANCEL}:-", (3, 7), (3, 12), module="_asyncio", others=(
        Held("task.cancel_bit", "", code=f"which bit of the first byte of {CANCEL}, a number that is 0 or 1"),)),
    Record("task", "TaskObj", TASK, (3, 13), module="_asyncio", others=(
        Bit("task.cancel", "TaskObj", CANCEL, 1, True),
        Bit("task.cancel_bit", "TaskObj", CANCEL, 1, True, is_number=True))),
    Record("task_name", "TaskObj", "name=task_name", (3, 8), size="", module="_asyncio"),
    Record("future_iter", "futureiterobject", "held=future", (3, 7), module="_asyncio"),
    Record("task_step", "TaskStepMethWrapper", "held=sw_task", (3, 7), module="_asyncio"),
    Record("task_wakeup", "TaskWakeupMethWrapper", "held=ww_task", (3, 7), (3, 9), module="_asyncio"),
    Record("handle", "asyncio.events.Handle", "args=_args callback=_callback cancelled=_cancelled", (3, 7),
           is_python=True),
    Record("timer_handle", "asyncio.events.TimerHandle", "when=_when", (3, 7), is_python=True),
)
"""Futures and tasks of the module _asyncio, and what its loops hold."""

GIL = "struct _gil_runtime_state"

LOCKS = (
    Record("lock", "lockobject", "semaphore=lock_lock locked:1"),
    # (which patch releases of 3.13 have it, and not `lock`, the sources tell)
    Record("lock_mutex", "lockobject", "mutex=lock:1", (3, 13)),
    Record("rlock", "rlockobject", "semaphore=rlock_lock owner=rlock_owner count=rlock_count"),
    Record("simple_queue", "simplequeueobject", "semaphore=lock", (3, 7), (3, 12), module="_queue"),
    Record("simple_queue_parked", "simplequeueobject", "waiting=has_threads_waiting:1", (3, 13), module="_queue"),
    Record("runtime_lock", GIL, first=(3, 7), last=(3, 11), others=(
        Field("runtime_lock.place", "_PyRuntimeState", "ceval.gil"),)),
    Record("interpreter_lock", GIL, first=(3, 12)),
)
"""What threads wait for."""

THREAD = "PyThreadState"

EXCEPTIONS = (
    Record("exception", "PyBaseExceptionObject", "dict args traceback context cause suppress_context:1"),
    Record("os_error", "PyOSErrorObject", "errno=myerrno strerror filename filename2"),
    Record("syntax_error", "PySyntaxErrorObject", "msg filename line=lineno"),
    Record("unicode_error", "PyUnicodeErrorObject", "encoding object start end reason"),
    Record("import_error", "PyImportErrorObject", "msg name"),
    Record("exception_group", "PyBaseExceptionGroupObject", "msg excs", (3, 11)),
    Record("item", "struct _err_stackitem", "value=exc_value previous=previous_item", (3, 7)),
    Record("item_parts", "struct _err_stackitem", "type=exc_type traceback=exc_traceback", (3, 7), (3, 10), size=""),
    Record("raised_parts", THREAD, "type=curexc_type value=curexc_value traceback=curexc_traceback", FIRST, (3, 11),
           size=""),
    Record("raised", THREAD, "exception=current_exception", (3, 12), size=""),
    Record("handled", THREAD, "newest=exc_info oldest=exc_state:-", (3, 7), size=""),
)
"""Exceptions, and where a thread has those that it raises and handles."""

COLLECTOR = "generations=gc.generations:- permanent=gc.permanent_generation:- collecting=gc.collecting:4"
STATE = "struct _obmalloc_state"

HEAP = (
    Record("interpreter", "PyInterpreterState", "next", FIRST, size=""),
    Record("runtime_collector", "_PyRuntimeState", COLLECTOR, (3, 7), (3, 8), size=""),
    Record("collector", "PyInterpreterState", COLLECTOR, (3, 9), size=""),
    Record("generation", "struct gc_generation", "count:4", (3, 7)),
    Record("gc_head", "PyGC_Head", "next=gc.gc_next previous=gc.gc_prev", THREE, (3, 7)),
    Record("gc_head", "PyGC_Head", "next=_gc_next previous=_gc_prev", (3, 8), constants=(
        ("marks", "_PyGC_PREV_SHIFT"),)),
    Record("arena", "struct arena_object", "address pool=pool_address free=nfreepools:4 pools=ntotalpools:4"),
    Record("pool", "struct pool_header", "count=ref.count:4 free_block=freeblock size_class=szidx:4"
           " next_offset=nextoffset:4", constants=(("bytes", "POOL_SIZE"),)),
    Record("arenas_inside", "PyInterpreterState", "arenas=obmalloc.mgmt.arenas count=obmalloc.mgmt.maxarenas:4",
           (3, 12), (3, 12), size=""),
    Record("arenas_behind", "PyInterpreterState", "state=obmalloc", (3, 13), size="", others=(
        Field("arenas_behind.arenas", STATE, "mgmt.arenas", 8),
        Field("arenas_behind.count", STATE, "mgmt.maxarenas", 4))),
)
"""The collector's lists, and pymalloc's tables."""

RECORDS: Tuple[Record, ...] = (*TYPES, *OBJECTS, *FRAMES, *COROUTINES, *ASYNCIO, *LOCKS, *EXCEPTIONS, *HEAP)
"""All groups, in the order in which they are written."""

WITHOUT: Dict[str, Tuple[Version, Version, int]] = {"gc_head.marks": (THREE, (3, 7), 0)}
"""Numbers that nothing tells: up to 3.7 the links of the collector's lists have no marks, and no macro says so."""


RECORD_HEADERS = (
    "structmember.h",
    "datetime.h",
    "opcode.h",
    "internal/mem.h",
    "internal/ceval.h",
    "internal/gil.h",
    "internal/pycore_pymem.h",
    "internal/pycore_gc.h",
    "internal/pycore_object.h",
    "internal/pycore_moduleobject.h",
    "internal/pycore_obmalloc.h",
    "internal/pycore_genobject.h",
    "internal/pycore_ceval.h",
)
"""The headers that have records, beside those that have layouts."""


def records_of(version: Version) -> List[Record]:
    """The groups of a version."""
    return [it for it in RECORDS if it.covers(version)]


def without(version: Version) -> Dict[str, int]:
    """The numbers of a version that nothing tells."""
    return {key: number for key, (first, last, number) in WITHOUT.items() if first <= version <= last}
