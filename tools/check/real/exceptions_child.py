"""Dies while exceptions are handled or raised, and tells beforehand what Python itself says of them.

    exceptions_child.py HOLDS SITUATION LIBRARY
    exceptions_child.py situations

Run by Python 3.7 or later. HOLDS is what the core is to hold, as coredump_filter has it; LIBRARY is exceptions_child.c as a
shared library, or `-`. The second form prints the names of all situations that this Python has. It prints one JSON object:
the number of the `thread` that dies, what it has `raised` and what it has `handled` (addresses, the newest first, with what
each is the item of), all `exceptions` that these lead to, by address, the lines that `traceback.format_exception` writes
of the newest one, and the `last` exception that `sys` has, with all that this leads to.
"""

import asyncio
import ctypes
import json
import linecache
import os
import sys
import threading
import traceback

NEWER = (
    "def starred():\n"
    "    try:\n"
    "        raise ExceptionGroup('several', [ValueError('one'), TypeError('two'), ValueError('three')])\n"
    "    except* ValueError as group:\n"
    "        end([group])\n"
)
"""What only 3.11 and later can read."""

KEPT = []
"""What is never let go."""


class Own(Exception):
    """A user's exception, shown by its arguments as all are."""


class Spoken(Exception):
    """A user's exception that says itself what it is."""

    def __str__(self):
        return "what only running code can tell"


class OwnKey(KeyError):
    """A user's exception, shown by C's rule of its base."""


class Outer:
    """A class around another."""

    class Inner(Exception):
        """One with a qualified name."""


# ---- what is to be told


def address_of(thing):
    """An object's address; none of none."""
    return None if thing is None else hex(id(thing))


def class_name(thing):
    """What tracebacks call its class."""
    own = type(thing)
    module = own.__module__
    return own.__qualname__ if module in ("__main__", "builtins") else "%s.%s" % (module, own.__qualname__)


def says_itself(thing):
    """Whether its class, or one above, has a `__str__` that is Python's."""
    return any("__str__" in it.__dict__ and hasattr(it.__dict__["__str__"], "__code__") for it in type(thing).__mro__)


def frames_of(thing):
    """The entries of its traceback, the oldest call first."""
    entry, frames = thing.__traceback__, []
    while entry is not None:
        code = entry.tb_frame.f_code
        frames.append({"name": code.co_name, "filename": code.co_filename, "line": entry.tb_lineno})
        entry = entry.tb_next
    return frames


def told_of(thing):
    """What is to be told of an exception."""
    return {
        "type": class_name(thing), "message": None if says_itself(thing) else str(thing), "frames": frames_of(thing),
        "cause": address_of(thing.__cause__), "context": address_of(thing.__context__),
        "suppress_context": thing.__suppress_context__, "notes": list(thing.__dict__.get("__notes__", ())),
        "members": [address_of(it) for it in members_of(thing)], "args": len(thing.args),
    }


def members_of(thing):
    """The members of a group."""
    return thing.exceptions if sys.version_info >= (3, 11) and isinstance(thing, BaseExceptionGroup) else ()


def shown_context(thing):
    """Its context, unless that is suppressed."""
    return None if thing.__suppress_context__ else thing.__context__


def closure(roots):
    """All exceptions that some lead to, each once."""
    found, waiting = {}, [it for it in roots if isinstance(it, BaseException)]
    while waiting:
        thing = waiting.pop()
        if id(thing) not in found:
            found[id(thing)] = thing
            waiting += [it for it in (thing.__cause__, shown_context(thing), *members_of(thing)) if it is not None]
    return {hex(at): told_of(thing) for at, thing in found.items()}


def lines_of(thing):
    """What Python shows of an exception, without any line of a source."""
    linecache.getline = lambda *its, **more: ""
    return traceback.format_exception(type(thing), thing, thing.__traceback__)


LAST = "last_exc" if sys.version_info >= (3, 12) else "last_value"
"""Under which name `sys` has the last exception that no code handled."""


def last_one():
    """What `sys` has there."""
    thing = getattr(sys, LAST, None)
    return {"name": LAST, "address": address_of(thing), "exceptions": closure([thing]), "lines": lines_of(thing) if thing is not None else []}


def tree_of(handled, raised=None, owners=()):
    """What is to be told where these are handled, the newest first, the first ones in running generators."""
    KEPT.append((handled, raised))
    return {
        "version": list(sys.version_info[:3]), "thread": threading.get_ident(),
        "raised": raised and {key: address_of(thing) for key, thing in raised.items()},
        "handled": [{"address": address_of(it), "running": address_of(owner)} for it, owner in pairs(handled, owners)],
        "exceptions": closure([*handled, *(raised or {}).values()]), "lines": lines_of(handled[0]) if handled else [],
        "last": last_one(),
    }


def write(tree):
    """Tells it through the system: sys.stdout is gone in some deaths."""
    left = (json.dumps(tree) + "\n").encode()
    while left:
        left = left[os.write(1, left):]


def tell(handled, raised=None, owners=()):
    """Tells what is to be told."""
    write(tree_of(handled, raised, owners))


def pairs(handled, owners):
    """Each with what it is the item of; none of the thread's own."""
    return zip(handled, [*owners, *[None] * (len(handled) - len(owners))])


def end(handled, owners=()):
    """Tells of it, and dies."""
    tell(handled, None, owners)
    os.abort()


# ---- the situations


def fails(thing):
    """Raises what it is given."""
    raise thing


def dies_of(thing):
    """Dies while this one is handled, which is raised here."""
    try:
        fails(thing)
    except BaseException as caught:
        end([caught])


def in_except():
    """In an `except`."""
    dies_of(ValueError("bad input"))


def in_finally():
    """In a `finally` through which one passes."""
    try:
        fails(ValueError("passing"))
    finally:
        end([sys.exc_info()[1]])


def in_exit():
    """In an `__exit__`."""
    class Guard:
        """A context manager that dies as it is left."""

        def __enter__(self):
            return self

        def __exit__(self, kind, thing, trace):
            end([thing])

    with Guard():
        fails(LookupError("left"))


def in_excepthook():
    """In the hook for what nobody handles: nothing is handled by then."""
    sys.excepthook = lambda kind, thing, trace: end([])
    fails(ValueError("not handled"))


def hook_fails():
    """In a hook that handles one of its own: both are there."""
    def hook(kind, thing, trace):
        """Fails, and dies of it."""
        dies_of(TypeError("in the hook"))

    sys.excepthook = hook
    fails(ValueError("not handled"))


def last_of_a_chain():
    """A hook for one that was raised from another."""
    sys.excepthook = lambda kind, thing, trace: end([])
    try:
        fails(KeyError("the cause"))
    except KeyError as error:
        raise ValueError("the effect") from error


def last_by_hand():
    """What a debugger or a shell of its own has set."""
    try:
        fails(OSError(2, "No such file", "/none/file"))
    except OSError as caught:
        setattr(sys, LAST, caught)
    end([])


def last_is_handled():
    """The same one is handled."""
    try:
        fails(ValueError("both"))
    except ValueError as caught:
        setattr(sys, LAST, caught)
        end([caught])


def last_is_none():
    """None is no exception."""
    setattr(sys, LAST, None)
    end([])


def last_in_a_large_dict():
    """Behind many names that `sys` was given."""
    for number in range(1000):
        setattr(sys, "name_%d" % number, number)
    last_by_hand()


def in_thread_hook():
    """In the hook of a thread."""
    threading.excepthook = lambda it: end([it.exc_value])
    thread = threading.Thread(target=fails, args=(ValueError("in a thread"),))
    thread.start()
    thread.join()


def in_generator():
    """In a generator that runs while another one is handled."""
    def generator(outer):
        """Handles one of its own."""
        try:
            [][1]
        except IndexError as inner:
            end([inner, outer], [running])
        yield

    try:
        {}["outer"]
    except KeyError as outer:
        running = generator(outer)
        next(running)


def in_coroutine():
    """In a coroutine that runs."""
    async def coroutine(outer):
        """Handles one of its own."""
        try:
            fails(ValueError("in a coroutine"))
        except ValueError as inner:
            end([inner, outer], [running])

    try:
        fails(TypeError("outside"))
    except TypeError as outer:
        running = coroutine(outer)
        running.send(None)


def in_task():
    """In a task of asyncio."""
    async def main():
        """Handles one."""
        try:
            await asyncio.sleep(0)
            fails(ValueError("in a task"))
        except ValueError as inner:
            end([inner], [task_coroutine()])

    def task_coroutine():
        """The coroutine that runs."""
        task = asyncio.current_task() if sys.version_info >= (3, 7) else None
        return task.get_coro() if hasattr(task, "get_coro") else task._coro

    asyncio.run(main())


def in_async_generator():
    """In an async generator that runs."""
    async def values(outer):
        """Handles one of its own."""
        try:
            fails(ValueError("in an async generator"))
        except ValueError as inner:
            end([inner, outer], [running])
        yield 1

    try:
        fails(TypeError("outside"))
    except TypeError as outer:
        running = values(outer)
        running.asend(None).send(None)


def two_generators():
    """In a generator in a generator; the outer one handles none."""
    def inner(outer):
        """Handles one of its own."""
        try:
            fails(ValueError("deep"))
        except ValueError as own:
            end([own, outer], [made[0]])
        yield

    def around(outer):
        """Runs another one."""
        made.append(inner(outer))
        yield from made[0]

    made = []
    try:
        fails(TypeError("outside"))
    except TypeError as outer:
        next(around(outer))


def group():
    """A group with members that were raised, and one in it."""
    members = []
    for thing in (ValueError("one"), Own("two", 2), KeyError("three")):
        try:
            fails(thing)
        except Exception as caught:
            members.append(caught)
    dies_of(ExceptionGroup("several", [*members, ExceptionGroup("inside", [OSError(2, "No such file"), TypeError()])]))


def starred():
    """In an `except*`."""
    room = {"end": end}
    exec(compile(NEWER, "starred.py", "exec"), room)
    room["starred"]()


def notes():
    """With notes."""
    thing = ValueError("noted")
    for note in ("the first", "two\nlines", "gen (exc.py:262)", "zwei W\xf6rter \u65e5\u672c"):
        thing.add_note(note)
    dies_of(thing)


def cause():
    """One raised from another."""
    try:
        try:
            fails(KeyError("the cause"))
        except KeyError as error:
            raise ValueError("the effect") from error
    except ValueError as caught:
        end([caught])


def context():
    """One raised while another is handled."""
    try:
        try:
            {}["outer"]
        except KeyError:
            [][1]
    except IndexError as caught:
        end([caught])


def suppressed():
    """One raised from nothing while another is handled."""
    try:
        try:
            fails(KeyError("hidden"))
        except KeyError:
            raise ValueError("shown alone") from None
    except ValueError as caught:
        end([caught])


def many_causes():
    """Each raised from the one before, which is its context too."""
    last = None
    for number in range(30):
        try:
            try:
                if last is not None:
                    raise last
                fails(ValueError("number %d" % number))
            except Exception as error:
                raise Own("number %d" % number) from error
        except Own as caught:
            last = caught
    dies_of(last)


def cycle():
    """Contexts in a cycle, by hand. It is closed at the very end: up to 3.8 Python itself goes round in it forever."""
    first, second, third = (ValueError(it) for it in ("first", "second", "third"))
    first.__context__, second.__context__ = second, third
    try:
        fails(first)
    except ValueError as caught:
        tree = tree_of([caught])
        tree["exceptions"][address_of(third)]["context"], tree["lines"] = address_of(first), []
        write(tree)
        third.__context__ = caught
        os.abort()


def key_error():
    """A KeyError's one argument is shown as in code."""
    try:
        {}["a\nline"]
    except KeyError as caught:
        end([caught])


def own_key():
    """A user's class under KeyError."""
    dies_of(OwnKey("own"))


def two_keys():
    """A KeyError with two arguments."""
    dies_of(KeyError("one", 2))


def os_error():
    """An OSError with two files."""
    try:
        os.rename("/none/from", "/none/to")
    except OSError as caught:
        end([caught])


def os_one():
    """An OSError with one file."""
    try:
        open("/none/file")
    except OSError as caught:
        end([caught])


def os_plain():
    """An OSError with no file."""
    dies_of(OSError(2, "No such thing"))


def os_text():
    """An OSError with a text alone."""
    dies_of(OSError("only a text"))


def syntax_error():
    """A SyntaxError."""
    try:
        compile("a = = 1\n", "/srv/some folder/wrong.py", "exec")
    except SyntaxError as caught:
        end([caught])


def import_error():
    """An ImportError."""
    try:
        exec("from os import no_such_name")
    except ImportError as caught:
        end([caught])


def module_not_found():
    """A module that isn't there."""
    try:
        exec("import no_such_module_at_all")
    except ImportError as caught:
        end([caught])


def encodes():
    """What can't be encoded: several characters."""
    try:
        "ab\xe4\xf6c".encode("ascii")
    except UnicodeError as caught:
        end([caught])


def encodes_one():
    """What can't be encoded: one character."""
    try:
        "ab\u65e5c".encode("latin-1")
    except UnicodeError as caught:
        end([caught])


def decodes_one():
    """What can't be decoded: one byte."""
    try:
        b"ab\xffc".decode("utf-8")
    except UnicodeError as caught:
        end([caught])


def decodes():
    """What can't be decoded: several bytes."""
    try:
        b"ab\xe6\x97".decode("utf-8")
    except UnicodeError as caught:
        end([caught])


def translates_one():
    """What can't be translated: one character."""
    dies_of(UnicodeTranslateError("a\u65e5b", 1, 2, "no such character"))


def translates():
    """What can't be translated: several characters."""
    dies_of(UnicodeTranslateError("a\u65e5\u65e5b", 1, 3, "no such characters"))


def failed(codes, value, coding):
    """What a coding fails with."""
    try:
        codes(value, coding)
    except UnicodeError as caught:
        return caught


def changed(error, name, value):
    """An error of which a field is another one."""
    setattr(error, name, value)
    return error


def die_of_all(errors):
    """Dies while the last one is handled, each the cause of the next."""
    for cause, error in zip(errors, errors[1:]):
        error.__cause__ = cause
    dies_of(errors[-1])


def coded_oddly():
    """What can't be coded: a surrogate, a character past 65535, one far behind, one of three kinds of texts, places outside."""
    encodes, decodes = str.encode, bytes.decode
    die_of_all([
        failed(encodes, "ab\udc80", "utf-8"), failed(encodes, "a\U0001f600", "latin-1"), failed(encodes, "x" * 70000 + "\xe9", "ascii"),
        failed(encodes, "\x80", "ascii"), failed(encodes, "\u0100\U0001f600\u0101", "latin-1"), failed(decodes, b"x" * 70000 + b"\x80", "ascii"),
        failed(bytearray.decode, bytearray(b"ab\x00\x9f"), "ascii"), UnicodeEncodeError("a coding", "ab", 2, 3, "outside"),
        UnicodeDecodeError("a coding", b"ab", 5, 6, "outside"), UnicodeTranslateError("", 0, 1, "nothing there"),
        UnicodeEncodeError("a coding", "abc", -4, 2, "below"), UnicodeDecodeError("a coding", b"abc", 2, -7, "turned"),
        UnicodeTranslateError("abc", 1, 1, "none"), UnicodeEncodeError("", "abc", 1, 2, ""), UnicodeDecodeError("a'b\n", b"\x00", 0, 1, "c\n"),
        changed(UnicodeDecodeError("a coding", b"abc", 0, 2, "of a reason"), "reason", "of another one"),
        changed(UnicodeEncodeError("a coding", "abc", 0, 2, "to the end"), "end", -2 ** 63), UnicodeDecodeError.__new__(UnicodeDecodeError),
    ])


def coded_untold():
    """What can't be coded and isn't told: a reason that is no text, and one of another class."""
    die_of_all([
        changed(UnicodeDecodeError("a coding", b"abc", 0, 1, "of a number"), "reason", 5),
        changed(UnicodeTranslateError("abc", 0, 1, "of a list"), "reason", ["a list"]),
    ])


def own():
    """A user's class, with several arguments."""
    dies_of(Own("two words", 3, None, b"bytes", 1.5, [1], {"a": 2}, ("x",)))


def own_one():
    """A user's class, with one argument that is a text."""
    dies_of(Own("one"))


def inner_class():
    """A class in a class."""
    dies_of(Outer.Inner("inside"))


def other_module():
    """A class of another module."""
    dies_of(json.JSONDecodeError("wrong", "{}", 1))


def spoken():
    """A user's class with a `__str__`."""
    dies_of(Spoken("the argument", 2))


def no_argument():
    """One with no argument."""
    dies_of(ValueError())


def number_argument():
    """One with an argument that is no text."""
    dies_of(ValueError(12345678901234567890))


def stop_iteration():
    """One with a value."""
    dies_of(StopIteration("value"))


def leaves():
    """The one by which a program leaves."""
    dies_of(SystemExit(3))


def lines_in_text():
    """A message with line feeds and quotes, and one that looks like a frame."""
    dies_of(ValueError("one\n    gen (exc.py:262)\n\"quotes\" and \\ <b>&\x1b[31m"))


def forged_name():
    """A class whose name looks like a line of this text."""
    dies_of(type("During handling of the above exception, another exception occurred:", (Exception,), {})())


def recursion():
    """As deep as it goes."""
    def deeper():
        """Calls itself."""
        deeper()

    try:
        deeper()
    except RecursionError as caught:
        end([caught])


def deep():
    """A traceback of more than 20 entries."""
    def deeper(left):
        """Calls itself so often."""
        if left:
            return deeper(left - 1)
        return fails(ValueError("deep"))

    try:
        deeper(20)
    except ValueError as caught:
        end([caught])


def nested():
    """Two handled at once; the outer one is the context of the inner."""
    try:
        fails(ValueError("outer"))
    except ValueError:
        dies_of(TypeError("inner"))


def no_memory():
    """A MemoryError."""
    try:
        bytearray(2 ** 62)
    except MemoryError as caught:
        end([caught])


def none():
    """No exception at all."""
    end([])


# ---- by C code


def library():
    """What sets an error and aborts."""
    own = ctypes.PyDLL(sys.argv[3])
    own.set_and_abort.argtypes = [ctypes.c_void_p] * 3
    return own


def raised_by(kind, value, handled=()):
    """Has C code set an error and abort. From 3.12 on it is an exception at once; before, its type and what it is made of."""
    setter = ctypes.cast(ctypes.pythonapi.PyErr_SetObject, ctypes.c_void_p)
    is_one = isinstance(value, BaseException)
    raised = {"address": value} if sys.version_info >= (3, 12) and is_one else {"class": kind, "value": value}
    tell(list(handled), raised)
    library().set_and_abort(setter, id(kind), id(value))


def raised_value():
    """An exception that C code has set."""
    raised_by(ValueError, ValueError("set by C"))


def raised_text():
    """A type and a text that C code has set."""
    raised_by(ValueError, KEPT.append("set by C") or KEPT[-1])


def raised_while_handling():
    """The same, while another one is handled."""
    try:
        fails(TypeError("handled"))
    except TypeError as caught:
        value = ValueError("set by C")
        # (so it is set by C, where another one is handled)
        value.__context__ = caught
        raised_by(ValueError, value, [caught])


ALWAYS = (
    in_except, in_finally, in_exit, in_excepthook, hook_fails, last_of_a_chain, last_by_hand, last_is_handled, last_is_none, last_in_a_large_dict,
    in_generator, in_coroutine, in_task, in_async_generator, two_generators, cause,
    context, suppressed, many_causes, cycle, key_error, own_key, two_keys, os_error, os_one, os_plain, os_text, syntax_error,
    import_error, module_not_found, encodes, encodes_one, decodes, decodes_one, translates, translates_one, coded_oddly, coded_untold, own, own_one, inner_class, other_module, spoken,
    no_argument, number_argument, stop_iteration, leaves, lines_in_text, forged_name, recursion, deep, nested, no_memory, none,
)
BY_C = (raised_value, raised_text, raised_while_handling)
SINCE = {(3, 8): (in_thread_hook,), (3, 11): (group, starred, notes)}


def situations():
    """Those that this Python has."""
    newer = [it for version, its in SINCE.items() if sys.version_info >= version for it in its]
    return {it.__name__: it for it in (*ALWAYS, *newer, *BY_C)}


def begin():
    """Does what the words say."""
    if sys.argv[1:] == ["situations"]:
        print(json.dumps({"all": sorted(situations()), "by_c": [it.__name__ for it in BY_C]}))
        return
    holds, name, _ = sys.argv[1:]
    with open("/proc/self/coredump_filter", "w") as file:
        file.write(holds)
    situations()[name]()


begin()
