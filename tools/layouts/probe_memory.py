"""The memory of the interpreter that runs probe_records.py, of 2.7 or 3, and the fields that were found in it."""

import ctypes
import importlib
import os
import struct
import sys

FORMS = {1: "<B", 2: "<H", 4: "<I", 8: "<Q"}
"""How whole numbers of these bytes are read."""

MEMORY = os.open("/proc/self/mem", os.O_RDONLY)
"""The memory of this process, whose addresses may be wrong without harm."""


TWO, THREE = (2, 7), (3, 6)
"""The first versions of Python 2 and 3 that are asked."""

SECTIONS = []
"""The first version, the last, and the function of each section of the probe."""


def cases(first, last=(3, 99)):
    """Decorates a section: the first version and the last that have it."""

    def take(section):
        SECTIONS.append((first, last, section))
        return section

    return take


def has_version(major, minor):
    """Whether this interpreter has that version or a later one."""
    return sys.version_info[:2] >= (major, minor)


def written(at, size):
    """The bytes at an address, or None where there is no memory."""
    if not 0x1000 <= at < 2 ** 47:
        return None
    try:
        os.lseek(MEMORY, at, 0)
        text = os.read(MEMORY, size)
    except (OSError, OverflowError):
        return None
    return text if len(text) == size else None


def number_at(at, width):
    """The whole number of so many bytes at an address, or -1 where there is no memory."""
    text = written(at, width)
    return -1 if text is None else struct.unpack(FORMS[width], text)[0]


def word_at(at):
    """The word at an address, or -1."""
    return number_at(at, 8)


def words_at(at, size):
    """The words in so many bytes from an address on, or None."""
    text = written(at, size)
    return None if text is None else list(struct.unpack("<%dQ" % (size // 8), text[:size // 8 * 8]))


def text_at(at):
    """The text of C at an address: at most 64 characters, or what can be read of them."""
    for size in (64, 16, 8):
        text = written(at, size)
        if text is not None:
            return text.split(b"\0")[0].decode("latin-1")
    return None


def signed(number):
    """The word that stands for a number, which may be negative."""
    return number & (2 ** 64 - 1)


def address_of(symbol):
    """The address of a symbol of the interpreter."""
    return ctypes.addressof(ctypes.c_char.in_dll(ctypes.pythonapi, symbol))


def called(name):
    """What a function of C without arguments gives, an address."""
    function = getattr(ctypes.pythonapi, name)
    function.restype, function.argtypes = ctypes.c_void_p, []
    return function()


def thread_state():
    """The address of this thread's record."""
    return called("PyThreadState_Get")


def module_named(name):
    """A module of C."""
    return importlib.import_module(name)


class Found(object):
    """The places at which fields may stand, by key: those that fit each object so far."""

    def __init__(self):
        self.places, self.widths = {}, {}

    def keep(self, key, places, width):
        """Leaves of a key's places those that are among these."""
        known = self.places.get(key)
        self.places[key] = set(places) if known is None else known & set(places)
        self.widths[key] = width

    def holds(self, key, at, size, value, width=8, first=16):
        """A field of the record at an address holds this value. Its head, of 16 bytes, is none of its fields."""
        if value is None:
            return
        value &= 2 ** (8 * width) - 1
        self.keep(key, [o for o in range(first, size - width + 1, width) if number_at(at + o, width) == value], width)

    def points(self, key, at, size, is_right, first=16):
        """A field of the record at an address is an address at which something is right."""
        fit = [o for o in range(first, size - 7, 8) if word_at(at + o) > 0xfff and is_right(word_at(at + o))]
        self.keep(key, fit, 8)

    def writes(self, key, at, size, text):
        """A field of the record at an address is these bytes."""
        whole = written(at, size)
        self.keep(key, [o for o in range(16, size) if whole[o:o + len(text)] == text], len(text))

    def tells(self, key, number, width):
        """A number that is no place to be looked for."""
        if number is not None:
            self.keep(key, [number], width)

    def size(self, name, kind):
        """The size of a type's objects."""
        self.tells(name + ".size", kind.__basicsize__, 0)

    def divides(self, key, places):
        """The greatest number by which these places are apart."""
        step = 0
        for one, other in zip(places, places[1:]):
            rest = abs(other - one)
            while rest:
                step, rest = rest, step % rest
        self.tells(key, step or None, 0)

    def only(self, key):
        """The only place of a key. An error where there are more, or none."""
        (place,) = self.places[key]
        return place


def answers_of(found):
    """The lines that answer."""
    for key, places in sorted(found.places.items()):
        if len(places) == 1:
            yield "%s %d %d" % (key, min(places), found.widths[key])
        elif places:
            yield "%s ! it may stand at %s" % (key, ", ".join(map(str, sorted(places))))
        else:
            yield "%s ! what it must hold stands nowhere" % key
