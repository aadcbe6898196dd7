"""A small core whose interpreter has the lists of Python's collector: objects by generations, and their classes."""

import struct
from typing import Dict, List, Sequence, Tuple

from made import EXAMPLE, Objects, Section, Segment, Symbol, core_file, edited, image_file
from rows_salvage import NAMED, RUNTIME, runtime
from small_core import BSS, HEAP, PATH, bss, files_of, heap, mapped

LAYOUT = edited(EXAMPLE, klass="{size=296, name=24, flags=168, dict_offset=288}")
"""The small core's layout, with classes as 3.9 has them: what a census reads of a class stands where it does in each version."""

RECORDS = b"""\
[[records]]
major = 3
minor = 9
first_patch = 0
last_patch = 2
type = {size=408, basicsize=32, itemsize=40, repr=88, str=136, flags=168, weaklist=208, methods=232, members=240, getset=248, \
base=256, dict=264, dictoffset=288, bases=336, mro=344}
heap_type = {size=880, qualname=856, cached_keys=864}
"""
"""Where classes have their names, as in 3.9."""

def heads_of(first: int) -> Dict[str, int]:
    """Where the heads of the lists stand in an interpreter, by the first of them."""
    return {"youngest": first, "middle": first + 24, "oldest": first + 48, "permanent": first + 80}


FIRSTS = {9: 640, 13: 7424}
"""Where the first head stands, by minor versions."""

HEADS = heads_of(FIRSTS[9])
"""Where the heads stand in the interpreter of 3.9."""

COLLECTING = 816
"""Where the 4 bytes stand there that say whether a collection runs."""

BASIC_SIZE, ITEM_SIZE, FLAGS, BASE, DICT, QUALNAME, CACHED_KEYS = 32, 40, 168, 256, 264, 856, 864

ON_HEAP, TRACKED, INTEGER, LIST, TUPLE, BYTES, TEXT, DICTS, TYPE = 9, 14, 24, 25, 26, 27, 28, 29, 31
"""The bits of a class's flags."""

NOWHERE = 0x70000000
"""An address that is not in memory."""


def with_sets(*named: Tuple[str, int]) -> bytes:
    """The program's file with the runtime, and symbols of classes of sets."""
    return image_file([Segment(0x400000, b"", 5, 0x1000)], (BSS, 16), [Symbol(name, at) for name, at in (("_PyRuntime", RUNTIME), *named)],
                      [Section(".PyRuntime", 1, RUNTIME, None, 592)])


def of_minor(text: str, minor: int) -> str:
    """A text of 3.9 as it is of another minor version."""
    return text.replace("3.9", f"3.{minor}").replace("minor = 9", f"minor = {minor}")


def layout_of_minor(minor: int) -> str:
    """The layout, for another minor version."""
    return edited(LAYOUT, first_minor=str(minor), last_minor=str(minor))


class MadeHeap:
    """The objects of such an interpreter, and where each stands, so that some of their words can be changed."""

    def __init__(self, minor: int = 9) -> None:
        self.objects, self.minor, self.heads = heap(LAYOUT), minor, heads_of(FIRSTS[minor])
        self.objects.write(self.head("permanent"), bytes(112))
        self.lists: Dict[str, List[int]] = {it: [] for it in HEADS}
        self.held: Dict[int, List[int]] = {}
        for it in HEADS:
            self.objects.word(self.head(it), self.head(it))
            self.objects.word(self.head(it) + 8, self.head(it))

    def klass(self, name: str, basic: int = 32, item: int = 0, bits: Sequence[int] = (TRACKED,)) -> int:
        """A class of C's, whose objects have so many bytes, and so many for each item."""
        at = self.objects.klass(name, 0)
        return self.sized(at, basic, item, bits)

    def sized(self, at: int, basic: int, item: int, bits: Sequence[int]) -> int:
        """Says of a class how many bytes its objects have, and its flags."""
        for place, number in ((BASIC_SIZE, basic), (ITEM_SIZE, item), (FLAGS, sum(1 << it for it in bits))):
            self.objects.word(at + place, number)
        return at

    def heap_class(self, name: str, module: str = "", basic: int = 32) -> int:
        """A class of the heap, by its qualified name, and its module if one is named."""
        objects = self.objects
        at = objects.write(objects.free(), bytes(880))
        self.sized(at, basic, 0, (ON_HEAP, TRACKED))
        objects.word(at + QUALNAME, objects.text(name, klass=self.text_class()))
        if module:
            objects.word(at + DICT, self.dict_of((("__doc__", "d"), ("__module__", module))))
        return at

    def text_class(self) -> int:
        """The class of texts."""
        return self.objects.klass("str", TEXT)

    def dict_of(self, entries: Sequence[Tuple[str, str]]) -> int:
        """A dict of texts, which is in no list."""
        objects, texts = self.objects, self.text_class()
        held = [(objects.text(key, klass=texts), objects.text(value, klass=texts)) for key, value in entries]
        keys = objects.record("keys", None, used=len(held), slots=8)
        for number, (key, value) in enumerate(held):
            objects.write(keys + 48 + 24 * number, struct.pack("<3Q", 0, key, value))
        return objects.of_class(objects.record("dict", None, keys=keys), objects.klass("dict", DICTS))

    def keys(self, owners: int = 1, slots: int = 8) -> int:
        """Keys of dicts, that many have in common, with so many slots: no more than their head is there."""
        at = self.objects.record("keys", None, slots=slots)
        return self.objects.word(at, owners)

    def add(self, of: str, klass: int, *words: int) -> int:
        """One more object of a list, with these words behind the one that names its class. Where it stands."""
        own, members, objects = self.head(of), self.lists[of], self.objects
        before = members[-1] if members else own
        # (the two lowest bits of a link back say something else: they are set here)
        data = struct.pack(f"<{4 + len(words)}Q", own, before + 3, 1, klass, *(it % 2 ** 64 for it in words))
        head = objects.write(objects.free(), data)
        objects.word(before, head)
        objects.word(own + 8, head)
        members.append(head)
        self.held.setdefault(klass, []).append(head + 16)
        return head + 16

    def tops(self, klass: int, size: int, *left_out: int) -> List[Tuple[int, int]]:
        """The three largest objects of a class whose objects have so many bytes each, but for some that aren't counted: bytes and addresses."""
        return [(size, it) for it in sorted(self.held.get(klass, ())) if it not in left_out][:3]

    def head(self, of: str) -> int:
        """Where the head of a list stands."""
        return HEAP + self.heads[of]

    def files(
        self, *cuts: int, more: Sequence[Segment] = (), interpreters: Sequence[int] = (HEAP,), program: bytes = NAMED,
    ) -> Dict[str, bytes]:
        """The files of a core of these objects. Of each two cuts the bytes from the first to the second one are not there."""
        data, parts, begin = bytes(self.objects.data), [], 0
        for first, last in zip(cuts[::2], cuts[1::2]):
            parts.append(Segment(HEAP + begin, data[begin:first], 6))
            begin = last
        parts.append(Segment(HEAP + begin, data[begin:], 6))
        core = core_file([*parts, *more, mapped(of_minor(PATH.decode(), self.minor).encode()), bss(0, 0), runtime(*interpreters)])
        return {**files_of(core, layout_of_minor(self.minor), program), "records": of_minor(RECORDS.decode(), self.minor).encode()}


# ---- the runtime's

RUNTIME_FIRSTS = {7: (352, 48, 512, 32), 8: (368, 24, 448, 16)}
"""Where the first head stands in the runtime, how far the next one is behind it, where the permanent one stands, and how many bytes an object's
head has, by minor versions."""


def of_runtime(minor: int, program: bytes = NAMED) -> Tuple[Dict[str, bytes], int]:
    """The files of a core of 3.7 or 3.8, with an object in the youngest of the runtime's lists, and where its head stands."""
    made = MadeHeap()
    objects, (first, apart, permanent, size) = made.objects, RUNTIME_FIRSTS[minor]
    klass, member, data = made.klass("T"), objects.free(), bytearray(runtime(HEAP).data.ljust(1408, b"\0"))
    for place in (first, first + apart, first + 2 * apart, permanent):
        struct.pack_into("<2Q", data, place, RUNTIME + place, RUNTIME + place)
    struct.pack_into("<2Q", data, first, member, member)
    objects.write(member, struct.pack("<2Q", RUNTIME + first, RUNTIME + first).ljust(size, b"\0") + struct.pack("<2Q", 1, klass))
    core = core_file([objects.segment(6), mapped(of_minor(PATH.decode(), minor).encode()), bss(0, 0), Segment(RUNTIME, bytes(data), 6)])
    return {**files_of(core, layout_of_minor(minor), program), "records": of_minor(RECORDS.decode(), minor).encode()}, member


# ---- heaps that ask for much

FAR = 0x24000000
"""Where such members stand: as flags of classes these addresses say that objects have a count of items and are dicts, so that most is read."""


def of_members(count: int, size: int) -> Dict[str, bytes]:
    """A core whose youngest list has so many members. With 16 bytes each their classes are all different: the word that names a class is the link
    back of the next member. With 32 it is one class."""
    made = MadeHeap()
    own, rest = made.head("youngest"), (1, made.klass("T")) if size == 32 else ()
    places = [own, *range(FAR, FAR + size * count, size), own]
    data = b"".join(struct.pack(f"<{2 + len(rest)}Q", after, before, *rest) for before, after in zip(places, places[2:]))
    return led_to(made, places[1], places[-2], [Segment(FAR, data + bytes(1024), 6)])


def of_woven_members(count: int) -> Dict[str, bytes]:
    """The same with 8 bytes each: the link on of a member is the link back of the one before it in memory. The list takes turns between two
    stretches of memory, down from the end of both."""
    made, half, own = MadeHeap(), count // 2, MadeHeap().head("youngest")
    other = FAR + 2 * 8 * half
    one = [other + 8 * it for it in range(half)] + [own]
    two = [own] + [FAR + 8 * it for it in range(half)]
    maps = [Segment(at, struct.pack(f"<{half + 1}Q", *words) + bytes(1024), 6) for at, words in ((FAR, one), (other, two))]
    return led_to(made, FAR + 8 * (half - 1), other, maps)


def led_to(made: MadeHeap, first: int, last: int, maps: Sequence[Segment]) -> Dict[str, bytes]:
    """The files of a core whose youngest list leads to members in these segments."""
    made.objects.word(made.head("youngest"), first)
    made.objects.word(made.head("youngest") + 8, last)
    return made.files(more=maps)


def wide_text(objects: Objects, length: int, klass: int) -> int:
    """A text of so many characters of four bytes."""
    places = objects.group("string")
    at = objects.record("string", None, length=length, state=4 << places["kind_shift"] | 1 << places["compact_bit"])
    objects.write(at + places["long_at"], "\U0001f40d".encode("utf-32-le") * length)
    return objects.of_class(at, klass)


def of_long_dicts(classes: int, length: int, wide: bool = False) -> Dict[str, bytes]:
    """A core with so many classes of the heap, of whose modules none is found: all have one dict, whose 4,096 keys are one text of so many
    characters, of one byte or of four."""
    made = MadeHeap()
    objects = made.objects
    key = wide_text(objects, length, made.text_class()) if wide else objects.text("k" * length, klass=made.text_class())
    keys = objects.record("keys", None, used=4096, slots=8192)
    objects.write(keys + 40 + 2 * 8192, struct.pack("<3Q", 0, key, key) * 4096)
    # (as flags its address says that the class is one of the heap)
    place = objects.record("dict", (objects.free() | 0x3FF) + 0x201, keys=keys)
    objects.of_class(place, objects.klass("dict", DICTS))
    first = objects.write(objects.free(), struct.pack("<Q", place) * (classes + 128))
    own, begin = made.head("youngest"), objects.free()
    places = [own, *range(begin, begin + 32 * classes, 32), own]
    for number, (before, at, after) in enumerate(zip(places, places[1:], places[2:])):
        objects.write(at, struct.pack("<4Q", after, before, 1, first + 8 * number))
    return led_to(made, places[1], places[-2], [])
