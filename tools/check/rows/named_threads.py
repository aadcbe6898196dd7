"""A small core whose interpreter has modules, and in `threading` the names of two threads."""

import struct
from typing import Optional, Sequence, Union

from made import Objects
from small_core import HEAP, THREAD, heap

LOST = 0x7000_0000
"""An address where nothing is."""


def dict_of(objects: Objects, of: int, *entries: Sequence[int]) -> int:
    """Puts a dict of at most 8 entries, a key and a value each, of this class."""
    keys = objects.record("keys", None, used=len(entries), slots=8)
    first = keys + 40 + 8
    for number, (one, other) in enumerate(entries):
        objects.write(first + 24 * number, struct.pack("<3Q", 0, one, other))
    return objects.of_class(objects.record("dict", None, keys=keys), of)


def instance_of(objects: Objects, of: int, attributes: int) -> int:
    """Puts an object of this class whose attributes are this dict's: the class says that 16 bytes behind it that is named."""
    at = objects.write(objects.free(), bytes(32))
    objects.word(at + 16, attributes)
    return objects.of_class(at, of)


def named_threads(
    keys: Sequence[Union[str, int]] = ("sys", "threading"), ids: Sequence[int] = (0x7F00, 0x7F01), own: int = 0x7F00,
    smashed: Optional[int] = None, nameless: Optional[int] = None,
) -> Objects:
    """Modules of these names, or whose keys are texts of such a length or stand at such an address; and two threads of
    these ids, of which one may have a word that names no class, and one a key that is nowhere. The small core's thread has
    an id of its own."""
    objects = heap()
    objects.word(THREAD + 32, own)
    place = {it: at for it, at in (("int", objects.klass("int", 24)), ("str", objects.klass("str", 28)),
                                   ("dict", objects.klass("dict", 29)), ("object", objects.klass("object", 0)))}
    module = objects.klass("module", 0)
    objects.word(module + 40, 16)
    objects.word(place["object"] + 40, 16)

    def text(text: str) -> int:
        return objects.text(text, klass=place["str"])

    def key_of(key: Union[str, int]) -> int:
        if isinstance(key, str):
            return text(key)
        return key if key > 65535 else objects.record("string", None, length=key, state=100)

    threads = [instance_of(objects, place["object"], dict_of(objects, place["dict"], (0, 0), (text("_name"), text(name)), (text("_name"), text("sys"))))
               for name in ("MainThread", "Worker")]
    if smashed is not None:
        objects.of_class(threads[smashed], LOST)
    numbers = [LOST if at == nameless else objects.number(number, place["int"]) for at, number in enumerate(ids)]
    active = dict_of(objects, place["dict"], *zip(numbers, threads))
    threading = instance_of(objects, module, dict_of(objects, place["dict"], (text("sys"), 0), (text("_active"), active)))
    objects.word(HEAP + 16, dict_of(objects, place["dict"], (0, 0), *((key_of(key), threading) for key in keys)))
    return objects
