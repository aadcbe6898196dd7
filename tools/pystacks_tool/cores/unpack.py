"""Cores that were packed, and such as come through a pipe: the core itself, in a file without a name.

Zero pages become holes on the way. What breaks off keeps what was there.
"""

import base64
import bz2
import gzip
import lzma
import os
import shutil
import stat
import subprocess
import tempfile
import zlib
from contextlib import contextmanager
from typing import IO, Callable, ContextManager, Dict, Iterator, List, Optional, Protocol, Tuple

from pystacks_tool.cores.headers import BLOCK, write_at
from pystacks_tool.cores.progress import count_read
from pystacks_tool.cores.sparse import used_in

MOST = 1 << 40
"""How many bytes are unpacked: more than any core has."""

LAYERS = 4
"""How often what was unpacked is unpacked again: a report in a pipe has a core in it."""

ENDINGS = (EOFError, OSError, lzma.LZMAError, zlib.error, ValueError)
"""What comes where packed bytes are no longer such."""

REPORT, FIELD = b"ProblemType:", b"CoreDump: base64"
"""How a report of apport begins, and the line behind which it has the core."""


class Readable(Protocol):
    """What unpacked bytes are read from."""

    def read(self, size: int) -> bytes:
        """At most so many of the next bytes; none where there are no more."""


Opener = Callable[[IO[bytes]], ContextManager[Readable]]
"""What unpacks a file."""


class NoUnpacker(Exception):
    """Which program is missing."""


class BrokeOff(Exception):
    """Where what was packed ends too early."""


class NoSpace(Exception):
    """Why the file can't be written."""


def by_program(name: str) -> Opener:
    """A reader of what a program unpacks."""

    @contextmanager
    def stream(file: IO[bytes]) -> Iterator[IO[bytes]]:
        if not shutil.which(name):
            raise NoUnpacker(f"the core is packed by {name}: install the program {name}, or unpack it by hand")
        os.lseek(file.fileno(), 0, os.SEEK_SET)
        process = subprocess.Popen([name, "-dc"], stdin=file, stdout=subprocess.PIPE, stderr=subprocess.DEVNULL)
        assert process.stdout is not None
        try:
            yield process.stdout
        finally:
            process.stdout.close()
            status = process.wait()
        if status != 0:
            raise EOFError

    return stream


def by_library(opener: Opener) -> Opener:
    """A reader of what a library of Python unpacks."""

    @contextmanager
    def stream(file: IO[bytes]) -> Iterator[Readable]:
        file.seek(0)
        with opener(file) as unpacked:
            yield unpacked

    return stream


class Report:
    """A reader of the packed core in a report of apport, line by line."""

    def __init__(self, file: IO[bytes]) -> None:
        self.lines = self.lines_of(file)
        self.rest = b""

    @staticmethod
    def lines_of(file: IO[bytes]) -> Iterator[bytes]:
        """The lines of the field, unpacked from base64."""
        is_inside = False
        for line in file:
            if is_inside and not line.startswith(b" "):
                return
            if is_inside:
                yield base64.b64decode(line.strip(), validate=True)
            is_inside = is_inside or line.rstrip() == FIELD

    def read(self, size: int) -> bytes:
        """The next bytes."""
        parts, have = [self.rest], len(self.rest)
        while have < size:
            part = next(self.lines, b"")
            if not part:
                break
            parts.append(part)
            have += len(part)
        data = b"".join(parts)
        self.rest = data[size:]
        return data[:size]


@contextmanager
def by_report(file: IO[bytes]) -> Iterator[Report]:
    """The core of a report as it is packed there."""
    file.seek(0)
    yield Report(file)


@contextmanager
def as_it_is(file: IO[bytes]) -> Iterator[IO[bytes]]:
    """The bytes of a pipe."""
    yield file


PACKED: Dict[bytes, Tuple[str, Opener]] = {
    b"\x1f\x8b": ("gzip", by_library(lambda file: gzip.GzipFile(fileobj=file))),
    b"\xfd7zXZ\0": ("xz", by_library(lzma.LZMAFile)),
    b"BZh": ("bzip2", by_library(bz2.BZ2File)),
    b"\x28\xb5\x2f\xfd": ("zstd", by_program("zstd")),
    b"\x04\x22\x4d\x18": ("lz4", by_program("lz4")),
    REPORT: ("apport", by_report),
}
"""How what is packed begins, and what unpacks it."""


def used_parts(data: bytes) -> Iterator[Tuple[int, int]]:
    """The parts of a block that have bytes, as few as there are."""
    first = last = 0
    for start, end in used_in(data):
        if start != last:
            if last > first:
                yield first, last
            first = start
        last = end
    if last > first:
        yield first, last


def fill(stream: Readable, target: IO[bytes]) -> None:
    """Writes all that a stream has, with holes for zero pages."""
    at, data = 0, b""
    try:
        while at < MOST:
            data = next_block(stream)
            if not data:
                break
            for start, end in used_parts(data):
                put(target, data[start:end], at + start)
            at += len(data)
    finally:
        target.truncate(at)


def next_block(stream: Readable) -> bytes:
    """The next block of a stream."""
    try:
        data = stream.read(BLOCK)
    except ENDINGS as error:
        raise BrokeOff from error
    count_read(len(data))
    return data


def put(target: IO[bytes], data: bytes, at: int) -> None:
    """Writes some bytes at their place."""
    try:
        write_at(target.fileno(), data, at)
    except OSError as error:
        where = tempfile.gettempdir()
        raise NoSpace(f"cannot write a file in {where} (TMPDIR names another folder): {error.strerror}") from None


def filled(file: IO[bytes], opener: Opener) -> Tuple[IO[bytes], bool]:
    """A new file of what a file unpacks to, and whether that is whole."""
    target = tempfile.TemporaryFile(prefix="dump-core-")
    try:
        with opener(file) as stream:
            fill(stream, target)
    except (BrokeOff, EOFError):
        return target, False
    except (NoUnpacker, NoSpace):
        target.close()
        raise
    return target, True


def kind_of(file: IO[bytes]) -> Optional[Tuple[str, Opener]]:
    """How a file is packed, if it is."""
    head = os.pread(file.fileno(), 16, 0)
    return next((PACKED[it] for it in PACKED if head.startswith(it)), None)


def unpacked(file: IO[bytes]) -> Tuple[IO[bytes], List[str]]:
    """The file of a core that is neither packed nor a pipe, and what was done."""
    said: List[str] = []
    kind: Optional[Tuple[str, Opener]] = None
    given, mode = file, os.fstat(file.fileno()).st_mode
    if stat.S_ISFIFO(mode) or stat.S_ISSOCK(mode):
        kind = ("a pipe", as_it_is)
    for _ in range(LAYERS):
        try:
            kind = kind or kind_of(file)
        except OSError:
            # (a folder, or a device; the program has a line for it)
            kind = None
        if kind is None:
            break
        new, is_whole = filled(file, kind[1])
        said.append(f"unpacked from {kind[0]}" if is_whole else f"unpacked from {kind[0]}, which breaks off")
        if file is not given:
            file.close()
        file, kind = new, None
    return file, said
