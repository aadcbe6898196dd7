"""The two that tell where fields stand: installed headers, by a C compiler, and debug information, by gdb."""

import json
import os
import re
import subprocess
import tempfile
from dataclasses import dataclass, field
from pathlib import Path
from typing import Dict, List, Optional, Sequence, Tuple

from layout_plan import Field

HEADERS = (
    "frameobject.h",
    "longintrepr.h",
    "internal/pystate.h",
    "internal/pycore_pystate.h",
    "internal/pycore_interp.h",
    "internal/pycore_runtime.h",
    "internal/pycore_frame.h",
    "internal/pycore_dict.h",
    "internal/pycore_gil.h",
)
"""The headers beside Python.h that have the structs, in one version or another; those that are installed are read."""

PROBE_HEAD = """\
#define Py_BUILD_CORE 1
#include <Python.h>
#include <stddef.h>
#include <stdio.h>
#include <string.h>
static void bits(const char *key, const void *bytes, size_t size, size_t from) {
    size_t first = 0, count = 0;
    for (size_t i = 8 * size; i-- > 0;)
        if (((const unsigned char *)bytes)[i / 8] >> i % 8 & 1) first = i, count++;
    printf("%s %zu %zu\\n", key, first - from, count);
}
"""


@dataclass(frozen=True)
class Place:
    """Where a field stands, and how wide it is (0: not told)."""

    number: int
    width: int


@dataclass
class Answers:
    """What one source tells: places by key, and, for the other keys, the reason that it doesn't."""

    name: str
    places: Dict[str, Place] = field(default_factory=dict)
    reasons: Dict[str, str] = field(default_factory=dict)

    def none(self, fields: Sequence[Field], reason: str) -> "Answers":
        """These answers, for a source that tells nothing."""
        self.reasons.update({it.key: reason for it in fields})
        return self

    def take(self, lines: str) -> None:
        """Takes lines of the form `key number width` and `key ! reason`."""
        for line in lines.splitlines():
            key, *rest = line.split(maxsplit=2)
            if rest[:1] == ["!"]:
                self.reasons[key] = rest[1]
            else:
                self.places[key] = Place(int(rest[0]), int(rest[1]))


def c_line(it: Field) -> str:
    """The line of C that prints one field's place, without macros: so a compiler's error names the line."""
    if it.code:
        return f'printf("{it.key} %zu %zu\\n", (size_t)({it.code}), (size_t)0);'
    start = f"__builtin_offsetof({it.struct}, {it.member})"
    if it.is_bit:
        outer = f"__builtin_offsetof({it.struct}, {it.member.rpartition('.')[0]})"
        made = f"{it.struct} it; memset(&it, 0, sizeof it); it.{it.member} = -1;"
        return f'{{ {made} bits("{it.key}", &it, sizeof it, 8 * {outer}); }}'
    if not it.member:
        number = f"sizeof({it.struct})"
    else:
        number = f"sizeof({it.after}) + {start}" if it.after else start
    # (a flexible array has no size, so only where it is looked at)
    width = f"sizeof((({it.struct} *)0)->{it.member})" if it.width else "(size_t)0"
    return f'printf("{it.key} %zu %zu\\n", {number}, {width});'


def faults_of(said: str) -> Dict[int, str]:
    """The lines of probe.c at which a compiler's errors point, each with its first error."""
    found: Dict[int, str] = {}
    pending: List[int] = []
    for line in said.splitlines():
        pending += [int(number) for number in re.findall(r"from \S*probe\.c:(\d+)", line)]
        error = re.search(r"(?:fatal )?error: (.*)", line)
        if error:
            own = re.match(r"\S*probe\.c:(\d+)", line)
            for number in [int(own.group(1))] if own else pending:
                found.setdefault(number, error.group(1))
            pending = []
    return found


def compiled(folder: Path, compiler: Sequence[str], lines: Sequence[str]) -> Tuple[bool, str]:
    """Whether the compiler takes these lines of C, and what it says."""
    (folder / "probe.c").write_text("\n".join(lines) + "\n")
    command = [*compiler, "-w", "probe.c", "-o", "probe"]
    ran = subprocess.run(
        command, cwd=folder, text=True, errors="replace", stdin=subprocess.DEVNULL, stdout=subprocess.PIPE, stderr=subprocess.STDOUT)
    return ran.returncode == 0, ran.stdout


def build_probe(
    folder: Path, compiler: Sequence[str], fields: Sequence[Field], installed: Sequence[str], answers: Answers
) -> Optional[str]:
    """Builds the program in this folder, without what the compiler refuses, whose reasons the answers take. Returns
    why there is none, if so."""
    head = [*PROBE_HEAD.splitlines()]
    # line by line, what a compiler may refuse: at this number of probe.c stands this header, or this field
    body: List[Tuple[str, str]] = [(f'#include "{it}"', it) for it in installed]
    body += [("int main(void) {", "")] + [(c_line(it), it.key) for it in fields] + [("return 0; }", "")]
    while True:
        try:
            well, said = compiled(folder, compiler, head + [line for line, _ in body])
        except OSError as error:
            return f"no compiler {compiler[0]} ({error.strerror})"
        if well:
            return None
        faults = {at - len(head) - 1: why for at, why in faults_of(said).items() if at > len(head)}
        faults = {at: why for at, why in faults.items() if at < len(body) and body[at][1]}
        if not faults:
            errors = [line for line in said.splitlines() if "error" in line] or ["no message"]
            return f"{compiler[0]} failed: {errors[0]}"
        # (headers first: a field may be well without one that is not)
        headers = {at: why for at, why in faults.items() if body[at][1] in installed}
        answers.reasons.update({body[at][1]: why for at, why in faults.items()})
        body = [it for at, it in enumerate(body) if at not in (headers or faults)]


def from_headers(
    fields: Sequence[Field], includes: Sequence[str], flags: Sequence[str], cc: str, named: Sequence[str] = HEADERS
) -> Answers:
    """What the headers with these names in these folders tell, by a C program. Left out of it is what the compiler
    refuses."""
    answers = Answers("headers")
    if not any((Path(it) / "Python.h").is_file() for it in includes):
        return answers.none(fields, f"no Python.h in {', '.join(includes)}")
    # (some internal headers name others by paths below internal/; a public header of one name comes before)
    compiler = [cc, *flags, *(f"-I{it}" for it in includes), *(f"-idirafter{it}/internal" for it in includes)]
    installed = [it for it in named if any((Path(folder) / it).is_file() for folder in includes)]
    with tempfile.TemporaryDirectory(prefix="derive-layout-") as name:
        why = build_probe(Path(name), compiler, fields, installed, answers)
        if why:
            return answers.none(fields, why)
        try:
            ran = subprocess.run([str(Path(name) / "probe")], stdout=subprocess.PIPE, text=True, check=True)
        except (OSError, subprocess.CalledProcessError) as error:
            return answers.none(fields, f"what {cc} built doesn't run ({error})")
        answers.take(ran.stdout)
    answers.reasons = {key: why for key, why in answers.reasons.items() if key not in answers.places}
    return answers


def from_debug_information(fields: Sequence[Field], binary: str, gdb: str) -> Answers:
    """What the debug information of a binary tells, by gdb."""
    answers = Answers("debug information")
    script = Path(__file__).resolve().with_name("gdb_fields.py")
    with tempfile.NamedTemporaryFile("w", suffix=".json") as asked:
        json.dump([[it.key, it.struct, it.member, it.is_bit, it.after, it.code] for it in fields], asked)
        asked.flush()
        # (nothing is to be fetched from servers)
        given = {**os.environ, "FIELDS": asked.name, "DEBUGINFOD_URLS": ""}
        command = [gdb, "-nx", "-batch", "-iex", "set auto-load off", "-x", str(script), binary]
        try:
            ran = subprocess.run(command, env=given, stdin=subprocess.DEVNULL, capture_output=True, text=True, errors="replace")
        except OSError as error:
            return answers.none(fields, f"no debugger {gdb} ({error.strerror})")
    keys = {it.key for it in fields}
    answers.take("\n".join(line for line in ran.stdout.splitlines() if line.split(" ")[0] in keys))
    lacking = [it for it in fields if it.key not in answers.places and it.key not in answers.reasons]
    return answers.none(lacking, f"{gdb} told nothing: {(ran.stderr.strip().splitlines() or ['no message'])[-1]}")
