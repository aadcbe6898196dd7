"""The Pythons that are installed: on the search path, and in the folders of version managers."""

import glob
import os
import re
from pathlib import Path
from typing import Iterator, List

MANAGED = (
    "{PYENV_ROOT}/versions/*/bin",
    "~/.pyenv/versions/*/bin",
    "{ASDF_DATA_DIR}/installs/python/*/bin",
    "~/.asdf/installs/python/*/bin",
    "~/.local/share/mise/installs/python/*/bin",
    "~/.local/share/rtx/installs/python/*/bin",
    "{UV_PYTHON_INSTALL_DIR}/*/bin",
    "~/.local/share/uv/python/*/bin",
    "~/.rye/py/*/bin",
    "~/.pythonz/pythons/*/bin",
    "~/.pythonbrew/pythons/*/bin",
    "{CONDA_PREFIX}/bin",
    "~/*conda3/bin",
    "~/*conda3/envs/*/bin",
    "/opt/*conda*/bin",
    "/opt/python*/bin",
    "/opt/python/*/bin",
    "/usr/local/bin",
    "/usr/bin",
)
"""Where version managers keep Pythons: patterns of folders, in which {NAME} is a variable of the environment."""


def folders() -> Iterator[str]:
    """The folders that may have a Python."""
    yield from os.environ.get("PATH", "").split(os.pathsep)
    for pattern in MANAGED:
        try:
            yield from sorted(glob.glob(os.path.expanduser(pattern.format_map(os.environ))))
        except KeyError:
            # (that manager isn't in use)
            continue


def version_key(path: str) -> List[int]:
    """Orders paths by the numbers in their names."""
    return [int(number) for number in re.findall(r"\d+", path)]


def is_program(path: str) -> bool:
    """Whether a file is a program, and no script, such as the shims of version managers are."""
    try:
        with open(path, "rb") as start:
            return os.access(path, os.X_OK) and start.read(4) == b"\x7fELF"
    except OSError:
        return False


def pythons() -> List[str]:
    """The programs named python2, python3, or so with a minor version, each once."""
    found = set()
    for folder in filter(None, folders()):
        for path in glob.glob(f"{glob.escape(folder)}/python[23]*"):
            if re.fullmatch(r"python[23](\.\d+t?)?", Path(path).name) and is_program(path):
                found.add(os.path.realpath(path))
    return sorted(found, key=lambda path: (version_key(path), path))
