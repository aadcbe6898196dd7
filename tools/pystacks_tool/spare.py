"""Files without a name, which are gone with the tool."""

import os
from typing import IO


def spare_folder() -> str:
    """Where such a file stands, within a line."""
    import tempfile

    return tempfile.gettempdir()


def spare_file() -> IO[bytes]:
    """A new one, in the folder that TMPDIR names or in /tmp. Where no file without a name can be made there, the standard library finds a place: it is
    imported then alone, since that import costs a run that doesn't need it."""
    try:
        return open(os.open(os.environ.get("TMPDIR") or "/tmp", os.O_TMPFILE | os.O_RDWR | os.O_EXCL | os.O_CLOEXEC, 0o600), "w+b")
    except OSError:
        import tempfile

        return tempfile.TemporaryFile(prefix="dump-core-")
