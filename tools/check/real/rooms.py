"""tools/check/rooms.py for the checks of this folder: each of them runs by itself, and begins with its import."""

import runpy
from pathlib import Path

globals().update(runpy.run_path(str(Path(__file__).resolve().parent.parent / "rooms.py")))
