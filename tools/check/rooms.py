"""The rooms of tools/, from which the checks import: importing this first makes them known. (A check runs by itself, and so each of
its folders has a file of this name, which runs this one.)
"""

import sys
from pathlib import Path

CHECK = Path(__file__).resolve().parent
TOOLS = CHECK.parent
ROOT = TOOLS.parent
BUILT_LISTING = ROOT / "crates" / "listing" / "out" / "listing"
BUILT_SALVAGE = ROOT / "crates" / "pysalvage" / "out" / "pysalvage"

# (a check that ran leaves nothing behind)
sys.dont_write_bytecode = True
for room in (TOOLS, TOOLS / "layouts", CHECK, CHECK / "rows", CHECK / "real", CHECK / "tests"):
    if str(room) not in sys.path:
        sys.path.append(str(room))
