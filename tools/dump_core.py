#!/usr/bin/env python3
"""Shows where a Python process stood when it died: finds the files that it had mapped, and asks `pysalvage` or
`pystacks dump` of its core.

    tools/dump_core.py CORE
    tools/dump_core.py CORE -l --source      # with locals and source lines
    tools/dump_core.py CORE --root FOLDER    # where the core is that of a container, whose files are below FOLDER
    tools/dump_core.py --group CORE..        # cores grouped by their stacks: `pystacks triage`

This file is the door: what it opens stands in the package pystacks_tool beside it, of which it says which file is missing.
"""

import gc
import os
import sys

# (what only looks at a core leaves nothing behind)
sys.dont_write_bytecode = True

# (a run is short and makes few cycles, and looking for them costs a tenth of its own time)
gc.disable()

NO_PROGRAM = 127

PACKAGE = "pystacks_tool"


def without(module):
    # type: (str) -> int
    """Says which module is missing. Returns the status."""
    if module.split(".")[0] == PACKAGE:
        # (the package itself is a folder)
        place = module.replace(".", "/") + (".py" if "." in module else "")
        sys.stderr.write("dump_core: %s isn't beside dump_core.py: it needs the other files of its folder\n" % place)
        sys.stderr.write("dump_core: next: copy the whole folder, or let tools/install.py --to FOLDER do so\n")
    else:
        sys.stderr.write("dump_core: this Python lacks its own module %s\n" % (module or "of some name"))
        sys.stderr.write("dump_core: next: run the tool by a Python that has its whole standard library\n")
    return NO_PROGRAM


def main():
    # type: () -> int
    """The command. Returns the status."""
    if sys.version_info < (3, 8):
        sys.stderr.write("dump_core: Python 3.8 or later is needed, and this is %d.%d\n" % sys.version_info[:2])
        return NO_PROGRAM
    try:
        from pystacks_tool.cli import main as run
    except ImportError as error:
        return without(error.name or "")
    name = os.path.basename(sys.argv[0])
    return run("tools/dump_core.py" if name == "dump_core.py" else name, sys.argv[1:])


if __name__ == "__main__":
    sys.exit(main())
