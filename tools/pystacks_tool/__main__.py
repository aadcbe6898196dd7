"""The tool by the name of its package: `python3 -m pystacks_tool CORE`, from the folder that has it."""

import sys

# (what only looks at a core leaves nothing behind)
sys.dont_write_bytecode = True

from pystacks_tool.cli import main

if __name__ == "__main__":
    sys.exit(main("python3 -m pystacks_tool", sys.argv[1:]))
