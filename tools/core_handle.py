#!/usr/bin/python3 -I
"""The program that the kernel starts for each core, and its settings on a system.

    |/opt/pystacks/bin/pystacks-core-handle %P %I %d %s %t %c      # in /proc/sys/kernel/core_pattern

    pystacks-core-handle --install     # takes cores from now on: says what took them before
    pystacks-core-handle --remove      # puts that back
    pystacks-core-handle --tidy        # removes what is too old, or takes too much
"""

import os
import sys

# (it runs as root, by the kernel)
sys.dont_write_bytecode = True


def main():
    # type: () -> int
    """The command. Returns the status."""
    if sys.version_info < (3, 8):
        sys.stderr.write("core_handle: Python 3.8 or later is needed, and this is %d.%d\n" % sys.version_info[:2])
        return 127
    sys.path.insert(0, os.path.dirname(os.path.realpath(__file__)))
    from pystacks_tool.handler.command import main as run
    return run(sys.argv[1:])


if __name__ == "__main__":
    sys.exit(main())
