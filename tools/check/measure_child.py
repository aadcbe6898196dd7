"""Runs a command, and prints its status, seconds and peak KiB: started by measure.py, and small, since Linux counts the
memory of the process that starts a command as the command's own, where that is more."""

import os
import sys
import time

begun = time.perf_counter()
process = os.posix_spawnp(sys.argv[1], sys.argv[1:], os.environ)
_, status, used = os.wait4(process, 0)
sys.stderr.write(f"{status} {time.perf_counter() - begun} {used.ru_maxrss}")
