"""Makes one call of the Python package on a file that it has read, and tells what bench/call.c tells.

usage: call.py COMMAND FILE
"""

import resource
import sys
from pathlib import Path

import gedtool

call, file = getattr(gedtool, sys.argv[1]), Path(sys.argv[2]).read_bytes()
before = resource.getrusage(resource.RUSAGE_SELF)
answer = call(file)
behind = resource.getrusage(resource.RUSAGE_SELF)
print(f"{behind.ru_utime - before.ru_utime:.6f} {behind.ru_maxrss - before.ru_maxrss}")
