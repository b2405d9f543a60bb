"""launch.py OUT COMMAND..: runs a command with its output in OUT, and prints its status, its processor seconds, its peak
memory in bytes and the seconds from its begin to its end. A process of its own, because a peak counts what the parent held when the
process began."""

import os
import sys
import time

begun = time.monotonic()
child = os.fork()
if child == 0:
    os.dup2(os.open(os.devnull, os.O_RDONLY), 0)
    os.dup2(os.open(sys.argv[1], os.O_WRONLY | os.O_CREAT | os.O_TRUNC), 1)
    os.execvp(sys.argv[2], sys.argv[2:])
_, status, used = os.wait4(child, 0)
print(os.waitstatus_to_exitcode(status), used.ru_utime + used.ru_stime, used.ru_maxrss * 1024, time.monotonic() - begun)
