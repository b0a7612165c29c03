"""Starts a program, and tells its seconds, processor seconds and greatest memory in megabytes on standard error.

A process of its own does so, and needs little itself, since the memory of what starts a program counts as the
program's. Some 5 megabytes are told of each program that needs less.
"""

import os
import sys
import time


def run(words):
    """The seconds, the processor seconds and the greatest memory of a run, which prints where this one prints."""
    start = time.perf_counter()
    child = os.fork()
    if child == 0:
        try:
            os.execvp(words[0], words)
        finally:
            os._exit(127)
    _, _, usage = os.wait4(child, 0)
    return time.perf_counter() - start, usage.ru_utime + usage.ru_stime, usage.ru_maxrss / 1024


if __name__ == "__main__":
    print(*run(sys.argv[1:]), file=sys.stderr)
