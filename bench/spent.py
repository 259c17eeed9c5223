"""What one run of a program takes."""

import os
import sys
import time


def spent(words, given):
    """The wall time and the processor time of one run in seconds, with this file as standard input."""
    streams = [(os.POSIX_SPAWN_OPEN, 0, given, os.O_RDONLY, 0), (os.POSIX_SPAWN_OPEN, 1, "/dev/null", os.O_WRONLY, 0)]
    start = time.monotonic()
    _, status, usage = os.wait4(os.posix_spawn(words[0], words, {}, file_actions=streams), 0)
    wall = time.monotonic() - start
    if status:
        sys.exit(f"{words} ended with status {status}")
    return wall, usage.ru_utime + usage.ru_stime
