"""The most memory that `prt batch` takes over input without an end, beside that over an empty input."""

import contextlib
import os
import subprocess
import sys
import time

from peak import peak_of

# After so many seconds a run waits: for the end of its input, or for room for its last reply.
SETTLED = 5
EMPTY = "an empty input"
# What writes each input.
INPUTS = {EMPTY: f"sleep {SETTLED + 1}", "a for ever": "yes a | tr -d '\\n'", "newlines for ever": "yes ''"}


def full_pipe():
    """The two ends of a pipe that takes no more bytes."""
    reading, writing = os.pipe()
    os.set_blocking(writing, False)
    with contextlib.suppress(BlockingIOError):
        while True:
            os.write(writing, b"\n")
    os.set_blocking(writing, True)
    return reading, writing


def most_memory(program, feeder):
    """The most memory in MB of a run over what this command writes, up to its last reply."""
    reading, writing = full_pipe()
    with subprocess.Popen(feeder, shell=True, stdout=subprocess.PIPE, stderr=subprocess.DEVNULL) as feeding:
        process = subprocess.Popen([program, "batch", "--force"], stdin=feeding.stdout, stdout=writing)
        feeding.stdout.close()
        os.close(writing)
        time.sleep(SETTLED)
        most = peak_of(process)
        os.close(reading)
        process.wait()
    return most


def main():
    most = {name: most_memory(sys.argv[1], feeder) for name, feeder in INPUTS.items()}
    for name, peak in most.items():
        print(f"most memory over {name}: {peak:.2f} MB, {peak / most[EMPTY]:.2f} times that over {EMPTY}")


main()
