"""Runs scripts with a stream at a terminal, and prints what standard error got.

usage: terminal.py PROGRAM
"""

import os
import pty
import re
import subprocess
import sys
import time

PROGRAM = sys.argv[1]
GOOD = "route add 10/8 dev eth0\n"
WRONG = "route add 10.0.0.1/8 dev eth0\n"
SHOW = "route show\n"


def read_all(side):
    """What a terminal or a pipe got, whose last writer is gone."""
    got = b""
    try:
        while more := os.read(side, 4096):
            got += more
    except OSError:
        pass
    os.close(side)
    return got.decode().replace("\r\n", "\n")


def told(words, parts, stream="stderr"):
    """What standard error gets where this stream is at a terminal and the other is not. Each part of the script but the
    first comes a while after the one before it.
    """
    terminal_side, terminal = pty.openpty()
    pipe_side, pipe = os.pipe()
    errors = terminal if stream == "stderr" else pipe
    output = pipe if stream == "stderr" else terminal
    run = subprocess.Popen([PROGRAM, "batch", *words], stdin=subprocess.PIPE, stdout=output, stderr=errors, bufsize=0)
    os.close(terminal)
    os.close(pipe)
    for number, part in enumerate(parts):
        time.sleep(1.5 if number else 0)
        run.stdin.write(part.encode())
    run.stdin.close()
    run.wait()
    got = {terminal: read_all(terminal_side), pipe: read_all(pipe_side)}
    return got[errors]


def plain(text):
    """The numbers of lines of progress are those of the machine."""
    text = re.sub(r"\d+ lines?, \d+ a second", "PROGRESS", text)
    return text.replace("\r" + " " * 40 + "\r", " WIPED\n")


print("standard error at a terminal")
print(told([], [GOOD + WRONG]), end="")
print("standard output at a terminal")
print(told([], [GOOD + WRONG], stream="stdout"), end="")
print("a slow script")
print(plain(told(["--force"], [GOOD, SHOW + WRONG, SHOW])), end="")
