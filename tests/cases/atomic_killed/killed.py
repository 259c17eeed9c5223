"""Kills runs of atomic files of 500 commands, each at another moment, and looks at what each left.

usage: killed.py PROGRAM

KILLS says how often (20 where it isn't set). After a kill the file is opened by a further run: it has to hold all
commands or none, and all of them where an `ok` was written.
"""

import os
import random
import subprocess
import sys
import time

PROGRAM = sys.argv[1]
KILLS = int(os.environ.get("KILLS", "20"))
COMMANDS = 500
LINES = "".join(f"route add 10.{number // 250}.{number % 250}.0/24 dev eth0\n" for number in range(COMMANDS))


def start(path):
    """Starts a run of the atomic file, which has all its lines when it asks for them."""
    with open("lines", "rb") as lines:
        return subprocess.Popen([PROGRAM, "batch", "--atomic", "--db", path], stdin=lines, stdout=subprocess.PIPE)


def held_by(path):
    """How many commands the file holds, by its count and by its routes."""
    query = "route get 10.0.0.1\nroute show\n"
    run = subprocess.run([PROGRAM, "batch", "--db", path], input=query, capture_output=True, text=True)
    if run.returncode:
        sys.exit(f"a run ended with status {run.returncode}: {run.stdout[-200:]}{run.stderr}")
    answer, *_, end = run.stdout.splitlines()
    held = int(answer.split()[1])
    if end != f"end {held}":
        sys.exit(f"a file with the count {held} has the routes of `{end}`")
    return held


def whole_run():
    """How many seconds a run takes that is not killed."""
    begun = time.monotonic()
    run = start("whole.db")
    replies = run.communicate()[0].decode()
    if run.returncode or replies != "".join(f"ok {number}\n" for number in range(1, COMMANDS + 1)):
        sys.exit(f"a run that was not killed replied: {replies[-200:]}")
    return time.monotonic() - begun


def main():
    with open("lines", "w", encoding="ascii") as lines:
        lines.write(LINES)
    moments = random.Random(1)
    seconds = whole_run()
    for kill in range(KILLS):
        path = f"routes{kill}.db"
        run = start(path)
        time.sleep(moments.uniform(0, 1.2 * seconds))
        run.kill()
        written = run.communicate()[0]
        held = held_by(path)
        if held not in (0, COMMANDS) or written.startswith(b"ok") and held != COMMANDS:
            sys.exit(f"a run that was killed after it wrote {written[-20:]} left {held} commands")
    print("each file held all commands or none, and all where one was acknowledged")


main()
