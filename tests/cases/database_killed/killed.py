"""Kills runs on a database file, each at another moment, and looks at what each left.

usage: killed.py PROGRAM

KILLS says how often (20 where it isn't set). After a kill the file is opened by a further run: it has to hold the first N
commands, where N is at least the number in the last `ok` line that was written, and at most one more, and its listings
have to be those of a run in memory over the first N commands. Most runs go on with the file of the run before; each
fourth begins with a new one, so that openings are killed too.
"""

import os
import random
import subprocess
import sys
import time

PROGRAM = sys.argv[1]
KILLS = int(os.environ.get("KILLS", "20"))
# How many commands a run is given: more than it can execute before it is killed.
AHEAD = 400
LISTINGS = "route show table all\nrule show\nroute get 10.0.0.1 from 192.0.2.9\n"


def command(number):
    """The command of this number, from 1: none is refused where those before it were executed."""
    turn, step = divmod(number - 1, 8)
    prefix = f"10.{turn // 250}.{turn % 250}.0/24"
    return (
        f"route add {prefix} via 192.0.2.1",
        f"route add {prefix} dev eth0 metric 7",
        f"rule add priority 10 from {prefix} table 100",
        f"route replace {prefix} via 192.0.2.2 proto static",
        f"route del {prefix} metric 7",
        "rule del priority 10",
        f"route add blackhole {prefix} table 100",
        "route flush table 100",
    )[step] + "\n"


def replies(words, script):
    """What a run over this script replies."""
    run = subprocess.run([PROGRAM, "batch", *words], input=script, capture_output=True, text=True)
    if run.returncode:
        sys.exit(f"a run ended with status {run.returncode}: {run.stdout[-200:]}{run.stderr}")
    return run.stdout


def run_and_kill(path, held, awaited, pause):
    """Kills a run over the commands after those that the file holds: so many seconds after so many were acknowledged.

    Gives how many commands are acknowledged then, by this run and those before it.
    """
    run = subprocess.Popen([PROGRAM, "batch", "--db", path], stdin=subprocess.PIPE, stdout=subprocess.PIPE, bufsize=0)
    run.stdin.write("".join(map(command, range(held + 1, held + 1 + AHEAD))).encode())
    written = b""
    while written.count(b"\n") < awaited and (byte := run.stdout.read(1)):
        written += byte
    time.sleep(pause)
    run.kill()
    written += run.stdout.read()
    if run.wait() >= 0:
        sys.exit(f"a run ended by itself: {written[-200:]}")
    *lines, _ = written.decode().split("\n")
    if lines != [f"ok {number}" for number in range(held + 1, held + 1 + len(lines))]:
        sys.exit(f"a run replied: {written[-200:]}")
    return held + len(lines)


def held_by(path):
    """How many commands the file holds, where it holds nothing else."""
    listings = replies(["--db", path], LISTINGS)
    held = int(listings.splitlines()[-1].split()[1])
    wanted = replies([], "".join(map(command, range(1, held + 1))) + LISTINGS).split("\n", held)[held]
    if listings != wanted:
        sys.exit(f"a file with {held} commands lists\n{listings}and not\n{wanted}")
    return held


def main():
    moments = random.Random(1)
    held = 0
    for kill in range(KILLS):
        if kill % 4 == 0:
            held = 0
            awaited = 0
        else:
            awaited = moments.randrange(1, 12)
        path = f"routes{kill // 4}.db"
        acknowledged = run_and_kill(path, held, awaited, moments.uniform(0, 0.006))
        held = held_by(path)
        if not acknowledged <= held <= acknowledged + 1:
            sys.exit(f"after `ok {acknowledged}` the file holds {held} commands")
    print("each file held what its run had acknowledged, or one command more")


main()
