"""Puts tables of others before, between and after ours, and looks at what the program does to all of them.

usage: layouts.py PROGRAM

The files are of format 1 and 2. In each a run shows what the rows of our tables say, and further commands change exactly
that. So it does in runs that are killed while they open, migrate or change a file. What others have stays as it was: their
rows, an index and a view.
"""

import os
import random
import sqlite3
import subprocess
import sys
import time

sys.path.insert(0, os.path.join(os.path.dirname(os.path.realpath(__file__)), "..", ".."))
sys.dont_write_bytecode = True

from others import PARTS, seen_in

PROGRAM = sys.argv[1]
KILLS = 8
LISTINGS = "rule show\nroute show table all\nroute get 10.0.0.1 from 192.0.2.9\n"
BEFORE = ["route add default via 192.0.2.1", "rule add priority 10 from 192.0.2.0/24 table 100",
          "route add 10/8 dev eth0 table 100", "route add 10/8 dev eth1 metric 5 table 100"]
SUPPRESSED = ["rule add priority 20 table main suppress_prefixlength 8", "rule add priority 30 table main suppress_prefixlength 0"]
AFTER = ["route replace 10/8 dev eth2 table 100", "rule add priority 40 table main suppress_prefixlength 16", "rule del priority 10",
         "route add blackhole 10.1.0.0/16", "rule del priority 40", "route del default", "route flush table 100"]


def replies(words, lines):
    """What a run over these lines replies."""
    run = subprocess.run([PROGRAM, "batch", *words], input="".join(f"{line}\n" for line in lines), capture_output=True, text=True)
    if run.returncode or run.stderr:
        sys.exit(f"a run ended with status {run.returncode}: {run.stdout[-200:]}{run.stderr}")
    return run.stdout


def listings_after(lines):
    """The listings of a new database after these commands."""
    return replies([], [*lines, LISTINGS]).split("\n", len(lines))[len(lines)]


def statements_of(lines, is_former):
    """For each table of ours the statements that make it as these commands leave it."""
    replies(["--db", "made.db"], lines)
    made = sqlite3.connect("made.db")
    parts = []
    for name in ("rule", "route", "meta", "suppress")[:3 if is_former else 4]:
        [(create,)] = made.execute("SELECT sql FROM sqlite_schema WHERE type = 'table' AND name = ?", (name,))
        rows = made.execute(f"SELECT * FROM {name}").fetchall()
        parts.append([create, *(f"INSERT INTO {name} VALUES {row}".replace(",)", ")") for row in rows)])
    if is_former:
        parts[2].append("UPDATE meta SET format = 1")
    made.close()
    subprocess.run(["rm", "-f", "made.db"], check=True)
    return parts


def arrangements(parts):
    """The statements of a file with all that others have in one place, for each place, and with a part in three of them."""
    for place in range(len(parts) + 1):
        yield [*parts[:place], *PARTS, *parts[place:]]
    yield [PARTS[0], parts[0], PARTS[1], *parts[1:], PARTS[2]]


def make(path, statements):
    """Makes a file by statements."""
    database = sqlite3.connect(path)
    for part in statements:
        for statement in part:
            database.execute(statement)
    database.commit()
    database.close()


def compare(path, what, shown, wanted, others):
    """Ends the test if a file shows something else, or if others see something else in it."""
    if shown != wanted:
        sys.exit(f"{path}, {what}: lists\n{shown}and not\n{wanted}")
    if seen_in(path) != others:
        sys.exit(f"{path}, {what}: others see {seen_in(path)}")


def try_layout(path, statements, lines):
    """Lists, changes and lists again a file that these commands have made."""
    make(path, statements)
    others = seen_in(path)
    compare(path, "opened", replies(["--db", path], [LISTINGS]), listings_after(lines), others)
    replies(["--db", path], AFTER)
    compare(path, "changed", replies(["--db", path], [LISTINGS]), listings_after([*lines, *AFTER]), others)


def command(number):
    """The command of this number, from 1: none is refused after those before it."""
    turn, step = divmod(number - 1, 4)
    prefix = f"10.{turn // 250}.{turn % 250}.0/24"
    return (f"route add {prefix} via 192.0.2.1", f"rule add priority 50 from {prefix} table main suppress_prefixlength 8",
            f"route replace {prefix} dev eth1", "rule del priority 50")[step]


def try_kills(path, statements, lines, dice):
    """Kills a run over a file like that again and again: it holds what was acknowledged, and one command more at most."""
    make(path, statements)
    others, held = seen_in(path), 0
    for _ in range(KILLS):
        more = "".join(f"{command(number)}\n" for number in range(held + 1, held + 200))
        run = subprocess.Popen([PROGRAM, "batch", "--db", path], stdin=subprocess.PIPE, stdout=subprocess.PIPE)
        run.stdin.write(more.encode())
        time.sleep(dice.uniform(0, 0.03))
        run.kill()
        acknowledged = held + run.stdout.read().count(b"ok ")
        run.wait()
        shown = replies(["--db", path], [LISTINGS])
        held = int(shown.splitlines()[-1].split()[1]) - len(lines)
        if not acknowledged <= held <= acknowledged + 1:
            sys.exit(f"{path}: after {acknowledged} commands were acknowledged it holds {held}")
        compare(path, "killed", shown, listings_after([*lines, *(command(number) for number in range(1, held + 1))]), others)


def main():
    dice = random.Random(1)
    for form, lines in ((1, BEFORE), (2, BEFORE + SUPPRESSED)):
        parts = statements_of(lines, form == 1)
        for place, statements in enumerate(arrangements(parts)):
            try_layout(f"layout{form}{place}.db", statements, lines)
        try_kills(f"killed{form}.db", statements, lines, dice)
    print("each file listed what its rows say, and others kept theirs")


main()
