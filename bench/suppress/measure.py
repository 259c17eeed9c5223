"""Lookups through 1,000 rules with and without a length, commands on them over a database file, and its migration.

usage: measure.py PROGRAM FOLDER
"""

import random
import shutil
import sqlite3
import sys
import tempfile
from pathlib import Path

from routes import random_prefixes, route_line
from spent import spent

PROGRAM, FOLDER = sys.argv[1:]
TURNS = 9
RULES = 990
LOOKUPS = 200_000
DELETIONS = 500
ROUTES = 100_000
ITEM = " suppress_prefixlength 8"


def rule_lines(item):
    """Rules for sources that no packet has."""
    return [f"rule add priority {number} from 10.{number >> 8}.{number & 255}.1 table 100{item}\n"
            for number in range(1, RULES + 1)]


def written(folder, name, lines):
    """The path of a file with these lines."""
    path = folder / name
    path.write_text("".join(lines))
    return path


def ratio(what, ours, beside):
    """Prints the least of some times beside the least of others."""
    print(f"{what}: {min(ours):.3f} s to {min(beside):.3f} s, {min(ours) / min(beside):.2f} times")


def copied(database, folder):
    """The path of a new copy of a database without a log."""
    for left in folder.glob("copy.db*"):
        left.unlink()
    return str(shutil.copy(database, folder / "copy.db"))


def database_of(folder, name, script):
    """The path of a database file after this script."""
    path = folder / name
    spent([PROGRAM, "batch", "--db", str(path)], script)
    return path


def show_lookups(folder):
    """Processor time of lookups in memory, less that of the lines before them. Gives the scripts of the rules alone."""
    suppressing = ["route add default dev a table 100\n"]
    suppressing += [f"rule add priority {number} table 100{ITEM}\n" for number in range(1, RULES + 1)]
    lines = {"with none": rule_lines(""), "with lengths": rule_lines(ITEM), "that suppress": suppressing}
    gets = ["route get 198.51.100.7\n"] * LOOKUPS
    alone = {name: written(folder, name, rules) for name, rules in lines.items()}
    scripts = {name: written(folder, f"gets {name}", rules + gets) for name, rules in lines.items()}
    times = {name: [] for name in lines}
    for _ in range(TURNS):
        for name, taken in times.items():
            taken.append(spent([PROGRAM, "batch"], scripts[name])[1] - spent([PROGRAM, "batch"], alone[name])[1])
    for name in ("with lengths", "that suppress"):
        ratio(f"{LOOKUPS} route get through {RULES} rules {name}, to rules without", times[name], times["with none"])
    return {"": alone["with none"], ITEM: alone["with lengths"]}


def show_commands(folder, alone, nothing):
    """Wall time of rules that are added to a new file, and of some that are deleted again."""
    added, deleted = {"": [], ITEM: []}, {"": [], ITEM: []}
    deletions = written(folder, "deletions", [f"rule del priority {number}\n" for number in range(1, DELETIONS + 1)])
    for _ in range(TURNS):
        for item in added:
            for left in folder.glob("rules.db*"):
                left.unlink()
            path = ["batch", "--db", str(folder / "rules.db")]
            spent([PROGRAM, *path], nothing)
            opened = spent([PROGRAM, *path], nothing)[0]
            added[item].append(spent([PROGRAM, *path], alone[item])[0] - opened)
            deleted[item].append(spent([PROGRAM, *path], deletions)[0] - spent([PROGRAM, *path], nothing)[0])
    ratio(f"{RULES} rule add with a length on a file, to without", added[ITEM], added[""])
    ratio(f"{DELETIONS} rule del among {RULES} with lengths, to without", deleted[ITEM], deleted[""])


def show_opening(folder, nothing):
    """Wall time of an opening of format 1, which migrates, beside one of format 2."""
    prefixes = random_prefixes(random.Random(1), ROUTES, range(1, 223))
    present = database_of(folder, "routes.db", written(folder, "script", [route_line("add", one, 1) for one in prefixes]))
    former = shutil.copy(present, folder / "former.db")
    database = sqlite3.connect(former)
    database.executescript("PRAGMA journal_mode = DELETE; DROP TABLE suppress; UPDATE meta SET format = 1;")
    database.close()
    times = {present: [], former: []}
    for _ in range(TURNS):
        for path, taken in times.items():
            taken.append(spent([PROGRAM, "batch", "--db", copied(path, folder)], nothing)[0])
    ratio(f"an opening of {ROUTES} routes with its migration, to without", times[former], times[present])


def main():
    with tempfile.TemporaryDirectory(dir=FOLDER) as name:
        folder = Path(name)
        nothing = written(folder, "nothing", [])
        alone = show_lookups(folder)
        show_commands(folder, alone, nothing)
        show_opening(folder, nothing)


main()
