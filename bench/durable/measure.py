"""Time of `prt batch` in memory and on a database file, beside the same transactions by SQLite's library, which a
program in C and Python's sqlite3 module call.

usage: measure.py PROGRAM TRANSACTIONS FOLDER
"""

import os
import random
import sqlite3
import sys
import tempfile
import time
from pathlib import Path

from routes import random_prefixes, route_line
from spent import spent

PROGRAM, TRANSACTIONS, FOLDER = sys.argv[1:]
# How many lines a script has, and how often it is run: the least time counts.
SCRIPTS = ((1_000, 5), (10_000, 3), (100_000, 1))
SYNCS = 1_000

TABLES = """
CREATE TABLE route (tbl INTEGER NOT NULL, net INTEGER NOT NULL, len INTEGER NOT NULL, metric INTEGER NOT NULL,
  kind INTEGER NOT NULL, via INTEGER NOT NULL, dev TEXT NOT NULL, src INTEGER NOT NULL, proto INTEGER NOT NULL,
  scope INTEGER NOT NULL, PRIMARY KEY (tbl, net, len, metric)) STRICT;
CREATE TABLE meta (id INTEGER PRIMARY KEY NOT NULL, format INTEGER NOT NULL, count INTEGER NOT NULL) STRICT;
INSERT INTO meta VALUES (1, 2, 0);
"""
ADD = """
INSERT INTO route (tbl, net, len, metric, kind, via, dev, src, proto, scope) VALUES (?1, ?2, ?3, ?4, ?5, ?6, ?7, ?8, ?9, ?10)
"""


def new_file(folder):
    """The path of a database file that isn't there yet."""
    for left in folder.glob("routes.db*"):
        left.unlink()
    return str(folder / "routes.db")


def on_new_file(words, folder, given):
    """The times of a run on a new database file, which stays."""
    return spent([*words, new_file(folder)], given)


def by_python(folder, prefixes):
    """The wall time and the processor time of the same transactions by Python's module."""
    database = sqlite3.connect(new_file(folder), isolation_level=None)
    database.executescript("PRAGMA journal_mode = WAL; PRAGMA synchronous = FULL;" + TABLES)
    start, before = time.monotonic(), time.process_time()
    for number, (bits, length) in enumerate(prefixes, 1):
        database.execute("BEGIN")
        database.execute(ADD, (254, bits, length, 0, 1, 3221225985, "eth0", -1, 3, 0))
        database.execute("UPDATE meta SET count = ?1", (number,))
        database.execute("COMMIT")
    times = time.monotonic() - start, time.process_time() - before
    database.close()
    return times


def sync_seconds(folder):
    """What it takes to append a page to a file and force it to the disk."""
    log = os.open(folder / "log", os.O_CREAT | os.O_WRONLY | os.O_APPEND)
    start = time.monotonic()
    for _ in range(SYNCS):
        os.write(log, bytes(4096))
        os.fdatasync(log)
    return (time.monotonic() - start) / SYNCS


def show_script(folder, numbers, count, turns):
    prefixes = random_prefixes(numbers, count, range(1, 223))
    script, rows, nothing = (folder / name for name in ("script", "rows", "nothing"))
    script.write_text("".join(route_line("add", prefix, 1) for prefix in prefixes))
    rows.write_text("".join(f"{bits} {length}\n" for bits, length in prefixes))
    nothing.write_text("")
    program = [PROGRAM, "batch"]
    runs = {"in memory": [], "on a file": [], "by SQLite's library from C": [], "by SQLite's library from Python": []}
    openings = []
    # One after the other, since what a sync takes changes from minute to minute.
    for _ in range(turns):
        runs["in memory"].append(spent(program, script))
        runs["by SQLite's library from C"].append(on_new_file([TRANSACTIONS], folder, rows))
        runs["by SQLite's library from Python"].append(by_python(folder, prefixes))
        runs["on a file"].append(on_new_file([*program, "--db"], folder, script))
        openings.append(spent([*program, "--db", str(folder / "routes.db")], nothing))
    print(f"{count} route add, where a sync takes {sync_seconds(folder) * 1e6:.0f} us")
    for name, times in runs.items():
        wall, processor = min(times)
        print(f"  {name}: {wall:.2f} s, {count / wall:.0f} lines a second, {processor / count * 1e6:.0f} us of processor a line")
    ours, from_c, from_python = (min(times)[0] for times in list(runs.values())[1:])
    print(f"  on a file: {ours / from_c:.2f} times the library from C, {ours / from_python:.2f} from Python; opened again in {min(openings)[0]:.3f} s")


def main():
    numbers = random.Random(1)
    with tempfile.TemporaryDirectory(dir=FOLDER) as folder:
        for count, turns in SCRIPTS:
            show_script(Path(folder), numbers, count, turns)


main()
