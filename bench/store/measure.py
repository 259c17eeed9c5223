"""Commits, loads and openings of a store, beside the same statements by Python's sqlite3."""

import os
import re
import sqlite3
import subprocess
import sys
import time

TURNS = 3
SIZES = (1_000, 10_000, 100_000)
VERBS = ("replace", "del", "add")

# Routes of main in 200 octets, and as many commands.
FILL = (
    "INSERT INTO route WITH RECURSIVE n(i) AS (SELECT 0 UNION ALL SELECT i + 1 FROM n WHERE i < {routes} - 1) "
    "SELECT 254, ((1 + i % 200) << 24) + i / 200 * 256, 24, 0, 1, 3221225985, 'eth0', -1, 3, 0 FROM n; "
    "UPDATE meta SET count = {routes}"
)


def statement(sources, file, begins):
    """The first statement of a file of the store that begins so."""
    with open(os.path.join(sources, file)) as source:
        return re.search(f'"({begins}[^"]*)"', source.read())[1]


def row(number):
    """The route that the program's command of this number is about."""
    return 254, (1 + number % 200) << 24 | number // 200 << 8, 24, 0, 1, 3221225985, "eth1", -1, 3, 0


def micros_since(start):
    return (time.perf_counter() - start) * 1e6


def opened(path):
    """A connection that commits as the store does."""
    database = sqlite3.connect(path, isolation_level=None)
    database.execute("pragma journal_mode = wal")
    database.execute("pragma synchronous = full")
    return database


def filled(sources, database, routes):
    """Makes the four tables, and fills them as an opening and then the program does."""
    for table in ("rule", "route", "meta", "suppress"):
        database.execute(statement(sources, "opening.rt", f"CREATE TABLE IF NOT EXISTS {table} "))
    database.execute("INSERT INTO meta VALUES (1, 2, 0)")
    database.executescript(FILL.format(routes=routes))


def commits(sources, database, routes, calls):
    """The microseconds of a commit of each kind: begin, write, count, commit."""
    texts = {
        "add": statement(sources, "statements.rt", r'INSERT INTO route [^"]*\?10\)(?=")'),
        "replace": statement(sources, "statements.rt", 'INSERT INTO route [^"]*ON CONFLICT'),
        "del": statement(sources, "statements.rt", "DELETE FROM route WHERE tbl"),
    }
    count = statement(sources, "statements.rt", "UPDATE meta")
    number = routes
    for verb in VERBS:
        writes = [row(place)[:4] if verb == "del" else row(place) for place in range(calls)]
        start = time.perf_counter()
        for values in writes:
            number += 1
            database.execute("BEGIN")
            database.execute(texts[verb], values)
            database.execute(count, (number,))
            database.execute("COMMIT")
        yield verb, micros_since(start) / calls


def by_sqlite(sources, routes, path, calls):
    """The microseconds of each call, by SQLite's library."""
    database = opened(path)
    filled(sources, database, routes)
    if path != ":memory:":
        database.close()
        start = time.perf_counter()
        database = opened(path)
        database.execute("SELECT count FROM meta").fetchall()
        yield "open", micros_since(start)
    start = time.perf_counter()
    for table in ("meta ", "rule ", "route "):
        database.execute(statement(sources, "load.rt", f"SELECT [^\"]* FROM {table}")).fetchall()
    yield "load", micros_since(start)
    yield from commits(sources, database, routes, calls)
    database.close()


def by_program(program, routes, path):
    """The microseconds of each call, by the store; and how many commits there were of each kind."""
    words = [program, FILL.format(routes=routes)] + [path] * (path != ":memory:")
    lines = subprocess.run(words, stdout=subprocess.PIPE, text=True, check=True).stdout.splitlines()
    told = [line.split() for line in lines]
    return {what: int(micros) / int(calls) for what, calls, micros in told}, int(told[-1][1])


def removed(path):
    for end in ("", "-wal", "-shm"):
        if os.path.exists(path + end):
            os.remove(path + end)


def least(times):
    return {what: min(turn[what] for turn in times) for what in times[0]}


def measured(program, sources, routes, path):
    """The least of the turns, by the store and by SQLite, one after the other."""
    ours, theirs = [], []
    for _ in range(TURNS):
        removed(path)
        spent, calls = by_program(program, routes, path)
        ours.append(spent)
        removed(path)
        theirs.append(dict(by_sqlite(sources, routes, path, calls)))
    return least(ours), least(theirs)


def main(program, sources, folder):
    print(f"microseconds of a call, the least of {TURNS} turns: the store, SQLite, and how many times as much")
    for place, path in (("on a file", os.path.join(folder, "routes.db")), ("in memory", ":memory:")):
        for routes in SIZES:
            ours, theirs = measured(program, sources, routes, path)
            figures = ", ".join(f"{what} {ours[what]:.0f} {theirs[what]:.0f} {ours[what] / theirs[what]:.1f}" for what in ours)
            print(f"{routes} routes {place}: {figures}", flush=True)


main(*sys.argv[1:])
