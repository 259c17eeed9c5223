"""Time of an atomic file, beside the same lines one by one and the same statements by SQLite's library.

usage: measure.py PROGRAM TRANSACTIONS FOLDER
"""

import random
import sys
import tempfile
from pathlib import Path

from routes import random_prefixes, route_line
from spent import spent

PROGRAM, TRANSACTIONS, FOLDER = sys.argv[1:]
# As many lines as an atomic file may have, and how often each run is made: the least time counts.
LINES = 1_000
TURNS = 9


def new_file(folder):
    """The path of a database file that isn't there yet."""
    for left in folder.glob("routes.db*"):
        left.unlink()
    return str(folder / "routes.db")


def show(place, runs):
    """Prints the least times of each run, and how many times as long as SQLite's library the atomic file takes."""
    least = {name: min(times) for name, times in runs.items()}
    print(f"{LINES} route add {place}")
    for name, (wall, processor) in least.items():
        print(f"  {name}: {wall * 1e3:.1f} ms, {processor / LINES * 1e6:.1f} us of processor a line")
    together, alone, library = (wall for wall, _ in least.values())
    print(f"  together: {together / alone:.2f} times one by one, {together / library:.2f} times the library from C")


def main():
    prefixes = random_prefixes(random.Random(1), LINES, range(1, 223))
    with tempfile.TemporaryDirectory(dir=FOLDER) as name:
        folder = Path(name)
        script, rows = folder / "script", folder / "rows"
        script.write_text("".join(route_line("add", prefix, 1) for prefix in prefixes))
        rows.write_text("".join(f"{bits} {length}\n" for bits, length in prefixes))
        on_a_file, in_memory = ({"together": [], "one by one": [], "by SQLite's library from C": []} for _ in range(2))
        # One after the other, since what a sync takes changes from minute to minute.
        for _ in range(TURNS):
            on_a_file["together"].append(spent([PROGRAM, "batch", "--atomic", "--db", new_file(folder)], script))
            on_a_file["one by one"].append(spent([PROGRAM, "batch", "--db", new_file(folder)], script))
            on_a_file["by SQLite's library from C"].append(spent([TRANSACTIONS, new_file(folder), "together"], rows))
            in_memory["together"].append(spent([PROGRAM, "batch", "--atomic"], script))
            in_memory["one by one"].append(spent([PROGRAM, "batch"], script))
            in_memory["by SQLite's library from C"].append(spent([TRANSACTIONS, ":memory:", "together"], rows))
        show("on a file", on_a_file)
        show("in memory", in_memory)


main()
