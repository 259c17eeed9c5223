"""Runs programs that time lookups, and says what threads and changes cost them, and how the library compares with Rattle.

usage: measure.py LOOKUPS PROGRAM..

LOOKUPS is what bench/lookups/run prints. Each program is run with 1,000, 10,000 and 100,000 routes; side_by_side.h says what it
prints. Rates are the most of its turns, as the times of bench/lookups are the least; what changes cost is of the middle turn.
"""

import re
import statistics
import subprocess
import sys

LOOKUPS, *PROGRAMS = sys.argv[1:]
ROUTES = (1_000, 10_000, 100_000)
THREADS = (1, 2, 4)


def rattle(routes):
    """The nanoseconds of a lookup in Rattle through the opening rules, and how many addresses have a route."""
    with open(LOOKUPS, encoding="utf-8") as text:
        of_routes = text.read().partition(f"{routes} routes:\n")[2]
    told = re.search(r"lookup through the opening rules: (\d+) ns, (\d+) of", of_routes)
    return int(told[1]), int(told[2])


def measured(program, routes):
    """What a program measured: of each name the turns by threads, alone and beside changes, and all numbers of hits."""
    run = subprocess.run([program, str(routes)], capture_output=True, text=True)
    if run.returncode != 0:
        print(f"{program} failed: {run.stderr.strip()}")
    ways, hits = {}, set()
    for line in run.stdout.splitlines():
        name, _, threads, changes, found, *rates = line.split("\t")
        alone, beside = ways.setdefault(name, ({}, {}))
        (beside if int(changes) else alone)[int(threads)] = [float(rate) for rate in rates]
        hits.add(int(found))
        if 0 < int(changes) < 950:
            print(f"{name}: only {changes} changes a second were made")
    return ways, hits


def told(alone, beside):
    """The rates of each number of threads, and what changes cost."""
    rates = ", ".join(f"{max(alone[threads]):.1f}" for threads in THREADS)
    text = f"{rates}; four threads make {max(alone[4]) / max(alone[1]):.2f} times one"
    if beside:
        losses = (1 - statistics.median(beside[threads]) / statistics.median(alone[threads]) for threads in THREADS)
        text += "; changes cost " + ", ".join(f"{100 * loss:.1f} %" for loss in losses)
    return text


def main():
    for routes in ROUTES:
        nanoseconds, hits = rattle(routes)
        print(f"{routes} routes, million lookups a second by 1, 2 and 4 threads:")
        for program in PROGRAMS:
            ways, found = measured(program, routes)
            if found - {hits}:
                print(f"OTHER ANSWERS: {found} have a route in place of {hits}")
            for name, (alone, beside) in ways.items():
                print(f"  {name}: {told(alone, beside)}")
                if name.startswith("prt_"):
                    own = 1000 / max(alone[1])
                    print(f"    {own:.1f} ns, {own / nanoseconds:.2f} times the {nanoseconds} ns in Rattle")


main()
