"""Submissions of a publisher beside the store's commits, with lookers and without; fetches beside locks; and what versions
take that are held back.

usage: measure.py PROGRAM LIVE FOLDER
"""

import os
import subprocess
import sys

TURNS = 3
ROUTES = 1_000

# Routes of main in 200 octets, 5 an octet.
FILL = (
    "INSERT INTO route WITH RECURSIVE n(i) AS (SELECT 0 UNION ALL SELECT i + 1 FROM n WHERE i < {routes} - 1) "
    "SELECT 254, ((1 + i % 200) << 24) + i / 200 * 256, 24, 0, 1, 3221225985, 'eth0', -1, 3, 0 FROM n; "
    "UPDATE meta SET count = {routes}"
)


def removed(path):
    for end in ("", "-wal", "-shm"):
        if os.path.exists(path + end):
            os.remove(path + end)


def figures(program, words):
    """The numbers that the program prints, by the word of their line."""
    ran = subprocess.run([program, *words], stdout=subprocess.PIPE, text=True, check=True)
    lines = [line.split() for line in ran.stdout.splitlines()]
    return {line[0]: [int(number) for number in line[1:]] for line in lines}


def show_commands(program, path, place):
    """What the parts of a command take, and submissions beside lookers: the middle one of the turns, by its overhead."""
    turns = []
    for _ in range(TURNS):
        removed(path)
        words = [FILL.format(routes=ROUTES)] + [path] * (place == "on a file")
        told = figures(program, words)
        following, prepare, commit, publish = told["parts"]
        told["overhead"] = prepare - following + publish
        turns.append(told)
    told = sorted(turns, key=lambda turn: turn["overhead"])[TURNS // 2]
    following, prepare, commit, publish = told["parts"]
    online, alone, beside = told["submissions"]
    fetch, lock = told["fetches"]
    print(f"{ROUTES} routes {place}, nanoseconds a command: next {following // 1000}, prepare {prepare // 1000}, commit {commit // 1000}, publish {publish // 1000}")
    print(f"  a submit beside commit and next: {told['overhead'] / commit:.4f} of a commit here")
    print(f"  a submit with {online} lookers online: {beside / alone:.2f} times one with none")
    print(f"  a fetch: {fetch / (1 << 20):.1f} ns, {fetch / lock:.2f} times a lock and unlock")
    return told["overhead"], commit


def live_bytes(program, live, words):
    """The bytes that the program has at each of its lines."""
    env = {**os.environ, "LD_PRELOAD": live}
    ran = subprocess.run([program, *words], stdout=subprocess.PIPE, stderr=subprocess.PIPE, text=True, check=True, env=env)
    return [int(line) for line in ran.stderr.split()]


def show_held(program, live, octets):
    one, held, gone = live_bytes(program, live, ["held", str(octets)])
    print(f"100000 routes over {octets} octets: one version takes {one} bytes; with 64 held back and a new one {held / one:.2f} times that, after their reclaim {gone / one:.2f}")


def main(program, live, folder):
    path = os.path.join(folder, "routes.db")
    in_memory, _ = show_commands(program, path, "in memory")
    _, durable = show_commands(program, path, "on a file")
    print(f"  a submit in memory beside commit and next: {in_memory / durable:.4f} of a commit on a file")
    for octets in (222, 64, 1):
        show_held(program, live, octets)


main(*sys.argv[1:])
