"""Processor time of `prt batch`, beside Python's sqlite3 in memory."""

import os
import random
import sqlite3
import subprocess
import sys
import tempfile
import time

from peak import peak_of
from routes import addr_text, random_prefixes, route_line

TURNS = 3
ROUTES = 100_000


def get_lines(numbers, prefixes, count):
    """Packets, of which every second one is within one of the prefixes."""
    for _ in range(count // 2):
        bits, length = numbers.choice(prefixes)
        yield f"route get {addr_text(bits | numbers.getrandbits(32 - length))}\n"
        yield f"route get {addr_text(numbers.getrandbits(32))}\n"


def run_batch(program, lines):
    """The processor time of one run in seconds."""
    with tempfile.NamedTemporaryFile("w") as script:
        script.writelines(lines)
        script.flush()
        pid = os.posix_spawn(
            program,
            [program, "batch", script.name],
            {},
            file_actions=[(os.POSIX_SPAWN_OPEN, 1, "/dev/null", os.O_WRONLY, 0)],
        )
        _, status, usage = os.wait4(pid, 0)
    if status:
        sys.exit(f"{program} ended with status {status}")
    return usage.ru_utime + usage.ru_stime


def seconds(program, lines):
    lines = list(lines)
    return min(run_batch(program, lines) for _ in range(TURNS))


def insert_seconds(prefixes):
    """The processor time of one insert a prefix, each in a transaction of its own."""
    database = sqlite3.connect(":memory:")
    database.execute(
        "create table routes (tab integer, bits integer, len integer, metric integer, kind integer, via integer, "
        "dev text, src integer, proto integer, scope integer, primary key (tab, bits, len, metric))"
    )
    start = time.process_time()
    for bits, length in prefixes:
        with database:
            database.execute(
                "insert into routes values (254, ?, ?, 0, 1, 3221225985, 'eth0', null, 3, 0)", (bits, length)
            )
    return time.process_time() - start


def most_memory(program, lines):
    """The most memory that the program has had in MB when it has run the lines."""
    program = subprocess.Popen([program, "batch"], stdin=subprocess.PIPE, stdout=subprocess.DEVNULL, text=True)
    program.stdin.writelines(lines)
    program.stdin.flush()
    time.sleep(1)
    most = peak_of(program)
    program.stdin.close()
    program.wait()
    return most


def flush_lines(prefixes):
    """Adds a static route to each octet, and then takes these away by one command: it makes each piece again."""
    octets = sorted({bits >> 24 for bits, _ in prefixes})
    yield from (f"route add {octet}.0.0.1 dev eth0 proto static metric 7\n" for octet in octets)
    yield "route flush table main proto static\n"


def show_commands(program, numbers):
    prefixes = random_prefixes(numbers, ROUTES, range(1, 223))
    adds = [route_line("add", prefix, 1) for prefix in prefixes]
    inserts = min(insert_seconds(prefixes) for _ in range(TURNS))
    added = seconds(program, adds)
    print(f"{ROUTES} inserts by sqlite3: {inserts:.2f} s")
    print(f"{ROUTES} route add: {added:.2f} s, {added / inserts:.1f} times the inserts")
    # Four times as many as are counted: what one run takes more than another is noise beside them.
    got = (seconds(program, adds + list(get_lines(numbers, prefixes, 8 * ROUTES))) - added) / 4
    print(f"{2 * ROUTES} route get after them: {got:.2f} s, {got / inserts:.2f} times the inserts")
    for verb, hop in (("replace", 2), ("del", 1)):
        spent = seconds(program, adds + [route_line(verb, prefix, hop) for prefix in prefixes]) - added
        print(f"{ROUTES} route {verb} after them: {spent:.2f} s, {spent / inserts:.1f} times the inserts")
    # As many routes less as the flush takes away: there is a limit.
    most = prefixes[:-256]
    flushed = adds[:-256] + list(flush_lines(most))
    print(f"most memory with {ROUTES} routes: {most_memory(program, adds):.1f} MB, "
          f"with a command that makes each piece again: {most_memory(program, flushed):.1f} MB, "
          f"with none: {most_memory(program, []):.1f} MB")


def show_one_command(program, numbers, routes, in_octet):
    """One replace of a route in an octet with so many, among so many in all."""
    near = random_prefixes(numbers, in_octet, [9])
    far = random_prefixes(numbers, routes - in_octet, range(10, 223))
    adds = [route_line("add", prefix, 1) for prefix in near + far]
    turns = 20_000 if in_octet < 1000 else 500
    replaces = [route_line("replace", numbers.choice(near), turn % 254 + 1) for turn in range(turns)]
    spent = seconds(program, adds + replaces) - seconds(program, adds)
    print(f"one route replace among {in_octet} of its octet, {routes} in all: {spent / turns * 1e6:.0f} us")


def main():
    program = sys.argv[1]
    numbers = random.Random(1)
    show_commands(program, numbers)
    for routes in (1_000, 10_000, 100_000):
        show_one_command(program, numbers, routes, 450)
    show_one_command(program, numbers, 10_000, 10_000)


main()
