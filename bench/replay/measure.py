"""Processor time and memory of `prt replay`."""

import os
import subprocess
import sys
import tempfile

from peak import peak_of

TURNS = 3
ROUTES = 1_000
MOST_EVENTS = 100_000

# What follows `submit` until the command is acknowledged, and the version before it is given up.
COMMITTED = ["call"] * 4 + ["publish", "note", "ack", "reclaim"]


def spread(number):
    """One of the prefixes, five in each of 200 octets."""
    return f"{number % 200 + 1}.{number // 200 % 5}.0.0/16"


def crowded(number):
    """One of the prefixes, all in one octet."""
    return f"10.{number % ROUTES // 250}.{number % 250}.0/24"


def submit(verb, prefix, hop=1):
    return f"submit route {verb} {prefix} via 192.0.2.{hop} dev eth0"


def half_commands(prefix_of):
    """Rounds of which half the events are commands: one that is accepted, and more that are refused."""
    for number in range(MOST_EVENTS):
        yield submit("replace", prefix_of(number), number % 254 + 1)
        yield from COMMITTED
        yield from (submit("add", prefix_of(number + other)) for other in range(8))


def stopped_commands(prefix_of):
    """Rounds of which each third event is a command that makes a version, and then everything stops."""
    for number in range(MOST_EVENTS):
        yield submit("replace", prefix_of(number), number % 254 + 1)
        yield from ("stop lost", "reopen")


def lookups(prefix_of):
    """Rounds of all 64 lookers: each takes hold of a new version, announces it and asks it five times."""
    yield from (f"online {looker}" for looker in range(64))
    for number in range(MOST_EVENTS):
        yield submit("replace", prefix_of(number), number % 254 + 1)
        yield from COMMITTED
        for looker in range(64):
            yield from (f"fetch {looker}", f"announce {looker}")
            yield from (f"look {looker} route get {prefix_of(number + other).split('/')[0]}" for other in range(5))


def first_lines(rounds, prefix_of, count):
    """So many events: those that add the routes, and then these rounds."""
    lines = []
    for number in range(ROUTES):
        lines += [submit("add", prefix_of(number)), *COMMITTED]
    for line in rounds(prefix_of):
        if len(lines) == count:
            return lines
        lines.append(line)


def seconds(program, path):
    """The processor time of one replay in seconds."""
    pid = os.posix_spawn(
        program,
        [program, "replay", path],
        {},
        file_actions=[(os.POSIX_SPAWN_OPEN, 1, "/dev/null", os.O_WRONLY, 0)],
    )
    _, status, usage = os.wait4(pid, 0)
    if status:
        sys.exit(f"{program} ended with status {status}")
    return usage.ru_utime + usage.ru_stime


def most_memory(program, path):
    """The most memory that a replay has had in MB when it begins to write, which is where its pipe is full."""
    process = subprocess.Popen([program, "replay", path], stdout=subprocess.PIPE)
    process.stdout.read(1)
    most = peak_of(process)
    process.communicate()
    return most


def show(program, rounds, prefix_of, count):
    lines = first_lines(rounds, prefix_of, count)
    commands = sum(line.startswith("submit") for line in lines)
    with tempfile.NamedTemporaryFile("w") as events:
        events.write("\n".join(lines))
        events.flush()
        spent = min(seconds(program, events.name) for _ in range(TURNS))
        most = most_memory(program, events.name)
    print(f"{rounds.__name__}, {prefix_of.__name__}: {count} events, {commands} commands: {spent:.2f} s, {most:.1f} MB")


def main():
    for rounds in (half_commands, stopped_commands, lookups):
        for prefix_of in (spread, crowded):
            for count in (MOST_EVENTS // 4, MOST_EVENTS // 2, MOST_EVENTS):
                show(sys.argv[1], rounds, prefix_of, count)


main()
