"""The program's runs over scripts: its path, what it replies, and the states that a script goes through."""

import os
import subprocess

TOP = os.path.dirname(os.path.dirname(os.path.dirname(os.path.realpath(__file__))))
PROGRAM = f"{TOP}/crates/prt_daemon/out/prt_daemon"
DATABASE = "routes.db"
# How many seconds a run may take.
PATIENCE = 60
# What a database holds is seen by these queries: its rules, its routes, and in the last line how many were accepted.
LISTINGS = "rule show\nroute show table all\nroute get 203.0.113.77\n"
LAST = "answer "
# The command by which a database goes on that was opened again.
NEXT = "route replace 198.51.100.0/24 dev next\n"


class Wrong(Exception):
    """What no run may do."""


def run(words, script, variables=None):
    """How a run over a script ended."""
    return subprocess.run([PROGRAM, *words], input=script, capture_output=True, text=True, env=variables or {},
                          timeout=PATIENCE)


def a_replacement(dice):
    """A command that is always accepted."""
    net = f"10.{dice.randrange(4)}.{dice.randrange(40)}.0/24"
    return f"route replace {net} via 192.0.2.{dice.randrange(1, 255)} table {dice.choice((100, 254, 254))}"


def a_command(dice):
    """A command that is accepted as a rule, and refused where nothing is there for it."""
    net = f"10.{dice.randrange(4)}.{dice.randrange(40)}.0/24"
    table, number, replace = dice.choice((100, 254, 254)), dice.randrange(30), a_replacement(dice)
    return dice.choice((
        replace, replace, replace, replace,
        f"route add {net} dev eth{number} metric {number} table {table}",
        f"route del {net} table {table}",
        f"route change blackhole {net} table {table}",
        f"rule add priority {1000 + number} from {net} table {table}",
        f"rule del priority {1000 + number}",
        f"rule add priority {2000 + number} iif eth{number} table main suppress_prefixlength {number}",
        f"rule del priority {2000 + number}",
        "route flush table 100" if number == 0 else replace,
    ))


def states_of(lines):
    """The lines that are accepted in turn, and what a database holds before the first of them and after each."""
    script = LISTINGS + "".join(f"{line}\n{LISTINGS}" for line in lines)
    ended = run(["batch", "--force"], script)
    if ended.returncode not in (0, 1) or ended.stderr:
        raise Wrong(f"a run in memory ended with status {ended.returncode}: {ended.stderr}")
    accepted, states, shown = [], [], []
    replies = iter(ended.stdout.splitlines(keepends=True))
    for place in range(len(lines) + 1):
        reply = next(replies) if place else None
        shown = []
        while not shown or not shown[-1].startswith(LAST):
            shown.append(next(replies))
        if reply is None or reply == f"ok {len(states)}\n":
            accepted += lines[place - 1:place]
            states.append("".join(shown))
    return accepted, states
