"""Attempts: runs of the program with a library of this folder preloaded, and sweeps over them."""

import collections
import concurrent.futures
import os
import random
import re
import subprocess
import tempfile
from typing import NamedTuple

import model

HERE = os.path.dirname(os.path.realpath(__file__))
TOP = os.path.dirname(os.path.dirname(HERE))
PROGRAM = f"{TOP}/crates/prt_daemon/out/prt_daemon"
# Files in memory, where the machine has them: a sweep syncs thousands of databases.
ROOM = "/dev/shm" if os.access("/dev/shm", os.W_OK) else None
CORES = len(os.sched_getaffinity(0))
# The exit status of a process that was ended at a call.
STOPPED = 77
# How many seconds a run may take.
PATIENCE = 60
# Of the requests of an opening, and of those beside a slow looker, the short sweep refuses each third. Which of three
# they are differs from run to run; OFFSET=N in the environment repeats a run.
STEP = 3
OFFSET = int(os.environ.get("OFFSET", random.randrange(STEP))) % STEP
# No run makes as many requests or calls.
MOST_PLACES = 40000
# What is told of a database that was opened: why a commit failed, and that its log couldn't be moved into its file.
CAUSE = r"prt: \S+\.db: [^\n]+\n"
LOG = r"prt: \S+\.db-wal: [^\n]+: the log is not in \S+\.db, and has to stay beside it\n"
# What a database holds is seen by these queries.
LISTINGS = "rule show\nroute show table all\nroute get 10.1.2.3\n"


class Wrong(Exception):
    """An attempt that met what no definition allows."""


class Ended(NamedTuple):
    """How a run ended: its status, what it wrote, and the numbers that its library told."""
    status: int
    replies: str
    errors: str
    told: list


def places_of(told, is_whole, step=1):
    """The places of a sweep over a new database, by what a run told that met nothing; the last place meets nothing.

    A whole sweep has each request. Otherwise it is each STEPth of the opening, and after it each, or each `step`th: those
    whose number leaves OFFSET.
    """
    made, opening, _ = told
    if is_whole:
        return range(1, made + 2)

    def is_chosen(place):
        among = STEP if place <= opening else step
        return place % among == OFFSET % among

    return [place for place in range(1, made + 1) if is_chosen(place)] + [made + 1]


def text_of(path):
    """The text of a file of the repository."""
    with open(f"{TOP}/{path}", encoding="ascii") as text:
        return text.read()


def library(name, folder):
    """Compiles a library of this folder."""
    made = f"{folder}/{os.path.basename(name)}.so"
    subprocess.run(["cc", "-shared", "-fPIC", "-O1", "-o", made, f"{HERE}/{name}.c", "-ldl"], check=True)
    return made


def environment(preloaded, folder, variables):
    """The environment of a run, in which a library tells its numbers in a file of the folder."""
    named = {name: str(value) for name, value in variables.items()}
    return named | {"LD_PRELOAD": preloaded, "TOLD": f"{folder}/told"} if preloaded else named


def told_in(folder):
    """The numbers that a library told in this folder."""
    if not os.path.exists(f"{folder}/told"):
        return []
    with open(f"{folder}/told", encoding="ascii") as text:
        return [int(number) for number in text.read().split()]


def run(words, script="", preloaded=None, folder=None, **variables):
    """Runs a program over a script; with a library, it tells its numbers in a file of the folder."""
    surroundings = environment(preloaded, folder, variables)
    ended = subprocess.run(words, input=script, capture_output=True, text=True, env=surroundings, timeout=PATIENCE)
    return Ended(ended.returncode, ended.stdout, ended.stderr, told_in(folder) if preloaded else [])


def look_into(path, states):
    """Opens a database again, and gives which of these states it holds."""
    seen = run([PROGRAM, "batch", "--db", path], LISTINGS)
    for place, state in enumerate(states):
        if seen == (0, model.run(LISTINGS, state=state).replies, "", []):
            return place
    raise Wrong(f"opened again, it lists\n{seen.replies}{seen.errors}")


def show(ended):
    """A run as a person reads it."""
    return f"status {ended.status}\n{ended.replies}{ended.errors}"


def sessions(script, mishaps):
    """Each session over a script with at most one of these mishaps, by its replies, with the name of what it met."""
    lines = script.splitlines()
    found = {}
    for mishap in mishaps:
        for place, line in enumerate(lines):
            if model.is_command(line) or mishap == model.NO_MEMORY:
                session = model.run(script, mishap, place)
                kind = "command" if model.is_command(line) else "query"
                found.setdefault(session.replies, (f"{mishap[3:]} at a {kind}", session))
    whole = model.run(script)
    found[whole.replies] = ("the whole replies", whole)
    return found


def is_refused_opening(ended, refusal):
    """Whether a run ended with this refusal of an opening; under it the cause may stand, in one line."""
    fault, _, cause = ended.errors.partition("\n")
    is_one_line = cause.startswith("prt: ") and cause.count("\n") == 1
    return (ended.status, ended.replies, fault) == (3, "", f"prt: error {refusal}") and (not cause or is_one_line)


def is_told(ended):
    """Whether a run told why a commit failed, where one failed, and beside that at most that the log stays."""
    cause = CAUSE if "error 27 StoreFailed\n" in ended.replies else ""
    return re.fullmatch(f"{cause}({LOG})?", ended.errors) is not None


def met_by(ended, allowed, openings):
    """What a run met: a refused opening, or one of the sessions; and the states that may be stored."""
    for refusal in openings:
        if is_refused_opening(ended, refusal):
            return f"{refusal[3:]} at the opening", [model.State()]
    what, session = allowed.get(ended.replies, (None, None))
    if session is None or ended.status != session.status or not is_told(ended):
        raise Wrong(show(ended))
    return what, session.stored


def tell(name, met):
    """Prints how many runs of a sweep met what, and tells whether none was wrong."""
    right = [f"{count} {what}" for what, count in met.most_common() if not what.startswith("wrong")]
    wrong = [what for what in met if what.startswith("wrong")]
    print(f"{name}: {sum(met.values())} runs: {', '.join(right)}")
    print("".join(f"{name}: {what}\n" for what in wrong[:5]), end="", flush=True)
    return not wrong


def sweep(name, attempt, places):
    """Makes an attempt at each place, side by side, and then one at each further place until one meets nothing.

    An attempt gives what it met, and whether the library did anything. Tells whether none was wrong.
    """
    def tried(place):
        with tempfile.TemporaryDirectory(dir=ROOM) as folder:
            try:
                return attempt(place, folder)
            except (Wrong, subprocess.TimeoutExpired) as wrong:
                return f"wrong, at {place}: {wrong}", True

    with concurrent.futures.ThreadPoolExecutor(CORES) as pool:
        tries = list(pool.map(tried, places))
    place = places[-1]
    while tries[-1][1] and not tries[-1][0].startswith("wrong") and place < MOST_PLACES:
        place += 1
        tries.append(tried(place))
    return tell(name, collections.Counter(what for what, _ in tries))
