"""Refused memory in the public calls that no script of `prt batch` reaches, by the program prt_faults."""

import re
import tempfile

import model
from attempts import STEP, TOP, Wrong, places_of, run, sessions, show, sweep, text_of

PROGRAM = f"{TOP}/crates/prt_faults/out/prt_faults"
# 64 versions wait for a looker that stays behind, and more once it refreshes or rests; then there are 64 lookers, twice.
SLOW_LOOKER = ["ok 0", "ok 64", "error 25 Busy", "ok 0", "ok 64", "ok 65", "ok 130", "ok 64", "ok 64"]
# By how many of these lines come before a failure of the store: the receipts that may have come by then.
RECEIPTS = {1: range(0, 64), 5: range(64, 65), 6: range(65, 130)}
FAILURE = re.compile(r"ok (\d+)\nerror (27 StoreFailed|28 NotPublished)\nerror 20 Closed\nok (\d+)\n")
MARK = "no memory from here\n"


def slow_looker(ended):
    """What a run of a looker that stays behind met."""
    if ended.replies.splitlines() == SLOW_LOOKER:
        return "the whole replies"
    for before, receipts in RECEIPTS.items():
        head = "".join(line + "\n" for line in SLOW_LOOKER[:before])
        failure = FAILURE.fullmatch(ended.replies.removeprefix(head)) if ended.replies.startswith(head) else None
        if failure and failure[1] == failure[3] and int(failure[1]) in receipts:
            return f"{failure[2][3:]}, and the looker has the published version"
    raise Wrong(show(ended))


def grace_period(ended):
    """What a replay met whose refused calls are made again."""
    if ended.replies != text_of("tests/cases/replay_grace_period/stdout"):
        raise Wrong(show(ended))
    return "the whole trace"


def session_over(script):
    """What a session over a service met."""
    allowed = sessions(script, (model.NO_MEMORY, model.STORE_FAILED, model.NOT_PUBLISHED))

    def met(ended):
        if ended.replies not in allowed:
            raise Wrong(show(ended))
        return allowed[ended.replies][0]

    return met


def refuse_word(word, script, preloaded, is_whole, met, step=1):
    """Refuses requests for memory of the calls of a word."""
    def attempt(place, folder):
        ended = run([PROGRAM, word], script, preloaded, folder, REFUSE=place)
        is_met = ended.told[2] > 0
        if ended.errors:
            raise Wrong(show(ended))
        if (ended.status, ended.replies) in ((1, "error 26 NoMemory\n"), (1, "error 31 OpenFailed\n")):
            return f"{ended.replies[9:-1]} at the opening", is_met
        if ended.status != 0:
            raise Wrong(show(ended))
        what = met(ended)
        return what if is_met else "no refusal", is_met

    with tempfile.TemporaryDirectory() as folder:
        told = run([PROGRAM, word], script, preloaded, folder).told
    return sweep(f"calls of {word}", attempt, places_of(told, is_whole, step))


def give_none(preloaded):
    """Gives no memory after the mark: tells whether each call answered as before, and one alone asked for some.

    That one is of a command which a service refuses: it asks for a place to wait, and does without.
    """
    with tempfile.TemporaryDirectory() as folder:
        ended = run([PROGRAM, "quiet"], "", preloaded, folder, REFUSE_AFTER=MARK.rstrip())
    is_right = ended[:3] == (0, MARK + "ok 1\nerror 21 Exists\n", "") and ended.told[2] == 1
    print("calls of quiet: " + ("one request after the mark" if is_right else f"wrong: {ended.told}\n{show(ended)}"))
    return is_right


def sweeps(loopback, preloaded, is_whole):
    """The calls that no run of `prt` shows: those of a looker that stays behind, and those that take no memory.

    A whole sweep has also those of a replay and of a session, which `prt replay` and `prt serve` make too.
    """
    right = [refuse_word("slow_looker", "", preloaded, is_whole, slow_looker, STEP), give_none(preloaded)]
    if is_whole:
        events = text_of("examples/grace-period.replay")
        right.append(refuse_word("grace_period", events, preloaded, is_whole, grace_period))
        right.append(refuse_word("session", loopback, preloaded, is_whole, session_over(loopback)))
    return right
