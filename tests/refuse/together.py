"""Refused memory, and stopped or failing calls, within an atomic file: it leaves all of its commands or none."""

import tempfile

import model
from attempts import PROGRAM, STOPPED, Wrong, look_into, met_by, places_of, run, show, sweep
from stops import CHURN, states_of

WORDS = [PROGRAM, "batch", "--atomic"]
BEFORE, *_, AFTER = states_of(CHURN)
WHOLE = "".join(f"ok {number}\n" for number in range(1, AFTER.count + 1))
# What a run may reply that was opened, with its status and the states that may be stored after it.
ALLOWED = {WHOLE: ("the whole replies", model.Session(WHOLE, 0, [AFTER]))}
for mishap, status, stored in ((model.NO_MEMORY, 1, [BEFORE]), (model.STORE_FAILED, 3, [BEFORE, AFTER]),
                               (model.NOT_PUBLISHED, 3, [AFTER])):
    ALLOWED[f"error {mishap}\n"] = (mishap[3:], model.Session(f"error {mishap}\n", status, stored))


def held_in(path, what, states):
    """What was met, and whether the file holds the commands, where it may hold them or not."""
    place = look_into(path, states)
    return f"{what}, {'all' if states[place] is AFTER else 'none'} held" if len(states) > 1 else what


def refuse_memory(preloaded, is_whole, over_file):
    """Refuses each request for memory of a run, in memory or over a new file."""
    openings = ("26 NoMemory", "31 OpenFailed") if over_file else ("26 NoMemory",)

    def words(folder):
        return WORDS + (["--db", f"{folder}/routes.db"] if over_file else [])

    def attempt(place, folder):
        ended = run(words(folder), CHURN, preloaded, folder, REFUSE=place)
        what, states = met_by(ended, ALLOWED, openings)
        if over_file:
            what = held_in(f"{folder}/routes.db", what, states)
        is_met = ended.told[2] > 0
        return what if is_met else "no refusal", is_met

    with tempfile.TemporaryDirectory() as folder:
        told = run(words(folder), CHURN, preloaded, folder).told
    places = places_of(told, is_whole) if over_file else range(1, told[0] + 2)
    return sweep("atomic file, over a file" if over_file else "atomic file", attempt, places)


def stop(preloaded, how):
    """Ends runs over a new file at each call of its files, or fails each call: STOP, TEAR or FAIL."""
    def met(ended):
        if ended.status != STOPPED:
            return met_by(ended, ALLOWED, ("31 OpenFailed",))
        if not WHOLE.startswith(ended.replies) or ended.replies[-1:] not in ("", "\n") or ended.errors:
            raise Wrong(show(ended))
        return ("stopped once acknowledged", [AFTER]) if ended.replies else ("stopped", [BEFORE, AFTER])

    def attempt(place, folder):
        path = f"{folder}/routes.db"
        ended = run(WORDS + ["--db", path], CHURN, preloaded, folder, **{how: place})
        what, states = met(ended)
        return held_in(path, what, states), ended.told[0] >= place

    with tempfile.TemporaryDirectory() as folder:
        made = run(WORDS + ["--db", f"{folder}/routes.db"], CHURN, preloaded, folder).told[0]
    return sweep(f"atomic file, {how}", attempt, range(1, made + 2))


def sweeps(refuse, stops, is_whole):
    """Each request for memory and each call."""
    return ([refuse_memory(refuse, is_whole, over_file) for over_file in (False, True)]
            + [stop(stops, how) for how in ("STOP", "TEAR", "FAIL")])
