"""Stops and failures at the calls of a database's files, and the same at the calls of the world of interleavings."""

import tempfile

import model
from attempts import PROGRAM, STOPPED, Wrong, look_into, met_by, run, sessions, show, sweep

CHURN = """\
route replace 10/8 via 192.0.2.1
route change blackhole 10/8
rule add priority 5 from 10/8 table 100
rule del priority 5
route flush table all
"""
FAILED_WRITE = "route add default dev eth0\nrule flush\n"
# A command that no state accepts, and a query, which a desk that is closed answers too.
AFTER = "rule del priority 5\nroute get 10.1.2.3\n"
# The events of a command that is acknowledged, and how many of them are calls of the store.
ACKNOWLEDGED = ["call", "call", "call", "call", "publish", "note", "ack", "reclaim"]
CALLS = 4


def states_of(script):
    """The states after the first commands of a script, from none to all of them."""
    states = [model.State()]
    for line in script.splitlines():
        states.append(states[-1].after(*model.read_line(line)))
    return states


def stop(name, script, preloaded, how):
    """Ends runs over a new file at each call of its files, or fails each call: STOP, TEAR or FAIL.

    Gives whether none was wrong, and each pair that was met: how many commands were acknowledged, how many are held.
    """
    states, pairs = states_of(script), set()
    script += AFTER
    whole = model.run(script)
    allowed = sessions(script, (model.STORE_FAILED,))

    def met(ended):
        if ended.status != STOPPED:
            return met_by(ended, allowed, ("31 OpenFailed",))
        if not whole.replies.startswith(ended.replies) or ended.replies[-1:] not in ("", "\n") or ended.errors:
            raise Wrong(show(ended))
        receipts = ended.replies.count("ok ")
        return "stopped", states[receipts:receipts + 2]

    def attempt(place, folder):
        path = f"{folder}/routes.db"
        ended = run([PROGRAM, "batch", "--force", "--db", path], script, preloaded, folder, **{how: place})
        what, held = met(ended)
        further = look_into(path, held)
        pairs.add((ended.replies.count("ok "), ended.replies.count("ok ") + further))
        is_met = ended.told[0] >= place
        return f"{what}, {further} more held" if what.startswith(("stopped", "StoreFailed")) else what, is_met

    with tempfile.TemporaryDirectory() as folder:
        words = [PROGRAM, "batch", "--force", "--db", f"{folder}/routes.db"]
        made = run(words, script, preloaded, folder).told[0]
    return sweep(f"{name}, {how}", attempt, range(1, made + 2)), pairs


def replayed(acknowledged, under_way, calls, end):
    """The events of commands that are acknowledged, of one that comes to so many calls, and of an end; and a look."""
    events = []
    for command in acknowledged:
        events += [f"submit {command}"] + ACKNOWLEDGED
    events += [f"submit {command}" for command in under_way] + ["call"] * calls
    return events + [end, "reopen", "online 0", "fetch 0", "look 0 route get 10.1.2.3"]


def pair_of(events, states):
    """How many commands a replay acknowledges, and how many are held after it."""
    shown = run([PROGRAM, "replay"], "\n".join(events)).replies.splitlines()
    held = int(shown[-4].removeprefix("reopen "))
    if shown[-1:] != states[held].answer("route get", {"prefix": model.read_prefix("10.1.2.3")}):
        raise Wrong(f"{events} shows {shown}")
    return sum(line.startswith("ok ") for line in shown), held


def world_knows(name, script, pairs):
    """Stops and fails each call of each command by a replay. Tells whether each pair that files gave is one of those."""
    commands, states = script.splitlines(), states_of(script)
    ends = [(count, commands[count:count + 1], calls, end) for count in range(len(commands)) for calls in range(CALLS)
            for end in ("stop kept", "stop lost", "fail kept", "fail lost")]
    ends += [(count, [], 0, end) for count in range(len(commands) + 1) for end in ("stop kept", "stop lost")]
    known = {pair_of(replayed(commands[:count], under_way, calls, end), states)
             for count, under_way, calls, end in ends}
    print(f"{name}, the world: {len(ends)} replays know {len(known)} pairs of commands acknowledged and held, "
          f"files gave {len(pairs)}")
    for pair in sorted(pairs - known):
        print(f"{name}: wrong: {pair[0]} acknowledged and {pair[1]} held is no pair that a replay gives")
    return pairs <= known


def stop_script(name, script, preloaded):
    """Each kind of stop over a script, and whether the world knows each state that was met."""
    swept = [stop(name, script, preloaded, how) for how in ("STOP", "TEAR", "FAIL")]
    pairs = set().union(*(met for _, met in swept))
    return [is_right for is_right, _ in swept] + [world_knows(name, script, pairs)]


def sweeps(preloaded):
    """Each script, with each kind of stop."""
    return stop_script("churn", CHURN, preloaded) + stop_script("failed_write", FAILED_WRITE, preloaded)
