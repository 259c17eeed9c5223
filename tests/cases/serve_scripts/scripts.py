"""Sends each worked script to a server of its own: the replies are the bytes of `prt batch --force`."""

import os
import subprocess
from pathlib import Path

from serving import Server, batch, converse

CASES = Path(__file__).resolve().parent.parent


def script_of(case):
    """What a case sends, where it is a script that is read from standard input."""
    words = (case / "args").read_text().split() if (case / "args").exists() else ["batch"]
    if words[:1] != ["batch"] or set(words[1:]) - {"--force"} or (case / "run.sh").exists():
        return None
    if (case / "stdin.sh").exists():
        return subprocess.run(["bash", case / "stdin.sh"], capture_output=True).stdout
    return (case / "stdin").read_bytes() if (case / "stdin").exists() else None


def main():
    sent = 0
    for case in sorted(CASES.iterdir()):
        script = script_of(case)
        if script is None:
            continue
        server = Server("--sessions", "1", database=f"{case.name}.db")
        replies = converse(server, script)
        if replies != batch(script):
            print(f"{case.name}: replies differ: {replies[-200:]}")
        ended = server.end()
        if ended != (0, ""):
            print(f"{case.name}: the server ended with {ended}")
        sent += 1
    print("scripts were answered as in a batch" if sent >= 20 else f"{sent} scripts were sent")


main()
