"""The status of a server agrees with what its clients did, in each of its forms, and says when the server is closed."""

import json
import os
import re
import signal
import subprocess
import time
from decimal import Decimal

from serving import DATABASE, PROGRAM, Client, Follower, Server, together

NAMES = [
    "version", "number", "rules", "routes", "tables", "sessions active", "sessions waiting", "followers", "versions retired", "oldest held",
    "commands accepted", "commands refused", "groups", "group commands", "last commit unix seconds", "last commit milliseconds",
    "file bytes", "log bytes", "state",
]
# What clients can count.
COUNTED = [
    "number", "rules", "routes", "tables", "sessions active", "sessions waiting", "followers", "commands accepted", "commands refused", "state",
]
NUMBER = re.compile(r"\d+(?:\.\d+)?")


def ask(*words):
    done = subprocess.run([PROGRAM, "status", "--server", "./run", *words], capture_output=True, text=True)
    return done.returncode, done.stdout, done.stderr


def status():
    """The status as names and values, in their order."""
    return dict(line.split(": ", 1) for line in ask()[1].splitlines())


def show(wanted):
    """Shows what clients can count, once it is what is wanted or after five seconds: a session may end a little later."""
    for _ in range(50):
        said = status()
        if [said[name] for name in COUNTED] == wanted.split():
            break
        time.sleep(0.1)
    print(*(said[name] for name in COUNTED))


def forms():
    """Compares the forms with one another, while nothing happens."""
    said, (code, as_json, told), (other, metrics, more) = status(), ask("--json"), ask("--metrics")
    print(list(said) == NAMES, code, other, repr(told + more))
    object_said = json.loads(as_json, parse_float=Decimal)
    print(as_json.count("\n"), {name.replace(" ", "_"): value for name, value in said.items()} == {name: "-" if value is None else str(value) for name, value in object_said.items()})
    print([name for name, value in object_said.items() if isinstance(value, str) and NUMBER.fullmatch(value)])
    samples = dict(line.split(" ") for line in metrics.splitlines())
    print(samples.pop("prt_open"), all(re.fullmatch("prt_[a-z_]+", name) and NUMBER.fullmatch(value) for name, value in samples.items()))
    numbers = {f"prt_{name}".replace(" ", "_"): value for name, value in said.items() if NUMBER.fullmatch(value)}
    print(samples == numbers)


def main():
    began = int(time.time())
    server = Server("--workers", "2", folder="./run", under=("env", "--ignore-signal=XFSZ"))
    show("0 3 0 0 0 0 0 0 0 open")
    first = Client(server)
    for line in ("route add default dev eth0", "route add 10/8 dev eth1 table 7", "route add 11/8 dev eth1 table 7", "rule add priority 9 table 7"):
        first.ask(line)
    first.ask("route add 10/8 dev eth2 table 7")
    first.ask("route ad")
    first.ask("route get 10.1.2.3")
    followers = [Follower(server) for _ in range(2)]
    # One has a worker, and two wait: they have sent nothing.
    silent = [Client(server) for _ in range(2)]
    show("4 4 3 2 1 2 2 4 2 open")
    together(server, b"route add 12/8 dev eth1 table 7\nroute add 13/8 dev eth1 table 8\n")
    together(server, b"route add 14/8 dev eth1 table 7\nroute add 13/8 dev eth1 table 8\n")
    show("6 4 5 3 1 2 2 6 3 open")
    first.close()
    for client in silent:
        client.close()
    for follower in followers:
        follower.close()
    show("6 4 5 3 0 0 0 6 3 open")

    said = status()
    print(said["version"] == subprocess.run([PROGRAM, "--version"], capture_output=True, text=True).stdout.split()[1])
    print(said["group commands"], 1 < int(said["groups"]) <= 5)
    print(began <= int(said["last commit unix seconds"]) <= time.time(), 0 < float(said["last commit milliseconds"]) < 10000)
    print(int(said["file bytes"]) == os.path.getsize(DATABASE), int(said["log bytes"]) == os.path.getsize(f"{DATABASE}-wal"))
    forms()

    # The disk takes no byte more: the next command closes the server.
    subprocess.run(["prlimit", "--pid", str(server.process.pid), "--fsize=1000"], check=True)
    client = Client(server)
    print(client.ask("route add 15/8 dev eth0"), client.ask("route add 16/8 dev eth0"), client.ask("route get 10.1.2.3"), sep=", ")
    code, said, told = ask()
    print(code, bool(re.search(r"^state: closed .*StoreFailed", said, re.M)), repr(told))
    code, said, told = ask("--json")
    print(code, json.loads(said)["state"].startswith("closed "), repr(told))
    code, said, told = ask("--metrics")
    print(code, "prt_open 0\n" in said, repr(told))
    server.kill(signal.SIGKILL)
    print(ask())


main()
