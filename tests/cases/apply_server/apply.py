"""The tables of a server become what a script makes, over TCP and over its sockets: its followers get the changes.

Two that apply at once, with a writer beside them, leave the tables of one of both. Each either made its changes or gave up after
three tries, since others changed the tables all the time.
"""

import subprocess
import time
from threading import Thread

from serving import PROGRAM, Client, Follower, Server, in_threads

PORTS = ["--feed", "127.0.0.1:0", "--atomic", "127.0.0.1:0"]
FIRST = """\
route add default via 192.0.2.1 dev eth0
route add 10/8 dev eth1 table 7
rule add priority 50 from 192.0.2.10 table 7
"""
SECOND = """\
route add default via 192.0.2.1 dev eth0
route add 11/8 dev eth1 table 8
rule add priority 50 from 192.0.2.10 table 8
"""
ROUNDS = 20
# Up to so many changes are one transaction.
TOGETHER = 1000


def run(script, *words):
    done = subprocess.run([PROGRAM, *words], input=script, capture_output=True, text=True)
    return done.returncode, done.stdout, done.stderr


def apply(server, script, *words):
    return run(script, "apply", *server.applied(), *words)


def dump(server):
    return run("", "dump", *server.asked())[1]


def dumped(script):
    """What a new database dumps after a script."""
    path = "new.db"
    subprocess.run("rm -f new.db*", shell=True, check=True)
    run(script, "batch", "--db", path)
    return run("", "dump", "--db", path)[1]


def number(server):
    return int(run("", "get", *server.asked(), "203.0.113.1")[1].split()[1])


def apply_in_turn(server):
    follower = Follower(server)
    print(*apply(server, FIRST))
    print(*apply(server, FIRST, "-"), number(server))
    print("".join(follower.changes(3)), end="")
    print(*run(SECOND, "apply", *server.asked(), "--dry-run", "-"), number(server))
    print(*apply(server, "route add 10/8 dev eth0\nroute add 10/8 dev eth1\n"), number(server))
    print(*apply(server, SECOND, "--impact"))
    print("".join(follower.changes(4)), end="")
    print(dump(server) == dumped(SECOND), number(server))

    # More than one transaction takes: they come in parts, and the third try isn't needed.
    many = "".join(f"route add 10.{n // 256}.{n % 256}.0/24 dev eth0\n" for n in range(2 * TOGETHER + 500))
    status, said, told = apply(server, many)
    print(status, said.splitlines()[-1], told, dump(server) == dumped(many), number(server))
    follower.close()


def race(server):
    """Lets two apply at once, again and again. How often the tables were those of neither, and how often each status came."""
    scripts = ["".join(f"route add 10.{which}.{n}.0/24 dev eth{which}\n" for n in range(50)) for which in range(2)]
    wanted = [dumped(script) for script in scripts]
    apply(server, scripts[0])
    neither, statuses, is_over = 0, [], []

    def write():
        client = Client(server)
        turn = 0
        while not is_over:
            client.ask(f"route replace 172.16.0.0/16 dev eth{turn % 5}")
            turn += 1
            time.sleep(0.1)
        client.close()

    writer = Thread(target=write)
    writer.start()
    for _ in range(ROUNDS):
        ended = in_threads(2, lambda which: apply(server, scripts[which]))
        statuses += [status for status, _, _ in ended]
        tables = "".join(line for line in dump(server).splitlines(True) if "172.16.0.0/16" not in line)
        neither += tables not in wanted
    is_over.append(True)
    writer.join()
    print(neither, set(statuses) <= {0, 3}, statuses.count(0) >= ROUNDS)


def main():
    for server in (Server(*PORTS, database="ports.db"), Server(folder="./run", database="sockets.db")):
        apply_in_turn(server)
        race(server)
        server.kill(9)
    status, said, told = run(FIRST, "apply", "--server", "./run")
    print(status, repr(said), told, end="")


main()
