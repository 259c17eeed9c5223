"""While a server has a database, its feed answers the same questions, from one state."""

import subprocess
import sys

from serving import DATABASE, PROGRAM, Client, Server, batch

QUESTIONS = [
    ["get", "10.1.2.3"],
    ["get", "10.1.2.3", "from", "192.0.2.10", "mark", "7"],
    ["show", "table", "all"],
    ["show", "rule"],
    ["explain", "10.1.2.3", "from", "192.0.2.10"],
    ["dump"],
    ["get", "--json", "10.1.2.3"],
    ["show", "--json", "rule"],
    ["dump", "--json"],
]


def ask(words, *place):
    done = subprocess.run([PROGRAM, words[0], *place, *words[1:]], capture_output=True, text=True)
    return done.returncode, done.stdout, done.stderr


def main():
    batch(
        b"route add default dev eth0\nroute add 10/8 via 192.0.2.1 table 7\nroute del default\nroute add default dev eth1\n"
        b"rule add from 192.0.2.10 table 7\nrule add fwmark 7 blackhole\nrule del from 192.0.2.10\nrule add from 192.0.2.10 table 7\n",
        "--db",
        DATABASE,
    )
    before = [ask(words, "--db", DATABASE) for words in QUESTIONS]
    server = Server("--feed", "127.0.0.1:0", "--sessions", "2")
    place = "127.0.0.1:%d" % server.feed_port
    print("%d answers the same" % sum(ask(words, "--server", place) == said for words, said in zip(QUESTIONS, before)))
    for words in ["get", "10.0.0.1"], ["batch"]:
        print(ask(words, "--db", DATABASE))
    print(ask(["get", "10.0.0.1"], "--server", "127.0.0.1:%d" % server.port)[0])
    client = Client(server)
    print(client.ask("route add 10.9.0.0/16 dev eth9"))
    print(ask(["get", "10.9.0.1"], "--server", place))
    client.close()
    print(server.end()[0])
    print(ask(["get", "10.0.0.1"], "--server", place)[0])
    # The server's end leaves all that it had, and nothing else.
    routes, rules = (ask(words, "--db", DATABASE)[1].splitlines()[:-1] for words in QUESTIONS[2:4])
    had, ruled = (said[1].splitlines()[:-1] for said in before[2:4])
    print([line for line in routes if line not in had], [line for line in had if line not in routes], rules == ruled)


main()
