"""Each query of a server by the folder of its sockets answers as one of its file does. `get` and `show` in lines need no feed."""

import os
import subprocess

from serving import DATABASE, PROGRAM, RUNNING, Client, Server, batch

SCRIPT = b"""\
route add default dev eth0
route add 10/8 via 192.0.2.1 table 7
route add 11/8 dev eth1 table 9
rule add from 192.0.2.10 table 7
"""
LISTING = "0:\tfrom all lookup local\n32766:\tfrom all lookup main\ndefault dev eth1 scope link\n"
IN_LINES = [["get", "10.1.2.3"], ["get", "10.1.2.3", "from", "192.0.2.10"], ["show", "table", "all"], ["show", "rule"]]
QUESTIONS = [
    *IN_LINES,
    ["explain", "10.1.2.3", "from", "192.0.2.10"],
    ["dump"],
    ["get", "--json", "10.1.2.3"],
    ["show", "--json", "rule"],
    ["unused"],
]
# What is read, too: commands, claims and a listing.
FURTHER = [
    ("route add 12/8 dev eth2\n", ["impact", "-"]),
    ("to 12/8 : dev eth2\n", ["assert", "-"]),
    (LISTING, ["diff", "--all"]),
]


def ask(words, place, text=""):
    done = subprocess.run([PROGRAM, words[0], *place, *words[1:]], input=text, capture_output=True, text=True)
    return done.returncode, done.stdout, done.stderr


def main():
    batch(SCRIPT, "--db", DATABASE)
    place = ["--db", DATABASE]
    before = [ask(words, place) for words in QUESTIONS] + [ask(words, place, text) for text, words in FURTHER]
    server = Server(folder="./run")
    for place in (["--server", "./run"], ["--server", "run/"], ["--server", os.path.abspath("run")]):
        told = [ask(words, place) for words in QUESTIONS] + [ask(words, place, text) for text, words in FURTHER]
        print(sum(one == other for one, other in zip(before, told)), "of", len(before))
    print(ask(["wait", "--seconds", "1"], server.asked()))

    # What follows prints the difference, and then each change.
    print(ask(["follow", "--all", "--once"], server.asked(), LISTING)[1] == ask(["diff", "--all"], server.asked(), LISTING)[1])
    follower = subprocess.Popen([PROGRAM, "follow", "--server", "./run", "--table", "9"], stdin=subprocess.PIPE, stdout=subprocess.PIPE, text=True)
    RUNNING.append(follower)
    follower.stdin.write(LISTING)
    follower.stdin.close()
    print(follower.stdout.readline(), end="")
    print(Client(server).ask("route add 12/8 dev eth2 table 9"))
    print(follower.stdout.readline(), end="")

    os.remove("run/feed")
    print([ask(words, server.asked())[0] for words in IN_LINES], ask(["dump"], server.asked()))
    server.kill(15)
    print(ask(["get", "10.1.2.3"], server.asked()), ask(["dump"], ["--server", "./missing"]))


main()
