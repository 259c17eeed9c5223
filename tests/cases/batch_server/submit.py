"""A server makes the commands of a script together, over TCP and over its sockets: the replies and the status are those of
`prt batch --atomic` over a database of its own, to which each script goes too.
"""

import os
import socket
import subprocess
import threading

from serving import PROGRAM, Server

PORTS = ["--feed", "127.0.0.1:0", "--atomic", "127.0.0.1:0"]


def run(script, *words):
    done = subprocess.run([PROGRAM, "batch", *words], input=script, capture_output=True, text=True)
    return done.returncode, done.stdout, done.stderr


def place(server):
    return server.folder or f"127.0.0.1:{server.atomic_port}"


def number(server):
    done = subprocess.run([PROGRAM, "get", *server.asked(), "203.0.113.1"], capture_output=True, text=True)
    return int(done.stdout.split()[1])


def adds(count):
    return "".join(f"route add 10.{n // 256}.{n % 256}.0/24 dev eth0 table 9\n" for n in range(count))


def say(server, name, script, *words):
    """Shows what comes of a script, the number after it, and whether the same is replied over a database."""
    made = run(script, "--atomic", "--server", place(server), *words)
    alone = run(script, "--atomic", "--db", f"{server.database}.alone", *words)
    shown = made[1] if len(made[1]) < 100 else f"{len(made[1].splitlines())} lines"
    print(f"{name}: {made[0]} {shown!r} {made[2]!r} {number(server)} {made[:2] == alone[:2]}")


def scripts(server):
    say(server, "three", "route add 10/8 dev eth0\n# a comment\n\nip -4 route add 11/8 dev eth0\nrule add priority 9 to 11/8 table 7\n")
    say(server, "nothing", "# a comment\n\n")
    say(server, "a refused last line", adds(200) + "route add 10/8 dev eth1\n")
    say(server, "a malformed last line", adds(200) + "route add 12/8\n")
    say(server, "a query", "route del 10/8\nroute show\n")
    say(server, "no newline at the end", "route replace 10/8 dev eth5")
    say(server, "a number and a count", "at 4\ncommands 1\nroute del 10/8\n")
    say(server, "1,000 commands", adds(1000))
    say(server, "1,001 commands", "route del 10/8\n" + adds(1000))
    say(server, "reported", "route del 12/8\n", "--verbose")
    say(server, "a reported line", "route del 12/8\nroute add 12/8\n", "--verbose")
    say(server, "a missing file", "", "./no-such-file")
    say(server, "a folder", "", ".")
    with open("script", "w", encoding="ascii") as file:
        file.write("route replace 10/8 dev eth6\n")
    say(server, "a file", "route del 10/8\n", "script")
    print(*run("", "--server=" + place(server), "--", "script", "--atomic")[::2])
    print(*run("", "script", "--server=" + place(server), "--atomic"), number(server))


def answer(reply):
    """Sends what is taken for the words of a server, to two connections. The place of it."""
    door = socket.create_server(("127.0.0.1", 0))

    def serve():
        for said in (b"at 7\n", reply):
            end = door.accept()[0]
            while end.recv(65536):
                pass
            end.sendall(said)
            end.close()
        door.close()

    threading.Thread(target=serve).start()
    return "127.0.0.1:%d" % door.getsockname()[1]


def told(name, where):
    """Shows what is told of a script that goes to this place, without the port."""
    status, said, errors = run("route add 10/8 dev eth0\nroute add 11/8 dev eth0\n", "--atomic", "--server", where)
    print(f"{name}: {status} {said!r} {errors.replace(where, 'WHERE')!r}")


def places(server):
    told("sessions", f"127.0.0.1:{server.port}")
    told("the feed", f"127.0.0.1:{server.feed_port}")
    print(number(server))
    told("nobody", "127.0.0.1:1")
    told("no folder", "./nowhere")
    for name, reply in (
        ("all", b"ok 8\nok 9\n"),
        ("a fault", b"error 27 StoreFailed\n"),
        ("a closed database", b"error 20 Closed\n"),
        ("nothing", b""),
        ("a half", b"ok 8\nok"),
        ("one of two", b"ok 8\n"),
        ("a gap", b"ok 8\nok 10\n"),
        ("one more", b"ok 8\nok 9\nok 10\n"),
        ("a refusal after one", b"ok 8\nerror 21 Exists\n"),
        ("two refusals", b"error 21 Exists\nerror 21 Exists\n"),
        ("no refusal", b"error 21 NoSuch\n"),
    ):
        told(name, answer(reply))


def words():
    for given in (["--server", "./run"], ["--atomic", "--server", "run"], ["--atomic", "--server", "./run", "--db", "a.db"], ["--force", "--atomic", "--server", "./run"], ["--atomic", "--server"]):
        status, said, errors = run("", *given)
        print(status, said + errors.splitlines()[0])
    print(os.path.exists("a.db"))


def main():
    for server in (Server(*PORTS, database="ports.db"), Server(folder="./run", database="sockets.db")):
        server.database = "sockets.db" if server.folder else "ports.db"
        scripts(server)
        if not server.folder:
            places(server)
        server.kill(9)
        told("gone", place(server))
    words()


main()
