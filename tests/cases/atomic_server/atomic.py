"""Atomic scripts over a server: all commands of one are made together, or none. A reader beside them never sees a part.

They go over TCP, and then over a socket. A connection that breaks before its end changes nothing; only TCP shows that one breaks. A
client that was killed seems to have ended its script: nothing is made of one that said how many commands it has.
"""

import socket
import struct
import time
from threading import Thread

from serving import Client, Follower, Server, batch, connected, converse, together

ROUNDS = 500
ROUTES = 20


def number(server):
    return int(converse(server, b"route get 203.0.113.1\n").split()[1])


def adds(first, last):
    return b"".join(b"route add 10.%d.%d.0/24 dev eth0 table 9\n" % (n // 256, n % 256) for n in range(first, last))


def say(server, name, script):
    """Shows the replies to a script, and the number after it."""
    print(f"{name}: {together(server, script)} {number(server)}")


def scripts(server):
    say(server, "three", b"route add 10/8 dev eth0\n# a comment\n\nip -4 route add 11/8 dev eth0\nrule add priority 9 to 11/8 table 7\n")
    say(server, "nothing", b"")
    say(server, "a malformed last line", adds(0, 200) + b"route add 12/8\n")
    say(server, "a refused last line", adds(0, 200) + b"route add 10/8 dev eth1\n")
    say(server, "a query", b"route del 10/8\nroute show\n")
    say(server, "no newline at the end", b"route replace 10/8 dev eth5")
    say(server, "its number", b"at 4\nroute replace 10/8 dev eth6\n")
    say(server, "another number", b"at 4\nroute replace 10/8 dev eth7\n")
    say(server, "its number alone", b"at 5\n")
    say(server, "all commands", b"commands 2\n\nroute replace 10/8 dev eth7\n# a comment\nroute replace 10/8 dev eth6\n")
    say(server, "too few commands", b"commands 3\nroute del 10/8\nroute del 11/8\n")
    say(server, "too many commands", b"commands 1\nroute del 10/8\nroute del 11/8\n")
    say(server, "no command of one", b"commands 1\n")
    say(server, "a half line", b"at 7\ncommands 2\nroute del 10/8\nroute replace 11/8 dev eth")
    say(server, "its number, all commands", b"at 7\ncommands 1\nroute replace 10/8 dev eth6\n")
    say(server, "another number, too few commands", b"at 7\ncommands 2\nroute del 10/8\n")
    say(server, "another number, all commands", b"at 7\ncommands 1\nroute del 10/8\n")
    say(server, "the lines in another order", b"commands 1\nat 8\nroute del 10/8\n")
    say(server, "no count", b"commands many\nroute del 10/8\n")
    say(server, "a number behind", b"route replace 10/8 dev eth7\nat 6\n")
    say(server, "no number", b"at five\nroute replace 10/8 dev eth7\n")
    print("1,000 lines:", together(server, adds(0, 1000)) == b"".join(b"ok %d\n" % n for n in range(9, 1009)), number(server))
    say(server, "1,001 lines", b"route del 10/8\n" + adds(1000, 2000))
    print(converse(server, b"route get 10.200.0.1\n").decode(), end="")


def cut(server):
    """Breaks connections off after many lines, with the last one whole or not."""
    before = number(server)
    for rest in (b"", b"route add 10.9"):
        end = connected(server.atomic_port)
        end.sendall(adds(2000, 2500) + rest)
        # The lines are there before the connection breaks.
        time.sleep(0.5)
        end.setsockopt(socket.SOL_SOCKET, socket.SO_LINGER, struct.pack("ii", 1, 0))
        end.close()
    time.sleep(0.5)
    print("after cuts:", number(server) == before)


def listing(which):
    return [f"1{which}.0.{n}.0/24 dev eth{which} scope link" for n in range(ROUTES)] + [f"end {ROUTES}"]


def change(which):
    """Puts routes of one kind in the place of those of the other."""
    lines = [f"route del 1{1 - which}.0.{n}.0/24 table 100" for n in range(ROUTES)]
    return "".join(f"{line}\n" for line in lines + [f"route add 1{which}.0.{n}.0/24 dev eth{which} table 100" for n in range(ROUTES)])


def beside(server):
    """Lists the routes while they are changed. How many listings show a part, and whether there were enough of them; and what a
    follower is told of what was made together.
    """
    together(server, "".join(f"route add 10.0.{n}.0/24 dev eth0 table 100\n" for n in range(ROUTES)).encode())
    follower, seen, followed, is_over = Follower(server), [], [], []

    def follow():
        followed.extend(follower.changes(ROUNDS * 2 * ROUTES))

    def read():
        client = Client(server)
        while not is_over:
            seen.append(client.listing("route show table 100"))
        client.close()

    threads = [Thread(target=work) for work in (read, follow)]
    for thread in threads:
        thread.start()
    refused = 0
    for turn in range(ROUNDS):
        refused += b"error" in together(server, change((turn + 1) % 2).encode())
    is_over.append(True)
    for thread in threads:
        thread.join()
    parts = [lines for lines in seen if lines not in (listing(0), listing(1))]
    print("beside:", refused, len(parts), len(seen) > ROUNDS // 4, len(followed), set(follower.together), len(follower.together))
    follower.close()


def main():
    ports = ["--feed", "127.0.0.1:0", "--atomic", "127.0.0.1:0"]
    for server in (Server(*ports, database="ports.db"), Server(folder="./run", database="sockets.db")):
        scripts(server)
        if not server.folder:
            cut(server)
        beside(server)
        server.kill(15)


main()
