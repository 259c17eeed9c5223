"""An accept that fails in passing, ten times a second, is told once, and the client that waited is served. Where one fails for
good, of either listener, sessions go on to their end, and each of the two faults is told.
"""

import errno
import os
import time

from serving import Client, Follower, Server, preloaded


def fault_at(port):
    """The file by which each accept fails on a port, or on the socket at a path."""
    return f"fault.{os.path.basename(str(port))}"


def fail(port, number):
    """Has each accept there fail from now on."""
    with open("new", "w", encoding="ascii") as file:
        file.write(str(number))
    # A server never sees it half written.
    os.rename("new", fault_at(port))


def serve_in_passing(variables):
    """The sessions' listener fails for a second, and then serves who waits; so does that of the feed."""
    server = Server("--feed", "127.0.0.1:0", "--sessions", "3", variables=variables)
    first = Client(server)
    print(first.ask("route add 10/8 dev eth0"))
    second = Client(server)
    print(second.ask("route get 10.0.0.1"))
    for port in (server.port, server.feed_port):
        fail(port, errno.ECONNABORTED)
    # An accept that waited already would still give the third.
    time.sleep(0.5)
    third = Client(server)
    third.end.sendall(b"route get 10.0.0.1\n")
    time.sleep(1.5)
    print(first.ask("route add 11/8 dev eth1"))
    for port in (server.port, server.feed_port):
        os.remove(fault_at(port))
    print(third.replies.readline().decode(), end="")
    follower = Follower(server)
    print(follower.number, first.ask("rule flush"), follower.changes(1))
    for client in (first, second, third):
        client.close()
    status, told = server.end()
    print(status, told, end="")


def serve_until_it_fails(variables, *names):
    """One or both of the listeners fail for good beside a session."""
    server = Server("--feed", "127.0.0.1:0", "--sessions", "2", variables=variables)
    ports = {"listen": server.port, "feed": server.feed_port}
    follower = Follower(server)
    # A connection that comes later might meet a listener that has failed.
    first = Client(server)
    print(first.ask("route replace 10/8 dev eth2"), follower.changes(1))
    for name in names:
        fail(ports[name], errno.EINVAL)
    time.sleep(0.5)
    print(first.ask("rule flush"), follower.changes(1))
    if "listen" not in names:
        Client(server).close()
    first.close()
    status, told = server.end()
    print(status, told, end="")
    for name in names:
        os.remove(fault_at(ports[name]))


def main():
    variables = {"LD_PRELOAD": preloaded("accept.c"), "ACCEPT_FAILS": os.path.abspath("fault")}
    serve_in_passing(variables)
    serve_until_it_fails(variables, "feed")
    serve_until_it_fails(variables, "listen", "feed")


main()
