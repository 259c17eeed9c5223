"""A server that may have few descriptors, and 100 clients that say nothing: it goes on, tells once that it accepts no more, and
hardly works while it waits. Once they have gone it serves again, and feeds, also where each asks before it goes. An odd number
of descriptors and an even one are tried, since a connection may take two.
"""

import time

from serving import Client, Follower, Server


def run_out(descriptors, asks):
    """Runs a server out of so many descriptors, and then lets it have some again. The clients may ask before they go."""
    database = f"{descriptors}{'asked' if asks else ''}.db"
    server = Server("--feed", "127.0.0.1:0", database=database, under=("prlimit", f"--nofile={descriptors}"))
    early = Client(server)
    print(early.ask("route add 10/8 dev eth0"))
    silent = [Client(server) for _ in range(100)]
    time.sleep(1)
    before = server.processor_time()
    time.sleep(2)
    print(server.processor_time() - before < 1)
    print(early.ask("route get 10.0.0.1"))
    print(early.ask("route add 11/8 dev eth1"))

    for client in silent:
        if asks:
            client.end.sendall(b"route get 10.0.0.1\n")
    time.sleep(1 if asks else 0)
    for client in silent:
        client.close()
    late = Client(server)
    print(late.ask("route get 11.0.0.1"))
    follower = Follower(server)
    print(late.ask("rule flush"), early.ask("rule flush"), follower.changes(2))
    print(server.kill(15), end="")


def main():
    for descriptors in (64, 65):
        for asks in (False, True):
            run_out(descriptors, asks)


main()
