"""A server with --log writes each accepted command to standard error, and nothing else: with its number, its session and where its
client is. Without --log it writes none.
"""

import re

from serving import Client, Server, together


def talk(server):
    """Sends lines by two sessions and an atomic script. The ports of the clients."""
    clients = [Client(server) for _ in range(2)]
    for client, line in (
        (clients[0], "route add default dev eth0"),
        (clients[1], "rule add priority 9 to 10.0.0.0/8 table 7"),
        (clients[1], "route get 10.1.2.3"),
        (clients[0], "route add default dev eth1"),
        (clients[0], "route ad"),
        (clients[0], "route del default"),
    ):
        client.ask(line)
    if server.atomic_port:
        together(server, b"route add 10.0.0.0/8 via 192.0.2.1\nroute add 11.0.0.0/8 via 192.0.2.1\n")
        together(server, b"route add 12.0.0.0/8 via 192.0.2.1\nroute add 11.0.0.0/8 via 192.0.2.1\n")
    ports = [] if server.folder else [client.end.getsockname()[1] for client in clients]
    for client in clients:
        client.close()
    return ports


def show(server):
    """Shows what a server said. The ports of its clients are shown as names, and of the last ones as a number."""
    ports = talk(server)
    told = server.end()[1]
    for port, name in zip(ports, ("FIRST", "SECOND")):
        told = told.replace(f"127.0.0.1:{port}:", f"{name}:")
    print(re.sub(r"127\.0\.0\.1:\d+:", "ANOTHER:", told), end="")


show(Server("--log", "--atomic", "127.0.0.1:0", "--sessions", "4", database="ports.db"))
show(Server("--log", "--sessions", "4", folder="./run", database="sockets.db"))
show(Server("--sessions", "4", folder="./run", database="silent.db"))
