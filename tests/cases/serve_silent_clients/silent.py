"""200 clients that say nothing take no worker: a client that talks is answered by one of four workers, within a second but where
the machine is busy, and so are 20 others. A silent one is served as soon as it speaks.
"""

import time

from serving import Client, Server, in_threads

SILENT = 200


def timed(server, line):
    """Asks a line by a client of its own. Gives its reply, and whether that came within a second."""
    start = time.monotonic()
    client = Client(server)
    reply = client.ask(line)
    is_quick = time.monotonic() - start < 1
    client.close()
    return reply, is_quick


def main():
    server = Server("--workers", "4", "--sessions", str(SILENT + 31))
    silent = [Client(server) for _ in range(SILENT)]
    print(timed(server, "route add 10/8 dev eth0")[0])
    print(set(in_threads(20, lambda _: timed(server, "route get 10.0.0.1")[0])))
    print(sum(timed(server, "route get 10.0.0.1")[1] for _ in range(10)) > 5)
    print(silent[150].ask("route get 10.0.0.1"))
    print(silent[150].ask("route get 11.0.0.1"))
    for client in silent:
        client.close()
    print(server.end())


main()
