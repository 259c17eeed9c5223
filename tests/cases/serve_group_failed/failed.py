"""A disk fails under 32 clients, all but the first of whom wait for one commit: none of these is told `ok`.

The first command's sync takes two seconds, during which the others are sent; the next sync fails. So their one commit
fails, which each of them is told, and then that the service is closed. Standard error says it once, and then that the
log has to stay. The file then holds all of them or none.
"""

import os
import time
from collections import Counter

from serving import DATABASE, Client, Server, batch, in_threads, slow_sync

CLIENTS = 32


def main():
    variables = slow_sync(2000)
    server = Server("--workers", str(CLIENTS), "--sessions", str(CLIENTS), variables=variables)

    def add(place):
        client = Client(server)
        time.sleep(0.5 if place else 0)
        first = client.ask(f"route add 10.0.{place}.0/24 dev eth0")
        second = client.ask(f"route add 10.1.{place}.0/24 dev eth0")
        query = client.ask(f"route get 10.0.{place}.1")
        client.close()
        return (first, second, query) if place else (first, second)

    def fail(place):
        time.sleep(1.5)
        open(variables["SYNC_FAILS"], "x").close()

    first, *others, _ = in_threads(CLIENTS + 1, lambda place: add(place) if place < CLIENTS else fail(place))
    print(first[0])
    for replies, count in Counter(others).items():
        print(count, *replies, sep=", ")
    os.remove(variables["SYNC_FAILS"])
    status, told = server.end()
    print(status, told, end="")
    # On a busy machine the first client's second command may have been among them.
    stored = CLIENTS + (first[1] == "error 27 StoreFailed")
    print(len(batch(b"route show\n", "--db", DATABASE).splitlines()) - 1 in (1, stored))


main()
