"""A client that lists 20,000 routes over and over holds up none of eight that write beside it: each command is accepted, and
each listing is whole.
"""

import time
from collections import Counter

from serving import Client, Server, database_of, in_threads

ROUTES, WRITERS, SECONDS = 20000, 8, 6


def list_all(server, until):
    """Lists all routes until this time. Gives how often, or a reply that isn't right."""
    client = Client(server)
    times = 0
    while time.monotonic() < until:
        lines = client.listing("route show table all")
        if lines[-1] != f"end {ROUTES}" or len(lines) != ROUTES + 1:
            return f"{len(lines)} lines, the last of them {lines[-1]!r}"
        times += 1
    client.close()
    return times


def write(server, place, until):
    """Replaces routes until this time, and counts the replies by their first words."""
    client = Client(server)
    replies = Counter()
    while time.monotonic() < until:
        turn = replies.total()
        reply = client.ask(f"route replace 10.{place}.{turn % 256}.0/24 dev eth{turn % 5}")
        replies[reply.split(" ")[0] if reply.startswith("ok ") else reply] += 1
    client.close()
    return replies


def main():
    database_of(ROUTES)
    server = Server("--workers", str(WRITERS + 1), "--sessions", str(WRITERS + 1))
    until = time.monotonic() + SECONDS
    work = lambda place: write(server, place, until) if place < WRITERS else list_all(server, until)
    *written, listed = in_threads(WRITERS + 1, work)
    replies = sum(written, Counter())
    print(listed if isinstance(listed, str) else "each listing is whole")
    print({reply: count for reply, count in replies.items() if reply != "ok"}, "were refused")
    # Enough of both that it would have shown.
    print(listed > 5, replies["ok"] > 64 * WRITERS)
    print(server.end())


main()
