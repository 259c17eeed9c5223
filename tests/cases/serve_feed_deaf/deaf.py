"""Connections of a feed that never read hold its threads for some seconds alone: one that comes after as many as there are
threads is fed then, and the server ends.
"""

from serving import Client, Follower, Server, connected, database_of

FEEDERS = 80
# Their text is more than any socket's buffers have room for.
ROUTES = 30000
# How often one connects: it is closed if no thread gets free within 10 seconds.
TRIES = 4


def follow(server):
    """Follows as soon as a thread is free; None where none gets free."""
    for _ in range(TRIES):
        try:
            return Follower(server)
        except ConnectionError:
            pass
    return None


def main():
    database_of(ROUTES)
    server = Server("--feed", "127.0.0.1:0", "--sessions", "1")
    deaf = [connected(server.feed_port, 2048) for _ in range(FEEDERS)]
    follower = follow(server)
    client = Client(server)
    print(client.ask("route add 11/8 dev eth0"))
    print(follower.changes(1) if follower else "not fed")
    client.close()
    print(server.end())
    for end in deaf:
        end.close()


main()
