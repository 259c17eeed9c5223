"""A feed that isn't read is closed once too many changes wait for it: no client waits for it, nor another follower. What was
sent until then are the first changes, in order, and whole but for the last. Beside 16 that follow, a further one gets the tables alone.
"""

from serving import Client, Follower, Server, in_threads

CLIENTS = 8
# As many as no socket's buffers have room for.
CHANGES = 1500
REST = "via 192.0.2.100 dev a12345678901234 table 1000000000 proto 200 scope 201 src 192.0.2.200 metric 1000000000"


def change(server, place):
    """Makes changes."""
    client = Client(server)
    for turn in range(CHANGES):
        client.ask(f"route replace 10.{place}.{turn % 256}.0/24 {REST}")
    client.close()


def main():
    server = Server("--feed", "127.0.0.1:0", "--workers", str(CLIENTS), "--sessions", str(CLIENTS))
    slow, quick = Follower(server, room=2048), Follower(server)
    more = [Follower(server) for _ in range(14)]
    print(Follower(server).next())
    for other in more:
        other.close()
    lines = in_threads(CLIENTS + 1, lambda place: change(server, place) if place < CLIENTS else quick.changes())[CLIENTS]
    print(len(lines))
    told = slow.changes()
    print(0 < len(told) < len(lines), told == lines[: len(told)])
    print(server.end())


main()
