"""14 of 16 followers go without a word while nothing changes: their places are free again within seconds. One that ended its own
direction, and one that says nothing, get a comment now and then, and the next change.
"""

import socket
import struct
import time

from serving import Client, Follower, Server

GONE = 14
# Within how many seconds a comment has to come.
COMMENT = 20


def go(follower, way):
    """Ends a follower in one of three ways: it closes, it ends its own direction first, or its machine breaks off."""
    if way == 1:
        follower.end.shutdown(socket.SHUT_WR)
    if way == 2:
        follower.end.setsockopt(socket.SOL_SOCKET, socket.SO_LINGER, struct.pack("ii", 1, 0))
    follower.close()


def main():
    server = Server("--feed", "127.0.0.1:0", "--sessions", "1")
    half, silent = Follower(server), Follower(server)
    half.end.shutdown(socket.SHUT_WR)
    for way in [place % 3 for place in range(GONE)]:
        go(Follower(server), way)

    # A second and some more, in which each connection is looked at.
    time.sleep(3)
    others = [Follower(server) for _ in range(GONE)]
    for follower in (half, silent):
        follower.end.settimeout(COMMENT)
        print(repr(follower.lines.readline()))

    client = Client(server)
    print(client.ask("route add 10/8 dev eth0"))
    told = [follower.changes(1) for follower in [half, silent, *others]]
    print(told.count(["route add 10.0.0.0/8 dev eth0 scope link\n"]), "are told")
    client.close()
    print(server.end())


main()
