"""Clients that say nothing for a second are ended, and told so in a comment: one that sent lines, whose last one is cut off, and
three that sent nothing at all. A fifth that goes on talking is served beside them and after them.
"""

import time

from serving import Client, Server, read_all


def main():
    server = Server("--workers", "4", "--sessions", "5", "--idle", "1")
    silent = [server.connect() for _ in range(4)]
    silent[0].sendall(b"route add 10/8 dev eth0\nroute add 11/8 dev eth0")
    print(silent[0].recv(5).decode(), end="")
    fifth = Client(server)
    for _ in range(4):
        print(fifth.ask("route get 11.0.0.1"))
        time.sleep(0.5)
    for end in silent:
        print(read_all(end).decode(), end="")
        end.close()
    fifth.close()
    print(server.end())


main()
