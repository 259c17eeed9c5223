"""Clients that never read hold back no version, whether queries or rejected lines come after their queries: 100 commands of
another client are made beside them.
"""

import socket

from serving import Client, Server

QUERY, REJECTED = b"route get 10.0.1.1\n", b"link show\n"
SCRIPTS = [QUERY * 5000, (QUERY + REJECTED * 4000) * 2]


def fill(end, script):
    """Sends a script again and again, until nothing was taken for a second."""
    end.settimeout(1)
    try:
        while True:
            end.sendall(script)
    except socket.timeout:
        pass


def main():
    server = Server("--workers", "3", "--sessions", "3")
    deaf = [server.connect(room=2048) for _ in SCRIPTS]
    for end, script in zip(deaf, SCRIPTS):
        fill(end, script)
    client = Client(server)
    print({client.ask(f"route add 10.{place}/16 dev eth0").split()[0] for place in range(100)})
    client.close()
    for end in deaf:
        end.close()
    print(server.end())


main()
