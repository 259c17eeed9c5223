"""Clients that send what no client should, side by side with one that is served all along.

Each ends its own session, or waits by itself, and takes a worker and nothing else from the others.
"""

import socket
import struct

from serving import Client, Server, converse, read_all

INPUTS = {
    "65,537 bytes without a newline": b"a" * 65537 + b"\nrule show\n",
    "65,536 bytes and a newline": b"a" * 65536 + b"\nroute\n",
    "a million empty lines": b"\n" * 1000000 + b"route\n",
    "bytes that are no ASCII": bytes(range(128, 256)) + b"\nroute\n",
    "zeros": b"\0" * 10 + b"\nroute\n",
    "half a line": b"route ge",
    "half a command": b"route get 10.0.0.1",
    "nothing": b"",
}


def leave_unread(server):
    """Asks for many listings, and closes without reading one."""
    end = server.connect()
    end.sendall(b"rule show\n" * 1000)
    end.close()


def reset(server):
    """Breaks the connection off after half a line."""
    end = server.connect()
    end.sendall(b"route add 10/8 dev eth0\nroute add 11/")
    end.setsockopt(socket.SOL_SOCKET, socket.SO_LINGER, struct.pack("ii", 1, 0))
    end.close()


def main():
    server = Server("--workers", "4")
    client = Client(server)
    silent = server.connect()
    for name, sent in INPUTS.items():
        print(f"{name}: {converse(server, sent)}")
        print(client.ask("route get 192.0.2.1"))
    for leave in (leave_unread, reset) * 3:
        leave(server)
    print(client.ask("rule flush") in ("ok 1", "ok 2"))
    print(converse(server, b"route get 192.0.2.1\nlink show\n").decode().split("\n")[1])
    silent.shutdown(socket.SHUT_WR)
    print(f"a silent client: {read_all(silent)}")
    server.kill(15)


main()
