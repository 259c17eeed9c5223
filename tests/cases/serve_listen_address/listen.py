"""A server listens at the addresses that it is given, and at no other of the host."""

import socket

from serving import PATIENCE, Server


def answers(host, port):
    try:
        socket.create_connection((host, port), PATIENCE).close()
        return "answers"
    except ConnectionRefusedError:
        return "refuses"


server = Server("--feed", "127.0.0.1:0")
for name, port in ("sessions", server.port), ("feed", server.feed_port):
    print(name, *(f"{host} {answers(host, port)}" for host in ("127.0.0.1", "127.0.0.2")))
server.kill(15)
