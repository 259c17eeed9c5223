"""64 workers and 65 connections: 64 are served at once, and the last one as soon as one of them ends."""

import socket

from serving import Client, Server, in_threads

server = Server("--workers", "64", "--sessions", "65")
clients = [Client(server) for _ in range(64)]
answers = in_threads(64, lambda place: clients[place].ask("route get 192.0.2.1"))
print(set(answers))
last = server.connect()
last.sendall(b"route get 192.0.2.1\n")
last.settimeout(0.5)
try:
    print(last.recv(100))
except socket.timeout:
    print("the last one waits")
clients[0].close()
last.settimeout(20)
print(last.recv(100).decode(), end="")
last.close()
for client in clients[1:]:
    client.close()
print(server.end())
