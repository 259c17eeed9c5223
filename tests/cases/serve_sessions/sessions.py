"""A server of three sessions ends after three, and serves what was sent before it ended. Its file then has this and nothing else."""

from serving import DATABASE, Server, batch, converse

server = Server("--sessions", "3", "--workers", "2")
for line in (b"route add 10/8 dev eth0\n", b"route get 10.1.2.3\n", b"rule add from 10.9/16 lookup 9 priority 9\nroute"):
    print(converse(server, line).decode(), end="")
print(server.end())
try:
    server.connect()
    print("a fourth connection was accepted")
except ConnectionRefusedError:
    print("refused")
print(batch(b"rule show\nroute get 10.1.2.3\n", "--db", DATABASE).decode(), end="")
