"""Clients that wait, or read no reply, hold no version back: none of 300 commands is refused for them."""

from serving import Client, Server

server = Server("--workers", "4")
waiting = Client(server)
print(waiting.ask("route get 192.0.2.1"))
deaf = server.connect()
deaf.setblocking(False)
try:
    while True:
        deaf.send(b"rule show\n" * 1000)
except BlockingIOError:
    print("no more is taken from a client that reads no reply")
writer = Client(server)
replies = [writer.ask(f"route add 10.0.{n // 256}.{n % 256} dev eth0") for n in range(300)]
print(replies == [f"ok {n}" for n in range(1, 301)])
print(waiting.ask("route get 10.0.1.1"))
server.kill(15)
