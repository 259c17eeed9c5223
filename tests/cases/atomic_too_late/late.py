"""An atomic script for which no worker was free for 10 seconds is never made: its client may have given up."""

import socket
import subprocess
import time

from serving import PROGRAM, Client, Server, connected, converse, together

server = Server("--workers", "1", folder="./run")
batch = [PROGRAM, "batch", "--atomic", "--server", "./run"]

busy = Client(server)
print(busy.ask("route get 192.0.2.1"))
with connected(server.atomic_port) as gone:
    gone.sendall(b"route add 10.1.0.0/16 dev eth0\n")
    gone.shutdown(socket.SHUT_WR)
waiting = subprocess.Popen(batch, stdin=subprocess.PIPE, stdout=subprocess.PIPE, stderr=subprocess.PIPE, text=True)
waiting.stdin.write("route add 10.2.0.0/16 dev eth0\n")
waiting.stdin.close()
time.sleep(13)
busy.close()
print(waiting.stdout.read().strip(), waiting.wait())
print(converse(server, b"route show\n").decode().strip())

# One that waited for less is made.
busy = Client(server)
print(busy.ask("route get 192.0.2.1"))
waiting = subprocess.Popen(batch, stdin=subprocess.PIPE, stdout=subprocess.PIPE, text=True)
waiting.stdin.write("route add 10.3.0.0/16 dev eth0\n")
waiting.stdin.close()
time.sleep(3)
busy.close()
print(waiting.stdout.read().strip(), waiting.wait())
print(together(server, b"route add 10.4.0.0/16 dev eth0\n").decode().strip())
server.kill(15)
