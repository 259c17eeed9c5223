"""Queries to a server's folder are answered while others have all its workers: by its feed."""

import subprocess
import time

from serving import PROGRAM, Client, Server

server = Server("--workers", "1", folder="./run")
busy = Client(server)
print(busy.ask("route add 10.1.0.0/16 dev eth0"))
for words in (["get", "10.1.2.3"], ["show"], ["show", "rule"], ["get", "--json", "10.1.2.3"]):
    began = time.monotonic()
    asked = subprocess.run([PROGRAM, words[0], "--server", "./run", *words[1:]], capture_output=True, text=True)
    print(asked.stdout.strip(), asked.returncode, asked.stderr.strip())
    print(time.monotonic() - began < 5)
print(busy.ask("route get 10.1.2.3"))
server.kill(15)
