"""Memory and files of `prt serve`, each second, while 32 clients change its tables and look up.

usage: measure.py PROGRAM SECONDS FOLDER

Each client has 60 prefixes of its own in a table of its own, and three rules. It replaces and deletes these routes,
adds and deletes these rules, and half of its lines look up. So what the tables hold has a bound, and is reached soon:
what grows after the first quarter grows without a cause. A plot of each figure is shown, and its most in each quarter.
"""

import os
import random
import re
import socket
import subprocess
import sys
import tempfile
import threading
import time
from typing import NamedTuple

PROGRAM, SECONDS, FOLDER = sys.argv[1], int(sys.argv[2]), sys.argv[3]
CLIENTS = 32
PREFIXES = 60
PATIENCE = 60
COLUMNS, ROWS = 72, 8
QUARTERS = 4


class Sample(NamedTuple):
    """What is seen in one second, in KB, and how many lines were answered since the start."""
    memory: float
    database: float
    log: float
    lines: int
    accepted: int


def a_line(dice, client):
    """A line of a client."""
    net, table = f"10.{client}.{dice.randrange(PREFIXES)}.0/24", 1000 + client
    place = dice.randrange(3)
    rule = f"priority {100 * client + place} from 10.{client}.{place}.0/24 table {table}"
    return dice.choice((
        f"route get 10.{client}.{dice.randrange(PREFIXES)}.7 from 192.0.2.{client}",
        f"route get 10.{dice.randrange(CLIENTS)}.{dice.randrange(PREFIXES)}.7",
        f"route get 203.0.113.{dice.randrange(256)} mark {client}",
        f"route replace {net} via 192.0.2.{dice.randrange(1, 255)} table {dice.choice((table, 254))}",
        f"route replace {net} dev eth{client} table {table}",
        dice.choice((f"route del {net} table {table}", f"rule add {rule}", f"rule del {rule}")),
    ))


class Client(threading.Thread):
    """A client that sends a line once the last one is answered, until the time is over."""

    def __init__(self, port, place, until):
        super().__init__()
        self.port, self.place, self.until = port, place, until
        self.lines = self.accepted = 0
        self.wrong = None

    def run(self):
        dice = random.Random(self.place)
        with socket.create_connection(("127.0.0.1", self.port), PATIENCE) as end, end.makefile("rb") as replies:
            end.setsockopt(socket.IPPROTO_TCP, socket.TCP_NODELAY, 1)
            while time.monotonic() < self.until and not self.wrong:
                end.sendall(f"{a_line(dice, self.place)}\n".encode())
                reply = replies.readline()
                self.lines += 1
                self.accepted += reply.startswith(b"ok ")
                # A rule is there already, or what is deleted is not.
                if not reply.startswith((b"ok ", b"answer ", b"error 21 ", b"error 22 ")):
                    self.wrong = reply


def size_of(path):
    """The size of a file in KB."""
    return os.stat(path).st_size / 1024 if os.path.exists(path) else 0


def memory_of(process):
    """The memory that a process has now, in KB."""
    with open(f"/proc/{process.pid}/status", encoding="ascii") as status:
        return int(next(line for line in status if line.startswith("VmRSS:")).split()[1])


def watch(server, path, clients, start):
    """A sample each second until the time is over."""
    samples = []
    for second in range(1, SECONDS + 1):
        time.sleep(max(0, start + second - time.monotonic()))
        samples.append(Sample(memory_of(server), size_of(path), size_of(f"{path}-wal"),
                              sum(client.lines for client in clients), sum(client.accepted for client in clients)))
    return samples


def plot(name, values):
    """A plot: each column has the most of its seconds, from 0 to the most of all."""
    most = max(values)
    bounds = [place * len(values) // COLUMNS for place in range(COLUMNS + 1)]
    columns = [max(values[low:max(high, low + 1)]) for low, high in zip(bounds, bounds[1:])]
    print(f"{name}: least {min(values):.0f}, most {most:.0f}")
    for row in range(ROWS, 0, -1):
        marks = "".join("#" if value * ROWS > most * (row - 0.5) else " " for value in columns)
        print(f"  {most * row / ROWS:9.0f} |{marks}")
    print(f"  {'':9} +{'-' * COLUMNS} {SECONDS} s")
    bounds = [place * len(values) // QUARTERS for place in range(QUARTERS + 1)]
    quarters = [f"{max(values[low:high]):.0f}" for low, high in zip(bounds, bounds[1:])]
    print(f"  most in each quarter: {', '.join(quarters)}", flush=True)


def soak(folder):
    """Serves the clients. Gives the samples, and the sizes in KB of the files once the server has ended."""
    path = os.path.join(folder, "routes.db")
    words = ["serve", "--db", path, "--listen", "127.0.0.1:0", "--workers", str(CLIENTS), "--sessions", str(CLIENTS)]
    with subprocess.Popen([PROGRAM, *words], stdin=subprocess.DEVNULL, stdout=subprocess.PIPE, text=True) as server:
        port = int(re.search(r":(\d+)$", server.stdout.readline().strip())[1])
        start = time.monotonic()
        clients = [Client(port, place, start + SECONDS) for place in range(CLIENTS)]
        for client in clients:
            client.start()
        samples = watch(server, path, clients, start)
        for client in clients:
            client.join()
        status = server.wait(PATIENCE)
    wrong = [client.wrong for client in clients if client.wrong]
    if status or wrong:
        sys.exit(f"the server ended with status {status}, and said {wrong}")
    return samples, size_of(path), size_of(f"{path}-wal")


def main():
    with tempfile.TemporaryDirectory(dir=FOLDER) as folder:
        samples, database, log = soak(folder)
    memory, databases, logs, lines, accepted = zip(*samples)
    plot("memory in KB", memory)
    plot("database file in KB", databases)
    plot("log in KB", logs)
    plot("lines a second", [later - sooner for sooner, later in zip((0, *lines), lines)])
    print(f"{lines[-1]} lines in {SECONDS} s by {CLIENTS} clients, {accepted[-1]} commands accepted")
    print(f"after the end: database {database:.0f} KB, log {log * 1024:.0f} bytes")


main()
