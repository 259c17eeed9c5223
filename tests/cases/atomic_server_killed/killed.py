"""Kills servers while clients send atomic scripts, one after another, each at another moment. After a restart the file holds each
script whole or not at all, and all that were acknowledged.

KILLS says how often (30 where it isn't set). Each script fills a table of its own.
"""

import os
import random
import signal
import sys
import time
from threading import Thread

from serving import Server, batch, together

KILLS = int(os.environ.get("KILLS", "30"))
ROUTES = 500
CLIENTS = 4


def write(server, client, acknowledged):
    """Sends scripts until the server is gone. Keeps the tables whose commands all were acknowledged."""
    try:
        for turn in range(1000):
            table = 1000 * (client + 1) + turn
            lines = [f"route add 10.{n // 256}.{n % 256}.0/24 dev eth0 table {table}\n" for n in range(ROUTES)]
            replies = together(server, "".join(lines).encode())
            if replies.count(b"ok ") == ROUTES and replies.endswith(b"\n"):
                acknowledged.append(table)
    except OSError:
        pass


def look(path, acknowledged):
    """Says what is wrong with a file after these tables were acknowledged."""
    *routes, _, answer = batch(b"route show table all\nroute get 192.0.2.1\n", "--db", path).decode().splitlines()
    tables = [line.partition(" table ")[2].split()[0] for line in routes]
    counts = {table: tables.count(table) for table in set(tables)}
    if set(counts.values()) - {ROUTES}:
        return f"parts: {counts}"
    if missing := set(map(str, acknowledged)) - set(counts):
        return f"missing: {missing}"
    if int(answer.split()[1]) != len(routes):
        return f"{answer} and {len(routes)} routes"
    return None


def main():
    moments = random.Random(1)
    total = 0
    for turn in range(KILLS):
        path = f"{turn}.db"
        server = Server("--atomic", "127.0.0.1:0", database=path)
        acknowledged = []
        writers = [Thread(target=write, args=(server, client, acknowledged)) for client in range(CLIENTS)]
        for writer in writers:
            writer.start()
        time.sleep(moments.uniform(0.05, 0.5))
        server.kill(signal.SIGKILL)
        for writer in writers:
            writer.join()
        if wrong := look(path, acknowledged):
            sys.exit(f"kill {turn}: {wrong}")
        total += len(acknowledged)
    print("each file held scripts whole or not at all" if total > KILLS else f"{total} were acknowledged")


main()
