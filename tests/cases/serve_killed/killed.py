"""Kills servers under 32 writers, each at another moment, and looks at what each file holds.

KILLS says how often (50 where it isn't set), half of them with SIGKILL and half with SIGTERM. Each writer adds routes of
its own, one after another. The file then holds each route whose `ok N` was received, of each writer the first so many
routes, and as many routes as it counts commands.
"""

import os
import random
import re
import signal
import sys
import time
from threading import Thread

from serving import Client, Server, batch

KILLS = int(os.environ.get("KILLS", "50"))
WRITERS = 32


def write(server, writer, receipts):
    """Adds routes until the server is gone. Keeps the number in each receipt."""
    try:
        client = Client(server)
        for number in range(65536):
            reply = client.ask(f"route add 10.{writer}.{number // 256}.{number % 256} dev eth0")
            if not (told := re.fullmatch(r"ok (\d+)", reply)):
                return
            receipts.append(int(told[1]))
    except OSError:
        pass


def look(path, receipts):
    """Says what is wrong with a file after these receipts of its writers."""
    *routes, _, answer = batch(b"route show\nroute get 11.0.0.1\n", "--db", path).decode().splitlines()
    count = int(answer.split()[1])
    if count != len(routes):
        return f"{len(routes)} routes and count {count}"
    for writer in range(WRITERS):
        own = [route for route in routes if route.startswith(f"10.{writer}.")]
        wanted = [f"10.{writer}.{n // 256}.{n % 256} dev eth0 scope link" for n in range(len(own))]
        if sorted(own) != sorted(wanted):
            return f"not the first routes of a writer: {own}"
        if len(own) < len(receipts[writer]):
            return f"{len(receipts[writer])} receipts and {len(own)} routes of a writer"
    numbers = sorted(number for own in receipts for number in own)
    if len(set(numbers)) != len(numbers) or numbers and numbers[-1] > count:
        return f"numbers {numbers} and count {count}"
    return None


def main():
    moments = random.Random(1)
    acknowledged = 0
    for turn in range(KILLS):
        path = f"{turn}.db"
        server = Server("--workers", str(WRITERS), database=path)
        receipts = [[] for _ in range(WRITERS)]
        writers = [Thread(target=write, args=(server, writer, receipts[writer])) for writer in range(WRITERS)]
        for writer in writers:
            writer.start()
        time.sleep(moments.uniform(0, 0.12))
        server.kill(signal.SIGKILL if turn % 2 else signal.SIGTERM)
        for writer in writers:
            writer.join()
        if wrong := look(path, receipts):
            sys.exit(f"kill {turn}: {wrong}")
        acknowledged += sum(map(len, receipts))
    print("each file held what was acknowledged" if acknowledged > KILLS else f"{acknowledged} were acknowledged")


main()
