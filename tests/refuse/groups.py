"""Refused memory in `prt serve` while eight clients wait for one another's commits.

Each client adds two routes, one after the other. The syncs take a while each, so commands wait and are submitted together.
"""

import re
import socket
import subprocess
import tempfile
import threading

from attempts import PATIENCE, PROGRAM, Wrong, environment, run, sweep, told_in
from server import FAULT, LISTENING

CLIENTS = 8
# Each so many requests of a run are refused in the short sweep.
STEP = 23
RECEIPT = re.compile(r"ok (\d+)")
NOT_STORED = {"error 26 NoMemory", "error 20 Closed"}
# A commit that failed, or a publication, may have left the route.
PERHAPS_STORED = {"error 27 StoreFailed", "error 28 NotPublished", ""}


def route(client, turn):
    """A route of a client."""
    return f"10.{client}.{turn}.0/24 dev eth0"


def add(port, client, replies):
    """Adds the routes of a client, and keeps the replies; an empty one where the connection was refused or broke off."""
    replies[client] = ["", ""]
    try:
        with socket.create_connection(("127.0.0.1", port), PATIENCE) as end, end.makefile("rb") as told:
            for turn in range(2):
                end.sendall(f"route add {route(client, turn)}\n".encode())
                replies[client][turn] = told.readline().decode().rstrip("\n")
    except ConnectionError:
        pass


def serve(path, preloaded, folder, **variables):
    """Serves the clients. Gives their replies, none where nothing was served, and what the library told."""
    words = [PROGRAM, "serve", "--db", path, "--listen", "127.0.0.1:0", "--workers", str(CLIENTS), "--sessions", str(CLIENTS)]
    with subprocess.Popen(words, stdin=subprocess.DEVNULL, stdout=subprocess.PIPE, stderr=subprocess.PIPE, text=True,
                          env=environment(preloaded, folder, variables | {"SYNC_MS": 3})) as server:
        listening = LISTENING.fullmatch(server.stdout.readline())
        replies = [["", ""]] * CLIENTS
        clients = [threading.Thread(target=add, args=(int(listening[1]), client, replies))
                   for client in range(CLIENTS) if listening]
        for client in clients:
            client.start()
        for client in clients:
            client.join()
        try:
            _, errors = server.communicate(timeout=PATIENCE)
        except subprocess.TimeoutExpired:
            server.kill()
            raise
    if server.returncode != 0 and not FAULT.fullmatch(errors):
        raise Wrong(f"status {server.returncode}\n{errors}")
    return replies, told_in(folder)


def look(path, replies):
    """Compares what a file holds with what the clients were told."""
    listed = run([PROGRAM, "batch", "--db", path], "route show\nroute get 192.0.2.1\n").replies.splitlines()
    held = {line.removesuffix(" scope link") for line in listed[:-2]}
    numbers = [int(told[1]) for own in replies for reply in own if (told := RECEIPT.fullmatch(reply))]
    if len(set(numbers)) != len(numbers) or max(numbers, default=0) > len(held) or not listed[-1].startswith(f"answer {len(held)} "):
        raise Wrong(f"numbers {numbers} and these routes: {listed}")
    for client, own in enumerate(replies):
        for turn, reply in enumerate(own):
            is_held = route(client, turn) in held
            if not (RECEIPT.fullmatch(reply) and is_held or reply in NOT_STORED and not is_held or reply in PERHAPS_STORED):
                raise Wrong(f"{reply!r} for {route(client, turn)}, and these routes: {listed}")


def what_of(replies):
    """What the clients met."""
    told = {reply for own in replies for reply in own if not RECEIPT.fullmatch(reply)}
    return ", ".join(sorted(reply.removeprefix("error ")[3:] or "a connection closed" for reply in told)) or "receipts alone"


def refuse_groups(preloaded, is_whole):
    """Refuses requests for memory of a server whose clients wait for one another."""
    def attempt(place, folder):
        path = f"{folder}/routes.db"
        replies, told = serve(path, preloaded, folder, REFUSE=place)
        look(path, replies)
        return what_of(replies), told[2] > 0

    with tempfile.TemporaryDirectory() as folder:
        _, (made, opening, _) = serve(f"{folder}/routes.db", preloaded, folder)
    # Which request is which differs from run to run.
    places = [*range(opening + 1, made, 1 if is_whole else STEP), 2 * made]
    return sweep("eight clients, by a server", attempt, places)
