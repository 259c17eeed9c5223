"""Makes 100,000 changes by eight clients of `prt serve`, without followers and beside ten: two of them read nothing, and one
breaks off in the middle and begins anew. Says how long each took, and whether each that kept up has the server's tables.

usage: measure.py PRT

Each client and each follower that reads is a process of its own, so that none of them waits for another one's Python.
"""

import multiprocessing
import time

from serving import Client, Follower, Server, batch

CLIENTS = 8
CHANGES = 12500
READERS = 7
LISTINGS = b"rule show\nroute show table all\n"


def begin(work, *given):
    """Begins work in a process of its own. Gives the process, and the end of a pipe where its result will come."""
    ours, theirs = multiprocessing.Pipe(duplex=False)
    process = multiprocessing.get_context("fork").Process(target=lambda: theirs.send(work(*given)))
    process.start()
    # Only the process itself holds its end, so that a result that will not come is seen.
    theirs.close()
    return process, ours


def results(begun):
    """What the works gave, once they have all ended."""
    given = [end.recv() for _, end in begun]
    for process, _ in begun:
        process.join()
    return given


def change(server, place):
    client = Client(server)
    for turn in range(CHANGES):
        client.ask(f"route replace 10.{place}.{turn % 256}.0/24 dev eth{turn % 10}")
    client.close()


def follow(follower):
    """Follows to the end. Gives the script that makes the tables."""
    return "".join(follower.tables + follower.changes()).encode()


def follow_again(server):
    """Breaks off after 1,000 changes, and then follows to the end."""
    first = Follower(server)
    first.changes(1000)
    first.close()
    return follow(Follower(server))


def measured(database, followers):
    """How long the changes took, and what the followers got."""
    server = Server("--feed", "127.0.0.1:0", "--workers", str(CLIENTS), "--sessions", str(CLIENTS), database=database)
    slow = [Follower(server, room=2048) for _ in range(2 if followers else 0)]
    readers = [begin(follow, Follower(server)) for _ in range(READERS if followers else 0)]
    readers += [begin(follow_again, server)] if followers else []
    start = time.monotonic()
    results([begin(change, server, place) for place in range(CLIENTS)])
    took = time.monotonic() - start
    got = results(readers)
    print(f"{server.end()}, {len(slow)} that read nothing got {[len(one.changes()) for one in slow]} changes")
    return took, got


def listed(script, *words):
    """The rules and the routes after a script."""
    return [line for line in batch(script + LISTINGS, *words).splitlines() if not line.startswith(b"ok ")]


def main():
    alone, _ = measured("alone.db", followers=False)
    beside, got = measured("beside.db", followers=True)
    print(f"{CLIENTS * CHANGES} changes: {alone:.1f} s without followers, {beside:.1f} s beside ten: {beside / alone:.2f} times")
    wanted = listed(b"", "--db", "beside.db")
    for place, script in enumerate(got):
        print(f"follower {place}: {'the same tables' if listed(script) == wanted else 'OTHER TABLES'}")


main()
