"""Measures what `prt serve` takes for a line, beside a server in C that reads in blocks and writes one fixed reply a line,
and how many durable changes a second one client and 32 clients make, each of which waits for its reply.

usage: measure.py PRT FIXED LOAD SYNC

SYNC is the library of tests/sync.c, which makes each sync take its time.
"""

import os
import re
import subprocess
import sys
import tempfile

PRT, FIXED, LOAD, SYNC = sys.argv[1:]
ROUTES = 1000
LINES = 20000
TURNS = 5
GET = "route get 10.1.2.3"
REFUSED = "link show"
# Each connection changes a route of its own.
CHANGE = "route replace 10.9.#.0/24 dev eth0"
CLIENTS = 32


def started(words, **variables):
    """A server, and its port."""
    server = subprocess.Popen(words, stdin=subprocess.DEVNULL, stdout=subprocess.PIPE, text=True, env=os.environ | variables)
    return server, re.search(r":(\d+)$", server.stdout.readline().strip())[1]


def seconds(port, line, in_flight, connections=1):
    """The least of some turns."""
    words = [LOAD, port, line, str(LINES), str(in_flight), str(connections)]
    return min(float(subprocess.run(words, capture_output=True, text=True, check=True).stdout) for _ in range(TURNS))


def system_calls(port, server, in_flight):
    """How many calls of read and write (or their kin) the server makes for 1,000 lines of one connection, so many in flight."""
    try:
        trace = subprocess.Popen(["strace", "-f", "-c", "-e", "trace=read,recvfrom,write,sendto", "-p", str(server.pid)], stderr=subprocess.PIPE, text=True)
    except FileNotFoundError:
        return "strace isn't here"
    trace.stderr.readline()
    subprocess.run([LOAD, port, GET, "1000", str(in_flight), "1"], check=True, capture_output=True)
    trace.send_signal(2)
    rows = [row.split() for row in trace.communicate()[1].splitlines()]
    return ", ".join(f"{row[3]} {row[-1]}" for row in rows if len(row) >= 5 and row[3].isdigit() and row[-1] != "total")


def changes(port, connections, lines):
    """How many changes a second so many connections make: the most of some turns."""
    words = [LOAD, port, CHANGE, str(lines), "1", str(connections)]
    least = min(float(subprocess.run(words, capture_output=True, text=True, check=True).stdout) for _ in range(TURNS))
    return connections * lines / least


def measure_changes(path):
    """Prints how many durable changes a second one client and many make, on this disk and where a sync takes 2 ms."""
    for name, variables in (("this disk", {}), ("syncs of 2 ms", {"LD_PRELOAD": SYNC, "SYNC_MS": "2"})):
        words = [PRT, "serve", "--db", path, "--listen", "127.0.0.1:0", "--workers", str(CLIENTS)]
        server, port = started(words, **variables)
        one, many = changes(port, 1, 500), changes(port, CLIENTS, 500)
        print(f"durable changes, {name}: one client {one:.0f} a second, {CLIENTS} clients {many:.0f}: {many / one:.1f} times")
        server.kill()
        server.wait()


def main():
    with tempfile.TemporaryDirectory() as folder:
        path = os.path.join(folder, "routes.db")
        script = "".join(f"route add 10.{n // 250}.{n % 250}.0/24 dev eth{n % 8}\n" for n in range(ROUTES))
        subprocess.run([PRT, "batch", "--db", path], input=script, text=True, check=True, capture_output=True)
        ours, our_port = started([PRT, "serve", "--db", path, "--listen", "127.0.0.1:0"])
        theirs, their_port = started([FIXED, "answer 1000 rule 32766 table main 10.1.2.0/24 dev eth4 scope link"])
        for name, line in (("route get", GET), ("a refused line", REFUSED)):
            for in_flight in (1, 100):
                our, their = seconds(our_port, line, in_flight), seconds(their_port, line, in_flight)
                each = f"{our / LINES * 1e6:.1f} and {their / LINES * 1e6:.1f} us a line"
                print(f"{name}, {in_flight} in flight: {their / our:.2f} of the C server's speed ({each})")
        one, four = seconds(our_port, GET, 100), seconds(our_port, GET, 100, 4)
        print(f"four connections on four workers: {4 * one / four:.2f} times one")
        for in_flight in (1, 100):
            print(f"1,000 lines of one connection, {in_flight} in flight: {system_calls(our_port, ours, in_flight)}")
        for server in (ours, theirs):
            server.kill()
            server.wait()
        measure_changes(path)


main()
