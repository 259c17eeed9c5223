"""A soak of `prt serve`: its clients ask, follow, list, write, say nothing, read nothing, and go without a word.

usage: soak.py PROGRAM [--short]

Runs in an empty folder. Each promise is a line with its figure; the last line counts them.
"""

import contextlib
import os
import signal
import socket
import subprocess
import sys
import threading
import time
from collections import Counter
from typing import NamedTuple

import serving
from serving import DATABASE, PROGRAM, Client, Follower, Server, connected, database_of, in_threads


class Size(NamedTuple):
    routes: int
    # For how many seconds the tables change.
    seconds: int
    # How often descriptors run out.
    turns: int


FULL, SHORT = Size(100000, 480, 10), Size(10000, 20, 2)
SIZE = SHORT if "--short" in sys.argv else FULL

WORKERS, WRITERS, ASKERS, QUESTIONS = 64, 16, 8, 200
READING, DEAF, SILENT = 13, 2, 200
# Routes that a writer replaces over and over: as many as there are stay there. Their lines are long, and of each writer come
# so many at least: more than the system keeps for a follower that doesn't read.
OWN, LEAST = 200, 400
REST = "via 192.0.2.100 dev a12345678901234 table 1000000000 scope 201 src 192.0.2.200 metric 1000000000"
# The routes that nobody changes.
PRELOADED = SIZE.routes - WRITERS * OWN
# As in prt.service: large blocks go back to the system at once, so what is left is the server's.
VARIABLES = {"MALLOC_MMAP_THRESHOLD_": "131072"}
# What each client that asks may wait, in seconds: the machine may have other work.
serving.PATIENCE = 120
# How much more the server may take while its tables change, in KB: versions, listings and feeds that are at work at once.
ROOM = 40_000 + 2 * SIZE.routes
# How much more than in the second quarter of that time it may take in the last one, when least is at work: in KB.
GROWTH = 20_000
# In how many seconds a feed ends that nobody reads: two writes of it, 10 seconds each; and some to look for that.
ENDING = 40

results = []


def promise(name, is_kept, *figures):
    """Notes whether a promise is kept, with its figures."""
    results.append(is_kept)
    print("kept  " if is_kept else "BROKEN", f"{name}:", *figures, flush=True)


def read_tables(server, is_whole):
    """Reads a feed's tables to their end, or only begins to. Tells whether they came."""
    with connected(server.feed_port) as end:
        tail = end.recv(6)
        if not is_whole:
            return tail == b"state "
        while b"\nnow\n" not in tail:
            part = end.recv(1 << 20)
            if not part:
                return False
            tail = tail[-4:] + part
    return True


def ask_program(port, *words):
    """Asks a question by the program, at a port or of the server of a socket. Tells whether it was answered without a fault."""
    place = os.path.dirname(port) if isinstance(port, str) else f"127.0.0.1:{port}"
    words = [PROGRAM, words[0], "--server", place, *words[1:]]
    done = subprocess.run(words, capture_output=True)
    return done.returncode == 0 and done.stdout != b"" and done.stderr == b""


def ask(server, turn):
    """Asks one question: most by the sessions' port, or by reading the feed; some by a program that reads all of it."""
    kind = turn % 10
    if kind == 0:
        return ask_program(server.feed_port, "explain", "10.1.2.3")
    if kind == 1:
        return ask_program(server.feed_port, "dump")
    if kind < 5:
        return ask_program(server.port, "get", f"10.{turn % 200}.1.2")
    return read_tables(server, kind < 8)


def ask_all(server, questions):
    """Asks so many questions, several at a time. Gives how many were answered, and the seconds of all and of the slowest."""
    start = time.monotonic()

    def ask_some(place):
        return [timed(ask, server, turn) for turn in range(place, questions, ASKERS)]

    asked = [one for some in in_threads(ASKERS, ask_some) for one in some]
    return sum(answered for answered, _ in asked), time.monotonic() - start, max(spent for _, spent in asked)


def timed(call, *words):
    """What a call gives, or False where its connection fails; and how many seconds it took."""
    start = time.monotonic()
    try:
        given = call(*words)
    except OSError:
        given = False
    return given, time.monotonic() - start


def promise_answers(server, when, questions=QUESTIONS):
    answered, spent, slowest = ask_all(server, questions)
    figures = f"{answered} of {questions} in {spent:.1f} s, the slowest in {slowest:.1f} s"
    promise(f"questions {when} are answered", answered == questions, figures)


class Reader(threading.Thread):
    """A follower that reads each change until the feed ends."""

    def __init__(self, server):
        super().__init__(daemon=True)
        self.follower = Follower(server)
        self.changes, self.last = 0, self.follower.number
        self.start()

    def run(self):
        # Its end may come as a reset.
        with contextlib.suppress(ConnectionResetError):
            self.read()

    def read(self):
        first = self.last
        for line in self.follower.lines:
            if not line.startswith("#"):
                self.changes += 1
                self.last = first + self.changes
                # Each tenth is looked at: a number left out shows in all after it.
                if self.changes % 10 == 0 and not line.startswith(f"{self.last} "):
                    self.last = -1
                    return


class Stopped:
    """A follower in a process of its own, which is stopped as it reads, and later killed: as one whose machine vanished."""

    def __init__(self, server):
        place = server.feed_port if server.folder else ("127.0.0.1", server.feed_port)
        code = f"import socket\nend = socket.socket(socket.{'AF_UNIX' if server.folder else 'AF_INET'})\nend.connect({place!r})\n" \
               "while part := end.recv(65536): print(len(part), flush=True)\n"
        self.process = subprocess.Popen([sys.executable, "-c", code], stdout=subprocess.PIPE)
        serving.RUNNING.append(self.process)
        self.process.stdout.readline()
        self.process.send_signal(signal.SIGSTOP)

    def kill(self):
        self.process.kill()
        self.process.communicate()


class Writer(threading.Thread):
    """A client that replaces its own routes until the time is over, and counts what it is told."""

    def __init__(self, server, place, until):
        super().__init__()
        self.client, self.place, self.until = Client(server), place, until
        self.replies = Counter()
        self.start()

    def run(self):
        turn = 0
        while time.monotonic() < self.until or turn < LEAST:
            reply = self.client.ask(f"route replace 172.{self.place}.{turn % OWN}.0/24 {REST} proto {200 + turn % 7}")
            self.replies["ok" if reply.startswith("ok ") else reply or "the connection ended"] += 1
            turn += 1
        self.client.close()


def last_line(text):
    """The last whole line of a text that ends with it; nothing where it goes on."""
    lines, _, rest = text.rpartition(b"\n")
    return b"" if rest else lines.rpartition(b"\n")[2]


class Lister(threading.Thread):
    """A client that lists all routes over and over until the time is over."""

    def __init__(self, server, until):
        super().__init__()
        self.server, self.until = server, until
        self.listings, self.wrong = 0, None
        self.start()

    def run(self):
        with self.server.connect() as end:
            while time.monotonic() < self.until and not self.wrong:
                end.sendall(b"route show table all\n")
                last = self.read_listing(end)
                if not last.startswith("end ") or not PRELOADED <= int(last[4:]) <= SIZE.routes:
                    self.wrong = last
                self.listings += 1

    @staticmethod
    def read_listing(end):
        """The last line of a listing."""
        tail = b""
        while not (last := last_line(tail)).startswith((b"end ", b"error ")):
            part = end.recv(1 << 20)
            if not part:
                return "the connection ended"
            tail = tail[-64:] + part
        return last.decode()


def watch(server, until):
    """The least and the most memory in each quarter of the time, in KB."""
    start, quarters = time.monotonic(), [[], [], [], []]
    while (now := time.monotonic()) < until:
        quarters[min(3, int(4 * (now - start) / (until - start)))].append(server.memory())
        time.sleep(0.1)
    return [min(quarter) for quarter in quarters], [max(quarter) for quarter in quarters]


def promise_changes(server):
    """All at once: writers, a lister, questions, and followers of whom some don't read."""
    before = server.memory()
    readers = [Reader(server) for _ in range(READING)]
    deaf = [Follower(server, room=2048) for _ in range(DEAF)]
    stopped = Stopped(server)
    until = time.monotonic() + SIZE.seconds
    writers = [Writer(server, 16 + place, until) for place in range(WRITERS)]
    lister = Lister(server, until)
    asking = threading.Thread(target=promise_answers, args=(server, "beside changes"))
    asking.start()
    least, most = watch(server, until)
    for thread in [*writers, lister, asking]:
        thread.join()
    promise_of_writers(sum((writer.replies for writer in writers), Counter()), lister)
    stopped.kill()
    promise_followers(server, readers, deaf)
    promise("memory is level", max(most) <= before + ROOM and least[3] <= least[1] + GROWTH,
            f"{before} KB before, {server.memory()} KB after; the least in each quarter {least}, the most {most};",
            f"at most {ROOM} KB more than before, and the least {GROWTH} KB more than in the second quarter")


def promise_of_writers(replies, lister):
    accepted = replies.pop("ok", 0)
    promise("each command is accepted", not replies and accepted > 0,
            f"{accepted} by {WRITERS} writers, {accepted / SIZE.seconds:.0f} a second; refused: {dict(replies)}")
    promise("each listing is whole", lister.wrong is None and lister.listings > 0, lister.listings, lister.wrong or "")


def promise_followers(server, readers, deaf):
    """Those that read have each change; the places of the others are free."""
    client = Client(server)
    last = int(client.ask("rule flush").removeprefix("ok "))
    client.close()
    until = time.monotonic() + 30
    while time.monotonic() < until and any(reader.last < last for reader in readers):
        time.sleep(0.1)
    whole = sum(reader.last == last for reader in readers)
    promise("followers that read have each change", whole == READING, f"{whole} of {READING}, to number {last}")
    start, later = time.monotonic(), []
    while len(later) < DEAF + 1 and time.monotonic() < start + ENDING:
        reader = Reader(server)
        # One that finds no place for a second is closed.
        reader.join(2)
        if reader.is_alive():
            later.append(reader)
    promise("the places of those that don't are free again", len(later) == DEAF + 1,
            f"{len(later)} of {DEAF + 1}, after {time.monotonic() - start:.0f} s")
    for follower in [*deaf, *(reader.follower for reader in readers + later)]:
        follower.end.shutdown(socket.SHUT_RDWR)


def promise_silent(server):
    """Clients that say nothing, beside one that talks."""
    silent = [server.connect() for _ in range(SILENT)]

    def ask_one(turn):
        client = Client(server)
        reply = client.ask(f"route get 10.0.{turn}.1")
        client.close()
        return reply.startswith("answer ")

    asked = [timed(ask_one, turn) for turn in range(20)]
    slowest = max(spent for _, spent in asked)
    promise(f"a client is answered beside {SILENT} silent ones", all(answered for answered, _ in asked) and slowest < 1,
            f"the slowest of {len(asked)} in {slowest * 1000:.0f} ms; at most 1000 ms")
    for end in silent:
        end.close()


def promise_descriptors():
    """Descriptors run out, and come back."""
    start = time.monotonic()
    server = Server("--feed", "127.0.0.1:0", database="few.db", under=("prlimit", "--nofile=64"))
    early = Client(server)
    served = 0
    for turn in range(SIZE.turns):
        is_served = early.ask("rule flush").startswith("ok ")
        # An odd number and an even one, since a connection may take two descriptors.
        silent = [server.connect() for _ in range(100 + turn % 2)]
        time.sleep(1)
        is_served &= early.ask("rule flush").startswith("ok ")
        for end in silent:
            end.close()
        late = Client(server)
        served += is_served and late.ask("rule flush").startswith("ok ") and Follower(server).number > 0
        late.close()
    told = server.kill(signal.SIGTERM)
    # Once a minute.
    most = 1 + int(time.monotonic() - start) // 60
    promise("it goes on after descriptors ran out", served == SIZE.turns and 1 <= told.count("\n") <= most,
            f"{served} of {SIZE.turns} times; told {told!r}")


def main():
    start = time.monotonic()
    database_of(PRELOADED)
    server = Server("--feed", "127.0.0.1:0", "--workers", str(WORKERS), variables=VARIABLES)
    print(f"{SIZE.routes} routes, {server.memory()} KB, after {time.monotonic() - start:.1f} s", flush=True)
    promise_answers(server, "on a quiet server")
    promise_silent(server)
    promise_changes(server)
    promise_answers(server, "after all of it", QUESTIONS // 4)
    told = server.kill(signal.SIGTERM)
    promise("nothing failed", told == "", repr(told))
    promise_descriptors()
    kept = sum(results)
    print(f"took {time.monotonic() - start:.0f} s; the database has {os.path.getsize(DATABASE)} bytes")
    print(f"{kept} passed, {len(results) - kept} failed")
    sys.exit(kept != len(results))


main()
