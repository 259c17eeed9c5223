"""Starts `prt serve` for the cases serve_*, and talks to it over TCP, or over its Unix sockets.

The program's path is the first argument of a case; it runs in an empty folder, in which the database is made. With PRT_SOCKETS=1
in the environment each server is on sockets in place of ports, so a case of ports runs over sockets too.
"""

import atexit
import os
import re
import signal
import socket
import sqlite3
import subprocess
import sys
import threading

PROGRAM = sys.argv[1]
DATABASE = "routes.db"
# How many seconds a client waits for anything before its case fails.
PATIENCE = 50
# Whether servers are on Unix sockets in place of ports.
OVER_SOCKETS = os.environ.get("PRT_SOCKETS") == "1"
# Each server that was started.
RUNNING = []


def end_all():
    """Ends each server that still runs: a case that fails, or takes too long, leaves none behind."""
    for process in RUNNING:
        process.kill()


def give_up(*_):
    end_all()
    os._exit(1)


atexit.register(end_all)
signal.signal(signal.SIGTERM, give_up)


def without_ports(words):
    """Words of `serve` without its options for ports."""
    rest = list(words)
    for option in ("--feed", "--atomic"):
        if option in rest:
            place = rest.index(option)
            del rest[place : place + 2]
    return rest


class Server:
    """A server on a port of the loopback, a free one if none is said, with these further words and variables.

    If a folder is said it is on the sockets there, and on no port. It runs under a program where words for that are given.
    It takes sessions at `port` and atomic scripts at `atomic_port`, and sends its changes from `feed_port`, each if it does: a
    port, or the path of a socket.
    """

    def __init__(self, *words, database=DATABASE, variables=None, under=(), port=0, folder=None):
        if OVER_SOCKETS:
            folder = folder or f"./sockets{len(RUNNING)}"
        if folder:
            os.makedirs(folder, exist_ok=True)
            words = ["--sockets", folder, *without_ports(words)]
        else:
            words = ["--listen", f"127.0.0.1:{port}", *words]
        self.folder = folder
        self.process = subprocess.Popen(
            [*under, PROGRAM, "serve", "--db", database, *words],
            stdin=subprocess.DEVNULL,
            stdout=subprocess.PIPE,
            stderr=subprocess.PIPE,
            text=True,
            env=os.environ | (variables or {}),
        )
        RUNNING.append(self.process)
        if folder:
            self.await_line("sockets (" + re.escape(folder) + ")")
            self.port, self.atomic_port, self.feed_port = (f"{folder}/{name}" for name in ("session", "atomic", "feed"))
        else:
            self.port = self.port_after("listening")
            self.atomic_port = self.port_after("atomic") if "--atomic" in words else None
            self.feed_port = self.port_after("feeding") if "--feed" in words else None

    def await_line(self, pattern):
        """What a group of the pattern finds in the next line, which says where the server listens."""
        line = self.process.stdout.readline()
        told = re.fullmatch(pattern + r"\n", line)
        if not told:
            self.process.kill()
            sys.exit(f"the server said {line!r} and {self.process.communicate()[1]!r}")
        return told[1]

    def port_after(self, word):
        return int(self.await_line(word + r" 127\.0\.0\.1:(\d+)"))

    def asked(self):
        """The words of a client that asks this server."""
        return ["--server", self.folder or f"127.0.0.1:{self.feed_port}"]

    def applied(self):
        """The words of a client that makes its tables others."""
        return self.asked() + ([] if self.folder else ["--atomic", f"127.0.0.1:{self.atomic_port}"])

    def connect(self, room=None):
        """A client's end of a connection, with room for so many bytes that came and weren't read, where that is said."""
        end = connected(self.port, room)
        if not self.folder:
            end.setsockopt(socket.IPPROTO_TCP, socket.TCP_NODELAY, 1)
        return end

    def end(self):
        """Waits until the server ends by itself. Gives its status and all that it said since it was listening."""
        said, told = self.process.communicate(timeout=PATIENCE)
        return self.process.returncode, said + told

    def kill(self, number):
        """Kills it with the signal of this number. Gives all that it said since it was listening."""
        self.process.send_signal(number)
        said, told = self.process.communicate(timeout=PATIENCE)
        return said + told

    def memory(self):
        """The memory that it has now, in KB."""
        with open(f"/proc/{self.process.pid}/status", encoding="ascii") as status:
            return int(next(line for line in status if line.startswith("VmRSS:")).split()[1])

    def processor_time(self):
        """The seconds of a processor that it has used so far."""
        with open(f"/proc/{self.process.pid}/stat", encoding="ascii") as figures:
            user, system = figures.read().rpartition(")")[2].split()[11:13]
        return (int(user) + int(system)) / os.sysconf("SC_CLK_TCK")


def connected_to_socket(path):
    """A connection to a Unix socket. One that isn't there any more refuses it, as a port does."""
    end = socket.socket(socket.AF_UNIX)
    # While others wait, only a call without a time limit waits too.
    try:
        end.connect(path)
    except FileNotFoundError as error:
        raise ConnectionRefusedError from error
    end.settimeout(PATIENCE)
    return end


def connected(port, room=None):
    """A connection to a port of the loopback, or to the Unix socket at a path."""
    if isinstance(port, str):
        return connected_to_socket(port)
    end = socket.socket()
    end.settimeout(PATIENCE)
    if room:
        end.setsockopt(socket.SOL_SOCKET, socket.SO_RCVBUF, room)
        # In small segments: what the other side keeps of what it has sent is some of its segments.
        end.setsockopt(socket.IPPROTO_TCP, socket.TCP_MAXSEG, 512)
    end.connect(("127.0.0.1", port))
    return end


def read_all(end):
    """All bytes until the other side ends; `reset` where it breaks off."""
    parts = []
    try:
        while part := end.recv(65536):
            parts.append(part)
    except ConnectionResetError:
        parts.append(b"reset")
    return b"".join(parts)


def converse(server, script):
    """Sends a script, ends the writing side, and gives all replies. Sends and reads side by side."""
    return replies_to(server.connect(), script)


def together(server, script):
    """Sends an atomic script, and gives all replies."""
    return replies_to(connected(server.atomic_port), script)


def replies_to(connection, script):
    with connection as end:
        sender = threading.Thread(target=send, args=(end, script))
        sender.start()
        replies = read_all(end)
        sender.join()
    return replies


def send(end, script):
    """Sends a script and ends the writing side. A session that ended before it leaves the rest unread."""
    try:
        end.sendall(script)
        end.shutdown(socket.SHUT_WR)
    except OSError:
        pass


class Client:
    """A connection on which a line is sent, and its reply awaited."""

    def __init__(self, server):
        self.end = server.connect()
        self.replies = self.end.makefile("rb")

    def ask(self, line):
        """The first line of the reply to a line; empty where the connection has ended."""
        self.end.sendall(line.encode() + b"\n")
        return self.replies.readline().decode().rstrip("\n")

    def listing(self, line):
        """All lines of the reply to a listing; the last one says how many there are, or is a refusal."""
        self.end.sendall(line.encode() + b"\n")
        lines = []
        while not lines or not lines[-1].startswith((b"end ", b"error ")):
            lines.append(self.replies.readline())
            if not lines[-1]:
                break
        return [line.decode().rstrip("\n") for line in lines]

    def close(self):
        self.replies.close()
        self.end.close()


class Follower:
    """Reads a server's feed: at first `number` and `tables`, then one change after the other. Of those that were made together
    `together` has how many there are.
    """

    def __init__(self, server, room=None):
        """With room for so many bytes that came and weren't read, where that is said."""
        first = self.begin(server, room)
        if not first:
            raise ConnectionError("the feed was closed before it began")
        self.number = int(first.removeprefix("state "))
        self.tables, self.together = [], []
        while (line := self.lines.readline()) != "now\n":
            if not line:
                sys.exit(f"the feed ended after {len(self.tables)} lines of its tables")
            self.tables.append(line)

    def begin(self, server, room):
        """Connects, and gives the first line; nothing where the connection is closed."""
        self.end = connected(server.feed_port, room)
        self.lines = self.end.makefile("r")
        try:
            return self.lines.readline()
        except ConnectionResetError:
            return ""

    def close(self):
        self.lines.close()
        self.end.close()

    def next(self):
        """The number and the line of the next change; None where the feed has ended, perhaps within a line. Comments are left out."""
        while (told := self.lines.readline()).startswith("#"):
            if told.startswith("# together "):
                self.together.append(int(told.split()[2]))
        number, _, line = told.partition(" ")
        return (int(number), line) if line.endswith("\n") else None

    def changes(self, count=None):
        """So many changes, or all until the feed ends, whose numbers have to follow each other."""
        lines = []
        while count is None or len(lines) < count:
            told = self.next()
            if told is None:
                break
            if told[0] != self.number + 1:
                print(f"{told[0]} came after {self.number}")
            self.number = told[0]
            lines.append(told[1])
        return lines


def batch(script, *words):
    """What `prt batch --force` replies to a script."""
    return subprocess.run([PROGRAM, "batch", "--force", *words], input=script, capture_output=True).stdout


def database_of(count, path=DATABASE):
    """Makes a database of so many routes, of 10.0.0.0/24, 10.0.1.0/24 and so on, by another program: at once."""
    batch(b"", "--db", path)
    with sqlite3.connect(path) as database:
        database.executemany(
            "INSERT INTO route VALUES (254, ?, 24, 0, 1, -1, ?, -1, 3, 253)",
            (((10 << 24) + (place << 8), f"eth{place % 7}") for place in range(count)),
        )
    database.close()


def preloaded(source):
    """The path of a library, made here of a source that lies beside this file, for LD_PRELOAD."""
    made = os.path.abspath(source.replace(".c", ".so"))
    source = os.path.join(os.path.dirname(os.path.realpath(__file__)), source)
    subprocess.run(["cc", "-shared", "-fPIC", "-O1", "-o", made, source, "-ldl"], check=True)
    return made


def slow_sync(milliseconds, failing="fails"):
    """Variables of a server whose syncs take so long each, and fail while a file of this name is there."""
    return {"LD_PRELOAD": preloaded("sync.c"), "SYNC_MS": str(milliseconds), "SYNC_FAILS": os.path.abspath(failing)}


def in_threads(count, work):
    """Runs work(0) to work(count - 1) side by side, and gives what they return."""
    results = [None] * count

    def run(place):
        results[place] = work(place)

    threads = [threading.Thread(target=run, args=(place,)) for place in range(count)]
    for thread in threads:
        thread.start()
    for thread in threads:
        thread.join()
    return results
