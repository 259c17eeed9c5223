"""Runs of the program that are recorded, and what a database may hold that a cut in one of them left."""

import os
import re
import socket
import sqlite3
import subprocess
import sys
import tempfile
import threading
from typing import NamedTuple

sys.path.insert(0, os.path.join(os.path.dirname(os.path.realpath(__file__)), ".."))

from others import PARTS, seen_in
from disk import Disk, read_record
from scripts import DATABASE, LISTINGS, PATIENCE, PROGRAM, TOP, Wrong, a_command, a_replacement, run, states_of

HERE = os.path.dirname(os.path.realpath(__file__))
# Files in memory, where the machine has them: a test opens hundreds of databases.
ROOM = "/dev/shm" if os.access("/dev/shm", os.W_OK) else None
CLIENTS = 8
# How many commands are tried: a batch of so many fills its log, and moves it into the file on the way.
BATCH, ATOMIC, LATER, EACH_CLIENT, FORMER = 900, 300, 150, 60, 300
# How many atomic scripts each client of a server sends, and how many commands each has at most.
SCRIPTS, TOGETHER = 6, 60
FORMER_SQL = "tests/cases/database_of_format_1/former.sql"
TOLD = re.compile(rb"^ok (\d+)$", re.MULTILINE)
PLACE = re.compile(r"(?:listening|atomic) 127\.0\.0\.1:(\d+)\n")


class Recording(NamedTuple):
    """A run that was recorded.

    It began with these files, in which so many commands were accepted, and accepted the lines after those. The states
    are those before the first line and after each. Which of them a cut may leave, `allowed` gives by the numbers that
    were told before. What others see in the files that it began with, they have to see in each image; nothing is theirs
    in most.
    """
    files: dict
    first: int
    lines: list
    states: list
    entries: list
    allowed: object
    others: list = []


def library(name, folder):
    """Compiles a library of this folder."""
    made = f"{folder}/{name}.so"
    subprocess.run(["cc", "-shared", "-fPIC", "-O1", "-pthread", "-o", made, f"{HERE}/{name}.c", "-ldl"], check=True)
    return made


def write_files(folder, files):
    """Makes a folder with these files. Gives the path of the database."""
    os.mkdir(folder)
    for name, content in files.items():
        with open(f"{folder}/{name}", "wb") as file:
            file.write(content)
    return f"{folder}/{DATABASE}"


def files_in(folder):
    """The bytes of each file of a folder."""
    files = {}
    for name in os.listdir(folder):
        with open(f"{folder}/{name}", "rb") as file:
            files[name] = file.read()
    return files


def recorded(preloaded, files, work):
    """What `work` gives of a run over a database beside these files, and the record of the run.

    The record has to show all that the run did: played to its end it makes the files that are there.
    """
    with tempfile.TemporaryDirectory(dir=ROOM) as made:
        folder = f"{os.path.realpath(made)}/disk"
        path = write_files(folder, files)
        gave = work(path, {"LD_PRELOAD": preloaded, "FOLDER": folder, "RECORD": f"{made}/record"})
        entries, left = read_record(f"{made}/record"), files_in(folder)
    disk = Disk(files, False)
    for entry in entries:
        disk.do(entry)
    if disk.image(None, "all") != left:
        raise Wrong(f"the record doesn't show what the run did to {', '.join(left)}")
    return gave, entries


def numbers_told(entries):
    """The numbers that a run told as accepted."""
    return [int(number) for entry in entries if entry.kind == "tell" for number in TOLD.findall(entry.data)]


def batch(preloaded, dice, count, *words, files=None, before=()):
    """A recorded run over a script, where the files hold what the lines before it make: it leaves at most one more."""
    files, first = files or {}, len(before)
    lines, states = states_of([*before, *(a_command(dice) for _ in range(count))])
    script = "".join(f"{line}\n" for line in lines[first:])
    gave, entries = recorded(preloaded, files,
                             lambda path, variables: run(["batch", *words, "--db", path], script, variables))
    wanted = range(first + 1, len(lines) + 1)
    if gave.stdout != "".join(f"ok {number}\n" for number in wanted) or numbers_told(entries) != list(wanted):
        raise Wrong(f"a run ended with status {gave.returncode}: {gave.stdout[-200:]}{gave.stderr}")
    return Recording(files, first, lines, states, entries,
                     lambda told: range(max(told, default=first), len(states))[:2])


def atomic(preloaded, dice):
    """A recorded run over an atomic file: it leaves all of it or nothing."""
    made = batch(preloaded, dice, ATOMIC, "--atomic")
    last = len(made.lines)
    return made._replace(allowed=lambda told: [last] if told else [0, last])


def converse(port, lines):
    """A client: each line with the first line of its reply. No line is sent before the reply to the last one."""
    with socket.create_connection(("127.0.0.1", port), PATIENCE) as end, end.makefile("r") as replies:
        answered = []
        for line in lines:
            end.sendall(f"{line}\n".encode())
            answered.append((line, replies.readline()))
    return answered


def make_together(port, scripts):
    """A client of atomic scripts: each script with its replies. None is sent before the replies to the last one."""
    answered = []
    for lines in scripts:
        with socket.create_connection(("127.0.0.1", port), PATIENCE) as end, end.makefile("r") as replies:
            end.sendall("".join(f"{line}\n" for line in lines).encode())
            end.shutdown(socket.SHUT_WR)
            answered.append((lines, replies.readlines()))
    return answered


def serve(path, variables, places, sessions, works):
    """A server that listens at so many places, and its clients, which work at the last of them. Gives what they give."""
    words = ["serve", "--db", path, "--workers", str(CLIENTS), "--sessions", str(sessions)]
    words += [word for place in places for word in (place, "127.0.0.1:0")]
    answered = []
    with subprocess.Popen([PROGRAM, *words], stdin=subprocess.DEVNULL, stdout=subprocess.PIPE, text=True,
                          env=variables) as server:
        told = [PLACE.fullmatch(server.stdout.readline()) for _ in places]
        if not all(told):
            raise Wrong("a server doesn't listen")
        port = int(told[-1][1])
        clients = [threading.Thread(target=lambda work=work: answered.extend(work(port))) for work in works]
        for client in clients:
            client.start()
        for client in clients:
            client.join(PATIENCE)
        try:
            server.wait(PATIENCE)
        finally:
            server.kill()
    return answered


def recording_of(entries, by_number, allowed):
    """The record of a server, whose clients were told these lines' numbers."""
    lines = [by_number[number] for number in sorted(by_number)]
    accepted, states = states_of(lines)
    if len(accepted) != max(by_number):
        raise Wrong("the numbers that the clients were told are not those of a run over their commands")
    if sorted(numbers_told(entries)) != sorted(by_number):
        raise Wrong("the record doesn't show what the clients were told")
    return Recording({}, 0, lines, states, entries, allowed)


def served(preloaded, dice):
    """A recorded server: a cut leaves what the commands up to some number make, as far as any client was told."""
    scripts = [[a_command(dice) for _ in range(EACH_CLIENT)] for _ in range(CLIENTS)]
    works = [lambda port, lines=lines: converse(port, lines) for lines in scripts]
    answered, entries = recorded(preloaded, {}, lambda path, variables: serve(path, variables, ["--listen"], CLIENTS, works))
    if len(answered) != CLIENTS * EACH_CLIENT:
        raise Wrong("a client was told too little")
    by_number = {int(reply[3:]): line for line, reply in answered if reply.startswith("ok ")}
    return recording_of(entries, by_number, lambda told: range(max(told, default=0), len(by_number) + 1)[:CLIENTS + 1])


def served_together(preloaded, dice):
    """A recorded server of atomic scripts: a cut leaves whole ones, each that any client was told of."""
    scripts = [[[a_replacement(dice) for _ in range(dice.randrange(1, TOGETHER))] for _ in range(SCRIPTS)] for _ in range(CLIENTS)]
    works = [lambda port, own=own: make_together(port, own) for own in scripts]
    answered, entries = recorded(preloaded, {}, lambda path, variables: serve(
        path, variables, ["--listen", "--atomic"], CLIENTS * SCRIPTS, works))
    by_number, ends = {}, [0]
    for lines, replies in sorted(answered, key=lambda told: int(told[1][0][3:])):
        numbers = range(ends[-1] + 1, ends[-1] + len(lines) + 1)
        if replies != [f"ok {number}\n" for number in numbers]:
            raise Wrong(f"a script of {len(lines)} was told {replies[:2]} after {ends[-1]}")
        by_number |= dict(zip(numbers, lines))
        ends.append(numbers[-1])
    return recording_of(entries, by_number, lambda told: [end for end in ends if end >= max(told, default=0)][:CLIENTS + 1])


def later(preloaded, dice):
    """A recorded run over a file and a log as a cut in an earlier run has left them."""
    first = batch(preloaded, dice, LATER)
    disk = Disk(first.files, False)
    for entry in first.entries[:dice.randrange(len(first.entries) // 2, len(first.entries) * 3 // 4)]:
        disk.do(entry)
    files = disk.image(dice, "sectors")
    with tempfile.TemporaryDirectory(dir=ROOM) as made:
        shown = run(["batch", "--db", write_files(f"{made}/disk", files)], LISTINGS).stdout
    if shown not in first.states:
        raise Wrong("the earlier cut left no state")
    held = first.states.index(shown)
    return batch(preloaded, dice, LATER, files=files, before=first.lines[:held])


def former_statements():
    """The statements of each table of a file of format 1."""
    with open(f"{TOP}/{FORMER_SQL}", encoding="ascii") as file:
        statements = [line for line in file.read().splitlines() if not line.startswith("--")]
    return [[line for line in statements if f" {name} " in f" {line.split('(')[0]} "] for name in ("rule", "route", "meta")]


def beside(parts, has_others):
    """The statements of a file with tables of others before, between and after ours, if it has any."""
    rule, route, meta = parts
    return [PARTS[0], rule, PARTS[1], route, meta, PARTS[2]] if has_others else parts


def former_file(is_logged, has_others):
    """A file of format 1, as SQLite writes it, with the commands that make the same: with a log, or with a journal."""
    nets = [(number // 200, number % 200) for number in range(FORMER)]
    lines = ["route add default dev wg0 table 51820", "rule add not fwmark 51820 table 51820"]
    lines += [f"route add 10.{upper}.{lower}.0/24 via 192.0.2.1 metric 7" for upper, lower in nets]
    rows = [(254, (10 << 24) + (upper << 16) + (lower << 8), 24, 7, 1, 0xc0000201, "", -1, 3, 0)
            for upper, lower in nets]
    with tempfile.TemporaryDirectory(dir=ROOM) as folder:
        database = sqlite3.connect(f"{folder}/{DATABASE}")
        if is_logged:
            database.execute("PRAGMA journal_mode = WAL")
        database.executescript("\n".join(f"{line.rstrip(';')};" for part in beside(former_statements(), has_others) for line in part))
        database.executemany(f"INSERT INTO route VALUES ({', '.join('?' * 10)})", rows)
        database.execute("UPDATE meta SET count = ?", (len(lines),))
        database.commit()
        database.close()
        return files_in(folder), lines


def others_in(files):
    """What others see in files of theirs and ours."""
    with tempfile.TemporaryDirectory(dir=ROOM) as made:
        return seen_in(write_files(f"{made}/disk", files))


def migration(preloaded, is_logged, has_others=False):
    """A recorded opening of a file of format 1: a cut leaves the same state."""
    files, lines = former_file(is_logged, has_others)
    _, states = states_of(lines)
    gave, entries = recorded(preloaded, files,
                             lambda path, variables: run(["batch", "--db", path], LISTINGS, variables))
    if gave.stdout != states[-1]:
        raise Wrong(f"a file of format 1 lists\n{gave.stdout}{gave.stderr}")
    return Recording(files, len(lines), lines, states, entries, lambda told: [len(lines)],
                     others_in(files) if has_others else [])


def batch_beside_others(preloaded, dice):
    """A recorded run over a file with tables of others, which an earlier run has migrated."""
    files, lines = former_file(True, True)
    with tempfile.TemporaryDirectory(dir=ROOM) as made:
        folder = f"{made}/disk"
        ended = run(["batch", "--db", write_files(folder, files)], LISTINGS)
        if ended.returncode:
            raise Wrong(f"a file with tables of others isn't opened: {ended.stderr}")
        migrated = files_in(folder)
    made = batch(preloaded, dice, LATER, files=migrated, before=lines)
    return made._replace(others=others_in(files))
