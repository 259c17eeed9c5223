"""Memory of 64 versions that lookers hold, beside that of one."""

import random
import subprocess
import sys
import tempfile
import threading

from peak import peak_of
from routes import addr_text, route_line, tables

SIZES = (20_000, 40_000)
LOOKERS = 64
TOGETHER = 16

# What makes an accepted list of commands an acknowledged one, but for its store calls.
SHOWN = ["publish", "note", "ack", "reclaim"]


def adds(prefixes):
    """Events that add the routes, some in each transaction."""
    for first in range(0, len(prefixes), TOGETHER):
        some = prefixes[first : first + TOGETHER]
        yield "submitall " + " ; ".join(f"route add {addr_text(bits)}/{length} via 192.0.2.1" for bits, length in some)
        yield from ["call"] * (len(some) + 3)
        yield from SHOWN


def held(prefixes, lookers):
    """Events that make versions which differ by one route each, of which each of so many lookers holds one."""
    for number in range(LOOKERS):
        bits, length = prefixes[number * 7919 % len(prefixes)]
        looker = number % lookers
        yield from (f"online {looker}", f"fetch {looker}", f"announce {looker}")
        yield f"submit route replace {addr_text(bits)}/{length} via 192.0.2.9"
        yield from ["call"] * 4
        yield from SHOWN


def memory_of_replay(program, events):
    """The most memory of a replay in MB when it begins to write, which is where its pipe is full."""
    with tempfile.NamedTemporaryFile("w") as script:
        script.writelines(f"{event}\n" for event in events)
        script.flush()
        process = subprocess.Popen([program, "replay", script.name], stdout=subprocess.PIPE)
        process.stdout.read(1)
        most = peak_of(process)
        process.communicate()
    return most


def memory_of_batch(program, lines):
    """The most memory in MB of a script whose lines were all replied to, and whose input has not ended."""
    with subprocess.Popen([program, "batch"], stdin=subprocess.PIPE, stdout=subprocess.PIPE, text=True) as process:
        writer = threading.Thread(target=lambda: (process.stdin.writelines(lines), process.stdin.flush()))
        writer.start()
        for _ in lines:
            process.stdout.readline()
        writer.join()
        return peak_of(process)


def show(program, name, prefixes):
    events = list(adds(prefixes))
    few, many = (memory_of_replay(program, [*events, *held(prefixes, lookers)]) for lookers in (1, LOOKERS))
    one = memory_of_batch(program, [route_line("add", prefix, 1) for prefix in prefixes])
    one -= memory_of_batch(program, ["rule flush\n"])
    print(
        f"{len(prefixes):>7} {name:<20} {one:5.2f} MB a version, {1 + (many - few) / one:5.2f} times that with 63 more",
        flush=True,
    )


def main():
    numbers = random.Random(1)
    for count in SIZES:
        for name, prefixes in tables(numbers, count):
            show(sys.argv[1], name, prefixes)


main()
