"""Processor time of a command and of a lookup, by where the routes of the table lie, and by how many tables there are."""

import random
import sys
import tempfile

from routes import addr_text, route_line, tables
from spent import spent

TURNS = 3
SIZES = (1_000, 10_000, 20_000, 60_000, 100_000)
TABLES = (60, 100, 1_000, 5_000)
LOOKUPS = 400_000


def seconds(program, lines):
    """The least processor time of some runs over the lines."""
    with tempfile.NamedTemporaryFile("w") as script:
        script.writelines(lines)
        script.flush()
        least = None
        for _ in range(TURNS):
            _, processor = spent([program, "batch"], script.name)
            least = processor if least is None else min(least, processor)
    return least


def show(program, numbers, name, prefixes):
    adds = [route_line("add", prefix, 1) for prefix in prefixes]
    replaces = [route_line("replace", numbers.choice(prefixes), 2) for _ in range(20_000)]
    lookups = [f"route get {addr_text(numbers.choice(prefixes)[0])}\n" for _ in range(LOOKUPS)]
    idle = seconds(program, [])
    added = seconds(program, adds)
    replaced = seconds(program, adds + replaces) - added
    found = seconds(program, adds + lookups) - added
    print(
        f"{len(prefixes):>7} {name:<20} {(added - idle) / len(prefixes) * 1e6:8.1f} us an add, "
        f"{replaced / len(replaces) * 1e6:8.1f} us a replace, {found / LOOKUPS * 1e9:6.0f} ns a get",
        flush=True,
    )


def show_tables(program, count):
    """A new table's first route, which goes again, and another next hop, among so many tables of one route each."""
    first = [f"route add 10/8 dev eth0 table {2 * number + 1}\n" for number in range(count)]
    turns = [number * 7919 % count for number in range(20_000)]
    come_and_go = [
        f"route {verb} 10/8 dev eth0 table {2 * number + 2}\n" for number in turns[:10_000] for verb in ("add", "del")
    ]
    replaces = [f"route replace 10/8 dev eth1 table {2 * number + 1}\n" for number in turns]
    added = seconds(program, first)
    print(
        f"{count:>7} tables              {(seconds(program, first + come_and_go) - added) / 20_000 * 1e6:8.1f} us an add or del of a table's "
        f"one route, {(seconds(program, first + replaces) - added) / 20_000 * 1e6:8.1f} us a replace",
        flush=True,
    )


def main():
    numbers = random.Random(1)
    for count in TABLES:
        show_tables(sys.argv[1], count)
    for count in SIZES:
        for name, prefixes in tables(numbers, count):
            show(sys.argv[1], numbers, name, prefixes)


main()
