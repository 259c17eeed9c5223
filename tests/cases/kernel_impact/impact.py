"""A kernel before a change and after it: it sends a packet another way exactly if a group of `prt impact --exact` has the packet,
and its two answers are different ways.

    impact.py PROGRAM PAIRS PACKETS

In each pair a namespace gets random rules and routes, is listed, and gets a random change by `ip`. `prt impact` is given both
listings: what it imports of the first, and the lines that bring that to the second. Packets that the host sends, and packets
that it forwards from each interface, are tried in the kernel before and after. They go another way if the interface, the
gateway or the reason why there is none is another.
"""

import os
import random
import re
import sys

from groups import GROUP, is_in, number
from kernel import Space, import_tables, prt, text_of

PAIRS, PACKETS = int(sys.argv[2]), int(sys.argv[3])
DEVICES = ["d0", "d1", "d2"]
ADDRESSES = {device: f"192.0.{place}.1/24" for place, device in enumerate(DEVICES)}
TABLES = ["main", "default", "7", "100"]
MARKS = [0, 1, 7, 0x10, 0x1F]
# The kernel looks gateways up by the rules, and refuses those that it doesn't find.
GATEWAYS = "rule add priority 1 to 192.0.0.0/16 table main"


def a_prefix():
    """A prefix within a few blocks, so that many contain one another."""
    length = random.choice([0, 8, 9, 16, 24, 31, 32])
    bits = (0x0A000000 | random.getrandbits(32) & 0x0303FFFF) >> 32 - length << 32 - length if length else 0
    return "%d.%d.%d.%d/%d" % (bits >> 24, bits >> 16 & 255, bits >> 8 & 255, bits & 255, length)


def a_route():
    rest = f"table {random.choice(TABLES)}{random.choice(['', ' metric 5'])}"
    where, place = random.random(), random.randrange(len(DEVICES))
    if where < 0.2:
        return f"{random.choice(['blackhole', 'unreachable', 'prohibit', 'throw'])} {a_prefix()} {rest}"
    if where < 0.5:
        return f"{a_prefix()} dev {DEVICES[place]} {rest}"
    return f"{a_prefix()} via 192.0.{place}.{random.randrange(2, 9)} dev {DEVICES[place]} {rest}"


def a_rule():
    parts = ["not"] if random.random() < 0.25 else []
    parts += [f"priority {random.choice([5, 50, 500, 5000, 40000])}"]
    parts += [f"from {a_prefix()}"] if random.random() < 0.4 else []
    parts += [f"to {a_prefix()}"] if random.random() < 0.3 else []
    parts += [f"iif {random.choice(DEVICES)}"] if random.random() < 0.3 else []
    parts += [f"fwmark {random.choice(['7', '0x10/0xf0', '0x1/0x3'])}"] if random.random() < 0.4 else []
    if random.random() < 0.8:
        parts.append(f"table {random.choice(TABLES)}")
        parts += [f"suppress_prefixlength {random.choice([0, 8, 24])}"] if random.random() < 0.3 else []
    else:
        parts.append(random.choice(["blackhole", "unreachable", "prohibit"]))
    return " ".join(parts)


def some_tables():
    return [GATEWAYS] + [f"rule add {a_rule()}" for _ in range(random.randrange(1, 6))] + [f"route add {a_route()}" for _ in range(random.randrange(5, 40))]


def a_change():
    lines = [f"rule add {a_rule()}" for _ in range(random.randrange(2))]
    lines += [f"rule del priority {random.choice([5, 50, 500, 5000, 32766])}" for _ in range(random.randrange(2))]
    lines += [f"route replace {a_route()}" for _ in range(random.randrange(1, 4))]
    lines += [f"route del {a_prefix()} table {random.choice(TABLES)}" for _ in range(random.randrange(4))]
    return lines


def a_packet():
    """A packet to one of many routes, from this host or through it."""
    destination = random.choice([a_prefix().split("/")[0], "11.0.0.1", "198.51.100.7"]).replace("0.0.0.0", "10.0.0.0")
    mark = random.choice(MARKS)
    if random.random() < 0.5:
        return destination, "0.0.0.0", "lo", mark
    return destination, random.choice([a_prefix().split("/")[0].replace("0.0.0.0", "10.0.0.9"), "198.51.100.9"]), random.choice(DEVICES), mark


def query(packet):
    destination, source, iif, mark = packet
    through = "" if iif == "lo" else f" from {source} iif {iif}"
    return f"route get {destination}{through}" + (f" mark {mark}" if mark else "")


def ways(space, packets):
    """The interface and the gateway that the kernel gives each packet, or why it has none."""
    told = space.ip("-o", "-force", "-batch", "-", input=text_of(map(query, packets)))
    failed = {int(line): why for why, line in re.findall(r"^(.*)\nCommand failed -:(\d+)", told.stderr, re.M)}
    found = iter(told.stdout.splitlines())
    return [failed[place] if place in failed else re.findall(r" (?:dev|via) (\S+)", next(found)) for place in range(1, len(packets) + 1)]


def way_of(answer):
    """What the kernel shows of an answer. A rule that is unreachable looks like no route, and unlike a route that is."""
    if re.fullmatch(r"none|rule \d+ unreachable", answer):
        return "none"
    kind = re.search(r"\b(blackhole|unreachable|prohibit)\b", answer)
    return kind[1] if kind else re.findall(r" (?:dev|via) (\S+)", answer)


def new_host():
    space = Space(ADDRESSES)
    # It forwards, whatever way the answer to a packet would go.
    space.run("sysctl", "-qw", "net.ipv4.ip_forward=1", "net.ipv4.conf.all.rp_filter=0", *(f"net.ipv4.conf.{device}.rp_filter=0" for device in DEVICES))
    return space


def one_pair():
    space = new_host()
    space.ip("-force", "-batch", "-", input=text_of(some_tables()))
    before, packets = space.listed(), [a_packet() for _ in range(PACKETS)]
    was = ways(space, packets)
    space.ip("-force", "-batch", "-", input=text_of(a_change()))
    after, now = space.listed(), ways(space, packets)
    space.close()
    import_tables(after)
    with open("before", "w") as first, open("change", "w") as second:
        first.write(prt("import", input=before).stdout)
        second.write(prt("diff", "--all", "--db", "routes.db", input=before).stdout)
    shown = prt("impact", "--exact", "before", "change")
    groups = [GROUP.fullmatch(line) for line in shown.stdout.splitlines()]
    groups = [group for group in groups if not group or way_of(group["was"]) != way_of(group["is"])]
    named = set(re.findall(r" iif (\S+)", before + after))
    wrong = [f"{shown.stderr}"] if shown.stderr or not all(groups) else []
    for packet, first, second in zip(packets, was, now):
        destination, source, iif, mark = packet
        has = any(is_in(group, (number(destination), number(source), iif, mark), named) for group in groups)
        if has != (first != second):
            wrong.append(f"{query(packet)}: {first} -> {second}, in a group: {has}")
    if wrong:
        print(*wrong[:5], before, after, sep="\n")
    return len(wrong), sum(first != second for first, second in zip(was, now)), len(groups)


def main():
    random.seed(int(os.environ.get("SEED", 0)) or None)
    results = [one_pair() for _ in range(PAIRS)]
    wrong, changed, groups = map(sum, zip(*results))
    print(f"{wrong} packets otherwise")
    print(f"{PAIRS} pairs of {PACKETS} packets, {changed} went another way, {groups} groups", file=sys.stderr)


main()
