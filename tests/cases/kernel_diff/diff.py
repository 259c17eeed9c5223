"""Rules and routes that `ip` made at random are imported, changed, and brought back: the kernel then has what the database has.

    diff.py PROGRAM NAMESPACE ROUNDS
    diff.py PROGRAM NAMESPACE SCRIPT ..

Of scripts the kernel gets the tables of each. Else in each round the namespace gets random rules and routes, and a database gets what was imported of them and a random script.
Then `ip -batch` executes what `prt diff` prints. After it nothing differs, the listings are equal, and the kernel and the
database answer packets alike.
"""

import os
import random
import subprocess
import sys

PROGRAM, SPACE = sys.argv[1], sys.argv[2]
DEVICES = ["d0", "d1", "d2"]
TABLES = ["main", "default", "7", "100", "1000000"]
PROBES = 30


def run(*words, input=None):
    return subprocess.run(words, input=input, capture_output=True, text=True)


def ip(*words, input=None):
    return run("ip", "-n", SPACE, *words, input=input)


def prt(*words, input=None):
    return run(PROGRAM, *words, input=input)


def prefix(random):
    length = random.choice([0, 8, 12, 16, 23, 24, 32])
    bits = random.getrandbits(32) & (0xFFFFFFFF << (32 - length)) & 0xFFFFFFFF
    # Within a few blocks, so that routes contain one another.
    bits = (bits & 0x0303FFFF | 0x0A000000) & (0xFFFFFFFF << (32 - length)) & 0xFFFFFFFF if length else 0
    return "%d.%d.%d.%d/%d" % (bits >> 24, bits >> 16 & 255, bits >> 8 & 255, bits & 255, length)


def route(random):
    table = random.choice(TABLES)
    metric = random.choice(["", " metric %d" % random.choice([1, 7, 100])])
    rest = " table %s%s%s" % (table, metric, random.choice(["", " proto static", " proto dhcp", " proto 99"]))
    where = random.random()
    if where < 0.2:
        return "%s %s%s" % (random.choice(["blackhole", "unreachable", "prohibit", "throw"]), prefix(random), rest)
    device = random.randrange(len(DEVICES))
    if where < 0.5:
        return "%s dev %s%s" % (prefix(random), DEVICES[device], rest)
    return "%s via 192.0.%d.%d dev %s%s" % (prefix(random), device, random.randrange(2, 9), DEVICES[device], rest)


def rule(random, priority):
    parts = ["priority %d" % priority]
    if random.random() < 0.2:
        parts.insert(0, "not")
    if random.random() < 0.5:
        parts.append("from %s" % prefix(random))
    if random.random() < 0.4:
        parts.append("to %s" % prefix(random))
    if random.random() < 0.3:
        parts.append("fwmark %s" % random.choice(["7", "0x10/0xf0"]))
    if random.random() < 0.3:
        parts.append("iif %s" % random.choice(DEVICES))
    act = random.random()
    if act < 0.8:
        parts.append("table %s" % random.choice(TABLES))
        if random.random() < 0.2:
            parts.append("suppress_prefixlength %d" % random.choice([0, 8, 24]))
    else:
        parts.append(random.choice(["blackhole", "unreachable", "prohibit"]))
    return " ".join(parts)


def make_space(addresses):
    for number, (device, address) in enumerate(addresses.items()):
        # Both ends of a cable, since not each kernel has devices without one.
        ip("link", "add", device, "type", "veth", "peer", "name", "p%d" % number)
        ip("link", "set", "p%d" % number, "up")
        ip("address", "add", address, "dev", device)
        ip("link", "set", device, "up")
    ip("link", "set", "lo", "up")


def fill_space(random):
    """Rules and routes by `ip` alone; what the kernel refuses is left out."""
    ip("rule", "flush")
    for table in TABLES:
        ip("route", "flush", "table", table, "proto", "boot")
        ip("route", "flush", "table", table, "proto", "static")
        ip("route", "flush", "table", table, "proto", "dhcp")
    # The kernel looks gateways up by the rules, and refuses those that it doesn't find.
    lines = ["rule add priority 1 to 192.0.0.0/16 table main"]
    lines += ["rule add %s" % rule(random, random.choice([5, 50, 500, 5000, 32766])) for _ in range(random.randrange(1, 8))]
    lines += ["route add %s" % route(random) for _ in range(random.randrange(5, 40))]
    ip("-force", "-batch", "-", input="\n".join(lines) + "\n")


def listed():
    return ip("-4", "route", "show", "table", "all").stdout + ip("-4", "rule", "show").stdout


def changes(random):
    """A script for the database; its refused lines say nothing.

    Its rules have priorities of their own: the kernel refuses one that is more general than another of its priority.
    """
    lines = ["rule add %s" % rule(random, priority) for priority in random.sample([6, 60, 600, 6000], random.randrange(4))]
    lines += ["rule del priority %d" % random.choice([5, 50, 500, 5000]) for _ in range(random.randrange(3))]
    lines += ["route replace %s" % route(random) for _ in range(random.randrange(20))]
    lines += ["route del %s table %s" % (prefix(random), random.choice(TABLES)) for _ in range(random.randrange(20))]
    return "\n".join(lines) + "\n"


def probes(random):
    """What the kernel and the database say of packets that this host sends."""
    wrong = 0
    for _ in range(PROBES):
        address = prefix(random).split("/")[0].replace("0.0.0.0", "11.0.0.1")
        mark = random.choice([0, 7, 0x10])
        words = [address] + (["mark", str(mark)] if mark else [])
        kernel = ip("route", "get", *words)
        said = prt("get", "--db", "routes.db", *words).stdout.split()
        if kernel.returncode == 0:
            told = kernel.stdout.split()
            same = all(word not in told or told[told.index(word) + 1] == said[said.index(word) + 1] if word in said else word not in told for word in ["via", "dev"])
            same = same and not any(kind in said for kind in ["blackhole", "unreachable", "prohibit", "none"])
        else:
            same = any(kind in said for kind in ["blackhole", "unreachable", "prohibit", "none"])
        if not same:
            print(" ".join(words), kernel.stdout or kernel.stderr, " ".join(said))
            wrong += 1
    return wrong


def without_database():
    for name in ["routes.db", "routes.db-wal"]:
        if os.path.exists(name):
            os.remove(name)


def one_script(script):
    """Brings the kernel to the tables of a script."""
    without_database()
    prt("batch", "--force", "--db", "routes.db", script)
    difference = prt("diff", "--all", "--db", "routes.db", input=listed())
    done = ip("-batch", "-", input=difference.stdout)
    again = prt("diff", "--all", "--db", "routes.db", "--check", input=listed())
    print("%s: %d lines, %s" % (os.path.basename(script), len(difference.stdout.splitlines()), done.stderr or "the same" if again.returncode == 0 else "other"))


def one_round(random):
    fill_space(random)
    without_database()
    found = listed()
    imported = prt("import", input=found)
    if imported.returncode:
        print("import:", imported.returncode, imported.stderr)
    prt("batch", "--db", "routes.db", input=imported.stdout)
    if prt("diff", "--all", "--db", "routes.db", "--check", input=found).returncode:
        print("what was imported differs:", prt("diff", "--all", "--db", "routes.db", input=found).stdout)
    prt("batch", "--force", "--db", "routes.db", input=changes(random))
    difference = prt("diff", "--all", "--db", "routes.db", input=found)
    done = ip("-batch", "-", input=difference.stdout)
    if difference.returncode or done.returncode:
        print("diff:", difference.returncode, difference.stderr, done.stderr, difference.stdout)
    again = prt("diff", "--all", "--db", "routes.db", "--check", input=listed())
    if again.returncode:
        print("it differs still:", again.stderr, prt("diff", "--all", "--db", "routes.db", input=listed()).stdout)
    return len(difference.stdout.splitlines()), probes(random)


def main():
    if not sys.argv[3].isdigit():
        make_space({"eth0": "192.0.2.10/24", "eth1": "198.51.100.10/24", "wg0": "10.200.0.1/32"})
        for script in sys.argv[3:]:
            one_script(script)
        return
    make_space({device: "192.0.%d.1/24" % number for number, device in enumerate(DEVICES)})
    rounds, lines, wrong = int(sys.argv[3]), 0, 0
    for seed in range(rounds):
        changed, differ = one_round(random.Random(seed))
        lines += changed
        wrong += differ
    print("%d rounds, %s lines, %d packets answered otherwise" % (rounds, "many" if lines > rounds else lines, wrong))


main()
