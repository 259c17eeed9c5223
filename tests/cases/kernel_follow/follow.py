"""While `prt follow` brings 300 random changes to the kernel, nothing outside its fence moves, and some packets go one way.

The host has routes and rules of DHCP, of systemd-networkd and of wg-quick. Those of prt are tables 100 to 199 and
priorities 1000 to 1999. After each hundred changes the kernel has within these what the server has.
"""

import random
import subprocess
import threading
import time

from kernel import PROGRAM, Space, prt
from serving import RUNNING, Client, Server

FENCE = ["--table", "100-199", "--priority", "1000-1999"]
INSIDE = {*range(100, 200), *range(1000, 2000)}
HOST = [
    "route add default via 192.0.2.1 dev eth0 proto dhcp src 192.0.2.10 metric 100",
    "route add 192.0.2.1 dev eth0 proto dhcp scope link src 192.0.2.10 metric 100",
    "route add 172.20.0.0/16 via 198.51.100.1 dev eth1 proto static",
    "rule add priority 500 to 203.0.113.0/24 table 50",
    "route add default via 198.51.100.1 dev eth1 proto static table 50",
    "rule add not fwmark 51820 table 51820",
    "rule add table main suppress_prefixlength 0",
    "route add default dev wg0 table 51820",
]
# Of prt, and never changed.
STEADY = [
    "rule add priority 1001 to 10.200.128.0/17 table 199",
    "route add 10.200.128.0/17 via 192.0.2.9 dev eth0 table 199",
    "rule add priority 1999 to 10.201.0.0/16 table 198",
    "route add default via 192.0.2.8 dev eth0 table 198 metric 10",
]
# What decides on these is outside, or steady: the host's own addresses, its neighbours, its networks, all else by the tunnel
# and past it, and what prt has and never changes.
PACKETS = [
    "192.0.2.10", "198.51.100.10", "127.0.0.1", "192.0.2.1", "192.0.2.77", "198.51.100.1", "198.51.100.99", "172.20.1.1",
    "172.20.255.254", "203.0.113.7", "203.0.113.254", "8.8.8.8", "9.9.9.9 from 192.0.2.10", "8.8.8.8 mark 51820",
    "172.20.1.1 mark 51820", "192.0.2.77 mark 51820", "10.200.128.1", "10.200.255.9", "10.201.0.7", "10.201.255.255",
]
TABLES = [100, 101, 150, 197]
# What the changes may move.
MOVING = {*TABLES, 1100, 1200, 1300, 1400}
# The mark goes by the priority, since the kernel adds no rule beside one of its priority that it makes more general.
RULES = [(1100, ""), (1200, " fwmark 7"), (1300, " fwmark 0x10/0xf0"), (1400, ""), (700, "")]
SEED, CHANGES, AT_A_TIME = 80, 300, 10


def prefix(chance):
    return f"10.{chance.randrange(8)}.{chance.randrange(4) * 64}.0/{chance.choice([18, 20, 24])}"


def route(chance):
    """A route of a table of prt, or of main."""
    table = chance.choice(TABLES * 4 + [254])
    where = chance.choice(["via 192.0.2.7 dev eth0", "via 198.51.100.7 dev eth1", "dev wg0", "dev eth1"])
    kind, where = chance.choice([("", where)] * 4 + [("blackhole ", ""), ("throw ", "")])
    metric = chance.choice(["", " metric 5", " metric 7"])
    return f"{kind}{prefix(chance)} {where} table {table}{metric}"


def rule(chance):
    """A rule of a priority of prt, or of another one."""
    priority, mark = chance.choice(RULES)
    return f"priority {priority} to {prefix(chance)}{mark} table {chance.choice(TABLES)}"


def change(chance, rules):
    """A change, which may be refused; now and then one of many routes at once."""
    turn = chance.random()
    if turn < 0.55:
        return f"route {chance.choice(['add', 'replace', 'replace', 'del'])} {route(chance)}"
    if turn < 0.60:
        return f"route flush table {chance.choice(TABLES)}"
    if turn < 0.80 or not rules:
        rules.append(rule(chance))
        return f"rule add {rules[-1]}"
    return f"rule del {rules.pop(chance.randrange(len(rules)))}"


class Prober(threading.Thread):
    """Asks the kernel which way packets go, over and over."""

    def __init__(self, space):
        super().__init__(daemon=True)
        self.space, self.is_over = space, False
        self.first = space.answers(PACKETS)
        self.probes, self.others = 0, set()
        self.start()

    def run(self):
        while not self.is_over:
            told = self.space.answers(PACKETS * AT_A_TIME)
            self.probes += AT_A_TIME
            if told != self.first * AT_A_TIME:
                self.others |= set(told) - set(self.first)

    def end(self):
        self.is_over = True
        self.join()


class Monitor:
    """Notes each rule and route that comes or goes, for however short a time."""

    def __init__(self, space):
        words = ["ip", "-4", "-n", space.name, "monitor", "route", "rule"]
        with open("monitor", "w", encoding="ascii") as file:
            self.process = subprocess.Popen(words, stdout=file)
        RUNNING.append(self.process)

    def end(self):
        """What was noted."""
        time.sleep(0.3)
        self.process.terminate()
        self.process.wait()
        with open("monitor", encoding="ascii") as file:
            return [line.removeprefix("Deleted ").strip() for line in file]


def number_of(line):
    """The priority of a rule of a listing, or the table of a route."""
    first, *words = line.split()
    if first.endswith(":"):
        return int(first[:-1])
    table = words[words.index("table") + 1] if "table" in words else "main"
    return int(table) if table.isdigit() else 0


def is_inside(line):
    """Tells whether a rule or a route is of prt."""
    return number_of(line) in INSIDE


def outside(space):
    return [line for line in space.listed().splitlines() if not is_inside(line)]


class Following:
    """`prt follow` over a namespace, as a pipe into `ip`."""

    def __init__(self, space, server):
        words = [PROGRAM, "follow", "--server", f"127.0.0.1:{server.feed_port}", *FENCE]
        self.follow = subprocess.Popen(words, stdin=subprocess.PIPE, stdout=subprocess.PIPE, text=True)
        self.follow.stdin.write(space.listed())
        self.follow.stdin.close()
        batch = ["ip", "-n", space.name, "-force", "-batch", "-"]
        self.ip = subprocess.Popen(batch, stdin=self.follow.stdout, stdout=subprocess.PIPE, stderr=subprocess.STDOUT, text=True)
        self.follow.stdout.close()
        RUNNING.extend([self.follow, self.ip])

    def end(self):
        """Its status once the feed has ended, and what `ip` said."""
        said = self.ip.communicate()[0]
        return self.follow.wait(), said


def settles(space, server):
    """Waits until the kernel has what the server has. Gives what is left between them, if it never does."""
    words = ["diff", "--server", f"127.0.0.1:{server.feed_port}", *FENCE]
    for _ in range(100):
        left = prt(*words, input=space.listed())
        if left.returncode == 0 and not left.stdout:
            return ""
        time.sleep(0.05)
    return left.stdout + left.stderr


def main():
    space = Space()
    space.do(HOST)
    server = Server("--feed", "127.0.0.1:0")
    client = Client(server)
    for line in STEADY:
        client.ask(line)
    before = outside(space)
    following = Following(space, server)
    print(settles(space, server) or "the kernel has what the server has")
    prober, monitor = Prober(space), Monitor(space)
    chance, rules = random.Random(SEED), []
    accepted = 0
    for turn in range(1, CHANGES + 1):
        accepted += client.ask(change(chance, rules)).startswith("ok ")
        if turn % 100 == 0:
            print(turn, settles(space, server) or "the kernel has what the server has")
            print("1000 probes agree:", space.answers(PACKETS * 50) == prober.first * 50)
    prober.end()
    print("most were accepted:", accepted > CHANGES / 2, "probed often:", prober.probes * len(PACKETS) > 1000)
    print("packets that went another way:", sorted(prober.others))
    noted = monitor.end()
    print("much moved:", len(noted) > CHANGES / 2, "of what is outside or steady:", [line for line in noted if number_of(line) not in MOVING])
    print("what is outside is as it was:", outside(space) == before)
    server.kill(9)
    print(following.end())


main()
