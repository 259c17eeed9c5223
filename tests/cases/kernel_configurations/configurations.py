"""Configurations of real programs: the kernel is brought from each to each other by `prt diff`, and takes the dump of each.

Two passes have to do it. The kernel then lists what it lists where `ip` made the configuration, unless import told of a loss.
A dump is taken to its end, over hosts with other rules too, and leaves nothing but routes that only the host had.
"""

import itertools
import time

from kernel import Space, bring, clean, differs, import_tables, prt
from serving import in_threads

# How many are tried at a time.
LANES = 4
# What prt can't keep, and so leaves where it is.
LEFT = {"local default dev lo table 2004 scope host", "default via 203.0.113.1 dev eth0 metric 1024 onlink"}
DHCP = ["route add default via 192.0.2.1 dev eth0 proto dhcp src 192.0.2.10 metric 100"]
UPLINKS = [("192.0.2", "eth0"), ("198.51.100", "eth1")]


def copies(table, net, device):
    """The routes that scripts for several uplinks copy into the table of each."""
    return [
        f"route add {net}.0/24 dev {device} proto kernel scope link src {net}.10 table {table}",
        f"route add default via {net}.1 dev {device} src {net}.10 table {table}",
    ]


CONFIGURATIONS = {
    "dhcp": DHCP,
    "wg-quick": [
        *DHCP,
        "rule add not fwmark 51820 table 51820",
        "rule add table main suppress_prefixlength 0",
        "route add default dev wg0 table 51820",
    ],
    "two uplinks": [
        "rule add priority 100 from 192.0.2.10 table 100",
        "rule add priority 200 from 198.51.100.10 table 200",
        "route add default via 192.0.2.1 dev eth0 table 100",
        "route add default via 198.51.100.1 dev eth1 table 200",
        "route add default via 192.0.2.1 dev eth0 metric 10",
        "route add default via 198.51.100.1 dev eth1 metric 20",
    ],
    # It asks main first, and its default routes stand in a table behind.
    "shorewall": [
        "rule add priority 999 table main",
        "rule del priority 32766",
        *(line for table, (net, device) in enumerate(UPLINKS, 1) for line in copies(table, net, device)),
        "rule add priority 10000 fwmark 0x10000/0xff0000 table 1",
        "rule add priority 10001 fwmark 0x20000/0xff0000 table 2",
        "rule add priority 20000 from 192.0.2.10 table 1",
        "rule add priority 20256 from 198.51.100.10 table 2",
        "rule add priority 32765 table 250",
        "route add default via 192.0.2.1 dev eth0 src 192.0.2.10 table 250",
    ],
    # It makes room before local.
    "cilium": [
        *DHCP,
        "rule add priority 100 table local",
        "rule del priority 0",
        "rule add priority 9 fwmark 0x200/0xf00 table 2004",
        "route add local 0/0 dev lo table 2004",
        "rule add priority 10 fwmark 0xa00/0xf00 table 2005",
        "route add 10.200.0.2 dev wg0 scope link table 2005",
        "route add default via 10.200.0.2 dev wg0 table 2005",
        "route add 10.200.0.2 dev wg0 scope link",
        "route add 10.244.0.0/16 via 10.200.0.2 dev wg0 src 10.200.0.1 mtu 1450",
    ],
    "strongswan and tailscale": [
        *DHCP,
        "rule add priority 220 table 220",
        "route add 10.3.0.0/16 via 192.0.2.1 dev eth0 proto static src 192.0.2.10 table 220",
        "route add throw 192.0.2.0/24 proto static table 220",
        "rule add priority 5210 fwmark 0x80000/0xff0000 table main",
        "rule add priority 5230 fwmark 0x80000/0xff0000 table default",
        "rule add priority 5250 fwmark 0x80000/0xff0000 unreachable",
        "rule add priority 5270 table 52",
        "route add throw 127.0.0.0/8 table 52",
        "route add 100.64.0.0/10 dev wg0 table 52",
    ],
    "mwan3": [
        *(line for table, (net, device) in enumerate(UPLINKS, 1) for line in copies(table, net, device)),
        "route add default via 192.0.2.1 dev eth0 metric 10",
        "route add default via 198.51.100.1 dev eth1 metric 20",
        "rule add priority 1001 iif eth0 table 1",
        "rule add priority 1002 iif eth1 table 2",
        "rule add priority 2001 fwmark 0x100/0x3f00 table 1",
        "rule add priority 2002 fwmark 0x200/0x3f00 table 2",
        "rule add priority 2061 fwmark 0x3d00/0x3f00 blackhole",
        "rule add priority 2062 fwmark 0x3e00/0x3f00 unreachable",
        "rule add priority 3001 fwmark 0x100/0x3f00 unreachable",
    ],
    "networkd and openvpn": [
        "route add default via 192.0.2.1 dev eth0 proto static",
        "route add 203.0.113.7 via 192.0.2.1 dev eth0",
        "route add 0.0.0.0/1 via 10.200.0.2 dev wg0",
        "route add 128.0.0.0/1 via 10.200.0.2 dev wg0",
        "route add 10.0.0.0/8 via 198.51.100.1 dev eth1 proto static metric 50",
        "route add blackhole 10.66.0.0/16 proto static",
        "rule add priority 7000 from 192.0.2.0/24 to 10.0.0.0/8 table 1000 protocol static",
        "route add default via 198.51.100.1 dev eth1 proto static table 1000",
    ],
    # Hosts of which the provider's gateway lies in no network of theirs.
    "onlink": [
        "route add default via 203.0.113.1 dev eth0 metric 1024 onlink",
        "route add 10.7.0.0/16 via 192.0.2.7 dev eth0",
    ],
    "linkdown": [
        "route add default via 192.0.2.1 dev eth0 metric 10",
        "route add default via 198.51.100.1 dev eth1 metric 20",
        "route add 10.8.0.0/16 via 198.51.100.1 dev eth1",
        "link set peer1 down",
    ],
}

# Hosts whose rule for main or local has another priority than the kernel gives it.
MOVED = ("shorewall", "cilium")


def configured(name):
    """A host that has this configuration."""
    space = Space()
    space.do(CONFIGURATIONS[name])
    # Routes learn a little later that a cable is out.
    while name == "linkdown" and space.listed().count("linkdown") < 3:
        time.sleep(0.02)
    return space


def told_of(messages):
    """What import tells, but for the count of routes that the kernel makes itself."""
    return [message.removeprefix("prt: ") for message in messages if message.startswith("prt: line ")]


class Target:
    """A configuration to which hosts are brought, with what was seen on the way."""

    def __init__(self, name):
        self.name, self.twice = name, 0
        # A database of its own, since several are at work at a time.
        self.tables = ("--db", f"{name}.db", "--all")
        space = configured(name)
        self.wanted = set(space.lines())
        self.seen = told_of(import_tables(space.listed(), f"{name}.db"))
        self.is_whole = not self.seen
        self.seen = [f"{name}: {told}" for told in self.seen]
        self.dump = prt("dump", *self.tables[:2], "--replace").stdout
        self.put_back(space, "itself")
        self.put_back(Space(), "a new host")
        for other in CONFIGURATIONS:
            if other != name:
                self.bring_from(other)
                if other in MOVED:
                    self.put_back(configured(other), other, has_others=True)

    def bring_from(self, name):
        """Brings a host there that has another configuration."""
        space = configured(name)
        bring(space, *self.tables)
        left = differs(space, *self.tables)
        if left:
            self.twice += 1
            bring(space, *self.tables)
            left = differs(space, *self.tables)
        self.seen += [f"from {name} to {self.name} is left: {line}" for line in left.splitlines()]
        # A cable that is out changes no table.
        if self.is_whole and name != "linkdown":
            others = self.wanted ^ set(space.lines()) - LEFT
            self.seen += [f"from {name} to {self.name} is other: {line}" for line in sorted(others)]
        space.close()

    def put_back(self, space, where, has_others=False):
        """Has the kernel take the dump of the tables, on a host that may have routes of its own."""
        done = space.ip("-batch", "-", input=self.dump)
        if done.returncode:
            self.seen.append(f"the dump of {self.name} over {where} stops: {' '.join(clean(done.stderr))}")
        left = differs(space, *self.tables).splitlines()
        if has_others:
            left = [line for line in left if not line.startswith("route del ")]
        self.seen += [f"the dump of {self.name} over {where} leaves: {line}" for line in left]
        space.close()


def main():
    names = list(CONFIGURATIONS)
    lanes = in_threads(LANES, lambda lane: [Target(name) for name in names[lane::LANES]])
    targets = sorted(itertools.chain(*lanes), key=lambda target: names.index(target.name))
    for target in targets:
        for line in target.seen:
            print(line)
    print(f"{len(names) * (len(names) - 1)} ways, {sum(target.twice for target in targets)} of them in two passes")
    print(f"{len(names) * (len(names) + 1)} dumps")


main()
