"""Reads rules and routes of the kernel and of a database by the same function."""

import json
import subprocess
import sys

PROGRAM, SPACE = sys.argv[1:]
SCRIPT = """\
route add 198.51.100.0/24 dev d0 proto static
route add default via 192.0.2.1 dev d0 metric 10
route add 203.0.113.0/24 via 192.0.2.9 table 100 proto static
route add blackhole 10.0.0.0/8 metric 7
route add throw 10.1.0.0/16 table 100
rule add priority 500 not from 10.0.0.0/8 fwmark 0x10/0xf0 iif d0 table 100 suppress_prefixlength 0
rule add priority 600 to 10.1.0.0/16 prohibit
rule add priority 700 from 192.0.2.7 table 100
"""
PACKETS = [["198.51.100.7"], ["203.0.113.7"], ["203.0.113.7", "mark", "16"], ["192.0.2.50"]]


def run(*words, input=None):
    return subprocess.run(words, input=input, capture_output=True, text=True)


def rules(text):
    """Each rule, as a script for `ip -j rule` would read it."""
    for rule in json.loads(text):
        yield (
            rule["priority"],
            "not" in rule,
            rule["src"],
            rule.get("srclen"),
            rule.get("dst"),
            rule.get("dstlen"),
            rule.get("fwmark"),
            rule.get("fwmask"),
            rule.get("iif"),
            rule.get("table"),
            rule.get("action"),
            rule.get("suppress_prefixlen"),
        )


def routes(text):
    """Each route, as a script for `ip -j route` would read it."""
    for route in json.loads(text):
        yield tuple(route.get(name) for name in ["type", "dst", "gateway", "dev", "table", "protocol", "scope", "prefsrc", "metric"])


def answers(text):
    """What becomes of a packet."""
    return [(answer["dst"], answer.get("gateway"), answer.get("dev"), answer.get("table")) for answer in json.loads(text)]


def main():
    ip = ["ip", "-n", SPACE]
    for line in ["link add d0 type veth peer name d1", "link set d1 up", "address add 192.0.2.2/24 dev d0", "link set d0 up", "link set lo up"]:
        run(*ip, *line.split())
    run(*ip, "-batch", "-", input=SCRIPT)
    listed = run(*ip, "-4", "route", "show", "table", "all").stdout + run(*ip, "-4", "rule").stdout
    run(PROGRAM, "batch", "--db", "routes.db", input=run(PROGRAM, "import", input=listed).stdout)
    ours = lambda *words: run(PROGRAM, words[0], "--json", "--db", "routes.db", *words[1:]).stdout
    kernel = lambda *words: run(*ip, "-j", "-4", *words).stdout
    print(list(rules(ours("show", "rule"))) == list(rules(kernel("rule", "show"))), len(json.loads(ours("show", "rule"))))
    print(sorted(map(str, routes(ours("show")))) == sorted(map(str, routes(kernel("route", "show")))), len(json.loads(ours("show"))))
    # The kernel's own routes in table local aren't imported.
    everywhere = [route for route in routes(kernel("route", "show", "table", "all")) if route[4] != "local"]
    print(sorted(map(str, routes(ours("show", "table", "all")))) == sorted(map(str, everywhere)), len(everywhere))
    for packet in PACKETS:
        print(answers(ours("get", *packet)) == answers(kernel("route", "get", *packet)), answers(ours("get", *packet)))
    tables = json.loads(ours("dump"))
    print(sorted(tables), tables["number"], len(tables["rules"]), len(tables["routes"]))


main()
