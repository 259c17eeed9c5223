"""Has `ip` make a route with each item of ip-route(8), and a rule with each of ip-rule(8), and tells what import makes of it."""

import re
import subprocess
import sys

PROGRAM, SPACE = sys.argv[1:]
IP = ["ip", "-n", SPACE]
PREFIX = "10.9.0.0/16"
THROUGH = "via 192.0.2.9"
ROUTES = [f"{kind} {PREFIX}" for kind in ("unicast", "local", "broadcast", "multicast", "anycast")]
ROUTES = [f"{route} dev d0" for route in ROUTES] + [f"{kind} {PREFIX}" for kind in ("blackhole", "unreachable", "prohibit", "throw")]
ROUTES += [f"{PREFIX} {item}" for item in (
    "dev d0", THROUGH, "via inet6 fe80::1 dev d0", "nhid 1", f"{THROUGH} dev d0 onlink", "dev d0 src 192.0.2.2",
    "nexthop via 192.0.2.3 nexthop via 192.0.2.4 weight 2", "nexthop via 192.0.2.3 onlink dev d0",
    "encap ip id 1 dst 192.0.2.8 dev d0")]
ROUTES += [f"{PREFIX} {THROUGH} {item}" for item in (
    "tos 0x10", "dsfield 0x10", "metric 5", "preference 6", "table 7", "proto static", "proto 99", "scope global", "realm 3", "realm 2/3",
    "mtu 1400", "mtu lock 1400", "advmss 1000", "window 100", "rtt 30ms", "rttvar 20ms", "rto_min 5ms", "ssthresh 9", "cwnd 9", "initcwnd 9",
    "initrwnd 9", "reordering 4", "hoplimit 9", "features ecn", "quickack 1", "congctl cubic", "fastopen_no_cookie 1")]
ROUTES += [f"{PREFIX} dev d0 scope {scope}" for scope in ("link", "host", "7")]
RULES = [f"{selector} table 7" for selector in (
    "not from 10.0.0.0/8", "from 10.0.0.0/8", "to 10.0.0.0/8", "tos 0x10", "dsfield 0x10", "fwmark 7", "fwmark 7/0xf", "iif d0", "iif gone", "oif d0",
    "uidrange 0-9", "ipproto tcp", "sport 9", "dport 8-9", "tun_id 5", "realms 2/3", "suppress_prefixlength 8", "suppress_ifgroup 5", "protocol 99")]
RULES += ["blackhole", "unreachable", "prohibit", "goto 400", "nop", "from 10.0.0.0/8 nat 10.1.0.0"]


def run(*words, input=None):
    return subprocess.run(words, input=input, capture_output=True, text=True)


def said(text):
    """The lines that import makes of a text that ends with the first rule, and what it tells of it, except for that rule and the text."""
    told = run(PROGRAM, "import", input=text)
    same = ("rule flush", "rule del priority 0", "rule add priority 0 from all lookup local")
    lines = [line for line in told.stdout.splitlines() if line not in same and not line.startswith("#")]
    # `ip` says "realm" of one realm, and its JSON has no word for that.
    return lines + [re.sub(r"line \d+: |: (300:|(\w+ )?10\.9\.0\.0/16).*", "", line).replace("realms:", "realm:") for line in told.stderr.splitlines()]


def tell(add, remove, listing):
    """Adds, tells and removes, where `ip` can make it."""
    if run(*IP, "-4", *add.split()).returncode != 0:
        return False
    # A listing of which nothing can be kept is none, so the first rule is in each.
    listings = (listing, ("rule", "show", "priority", "0"))
    lines, of_json = (said("".join(run(*IP, *flags, "-4", *words).stdout for words in listings)) for flags in ((), ("-j",)))
    print(add, *lines, sep="\n\t")
    if lines != of_json:
        print("otherwise with -j:", *of_json, sep="\n\t")
    for words in remove:
        run(*IP, "-4", *words.split())
    return True


def main():
    for line in ("link add d0 type veth peer name d1", "link set d1 up", "address add 192.0.2.2/24 dev d0", "link set d0 up", "nexthop add id 1 via 192.0.2.3 dev d0"):
        run(*IP, *line.split())
    listing = ("route", "show", "table", "all", "root", PREFIX)
    made = [tell(f"route add {route}", (f"route flush table all root {PREFIX}", f"route del {PREFIX}"), listing) for route in ROUTES]
    made += [tell(f"rule add priority 300 {rule}", ("rule del priority 300",), ("rule", "show", "priority", "300")) for rule in RULES]
    if False in made:
        print("left out: ip can't make each item here", file=sys.stderr)
        sys.exit(77)


main()
