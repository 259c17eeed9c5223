"""What the kernel or `ip` reads otherwise than it is written: each is brought, or told and left, and nothing else is lost by it."""

from kernel import DATABASE, HOST, Space, bring, clean, differs, import_tables, prt, text_of

DEFAULT = "route add default via 192.0.2.1 dev eth0"
ALL = ("--db", DATABASE, "--all")


def tables_of(*lines):
    """Makes the database that a host of these lines has."""
    space = Space()
    space.do(lines)
    told = told_of(space.listed())
    space.close()
    return told


def told_of(listing):
    """Makes a database of a listing. Gives what it leaves out of it."""
    return [message for message in import_tables(listing) if message.startswith("prt: line")]


def host_of(*lines):
    space = Space()
    space.do(lines)
    return space


def rules_of(space, priority):
    """The rules of a priority, as the kernel has them."""
    return [line.partition("\t")[2] for line in clean(space.ip("rule", "show").stdout) if line.startswith(f"{priority}:")]


def mark_of_zero():
    """A rule for packets without a mark is brought as one, and not as one for every packet. It goes again, and no other does."""
    marked = "rule add priority 50 fwmark 7 table 51"
    space = host_of(DEFAULT, "route add default via 198.51.100.1 dev eth1 table 50", "rule add priority 50 fwmark 0/0xffffffff table 50")
    print(told_of(space.listed()))
    brought = host_of(DEFAULT, marked)
    print(bring(brought, *ALL), end="")
    print(rules_of(brought, 50))
    packets = ["203.0.113.7", "203.0.113.7 mark 7"]
    print(brought.answers(packets) == space.answers(packets), repr(differs(brought, *ALL)))
    fresh = host_of()
    fresh.do(prt("dump", "--db", DATABASE, "--replace").stdout.splitlines())
    print(rules_of(fresh, 50))
    tables_of(DEFAULT, marked)
    print(bring(brought, *ALL) + str(rules_of(brought, 50)))
    for each in (space, brought, fresh):
        each.close()


def unknown_selectors():
    """Rules that prt can't keep stay."""
    tables_of(DEFAULT)
    selectors = ["oif eth0", "tos 0x10", "uidrange 1000-2000", "ipproto tcp dport 22"]
    lines = []
    for place, selector in enumerate(selectors):
        lines += [f"rule add priority {100 + place} {selector} table 7", f"rule add priority {100 + place} from 10.5.0.0/16 table 8"]
    space = host_of(DEFAULT, *lines)
    told = bring(space, *ALL).count("no such selector of rules")
    rules = space.ip("rule", "show").stdout
    print(f"{told} told, {rules.count('lookup 7')} of them stay, and {rules.count('lookup 8')} beside them")
    space.close()


def copied_connected_routes():
    """A route of protocol kernel in a table of one's own is brought, and goes."""
    copy = "route add 192.0.2.0/24 dev eth0 proto kernel scope link src 192.0.2.10 table 100"
    tables_of(copy)
    space = Space()
    print(prt("diff", *ALL, "--check", input=space.listed()).returncode)
    print(bring(space, *ALL) + space.ip("route", "show", "table", "100").stdout.rstrip())
    tables_of()
    print(repr(bring(space, *ALL) + space.ip("route", "show", "table", "100").stdout))
    space.close()


def gateway_without_device():
    """A route by a gateway alone is the one that the kernel made of it."""
    tables_of()
    prt("batch", "--db", DATABASE, input="route add default via 192.0.2.1\n")
    space = host_of()
    print(bring(space, *ALL) + space.ip("route", "show", "default").stdout.rstrip())
    print(prt("diff", *ALL, "--check", input=space.listed()).returncode)
    space.close()


def names_of_protocols():
    print(tables_of("route add 10.1.0.0/16 dev eth0 proto babel", "route add 10.2.0.0/16 dev eth0 proto 201"))
    space = Space()
    print(bring(space, *ALL) + space.ip("route", "show", "root", "10.0.0.0/8").stdout.rstrip())
    space.close()


def numbers_of(items):
    """A batch of `ip` stores what has a name before and after what has none, though it remembers the last name."""
    tables_of()
    prt("batch", "--db", DATABASE, input=text_of(f"route add 10.{place}.0.0/16 dev eth0 {item}" for place, item in enumerate(items, 1)))
    brought, replaced = Space(), Space()
    print(prt("diff", *ALL, input=brought.listed()).stdout, end="")
    print(bring(brought, *ALL), end="")
    replaced.do(prt("dump", "--db", DATABASE, "--replace").stdout.splitlines())
    routes, others = (clean(space.ip("-N", "route", "show", "root", "10.0.0.0/14").stdout) for space in (brought, replaced))
    print(*routes, sep="\n")
    print(repr(differs(brought, *ALL)), routes == others)
    for each in (brought, replaced):
        each.close()


def numbers_of_protocols():
    numbers_of(["proto static", "proto 99", "proto static"])


def numbers_of_scopes():
    numbers_of(["scope link", "scope 100", "scope link"])


def names_with_quotes():
    """Names in which a batch of `ip` sees a quote or a line that goes on."""
    names = ['"q', "'q", "q\\"]
    addresses = {**HOST, **{name: f"10.20{place}.0.1/24" for place, name in enumerate(names, 1)}}
    space = Space(addresses)
    for place, name in enumerate(names, 1):
        space.ip("route", "add", f"10.{place}.0.0/16", "dev", name)
    space.ip("rule", "add", "priority", "50", "iif", names[0], "table", "7")
    space.do([DEFAULT, "route add 10.9.0.0/16 dev eth1"])
    told = told_of(space.listed())
    wanted = space.lines()
    other = Space(addresses)
    print(told, bring(other, *ALL), end="")
    print([line for line in wanted if line not in other.lines()], [line for line in other.lines() if line not in wanted])
    done = prt("dump", "--db", DATABASE, "--replace")
    print(done.returncode, done.stderr, end="")
    space.close()
    other.close()


def several_next_hops():
    """A route by two gateways stays, also where prt has another one in its place."""
    hops = "nexthop via 192.0.2.1 dev eth0 nexthop via 198.51.100.1 dev eth1"
    tables_of(DEFAULT, "route add 10.9.0.0/16 dev eth1")
    space = host_of(f"route add default {hops}", f"route add 10.8.0.0/16 {hops}")
    told = bring(space, *ALL).count("several next hops")
    routes = space.ip("route").stdout
    print(f"{told} told, {routes.count('nexthop')} hops stay, the others are brought: {'10.9.0.0/16 dev eth1' in routes}")
    space.close()


def held_back(done):
    """The status of a difference, its lines, and what it says of what isn't brought or stays."""
    said = [line for line in done.stderr.splitlines() if "isn't brought" in line or "stays" in line]
    print(done.returncode, done.stdout.splitlines())
    print("".join(f"{line}\n" for line in said), end="")


def place_that_is_taken():
    """A route of DHCP, outside the fence, has the place of one of ours. It stays, and ours is named."""
    ours = ["route add default via 192.0.2.9 dev eth0 proto static", "route add 10.1.0.0/16 via 192.0.2.9 dev eth0 proto static"]
    tables_of(*ours, "route add 10.2.0.0/16 via 192.0.2.9 dev eth0 proto static table 100 metric 5")
    space = host_of("route add default via 192.0.2.1 dev eth0 proto dhcp", "route add 10.2.0.0/16 dev eth1 proto dhcp table 100 metric 5")
    fence = ("--db", DATABASE, "--proto", "static")
    held_back(prt("diff", *fence, input=space.listed()))
    bring(space, *fence)
    held_back(prt("diff", *fence, input=space.listed()))
    print(prt("diff", *fence, "--check", input=space.listed()).returncode)
    print(clean(space.ip("route", "show", "default").stdout), clean(space.ip("route", "show", "10.1.0.0/16").stdout))
    space.close()


def network_of_an_address():
    """The kernel makes the route to it itself, which serves for one of ours, unless that goes another way."""
    tables_of()
    space = host_of()
    for device in ("eth0", "eth1"):
        prt("batch", "--db", DATABASE, input=f"route replace 192.0.2.0/24 dev {device}\n")
        held_back(prt("diff", *ALL, input=space.listed()))
    space.close()


def beside_what_cannot_be_kept():
    """What shares its place with a line that can't be kept neither comes nor goes, and is named."""
    hops = "nexthop via 192.0.2.1 dev eth0 nexthop via 198.51.100.1 dev eth1"
    tables_of(DEFAULT, "rule add priority 100 from 10.6.0.0/16 table 9", "rule add priority 101 from 10.6.0.0/16 table 9")
    space = host_of(f"route add default {hops}", "rule add priority 100 oif eth0 table 7", "rule add priority 100 from 10.5.0.0/16 table 8")
    held_back(prt("diff", *ALL, input=space.listed()))
    bring(space, *ALL)
    print(rules_of(space, 100), rules_of(space, 101), space.ip("route", "show", "default").stdout.count("nexthop"))
    space.close()


def other_listings():
    """What `ip` prints otherwise, and what busybox prints, is no listing."""
    hops = "nexthop via 192.0.2.1 dev eth0 nexthop via 198.51.100.1 dev eth1"
    space = host_of(f"route add default {hops}", "route add blackhole 10.0.0.0/8", "rule add not fwmark 7 table 100")
    for option in ("-N", "-o", "-d"):
        listing = space.ip(option, "-4", "route", "show", "table", "all").stdout + space.ip(option, "-4", "rule", "show").stdout
        done = prt("import", input=listing)
        print(option, done.returncode, repr(done.stdout))
    # As busybox prints it: no protocol, no `not`, and a space at each end.
    busybox = "".join(f"{line} \n" for line in clean(space.listed().replace(" proto kernel", "").replace("not ", "")))
    done = prt("diff", *ALL, input=busybox)
    print("busybox", done.returncode, repr(done.stdout))
    space.close()


def rules_of_priority_0():
    """A dump is taken to its end by hosts whose first rules are others, or of another priority, and leaves none of theirs."""
    marked, local = "rule add priority 0 fwmark 7 table 51", "rule add priority 0 table local"
    hosts = {
        "the opening rules": [],
        "local later": ["rule add priority 100 table local", "rule del priority 0"],
        "local and a mark": [marked],
        "a mark and local": ["rule del priority 0", marked, local],
        "a mark alone": ["rule del priority 0", marked],
    }
    for name, lines in hosts.items():
        tables_of(DEFAULT, *lines)
        dump = prt("dump", "--db", DATABASE, "--replace").stdout
        wanted = host_of(*lines)
        rules = wanted.ip("rule", "show").stdout
        wanted.close()
        for other, others in {**hosts, "no rule": ["rule flush", "rule del priority 0"]}.items():
            space = host_of(DEFAULT, *others)
            space.do(dump.splitlines())
            if space.ip("rule", "show").stdout != rules or differs(space, *ALL):
                print(f"{name} over {other}: others are left")
            space.close()


EDGES = [
    rules_of_priority_0, mark_of_zero, unknown_selectors, copied_connected_routes, gateway_without_device, names_of_protocols, numbers_of_protocols, numbers_of_scopes,
    names_with_quotes, several_next_hops, place_that_is_taken, network_of_an_address, beside_what_cannot_be_kept, other_listings,
]
for edge in EDGES:
    print(f"{edge.__name__.replace('_', ' ')}:")
    edge()
