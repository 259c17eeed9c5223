"""A model of sessions, for the lines of the swept scripts alone.

It is written after docs/reference/COMMANDS.md and docs/reference/SELECTION.md: routes and rules are lists, a lookup goes over all of them,
and a script is answered line by line, perhaps with one mishap.
"""

from typing import NamedTuple

# What may befall one line: memory is refused, the store fails, or the front doesn't show what is stored.
NO_MEMORY, STORE_FAILED, NOT_PUBLISHED = "26 NoMemory", "27 StoreFailed", "28 NotPublished"
CLOSED, EXISTS, NO_SUCH = "20 Closed", "21 Exists", "22 NoSuch"

MAIN = 254
TABLES = {"local": 255, "main": MAIN, "default": 253}
KEYWORDS = ("via", "dev", "table", "priority", "from", "iif")
KINDS = ("blackhole", "unreachable", "prohibit")
RANGES = ("root", "match", "exact")


class Route(NamedTuple):
    table: int
    net: int
    len: int
    kind: str
    via: str
    dev: str

    def text(self, is_table_named):
        """The route as a listing shows it."""
        words = [self.kind] if self.kind else []
        words.append(prefix_text(self.net, self.len))
        words += ["via", self.via] if self.via else []
        words += ["dev", self.dev] if self.dev else []
        words += ["table", table_text(self.table)] if is_table_named and self.table != MAIN else []
        words += ["scope", "link"] if not self.kind and not self.via else []
        return " ".join(words)


class Rule(NamedTuple):
    priority: int
    source: tuple
    iif: str
    action: str

    def text(self):
        """The rule as a listing shows it."""
        words = ["from", prefix_text(*self.source) if self.source[1] else "all"]
        words += ["iif", self.iif] if self.iif else []
        return f"{self.priority}:\t{' '.join(words)} {self.action}"


OPENING_RULES = [Rule(0, (0, 0), "", "lookup local"), Rule(32766, (0, 0), "", "lookup main"),
                 Rule(32767, (0, 0), "", "lookup default")]


def read_prefix(word):
    """The address and the length of a prefix; those of an address are it and 32."""
    if word in ("default", "all"):
        return 0, 0
    address, _, length = word.partition("/")
    parts = [int(part) for part in address.split(".")]
    return int.from_bytes(bytes(parts + [0] * (4 - len(parts))), "big"), int(length or 32)


def prefix_text(net, length):
    """A prefix as a listing shows it."""
    address = ".".join(str(part) for part in net.to_bytes(4, "big"))
    return "default" if (net, length) == (0, 0) else address if length == 32 else f"{address}/{length}"


def table_text(number):
    """A table by its name, where it has one."""
    return {number: name for name, number in TABLES.items()}.get(number, str(number))


def read_table(word):
    """The number of a table."""
    return TABLES[word] if word in TABLES else int(word)


def contains(prefix, address):
    """Tells whether the first bits of an address are those of a prefix."""
    net, length = prefix
    return net >> (32 - length) == address >> (32 - length)


def is_within(inner, outer):
    """Tells whether each address of a prefix is one of another."""
    return inner[1] >= outer[1] and contains(outer, inner[0])


def read_line(line):
    """The object and verb of a line, and its items by their keywords; a kind, a range or a prefix by that word."""
    kind, verb, *words = line.split()
    items = {}
    words = iter(words)
    for word in words:
        if word in KEYWORDS:
            items[word] = next(words)
        elif word in KINDS:
            items["kind"] = word
        elif word in RANGES:
            items["range"] = word
        else:
            items["prefix"] = read_prefix(word)
    return f"{kind} {verb}", items


class Refused(Exception):
    """A command that is refused."""


class State:
    """How many commands were accepted, the routes, and the rules in their order."""

    def __init__(self, count=0, routes=(), rules=OPENING_RULES):
        self.count, self.routes, self.rules = count, list(routes), list(rules)

    def after(self, verb, items):
        """The state after a command."""
        change = {"route add": self.routes_put, "route change": self.routes_put, "route replace": self.routes_put,
                  "route flush": self.routes_flushed, "rule add": self.rules_added, "rule del": self.rules_deleted,
                  "rule flush": self.rules_flushed}[verb]
        return State(self.count + 1, *change(verb, items))

    def routes_put(self, verb, items):
        net, length = items["prefix"]
        route = Route(read_table(items.get("table", "main")), net, length, items.get("kind", ""), items.get("via", ""),
                      items.get("dev", ""))
        others = [old for old in self.routes if old[:3] != route[:3]]
        is_there = len(others) < len(self.routes)
        if verb == "route add" and is_there:
            raise Refused(EXISTS)
        if verb == "route change" and not is_there:
            raise Refused(NO_SUCH)
        return others + [route], self.rules

    def routes_flushed(self, _verb, items):
        return ([] if items["table"] == "all"
                else [old for old in self.routes if old.table != read_table(items["table"])]), self.rules

    def rules_added(self, _verb, items):
        action = items["kind"] if "kind" in items else f"lookup {table_text(read_table(items['table']))}"
        rule = Rule(int(items["priority"]), read_prefix(items.get("from", "all")), items.get("iif", ""), action)
        if rule in self.rules:
            raise Refused(EXISTS)
        return self.routes, sorted(self.rules + [rule], key=lambda each: each.priority)

    def rules_deleted(self, _verb, items):
        for at, rule in enumerate(self.rules):
            if rule.priority == int(items["priority"]):
                return self.routes, self.rules[:at] + self.rules[at + 1:]
        raise Refused(NO_SUCH)

    def rules_flushed(self, _verb, _items):
        return self.routes, [rule for rule in self.rules if rule.priority == 0]

    def answer(self, verb, items):
        """The lines that answer a query."""
        if verb == "route get":
            return [self.get(items)]
        lines = [rule.text() for rule in self.rules] if verb == "rule show" else self.listing(items)
        return lines + [f"end {len(lines)}"]

    def listing(self, items):
        """The routes of a table, or of all, that are in a range."""
        table = items.get("table", "main")
        prefix = items.get("prefix")
        takes = {"root": lambda inner: is_within(inner, prefix), "match": lambda inner: is_within(prefix, inner),
                 "exact": lambda inner: inner == prefix}[items["range"]] if prefix else lambda inner: True
        return [route.text(table == "all") for route in sorted(self.routes)
                if (table == "all" or route.table == read_table(table)) and takes((route.net, route.len))]

    def get(self, items):
        """What becomes of a packet: the first rule that matches it and decides."""
        destination, source = items["prefix"][0], read_prefix(items.get("from", "0.0.0.0"))[0]
        for rule in self.rules:
            if not contains(rule.source, source) or rule.iif not in ("", items.get("iif", "lo")):
                continue
            if not rule.action.startswith("lookup "):
                return f"answer {self.count} rule {rule.priority} {rule.action}"
            table = rule.action.split()[1]
            found = [route for route in self.routes
                     if route.table == read_table(table) and contains((route.net, route.len), destination)]
            if found:
                best = max(found, key=lambda route: route.len)
                return f"answer {self.count} rule {rule.priority} table {table} {best.text(False)}"
        return f"answer {self.count} none"


class Session(NamedTuple):
    """The replies to a script with at most one mishap, the exit status, and the states that may be stored after it."""
    replies: str
    status: int
    stored: list


def is_command(line):
    """Tells whether a line asks for a change."""
    return line.split()[1] not in ("get", "show")


def run(script, mishap=None, at=None, state=State()):
    """The session over the lines of a script, from a state, in which a mishap befalls the line of this place."""
    stored, lines, status = None, [], 0
    for place, line in enumerate(script.splitlines()):
        verb, items = read_line(line)
        befallen = mishap if place == at else None
        if not is_command(line):
            lines += [f"error {befallen}"] if befallen else state.answer(verb, items)
            continue
        try:
            if stored:
                raise Refused(CLOSED)
            after = state.after(verb, items)
            if befallen in (STORE_FAILED, NOT_PUBLISHED):
                stored = [after] if befallen == NOT_PUBLISHED else [state, after]
            if befallen:
                raise Refused(befallen)
            state = after
            lines.append(f"ok {state.count}")
        except Refused as refused:
            lines.append(f"error {refused}")
    if stored:
        status = 3
    elif any(line.startswith("error ") for line in lines):
        status = 1
    return Session("".join(line + "\n" for line in lines), status, stored or [state])
