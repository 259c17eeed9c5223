"""Random tables and random changes: a packet gets another answer exactly if a group of `prt impact` has it.

    impact.py PROGRAM ROUNDS PACKETS [SEED]

In each round random packets, and those at the ends of each group, get their answers from the tables before the change and
after it. If they differ, one group has the packet, and shows both answers; otherwise none has it. With --exact the answers
are compared as a whole, and otherwise by kind, gateway, interface and source. The rounds are shared among the processors.

Then random claims: if one holds, none of the packets breaks it; otherwise the packet that is shown does. And no packet gets
a route that is unused, or is decided by an unused rule of a priority of its own.
"""

import multiprocessing
import os
import random
import re
import subprocess
import sys
import tempfile

from groups import GROUP, dotted, is_in, number, span

PROGRAM, ROUNDS, PACKETS = sys.argv[1], int(sys.argv[2]), int(sys.argv[3])
DEVICES = ["eth0", "eth1", "wg0"]
KINDS = ["blackhole", "unreachable", "prohibit", "throw"]
TABLES = ["main", "default", "7", "100"]
MARKS = ["0", "7", "0x10/0xf0", "0x1/0x3", "0/1"]
# How many packets are tried for the claims and for what is unused.
FEW = 400


def run(*words, input=None):
    return subprocess.run([PROGRAM, *words], input=input, capture_output=True, text=True)


def a_prefix():
    """A prefix among few blocks, so that many contain one another."""
    length = random.choice([0, 1, 8, 9, 16, 24, 31, 32])
    bits = random.choice([0, 0x0A000000, 0x0A010000, 0xC0000200, 0xFFFFFF00]) | random.choice([0, 1, 255, 0x00FF0000])
    return f"{dotted(bits & ~((1 << 32 - length) - 1) & 0xFFFFFFFF)}/{length}"


def a_route():
    where = random.random()
    rest = f" table {random.choice(TABLES)}{random.choice(['', ' metric 5'])}"
    if where < 0.25:
        return f"{random.choice(KINDS)} {a_prefix()}{rest}"
    if where < 0.6:
        return f"{a_prefix()} dev {random.choice(DEVICES)}{rest}"
    return f"{a_prefix()} via 192.0.2.{random.randrange(1, 5)} dev {random.choice(DEVICES)}{rest}"


def a_rule():
    parts = [f"priority {random.choice([0, 5, 5, 50, 500, 32766, 40000])}"]
    parts += ["not"] if random.random() < 0.25 else []
    parts += [f"from {a_prefix()}"] if random.random() < 0.5 else []
    parts += [f"to {a_prefix()}"] if random.random() < 0.3 else []
    parts += [f"iif {random.choice(DEVICES)}"] if random.random() < 0.3 else []
    parts += [f"fwmark {random.choice(MARKS)}"] if random.random() < 0.4 else []
    if random.random() < 0.8:
        parts.append(f"table {random.choice(TABLES)}")
        parts += [f"suppress_prefixlength {random.choice([0, 8, 24])}"] if random.random() < 0.3 else []
    else:
        parts.append(random.choice(KINDS[:3]))
    return " ".join(parts)


def tables():
    return [f"rule add {a_rule()}" for _ in range(random.randrange(6))] + [f"route add {a_route()}" for _ in range(random.randrange(25))]


def changes():
    lines = [f"route replace {a_route()}" for _ in range(random.randrange(4))]
    lines += [f"route del {a_prefix()} table {random.choice(TABLES)}" for _ in range(random.randrange(4))]
    lines += [f"rule add {a_rule()}" for _ in range(random.randrange(2))]
    lines += [f"rule del priority {random.choice([0, 5, 50, 32766])}" for _ in range(random.randrange(2))]
    return lines


def a_packet():
    return (random.choice([random.getrandbits(32), number(a_prefix().split("/")[0])]),
            random.choice([random.getrandbits(32), number(a_prefix().split("/")[0])]),
            random.choice(DEVICES + ["lo", "zz9"]), random.choice([0, 1, 3, 7, 0x10, 0x1F, 0xFFFFFFFF, random.getrandbits(32)]))


def answers(script, packets):
    """What packets get from the tables of a script, without the number."""
    lines = script + [f"route get {dotted(to)} from {dotted(source)} iif {iif} mark {mark}" for to, source, iif, mark in packets]
    replies = run("batch", "--force", input="".join(f"{line}\n" for line in lines)).stdout.splitlines()
    found = [reply.split(" ", 2)[2] for reply in replies if reply.startswith("answer ")]
    assert len(found) == len(packets), replies[:3]
    return found


def outcome(answer):
    """The kind, gateway, interface and source of an answer."""
    if answer == "none":
        return None
    words = answer.split(" ")
    kind = next((word for word in words if word in KINDS), "unicast")
    given = dict(zip(words, words[1:]))
    return kind, given.get("via"), given.get("dev"), given.get("src")


def at_the_ends(groups):
    """Packets at the ends of groups, and just beyond them."""
    for group in groups:
        for end in span(group["to"]):
            for to in (end - 1, end, end + 1):
                if 0 <= to < 2**32:
                    _, source, iif, mark = a_packet()
                    if group["source"]:
                        source = min(max(random.choice(span(group["source"])) + random.choice([-1, 0, 1]), 0), 2**32 - 1)
                    yield to, source, iif, mark


def names(script):
    """The interfaces that the rules of a script's tables name."""
    shown = run("batch", "--force", input="".join(f"{line}\n" for line in script + ["rule show"])).stdout
    return set(re.findall(r" iif (\S+)", shown))


def groups_of(*exact):
    """The groups that are shown, and what is wrong with what is shown."""
    shown = run("impact", *exact, "--force", "before.batch", "change.batch")
    groups = [GROUP.fullmatch(line) for line in shown.stdout.splitlines()]
    if not all(groups):
        return [], [f"can't read {shown.stdout!r} {shown.stderr!r}"]
    # Without a group only a refused line, which is reported, makes the status 1.
    if shown.returncode != (1 if groups or shown.stderr else 0):
        return groups, [f"status {shown.returncode} with {len(groups)} groups: {shown.stderr!r}"]
    return groups, []


def misses(groups, named, exact, asked):
    """The packets whose answers differ in no group, that are in a group though they don't, or that it shows otherwise."""
    ends = [(*span(group["to"]), group) for group in groups]
    for packet, was, now in asked:
        having = [group for first, last, group in ends if first <= packet[0] <= last and is_in(group, packet, named)]
        differs = was != now and (exact or outcome(was) != outcome(now))
        if differs != bool(having) or any((group["was"], group["is"]) != (was, now) for group in having):
            yield f"{packet}: {was} -> {now}, shown as {[group.string for group in having]}"


def compare(before, after):
    """Asks all packets before and after, and compares that with the groups."""
    with open("before.batch", "w") as first, open("change.batch", "w") as second:
        first.writelines(f"{line}\n" for line in before)
        second.writelines(f"{line}\n" for line in after)
    (groups, wrong), (exact, wrong_exact) = groups_of(), groups_of("--exact")
    named = names(before) | names(before + after)
    packets = [a_packet() for _ in range(PACKETS)] + list(at_the_ends(groups + exact))[:4000]
    asked = list(zip(packets, answers(before, packets), answers(before + after, packets)))
    return wrong + wrong_exact + [*misses(groups, named, False, asked), *misses(exact, named, True, asked)]


def a_claim():
    parts = [f"to {a_prefix()}"] if random.random() < 0.5 else []
    parts += [f"from {a_prefix()}"] if random.random() < 0.4 else []
    parts += [f"iif {random.choice(DEVICES)}"] if random.random() < 0.2 else []
    parts += [f"mark {random.choice(MARKS)}"] if random.random() < 0.3 else []
    outcomes = random.sample(["dev eth0", "dev wg0", "via 192.0.2.1", "table main", "table 7", "kind blackhole", "kind unicast", "none"], random.randrange(1, 4))
    return f"{' '.join(parts)} : {random.choice(['', 'not '])}{' or '.join(outcomes)}"


def takes(claim, packet):
    to, source, iif, mark = packet
    given = claim.split(":")[0].split()
    for keyword, word in zip(given[::2], given[1::2]):
        if keyword in ("to", "from"):
            first, last = span(word)
            if not first <= (to if keyword == "to" else source) <= last:
                return False
        elif keyword == "iif" and iif != word:
            return False
        elif keyword == "mark":
            value, _, mask = word.partition("/")
            if (mark ^ int(value, 0)) & int(mask or "0xffffffff", 0):
                return False
    return True


def is_met(claim, answer):
    said = claim.split(":")[1].strip()
    negated = said.startswith("not ")
    words = answer.split(" ")
    given = dict(zip(words, words[1:]))
    kind = next((word for word in words if word in KINDS), None if answer == "none" else "unicast")

    def is_outcome(one):
        keyword, _, word = one.partition(" ")
        if keyword == "none":
            return answer == "none"
        return (kind if keyword == "kind" else given.get(keyword)) == word
    return any(map(is_outcome, said.removeprefix("not ").split(" or "))) != negated


def claims(before):
    """Random claims over the tables of a script."""
    wrong = []
    stated = [a_claim() for _ in range(8)]
    with open("claims", "w") as file:
        file.writelines(f"{claim}\n" for claim in stated)
    shown = run("assert", "before.batch", "claims")
    broken = {}
    for line in shown.stdout.splitlines():
        found = re.fullmatch(r"line (\d+): to (\S+) from (\S+) iif (\S+) mark (\S+): (.*)", line)
        if not found:
            return [f"can't read {line!r}"]
        broken[int(found[1])] = (number(found[2]), number(found[3]), found[4], int(found[5], 0)), found[6]
    packets = [a_packet() for _ in range(FEW)]
    known = list(zip(packets, answers(before, packets)))
    for place, claim in enumerate(stated, 1):
        if place in broken:
            packet, answer = broken[place]
            if answers(before, [packet]) != [answer] or not takes(claim, packet) or is_met(claim, answer):
                wrong.append(f"{claim}: {packet} with {answer} doesn't break it")
            continue
        for packet, answer in known:
            if takes(claim, packet) and not is_met(claim, answer):
                wrong.append(f"{claim}: {packet} with {answer} breaks it")
                break
    return wrong + ([] if shown.returncode in (0, 1) else [shown.stderr])


def unused(before):
    """No packet gets what isn't used."""
    shown = run("unused", "before.batch").stdout
    packets = [a_packet() for _ in range(FEW)]
    found = answers(before, packets)
    got = {answer.split(" ", 2)[2] for answer in found if " table " in f" {answer}"}
    wrong = []
    for line in shown.splitlines():
        if line.startswith("\t") or re.match(r"\d+:\t", line):
            continue
        table = re.search(r" table (\S+)", line)
        plain = re.sub(r" table \S+", "", line)
        if f"table {table[1] if table else 'main'} {plain}" in got:
            wrong.append(f"{line} is used")
    return wrong


def one_round(seed):
    """What is wrong in a round, with its tables and its change."""
    random.seed(seed)
    with tempfile.TemporaryDirectory() as folder:
        os.chdir(folder)
        before, after = tables(), changes()
        wrong = compare(before, after) + claims(before) + unused(before)
        os.chdir("/")
    return [f"seed {seed}", *wrong[:10], *before, "changes:", *after] if wrong else []


def main():
    random.seed(int(sys.argv[4]) if sys.argv[4:] else None)
    seeds = [random.getrandbits(32) for _ in range(ROUNDS)]
    with multiprocessing.Pool() as pool:
        wrong = [found for found in pool.imap_unordered(one_round, seeds) if found]
    print("\n".join(wrong[0]) if wrong else f"{ROUNDS} pairs agree")


main()
