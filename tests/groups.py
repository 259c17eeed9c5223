"""Reads the groups of packets that `prt impact` shows, for the cases that ask packets one by one."""

import re

GROUP = re.compile(r"to (?P<to>\S+)(?: from (?P<source>\S+))?(?: iif (?P<iif>any other|\S+))?(?: fwmark (?P<mark>(?:not )?\S+))?: (?P<was>.*) -> (?P<is>.*)")


def dotted(bits):
    return ".".join(str(bits >> shift & 255) for shift in (24, 16, 8, 0))


def number(address):
    value = 0
    for part in address.split("."):
        value = value << 8 | int(part)
    return value


def span(text):
    """The ends of a prefix, of an address or of a range."""
    if "-" in text:
        return tuple(map(number, text.split("-")))
    address, _, length = text.partition("/")
    first = number(address)
    return first, first | (1 << 32 - int(length or 32)) - 1


def is_in_block(block, mark):
    """Whether a mark agrees with a value in the bits of its mask."""
    value, _, mask = block.partition("/")
    return (mark ^ int(value, 0)) & int(mask or "0xffffffff", 0) == 0


def is_in(group, packet, named):
    """Whether a group has a packet. An interface that no rule names is 'any other'."""
    to, source, iif, mark = packet
    first, last = span(group["to"])
    if not first <= to <= last:
        return False
    if group["source"]:
        first, last = span(group["source"])
        if not first <= source <= last:
            return False
    if group["iif"] and (iif in named if group["iif"] == "any other" else iif != group["iif"]):
        return False
    if group["mark"]:
        blocks = group["mark"].removeprefix("not ").split(",")
        return any(is_in_block(block, mark) for block in blocks) != group["mark"].startswith("not ")
    return True
