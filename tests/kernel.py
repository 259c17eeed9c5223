"""Makes network namespaces for the cases kernel_*, and speaks to their kernel by `ip`, and to the program.

The program's path is the first argument of a case. Where no namespace can be made, the case is left out.
"""

import atexit
import itertools
import os
import signal
import subprocess
import sys

import serving
from serving import DATABASE, PROGRAM

# A host with two uplinks and a tunnel. Each interface is the end of a cable, since not each kernel has others.
HOST = {"eth0": "192.0.2.10/24", "eth1": "198.51.100.10/24", "wg0": "10.200.0.1/24"}
# Each namespace that was made.
SPACES = []


def end_spaces():
    """Deletes each namespace that is left."""
    for space in list(SPACES):
        space.close()


def give_up(*_):
    end_spaces()
    serving.give_up()


atexit.register(end_spaces)
signal.signal(signal.SIGTERM, give_up)


def leave_out(why):
    print(f"left out: {why}", file=sys.stderr)
    sys.exit(77)


def run(*words, input=None):
    return subprocess.run(words, input=input, capture_output=True, text=True)


def prt(*words, input=None):
    return run(PROGRAM, *words, input=input)


def quoted(name):
    """A name as a word of a batch of `ip`."""
    return f"'{name}'" if '"' in name else f'"{name}"'


def text_of(lines):
    return "".join(f"{line}\n" for line in lines)


class Space:
    """A namespace with interfaces that have these addresses."""

    numbers = itertools.count(1)

    def __init__(self, addresses=HOST):
        self.name = f"prt_{os.getpid()}_{next(Space.numbers)}"
        try:
            made = run("ip", "netns", "add", self.name)
        except FileNotFoundError:
            leave_out("there is no ip here")
        if made.returncode:
            leave_out("no network namespace can be made here")
        SPACES.append(self)
        lines = ["link set lo up"]
        for place, (device, address) in enumerate(addresses.items()):
            lines.append(f"link add {quoted(device)} type veth peer name peer{place}")
            # The far end first, so that no route begins without its cable.
            lines.append(f"link set peer{place} up")
            lines.append(f"address add {address} dev {quoted(device)}")
            lines.append(f"link set {quoted(device)} up")
        if self.ip("-batch", "-", input=text_of(lines)).returncode:
            leave_out("no such interfaces can be made here")

    def close(self):
        SPACES.remove(self)
        run("ip", "netns", "del", self.name)

    def ip(self, *words, input=None):
        return run("ip", "-n", self.name, *words, input=input)

    def run(self, *words):
        """Runs a program within the namespace."""
        return run("ip", "netns", "exec", self.name, *words)

    def do(self, lines):
        """Has `ip` do all these lines, which the kernel has to take."""
        done = self.ip("-batch", "-", input=text_of(lines))
        if done.returncode:
            print("refused:", done.stderr.strip())

    def listed(self):
        """What `prt import` and `prt diff` read."""
        return self.ip("-4", "-batch", "-", input="route show table all\nrule show\n").stdout

    def lines(self):
        """That, with the routes in one order, and without the spaces at the ends of lines."""
        return sorted(clean(self.listed()))

    def answers(self, packets):
        """The lines that the kernel says of packets: first the routes that they get, then where they get none."""
        told = self.ip("-force", "-batch", "-", input=text_of(f"route get {packet}" for packet in packets))
        return [line for line in clean(told.stdout + told.stderr) if line.strip() != "cache"]


def clean(text):
    """Lines without the spaces at their ends."""
    return [line.rstrip() for line in text.splitlines()]


def bring(space, *words):
    """Brings a namespace to tables, once. Gives what that was refused for."""
    difference = prt("diff", *words, input=space.listed())
    done = space.ip("-force", "-batch", "-", input=difference.stdout)
    return difference.stderr + done.stderr


def differs(space, *words):
    """What lines are left between a namespace and tables."""
    return prt("diff", *words, input=space.listed()).stdout


def import_tables(listing, database=DATABASE):
    """Makes a database of a listing. Gives what of it was told and not kept."""
    for name in (database, f"{database}-wal"):
        if os.path.exists(name):
            os.remove(name)
    return clean(prt("import", "--db", database, input=listing).stderr)
