"""The script of the units keeps a kernel as its server has it: over a server that goes and comes, a pipe that breaks, an
interface that goes and comes, and what others do. Without a fence, and without a server, it changes nothing.
"""

import os
import signal
import subprocess
import threading
import time

from kernel import PROGRAM, Space, prt, run
from serving import Client, Server

SCRIPT = os.path.join(os.path.dirname(os.path.realpath(__file__)), "../../../packaging/prt-kernel")
FENCE = ["--table", "100-199", "--priority", "1000-1999"]
WORDS = ["route add default via 192.0.2.1 dev eth0 table 100", "rule add priority 1000 from 10.0.0.0/8 table 100"]


class Unit(threading.Thread):
    """Begins the script anew whenever it ends, as systemd does."""

    def __init__(self, variables):
        super().__init__(daemon=True)
        self.variables, self.is_over, self.statuses = variables, False, []
        self.start()

    def run(self):
        while not self.is_over:
            # In a group of its own, which ends as one: so systemd ends a unit.
            self.process = subprocess.Popen(["bash", SCRIPT], env=self.variables, stderr=subprocess.DEVNULL, start_new_session=True)
            self.statuses.append(self.process.wait())
            self.end_group()
            time.sleep(0.2)

    def end_group(self):
        try:
            os.killpg(self.process.pid, signal.SIGKILL)
        except ProcessLookupError:
            pass

    def end(self):
        self.is_over = True
        self.end_group()
        self.join()


def variables_of(space, fence):
    """What the script reads: where `ip` acts in a namespace, and /etc/default/prt-kernel says this."""
    for name, text in [("ip", f'#!/bin/sh\nexec ip -n {space.name} "$@"\n'), ("defaults", f'FENCE="{fence}"\n')]:
        with open(name, "w", encoding="ascii") as file:
            file.write(text)
    os.chmod("ip", 0o755)
    return os.environ | {"PRT": PROGRAM, "IP": os.path.abspath("ip"), "DEFAULTS": os.path.abspath("defaults")}


def settles(space, server):
    """Waits until the kernel has what the server has, and says so."""
    for _ in range(200):
        left = prt("diff", "--server", f"127.0.0.1:{server.feed_port}", *FENCE, input=space.listed())
        if left.returncode == 0 and not left.stdout:
            return "settled"
        time.sleep(0.05)
    return left.stdout + left.stderr


def ask(server, *lines):
    client = Client(server)
    replies = {client.ask(line).split()[0] for line in lines}
    client.close()
    return replies


def once(variables):
    """The status of one pass."""
    return run("env", *(f"{name}={variables[name]}" for name in ("PRT", "IP", "DEFAULTS", "SERVER")), "bash", SCRIPT, "--once").returncode


def children_named(name, parent):
    """The processes of this name below one."""
    told = run("ps", "-o", "pid=,comm=", "-g", str(parent)).stdout.split("\n")
    return [int(line.split()[0]) for line in told if line.split()[1:] == [name]]


def main():
    space = Space()
    space.do(["route add default via 192.0.2.1 dev eth0 proto dhcp", "route add 10.77.0.0/16 dev eth0 table 77"])
    before = space.lines()
    server = Server("--feed", "127.0.0.1:0")
    print(ask(server, *WORDS))
    variables = variables_of(space, "") | {"SERVER": f"127.0.0.1:{server.feed_port}"}
    print("without a fence:", once(variables), space.lines() == before)
    variables_of(space, " ".join(FENCE))
    unit = Unit(variables)
    print("at the start:", settles(space, server))
    ask(server, "route add 10.1.0.0/16 via 198.51.100.1 dev eth1 table 101")
    print("a change:", settles(space, server))

    server.kill(signal.SIGKILL)
    during = space.lines()
    time.sleep(1)
    print("without a server:", space.lines() == during, set(unit.statuses) - {0} == set(unit.statuses) != set())
    server = Server("--feed", f"127.0.0.1:{server.feed_port}", port=server.port)
    ask(server, "route del 10.1.0.0/16 table 101", "rule add priority 1001 to 10.2.0.0/16 prohibit")
    print("a new server:", settles(space, server))

    for process in children_named("ip", unit.process.pid):
        os.kill(process, signal.SIGKILL)
    ask(server, "route add 10.3.0.0/16 dev eth1 table 101")
    ask(server, "route add 10.4.0.0/16 dev eth1 table 101")
    print("a broken pipe:", settles(space, server))

    space.ip("link", "set", "eth1", "down")
    space.ip("link", "set", "eth1", "up")
    print("an interface that was gone:", "10.3.0.0/16" in space.listed(), once(variables), settles(space, server))
    space.do(["route del default table 100", "route add 10.9.0.0/16 dev eth0 table 100", "rule add priority 1500 table 7"])
    print("what others do:", once(variables), settles(space, server))
    hops = "nexthop via 192.0.2.1 dev eth0 nexthop via 198.51.100.1 dev eth1"
    space.do([f"route add 10.8.0.0/16 table 100 {hops}", "route del default table 100"])
    print("beside what can't be kept:", once(variables), "default via" in space.ip("route", "show", "table", "100").stdout)
    space.do(["route del 10.8.0.0/16 table 100"])
    unit.end()
    print("what is outside:", [line for line in before if line not in space.lines()])
    server.kill(signal.SIGKILL)
    after = space.lines()
    print("one pass without a server:", once(variables) != 0, space.lines() == after)


main()
