"""What `prt follow` can't bring is named at the beginning, and again when it is not the same any more; not at each change."""

import signal
import subprocess

from serving import PROGRAM, RUNNING, Client, Server

LISTING = """\
default via 192.0.2.1 dev eth0 proto dhcp
10.2.0.0/16 via 192.0.2.1 dev eth0 proto dhcp
0:\tfrom all lookup local
32766:\tfrom all lookup main
32767:\tfrom all lookup default
"""


def main():
    server = Server("--feed", "127.0.0.1:0")
    client = Client(server)
    client.ask("route add default via 192.0.2.9 proto static")
    with open("listing", "w", encoding="ascii") as listing:
        listing.write(LISTING)
    words = [PROGRAM, "follow", "--server", f"127.0.0.1:{server.feed_port}", "--proto", "static", "listing"]
    # Each is a change of its own; what makes no line is told before the line of the next one.
    changes = [
        "route add 10.1.0.0/16 via 192.0.2.9 proto static",
        "route add 10.3.0.0/16 via 192.0.2.9 proto static",
        "route add 10.2.0.0/16 via 192.0.2.9 proto static",
        "route del 10.1.0.0/16",
        "route del default",
        "route del 10.3.0.0/16",
    ]
    with open("told", "wb") as told:
        follower = subprocess.Popen(words, stdin=subprocess.DEVNULL, stdout=subprocess.PIPE, stderr=told, text=True)
        RUNNING.append(follower)
        # A first change shows that it follows.
        client.ask("route add 10.9.0.0/16 via 192.0.2.9 proto static")
        print(follower.stdout.readline(), end="")
        for change in changes:
            client.ask(change)
            if "10.2." not in change and "default" not in change:
                print(follower.stdout.readline(), end="")
        server.kill(signal.SIGKILL)
        print("status", follower.wait())
    with open("told", encoding="ascii") as told:
        print("".join(line for line in told if "isn't brought" in line), end="")


main()
