"""A feed gives the tables as they are, and each change after them, of every verb. What follows it has the tables of the server,
byte for byte, whenever it begins. Each feed ends when the server does.
"""

import subprocess

from serving import DATABASE, PROGRAM, Client, Follower, Server, batch, in_threads

CHANGES = """\
route add 10.0.0.0/8 via 192.0.2.1 dev eth0 metric 5
ip -4 route change 10/8 via 192.0.2.9 metric 5   # the words in another order, and a comment
route replace 0/0 dev wg0 table 100 proto static scope link src 192.0.2.3
route add blackhole 10.9.0.0/16 table 7
rule add not fwmark 0x7/0xff to 10.0.0.0/8 iif eth1 table 100
rule add from 192.0.2.0/24 priority 50 prohibit
rule add suppress_prefixlength 0 table main priority 60
route del 10.9.0.0/16 table 7
rule del from 192.0.2.0/24
route add 10.1.0.0/16 dev eth0 table 8
route flush table 8
rule flush
"""


def dumped(path):
    return subprocess.run([PROGRAM, "dump", "--db", path], capture_output=True, check=True).stdout


def ask_all(server, *lines):
    """Asks lines by a client of their own, and gives the last reply."""
    client = Client(server)
    replies = [client.ask(line) for line in lines]
    client.close()
    return replies[-1]


def main():
    batch(b"route add 10.5.0.0/16 dev eth5\nrule add priority 9 table 9\n", "--db", DATABASE)
    server = Server("--feed", "127.0.0.1:0", "--sessions", "10")
    first = Follower(server)
    print(first.number, first.tables)
    ask_all(server, *CHANGES.splitlines(), "route add 10.9.0.0/16 dev eth0 table 0x7 foo", "route get 10.5.0.1")
    print("".join(first.changes(len(CHANGES.splitlines()))), end="")

    # Further followers begin where it stands, and after that eight clients change it side by side.
    others = [Follower(server) for _ in range(3)]
    print([other.number for other in others])
    in_threads(8, lambda place: ask_all(server, *(f"route replace 10.{place}.{turn}.0/24 dev eth{turn % 3}" for turn in range(25))))
    print(ask_all(server, "route get 10.3.24.9"))
    followed = in_threads(4, lambda place: ([first] + others)[place].changes())
    print(server.end(), [len(lines) for lines in followed])
    for place, other in enumerate(others):
        path = f"{place}.db"
        batch("".join(other.tables + followed[place + 1]).encode(), "--db", path)
        print(dumped(path) == dumped(DATABASE))


main()
