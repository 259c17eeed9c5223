"""32 clients add the same route at once, 50 times: one gets it, and 31 are told that it exists, which each then sees.
Then they replace it at once, also 50 times: each of them is told a number that no other is.

The syncs take a while each, so that the commands wait for one another, and are submitted together.
"""

from threading import Barrier

from serving import DATABASE, Client, Server, batch, in_threads, slow_sync

CLIENTS = 32
TURNS = 50


def main():
    server = Server("--workers", str(CLIENTS), "--sessions", str(CLIENTS), variables=slow_sync(2))
    start = Barrier(CLIENTS)

    def add(place):
        client = Client(server)
        told = []
        for turn in range(TURNS):
            start.wait()
            reply = client.ask(f"route add 10.0.{turn}.0/24 dev eth0")
            told.append((reply, client.ask(f"route get 10.0.{turn}.1")))
        for turn in range(TURNS):
            start.wait()
            told.append(client.ask("route replace 10.1.0.0/16 dev eth1"))
        client.close()
        return told

    clients = in_threads(CLIENTS, add)
    for turn in range(TURNS):
        replies = sorted(told[turn][0] for told in clients)
        if replies != ["error 21 Exists"] * (CLIENTS - 1) + [f"ok {turn + 1}"]:
            print(f"turn {turn}: {replies}")
        if any(f"10.0.{turn}.0/24" not in told[turn][1] for told in clients):
            print(f"turn {turn}: not all see the route")
    numbers = sorted(int(reply.removeprefix("ok ")) for told in clients for reply in told[TURNS:])
    print(numbers == list(range(TURNS + 1, TURNS + 1 + CLIENTS * TURNS)))
    print(server.end())
    print(len(batch(b"route show\n", "--db", DATABASE).splitlines()))


main()
