"""Eight clients add 100 routes each, side by side: each number from 1 to 800 is given once, and the file holds all routes."""

from serving import DATABASE, Client, Server, batch, in_threads

CLIENTS = 8
EACH = 100


def main():
    server = Server("--workers", str(CLIENTS), "--sessions", str(CLIENTS))

    def add(place):
        client = Client(server)
        replies = [client.ask(f"route add 10.{place}.{number}.0/24 dev eth{place}") for number in range(EACH)]
        client.close()
        return replies

    replies = in_threads(CLIENTS, add)
    for own in replies:
        numbers = [int(reply.removeprefix("ok ")) for reply in own]
        if numbers != sorted(numbers):
            print(f"a client's numbers don't rise: {numbers}")
    every = sorted((reply for own in replies for reply in own), key=lambda reply: int(reply.removeprefix("ok ")))
    print(every == [f"ok {number}" for number in range(1, CLIENTS * EACH + 1)])
    print(server.end())
    listed = batch(b"route show\n", "--db", DATABASE).decode().splitlines()
    wanted = [f"10.{place}.{number}.0/24 dev eth{place} scope link" for place in range(CLIENTS) for number in range(EACH)]
    print(listed == wanted + [f"end {len(wanted)}"])


main()
