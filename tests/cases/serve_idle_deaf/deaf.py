"""A client that never reads its replies is ended by `--idle` too, once its connection has taken no byte for a second: the only
worker then serves the next one.
"""

from serving import Client, Server, database_of, read_all

ROUTES, LISTINGS = 200, 2000


def main():
    database_of(ROUTES)
    server = Server("--workers", "1", "--sessions", "2", "--idle", "1")
    deaf = server.connect(room=2048)
    # Their replies are more than any socket's buffers have room for.
    deaf.sendall(b"route show\n" * LISTINGS)
    client = Client(server)
    print(client.ask("route get 10.0.1.1"))
    client.close()
    print(server.end())
    print(read_all(deaf).count(b"end ") < LISTINGS)


main()
