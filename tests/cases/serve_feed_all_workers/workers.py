"""With 64 workers 64 sessions are served beside 16 followers: eight of these are there before the sessions, and eight come after."""

from serving import Client, Follower, Server, in_threads

WORKERS = 64


def main():
    server = Server("--feed", "127.0.0.1:0", "--workers", str(WORKERS), "--sessions", str(WORKERS))
    followers = [Follower(server) for _ in range(8)]
    clients = [Client(server) for _ in range(WORKERS)]
    print(set(in_threads(WORKERS, lambda place: clients[place].ask("route get 192.0.2.1"))))
    followers += [Follower(server) for _ in range(8)]
    print(clients[-1].ask("route add 10/8 dev eth0"))
    print([follower.changes(1) for follower in followers].count(["route add 10.0.0.0/8 dev eth0 scope link\n"]))
    print(set(in_threads(WORKERS, lambda place: clients[place].ask("route get 10.0.0.1"))))
    for client in clients:
        client.close()
    print(server.end())


main()
