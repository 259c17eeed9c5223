"""`get` and `show` may be asked of a server's sessions, which need not send its tables: the answers are those of its feed, and of
3,000 routes hardly a byte comes. What needs the tables, as JSON does, fails there.
Nor does `apply` send its changes to sessions, which would make them one by one, or to a feed.
"""

import socket
import subprocess
import threading

from serving import DATABASE, PROGRAM, Client, Server, batch, connected, database_of

ROUTES = 3000
# How many bytes may come for one answer.
FEW = 1000

QUESTIONS = [
    ["get", "10.0.3.4"],
    ["get", "10.0.3.4", "from", "192.0.2.10", "mark", "7"],
    ["get", "172.16.0.1"],
    ["show", "table", "7"],
    ["show", "rule"],
]


class Counter(threading.Thread):
    """Lets one client through to a port of a server, and counts the bytes that come back."""

    def __init__(self, port):
        super().__init__()
        self.listener = socket.create_server(("127.0.0.1", 0))
        self.port, self.there, self.bytes = self.listener.getsockname()[1], port, 0
        self.start()

    def run(self):
        client, _ = self.listener.accept()
        server = connected(self.there)
        sender = threading.Thread(target=self.pass_on, args=(client, server))
        sender.start()
        self.bytes = self.pass_on(server, client)
        sender.join()
        for end in (client, server, self.listener):
            end.close()

    @staticmethod
    def pass_on(source, target):
        """Passes on what comes until its end, and counts it."""
        count = 0
        try:
            while part := source.recv(65536):
                count += len(part)
                target.sendall(part)
            target.shutdown(socket.SHUT_WR)
        except OSError:
            pass
        return count


def ask(port, words):
    done = subprocess.run([PROGRAM, words[0], "--server", f"127.0.0.1:{port}", *words[1:]], capture_output=True, text=True)
    return done.returncode, done.stdout, done.stderr


def ask_counted(port, words):
    """Asks through a counter. What the program said, and how many bytes came for it."""
    counter = Counter(port)
    said = ask(counter.port, words)
    counter.join()
    return said, counter.bytes


def main():
    database_of(ROUTES)
    batch(b"route add 192.0.2.0/24 dev eth1 table 7\nrule add from 192.0.2.10 table 7\nrule add fwmark 9 blackhole\n", "--db", DATABASE)
    server = Server("--feed", "127.0.0.1:0")
    for words in QUESTIONS:
        said, count = ask_counted(server.port, words)
        print(*words, said[0], said == ask(server.feed_port, words), count <= FEW or count)
    print(ask(server.port, ["get", "10.0.3.4"]))
    print(ask(server.port, ["show", "table", "all"]) == ask(server.feed_port, ["show", "table", "all"]))

    # From a session that is asked, a question sees what was accepted before it.
    client = Client(server)
    print(client.ask("route add 10.0.3.4 dev eth9"))
    print(ask(server.port, ["get", "10.0.3.4"]))
    for words in (["explain", "10.0.3.4"], ["dump"], ["get", "--json", "10.0.3.4"]):
        status, said, told = ask(server.port, words)
        print(*words, status, repr(said), told.replace(str(server.port), "PORT"), end="")
    for port in (server.port, server.feed_port):
        words = ["apply", "--server", f"127.0.0.1:{server.feed_port}", "--atomic", f"127.0.0.1:{port}"]
        done = subprocess.run([PROGRAM, *words], input="route add 10/8 dev eth0\n", capture_output=True, text=True)
        print(done.returncode, repr(done.stdout), done.stderr.replace(str(port), "PORT"), end="")
    print(ask(server.port, ["get", "10.0.3.4"]))
    server.kill(15)


main()
