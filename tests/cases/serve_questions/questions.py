"""40 questions to a server whose tables don't change: half are asked by the program, half by clients that read the tables and
close. Each is answered, and a follower is fed after them.
"""

import subprocess

from serving import DATABASE, PROGRAM, Client, Follower, Server, batch

QUESTIONS = 40


def ask(server, turn):
    """Asks one question, and tells whether it was answered."""
    if turn % 2:
        try:
            follower = Follower(server)
        except ConnectionError:
            return False
        follower.close()
        return follower.number == 1
    words = ["dump"] if turn % 4 else ["explain", "10.1.2.3"]
    done = subprocess.run([PROGRAM, *words, *server.asked()], capture_output=True, text=True)
    return done.returncode == 0 and "10.0.0.0/8 dev eth0" in done.stdout and not done.stderr


def main():
    batch(b"route add 10/8 dev eth0\n", "--db", DATABASE)
    server = Server("--feed", "127.0.0.1:0", "--sessions", "1")
    print([turn for turn in range(QUESTIONS) if not ask(server, turn)], "weren't answered")
    follower = Follower(server)
    client = Client(server)
    print(client.ask("route add 11/8 dev eth1"))
    print(follower.changes(1))
    client.close()
    print(server.end())


main()
