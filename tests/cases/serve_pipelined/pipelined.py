"""A client that sends many lines in one write has all their replies, in order, before the server waits for more."""

from serving import Client, Server, batch

ROUTES = 500
LONG = b"# a comment of more than one block" + b" that goes on" * 1000 + b"\n"


def main():
    server = Server("--sessions", "1")
    client = Client(server)
    sent, had = b"", b""

    def is_replied(text):
        """Sends a text in one write, and tells whether all replies that are due by then come."""
        nonlocal sent, had
        sent += text
        client.end.sendall(text)
        due = batch(sent[: sent.rindex(b"\n") + 1])
        while len(had) < len(due):
            had += client.replies.readline()
        return had == due

    print("one line:", is_replied(b"route add 10/8 dev eth0\n"))
    adds = b"".join(b"route add 10.%d.%d.0/24 dev eth1\n" % (n // 250, n % 250) for n in range(ROUTES))
    print("many commands:", is_replied(adds))
    gets = b"".join(b"route get 10.%d.%d.1\n" % (n // 250, n % 250) for n in range(2 * ROUTES))
    print("many queries:", is_replied(gets))
    print("lines and a half:", is_replied(b"route get 11.0.0.1\nroute get 10.0.0.1\nroute get 1"))
    print("the other half:", is_replied(b"1.0.0.1\n"))
    print("a blank line last:", is_replied(b"route get 10.0.0.1\nroute get 10.0.1.1\n\n"))
    print("comments last:", is_replied(b"route get 10.0.0.1\n# one\n \t# two\n\r\n#"))
    print("the comment goes on:", is_replied(b" three\nroute get 10.0.0.1 # four\n"))
    print("refused lines:", is_replied(b"route get\nlink show\n\xff\nroute add 10/8 dev eth0\nroute get 10.0.0.1\n"))
    print("long lines:", is_replied(b"route get 10.0.0.1\n" + LONG + b"route get 10.0.1.1\n" + LONG))
    print("listings:", is_replied(b"route get 10.0.0.1\nroute show\nrule show\nroute show\nroute get 10.0.1.1\n"))
    client.close()
    print(server.end())


main()
