"""`prt wait` ends once a server answers at either of its ports, and after its seconds where none does."""

import socket
import subprocess
import time

from serving import PROGRAM, RUNNING, Server


def begin(port, *words):
    process = subprocess.Popen([PROGRAM, "wait", "--server", f"127.0.0.1:{port}", *words])
    RUNNING.append(process)
    return process


def timed(process):
    """Its status, and for how many seconds it was waited."""
    start = time.monotonic()
    return process.wait(), time.monotonic() - start


def main():
    server = Server("--feed", "127.0.0.1:0")
    ports = [server.port, server.feed_port]
    for port in ports:
        status, spent = timed(begin(port))
        print(status, spent < 5)
    server.kill(9)
    for port in ports:
        status, spent = timed(begin(port, "--seconds", "1"))
        print(status, 0.5 < spent < 10)

    early = [begin(port, "--seconds", "40") for port in ports]
    time.sleep(1)
    print([process.poll() for process in early])
    server = Server("--feed", f"127.0.0.1:{ports[1]}", port=ports[0])
    print([timed(process)[0] for process in early])
    server.kill(9)

    # Something else, which takes connections and says nothing.
    with socket.create_server(("127.0.0.1", 0)) as other:
        status, spent = timed(begin(other.getsockname()[1], "--seconds", "1"))
        print(status, spent < 20)


main()
