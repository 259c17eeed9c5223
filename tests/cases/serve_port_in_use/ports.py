"""A port in use, and a database that can't be opened: text and status of each. Nothing listens in the second case."""

import os
import socket
import subprocess

from serving import PROGRAM


def serve(database, port):
    words = [PROGRAM, "serve", "--db", database, "--listen", f"127.0.0.1:{port}"]
    run = subprocess.run(words, stdin=subprocess.DEVNULL, capture_output=True, text=True, timeout=20)
    print(run.returncode, repr(run.stdout), repr(run.stderr.replace(f":{port}:", ":PORT:")))


with socket.create_server(("127.0.0.1", 0)) as taken:
    serve("routes.db", taken.getsockname()[1])
os.mkdir("folder")
serve("folder", 0)
