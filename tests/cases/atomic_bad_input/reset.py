"""Runs an atomic file over routes.db whose input fails once, after a command, and would then end.

usage: reset.py PROGRAM
"""

import socket
import subprocess
import sys

# A socket that is closed with bytes unread lets its peer read what it sent, then fails one read with a reset.
sender, reader = socket.socketpair()
sender.sendall(b"route add 10/8 dev a1\nrule add")
reader.sendall(b"unread")
sender.close()
run = subprocess.run([sys.argv[1], "batch", "--atomic", "--db", "routes.db"], stdin=reader)
print("status", run.returncode)
