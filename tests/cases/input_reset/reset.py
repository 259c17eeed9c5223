"""Runs a script whose input fails once, within its line, and would then end.

usage: reset.py PROGRAM
"""

import socket
import subprocess
import sys

# A socket that is closed with bytes unread lets its peer read what it sent, then fails one read with a reset.
sender, reader = socket.socketpair()
sender.sendall(b"rule show")
reader.sendall(b"unread")
sender.close()
run = subprocess.run([sys.argv[1], "batch", "--force"], stdin=reader)
print("status", run.returncode)
