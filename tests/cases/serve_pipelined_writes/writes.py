"""Replies to lines that are sent in one write go out in few writes; a reply that is waited for has one of its own."""

import re
from pathlib import Path

from serving import Client, Server

LINES = 1000
LINE = "route get 10.0.0.1"
TRACE = Path("trace")
# A reply or more, as a call writes it.
REPLIES = re.compile(rb'(?:write|sendto)\(\d+, "answer ')


def main():
    server = Server("--sessions", "2", under=("strace", "-f", "-qq", "-o", str(TRACE), "-e", "trace=write,sendto"))
    waiting = Client(server)
    print({waiting.ask(LINE) for _ in range(LINES)})
    waiting.close()
    pipelined = Client(server)
    pipelined.end.sendall(f"{LINE}\n".encode() * LINES)
    print({pipelined.replies.readline() for _ in range(LINES)})
    pipelined.close()
    print(server.end())
    writes = len(REPLIES.findall(TRACE.read_bytes()))
    few = "few" if 0 < writes - LINES <= LINES // 20 else f"{writes - LINES}"
    print(f"{LINES} writes, and {few} for as many lines together")


main()
