"""Refused memory in `prt serve` with one worker, while its one client sends the lines of a session."""

import errno
import re
import socket
import subprocess
import tempfile

import model
from attempts import (PATIENCE, PROGRAM, Ended, Wrong, environment, is_told, look_into, places_of, sessions, show,
                      sweep, told_in)

LISTENING = re.compile(r"listening 127\.0\.0\.1:(\d+)\n")
# What is told where nothing is served, or the one connection can't be; under it may stand a place with the reason.
FAULT = re.compile(r"prt: (?:error )?(26 NoMemory|31 OpenFailed|listener failed)\n([^\n]+\n)?")


def end_writing(connection):
    """Ends the writing side of a connection, which is none any more where the server has reset it."""
    try:
        connection.shutdown(socket.SHUT_WR)
    except OSError as fault:
        if fault.errno != errno.ENOTCONN:
            raise


def converse(port, script):
    """The replies to a script; none where the connection is refused or breaks off."""
    parts = []
    try:
        with socket.create_connection(("127.0.0.1", port), PATIENCE) as end:
            end.sendall(script.encode())
            end_writing(end)
            while part := end.recv(65536):
                parts.append(part)
    except ConnectionError:
        pass
    return b"".join(parts).decode()


def serve(path, script, preloaded, folder, **variables):
    """Serves one session. Gives whether the server listened, and how it ended, with the replies to the client."""
    words = [PROGRAM, "serve", "--db", path, "--listen", "127.0.0.1:0", "--workers", "1", "--sessions", "1"]
    with subprocess.Popen(words, stdin=subprocess.DEVNULL, stdout=subprocess.PIPE, stderr=subprocess.PIPE, text=True,
                          env=environment(preloaded, folder, variables)) as server:
        listening = LISTENING.fullmatch(server.stdout.readline())
        replies = converse(int(listening[1]), script) if listening else ""
        try:
            said, errors = server.communicate(timeout=PATIENCE)
        except subprocess.TimeoutExpired:
            server.kill()
            raise
    return bool(listening), Ended(server.returncode, replies + said, errors, told_in(folder))


def met_by(is_listening, ended, allowed):
    """What a run met, and the states that may be stored."""
    fault = FAULT.fullmatch(ended.errors)
    if fault and ended.status == 3 and not ended.replies:
        place = "after it listens" if is_listening else "at the opening"
        return f"{fault[1].removeprefix('26 ').removeprefix('31 ')} {place}", [model.State()]
    if ended.status != 0 or not is_told(ended) or not is_listening:
        raise Wrong(show(ended))
    if not ended.replies:
        return "a connection closed without a reply", [model.State()]
    if ended.replies not in allowed:
        raise Wrong(show(ended))
    what, session = allowed[ended.replies]
    return what, session.stored


def refuse_server(script, preloaded, is_whole):
    """Refuses each request for memory of a server over a new file."""
    allowed = sessions(script, (model.NO_MEMORY, model.STORE_FAILED, model.NOT_PUBLISHED))

    def attempt(place, folder):
        path = f"{folder}/routes.db"
        is_listening, ended = serve(path, script, preloaded, folder, REFUSE=place)
        what, states = met_by(is_listening, ended, allowed)
        look_into(path, states)
        is_met = ended.told[2] > 0
        return what if is_met else "no refusal", is_met

    with tempfile.TemporaryDirectory() as folder:
        _, whole = serve(f"{folder}/routes.db", script, preloaded, folder)
    return sweep("loopback, by a server", attempt, places_of(whole.told, is_whole))
