"""The four sockets of a server: what is at each, their modes, and what becomes of their files. Then what can't be opened, and which
users may connect; without root that part isn't tried, and shows what it has to show.
"""

import os
import shutil
import socket
import stat
import subprocess
import tempfile

from serving import PATIENCE, PROGRAM, RUNNING, Client, Follower, Server, connected, read_all, together

NAMES = ["atomic", "feed", "session", "status"]
# The users of the last part: the server and its group, one in the group and one that isn't.
OWNER, GROUP, MEMBER, STRANGER = 20000, 20001, 20002, 20003


def serve(*words):
    """What a server says that can't begin: its status, and its words. One of the four sockets is named: any of them."""
    done = subprocess.run([PROGRAM, "serve", *words], stdin=subprocess.DEVNULL, capture_output=True, text=True, timeout=PATIENCE)
    told = done.stderr
    for name in NAMES:
        told = told.replace(f"/{name}:", "/SOCKET:")
    return done.returncode, done.stdout, told


def prt(*words, under=(), program=PROGRAM):
    done = subprocess.run([*under, program, *words], stdin=subprocess.DEVNULL, capture_output=True, text=True, timeout=PATIENCE)
    return done.returncode, done.stdout or done.stderr


def served():
    """What each socket does, the modes, and the end."""
    os.umask(0o027)
    server = Server("--sessions", "2", folder="./run")
    print(sorted(os.listdir("run")) == NAMES, {oct(os.stat(f"run/{name}").st_mode) for name in NAMES})
    print(all(stat.S_ISSOCK(os.stat(f"run/{name}").st_mode) for name in NAMES))
    follower = Follower(server)
    print(together(server, b"route add 10/8 dev eth0\nrule add priority 9 to 10/8 table main\n"))
    print(follower.number, follower.changes(2))
    print(read_all(connected("run/status")).decode().splitlines()[-1])
    for name, what in ("status", b"\nstate open\n"), ("feed", b"\nnow\n"):
        with connected(f"run/{name}") as end:
            end.sendall(os.urandom(100000))
            told = b""
            while what not in told and (part := end.recv(65536)):
                told += part
            print(name, "after garbage:", what in told)
    client = Client(server)
    print(client.ask("route get 10.1.2.3"))
    client.close()
    print(server.end(), os.listdir("run"))


def left_over():
    """Files of a server that was killed or stopped are replaced. Those of one that serves, and other files, are not."""
    for number in (9, 15):
        server = Server(folder="./run")
        server.kill(number)
        print(sorted(os.listdir("run")) == NAMES)
    server = Server(folder="./run")
    print(serve("--db", "other.db", "--sockets", "./run"))
    print(Client(server).ask("route get 10.1.2.3"))
    server.kill(9)
    os.remove("run/feed")
    with open("run/feed", "w", encoding="ascii") as file:
        file.write("a file\n")
    print(serve("--db", "other.db", "--sockets", "./run"))
    with open("run/feed", encoding="ascii") as file:
        print(file.read(), end="")
    shutil.rmtree("run")


def places():
    """All places of a server in one line each, and in this order."""
    os.mkdir("run")
    words = [PROGRAM, "serve", "--db", "routes.db", "--sockets", "./run"]
    for option in ("feed", "atomic", "listen"):
        words += [f"--{option}", "127.0.0.1:0"]
    process = subprocess.Popen(words, stdout=subprocess.PIPE, text=True)
    RUNNING.append(process)
    lines = [process.stdout.readline().split() for _ in range(4)]
    print([word for word, _ in lines], lines[3][1])
    ports = [int(place.rpartition(":")[2]) for _, place in lines[:3]]
    ends = [connected(place) for place in (ports[0], "run/session", ports[1], "run/atomic")]
    for end in ends:
        end.sendall(b"route get 10.1.2.3\n")
        end.shutdown(socket.SHUT_WR)
    print([read_all(end) for end in ends])
    print({connected(place).recv(8) for place in (ports[2], "run/feed")})
    process.kill()
    process.wait()
    shutil.rmtree("run")


def replaced():
    """Sockets that another server has put in the place of ours stay when ours ends. A folder has to be named, and standard output
    is named if it can't be written."""
    os.mkdir("run")
    words = [PROGRAM, "serve", "--db", "first.db", "--sockets", "./run", "--listen", "127.0.0.1:0", "--sessions", "1"]
    first = subprocess.Popen(words, stdout=subprocess.PIPE, text=True)
    RUNNING.append(first)
    port = int(first.stdout.readline().rpartition(":")[2])
    first.stdout.readline()
    for name in NAMES:
        os.remove(f"run/{name}")
    second = Server(database="second.db", folder="./run")
    end = connected(port)
    end.sendall(b"route get 10.1.2.3\n")
    end.shutdown(socket.SHUT_WR)
    print(read_all(end), first.wait(PATIENCE), sorted(os.listdir("run")) == NAMES)
    print(Client(second).ask("route get 10.1.2.3"))
    second.kill(9)
    shutil.rmtree("run")
    print(serve("--db", "second.db", "--sockets", ""))
    with open("/dev/full", "w", encoding="ascii") as full:
        words = [PROGRAM, "serve", "--db", "second.db", "--listen", "127.0.0.1:0"]
        done = subprocess.run(words, stdin=subprocess.DEVNULL, stdout=full, stderr=subprocess.PIPE, text=True, timeout=PATIENCE)
    print(done.returncode, done.stderr.splitlines()[-1])


def refused():
    """Folders in which no socket can be made. None is left of those that could."""
    with open("file", "x", encoding="ascii"):
        pass
    long = "./" + "a" * 120
    os.mkdir(long)
    for folder in ("./missing", "./file"):
        print(serve("--db", "routes.db", "--sockets", folder))
    status, said, told = serve("--db", "routes.db", "--sockets", long)
    print(status, repr(said), told.startswith(f"prt: listener failed\nprt: {long}/SOCKET: "), os.listdir(long))
    os.mkdir("run")
    os.mkdir("run/feed")
    print(serve("--db", "routes.db", "--sockets", "./run")[0], os.listdir("run"))


def as_user(user, *groups):
    rest = ["--groups", ",".join(map(str, groups))] if groups else ["--clear-groups"]
    return ["setpriv", "--reuid", str(user), "--regid", str(user), *rest]


def users():
    """A folder and sockets for a group: its members may change the tables, others may not. Then others may read them."""
    home = tempfile.mkdtemp()
    try:
        os.chmod(home, 0o755)
        program, folder = f"{home}/prt", f"{home}/run"
        shutil.copy(PROGRAM, program)
        os.chmod(program, 0o755)
        for name in ("state", "run", "closed"):
            os.mkdir(f"{home}/{name}")
            os.chmod(f"{home}/{name}", 0o750)
            os.chown(f"{home}/{name}", OWNER, GROUP)
        os.chmod(f"{home}/closed", 0o550)
        os.umask(0o007)
        server = ["setpriv", "--reuid", str(OWNER), "--regid", str(GROUP), "--clear-groups"]
        words = [program, "serve", "--db", f"{home}/state/routes.db", "--sockets"]
        done = subprocess.run([*server, *words, f"{home}/closed"], capture_output=True, text=True, timeout=PATIENCE)
        print(done.returncode, "Permission denied (os error 13)" in done.stderr, os.listdir(f"{home}/closed"))
        process = subprocess.Popen([*server, *words, folder], stdout=subprocess.PIPE, text=True)
        RUNNING.append(process)
        process.stdout.readline()
        people = [("root", []), ("member", as_user(MEMBER, GROUP)), ("stranger", as_user(STRANGER))]
        for is_open in (False, True):
            if is_open:
                os.chmod(folder, 0o751)
                for name in ("feed", "status"):
                    os.chmod(f"{folder}/{name}", 0o776)
                people.reverse()
            script = f"{home}/{is_open}"
            with open(script, "w", encoding="ascii") as file:
                file.write(f"route add default dev eth{int(is_open)}\n")
            os.chmod(script, 0o644)
            for name, under in people:
                for words in (["get", "10.1.2.3"], ["show", "--json"], ["apply", script], ["wait", "--seconds", "1"]):
                    status, said = prt(*words[:1], "--server", folder, *words[1:], under=under, program=program)
                    print(name, words[0], status, said.replace(folder, "RUN").strip() if words[0] != "show" else "")
                print(name, "status", prt("status", "--server", folder, under=under, program=program)[0])
        process.kill()
    finally:
        shutil.rmtree(home)


def main():
    served()
    left_over()
    places()
    replaced()
    refused()
    if os.getuid() == 0:
        users()
    else:
        with open(f"{os.path.dirname(os.path.realpath(__file__))}/users", encoding="ascii") as shown:
            print(shown.read(), end="")


main()
