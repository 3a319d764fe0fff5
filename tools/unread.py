#!/usr/bin/env python3
"""Runs `mvd serve` into pipes that nobody reads, and sees that it goes on.

usage: tools/unread.py PROGRAM

PROGRAM is `mvd` as built. Connections come and end, until their lines are far more than a pipe holds. It ends with 1 at the first
that is not as wanted:
- each connection is answered, and puts are answered behind them;
- the first lines are in the pipe, whole and in their order; once it is read, the next line is `dropped N`, and with the N dropped
  ones each connection is told of once; so also with `--conns`, up to the root at the end;
- into a file each line goes; where its disk is full, lines are dropped and told of in the same way, and no client is cut;
- so also the lines on standard error, which name keys that a peer refuses: puts go on to be answered;
- once nobody is left who could read, the server ends with 35, as other commands do.
The files are made in TMPDIR (else /tmp).
"""
import atexit
import contextlib
import fcntl
import os
import resource
import signal
import socket
import subprocess
import sys
import tempfile
import time

sys.path.insert(0, os.path.join(os.path.dirname(os.path.abspath(__file__)), "..", "examples"))
from client import Client  # noqa: E402

PATIENCE = 20
PUTS = 20
# a pipe holds 65,536 bytes: some 3,200 lines
FLOOD = 5_000
# the most that `--conns` takes, and a pipe that holds no line of each
CONNS, SHORT_PIPE = 1_000, 16_384
F_SETPIPE_SZ = 1_031
# so many keys are refused, whose lines are more than that pipe holds
REFUSED = 99
# as many bytes a file holds on a disk that is full then, and as many of them are left at first
DISK, LEFT = 1_000_000, 200


def wanted(what, holds, seen=""):
    if not holds:
        sys.exit(f"unread: {what}: {seen}")


class Server:
    """A server, whose output goes where nobody may read it."""

    def __init__(self, folder, name, *words, output=subprocess.PIPE, limit=None, site=1):
        with socket.create_server(("127.0.0.1", 0)) as free:
            self.port = free.getsockname()[1]
        words = [PROGRAM, "serve", "--db", os.path.join(folder, name), "--site", str(site), "--port", str(self.port), *words]
        self.process = subprocess.Popen(words, stdout=output, stderr=subprocess.PIPE, preexec_fn=limit)
        atexit.register(self.process.kill)

    def client(self):
        """A client, as soon as the server listens. It waits no longer for a reply than it has patience."""
        begun = time.monotonic()
        while time.monotonic() < begun + PATIENCE:
            try:
                client = Client(self.port)
            except ConnectionRefusedError:
                wanted("no server", self.process.poll() is None, self.process.returncode)
                time.sleep(0.01)
                continue
            client.socket.settimeout(PATIENCE)
            return client
        sys.exit("unread: no server listens")

    def flood(self, count):
        """So many connections, one after the other, each of which ends with a bye."""
        for number in range(count):
            client = self.client()
            try:
                client.bye()
            except OSError as error:
                sys.exit(f"unread: connection {number + 1} got no reply: {error}")
            client.stream.close()

    def puts(self):
        """How many milliseconds the longest of the puts took; and its connection ends."""
        client, longest = self.client(), 0
        for number in range(PUTS):
            begun = time.monotonic()
            client.put(f"k{number}", bytes(4), {"n": number})
            longest = max(longest, time.monotonic() - begun)
        client.bye()
        client.stream.close()
        return longest * 1_000

    def ends(self):
        """All that it still printed, its status and what it told on standard error."""
        out, errors = self.process.communicate(timeout=PATIENCE)
        return (out or b"").decode(), self.process.returncode, errors.decode()


def in_pipe(pipe):
    """What stands in the pipe now."""
    came, output = b"", pipe.fileno()
    os.set_blocking(output, False)
    try:
        while piece := os.read(output, 65_536):
            came += piece
    except BlockingIOError:
        pass
    os.set_blocking(output, True)
    return came.decode()


def numbered(lines):
    """The connections of the lines, each of which ended with a bye."""
    for line in lines:
        wanted("a line is not whole", line.startswith("connection ") and line.endswith(" bye"), line)
    return [int(line.split()[1]) for line in lines]


def told_first(server):
    """How many connections the pipe tells of, which are the first."""
    first = in_pipe(server.process.stdout).splitlines()
    wanted("the first line", first[:1] == [f"listening 127.0.0.1:{server.port}"], first[:1])
    told = numbered(first[1:])
    wanted("the lines are those of the first connections", told == list(range(1, len(told) + 1)), told)
    return len(told)


def dropped_then(lines, told, ended):
    """How many the first line says were dropped; with these, and those told before, the others tell of each connection."""
    wanted("dropped lines are told of", lines[:1] and lines[0].startswith("dropped "), lines[:1])
    dropped = int(lines[0].split()[1])
    wanted("lines were dropped", dropped > 0, lines[0])
    wanted("the lines behind", numbered(lines[1:]) == list(range(told + dropped + 1, ended + 1)), (told, lines, ended))
    return dropped


def unread(folder):
    server = Server(folder, "unread.db")
    server.flood(FLOOD)
    longest = server.puts()
    told = told_first(server)
    server.flood(2)
    server.process.terminate()
    rest, _, _ = server.ends()
    dropped = dropped_then(rest.splitlines(), told, FLOOD + 3)
    print(f"unread: {told} lines left, {dropped} were dropped and told of; the longest of {PUTS} puts took {longest:.0f} ms", flush=True)


def unread_with_an_end(folder):
    server = Server(folder, "end.db", "--conns", str(CONNS))
    fcntl.fcntl(server.process.stdout, F_SETPIPE_SZ, SHORT_PIPE)
    server.flood(CONNS - 2)
    told = told_first(server)
    server.flood(2)
    rest, status, errors = server.ends()
    *rest, root = rest.splitlines()
    dropped = dropped_then(rest, told, CONNS)
    wanted("the root is told last", status == 0 and root.startswith("root "), (status, root, errors))
    print(f"unread: of {CONNS} lines {dropped} were dropped, and the root is told", flush=True)


def into_file(folder):
    path = os.path.join(folder, "out.txt")
    with open(path, "wb") as output:
        server = Server(folder, "file.db", "--conns", str(CONNS), output=output)
    server.flood(CONNS)
    _, status, errors = server.ends()
    with open(path, encoding="ascii") as output:
        lines = output.read().splitlines()
    wanted("the server ended well", status == 0, errors)
    wanted("each line is in the file", numbered(lines[1:-1]) == list(range(1, CONNS + 1)), len(lines))
    print(f"unread: {CONNS} lines in a file, none dropped", flush=True)


def has_little_room():
    """No file grows over so many bytes, and a write that would is refused."""
    signal.signal(signal.SIGXFSZ, signal.SIG_IGN)
    resource.setrlimit(resource.RLIMIT_FSIZE, (DISK, resource.getrlimit(resource.RLIMIT_FSIZE)[1]))


def onto_a_full_disk(folder):
    path, ended = os.path.join(folder, "log.txt"), 50
    with open(path, "wb") as output:
        output.write(b"\n" * (DISK - LEFT))
    with open(path, "ab") as output:
        server = Server(folder, "full.db", output=output, limit=has_little_room)
    server.flood(ended)
    server.puts()
    with open(path, encoding="ascii") as output:
        first = output.read()[DISK - LEFT:].splitlines()[1:-1]
    told = len(numbered(first))
    os.truncate(path, 0)
    server.flood(2)
    wanted("a server on a full disk goes on", server.process.poll() is None, server.process.returncode)
    server.process.terminate()
    server.ends()
    with open(path, encoding="ascii") as output:
        lines = [line for line in output.read().splitlines() if line]
    dropped = dropped_then(lines, told, ended + 3)
    print(f"unread: on a full disk {told} lines left, and {dropped} were dropped and told of", flush=True)


def errors_unread(folder):
    full = Server(folder, "few.db", "--max-keys", "1", site=2)
    full.client().put("only", bytes(4), {})
    server = Server(folder, "named.db", "--peer", str(full.port), "--every", "1")
    fcntl.fcntl(server.process.stderr, F_SETPIPE_SZ, SHORT_PIPE)
    client = server.client()
    for number in range(REFUSED):
        client.put(f"{number:0128}", bytes(4), {"n": number})
        time.sleep(0.02)
    client.bye()
    longest = server.puts()
    first = in_pipe(server.process.stderr).splitlines()
    wanted("keys are named", len(first) > 10 and all(line.endswith(f"10 Full at 127.0.0.1:{full.port}") for line in first[1:]), first[-1:])
    client = server.client()
    for number in range(PUTS):
        client.put(f"last{number}", bytes(4), {"n": number})
        time.sleep(0.1)
    server.process.terminate()
    _, _, rest = server.ends()
    wanted("dropped lines of standard error are told of", rest.startswith("dropped "), rest[:100])
    full.process.terminate()
    print(f"unread: of lines on standard error {len(first)} left; the longest of {PUTS} puts took {longest:.0f} ms", flush=True)


def gone(folder):
    server = Server(folder, "gone.db")
    server.client().bye()
    server.process.stdout.close()
    with contextlib.suppress(OSError, EOFError):  # it may have ended before it replies
        server.client().bye()
    server.process.stdout = None
    _, status, errors = server.ends()
    wanted("a server ends once nobody can read", status == 1 and "35 WriteFailed" in errors, (status, errors))
    print("unread: without a reader the server ends with 35", flush=True)


def main():
    with tempfile.TemporaryDirectory(prefix="mvd-unread-") as folder:
        unread(folder)
        unread_with_an_end(folder)
        into_file(folder)
        onto_a_full_disk(folder)
        errors_unread(folder)
        gone(folder)


if __name__ == "__main__":
    PROGRAM = os.path.realpath(sys.argv[1]) if len(sys.argv) == 2 else sys.exit(__doc__)
    main()
