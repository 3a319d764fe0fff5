#!/usr/bin/env python3
"""Measures sessions of large states: what memory they take beside what is stored, and how long another client waits.

usage: tools/heavy.py [--short] PROGRAM [PART..]

PROGRAM is `mvd` as built. A state here has 1,048,162 bytes: 16 siblings of 65,500 letters. The parts are, all where none is named:

meets    a server that names one of HEAVY_KEYS (400) keys takes them in: at most 60 MB more than it has with them in a further run that
         names none, and another client's get takes at most 250 ms
syncs    `mvd sync` of a new file with that server: at most 60 MB more than a server of the same file has
lies     a peer with other digests each time, and a thousand keys a page, tells 1,000 small states and then 1.1 MB for each key: a server
         that names it takes at most 100 MB more than what it stored, and another client's get takes at most 250 ms

It ends with 1 at the first figure that is not as wanted. With --short there are 40 keys, and `lies` goes on for 8 seconds.
"""
import os
import socket
import struct
import subprocess
import sys
import tempfile
import threading
import time

TOOLS = os.path.dirname(os.path.abspath(__file__))
sys.path.insert(0, os.path.join(TOOLS, "..", "examples"))
from client import Client, counted  # noqa: E402
from peers_fast import Server, free, root, until  # noqa: E402

MORE, MORE_BESIDE_LIES, WAITED = 60, 100, 0.25
LETTERS = 65_500


def wanted(what, holds):
    if not holds:
        sys.exit(f"heavy: {what}")


def state_of(siblings):
    """A state of so many siblings of site 9, each of 65,500 letters."""
    text = '{"t":"' + "x" * LETTERS + '"}'
    seen = struct.pack(">IIQI", 1, 9, siblings, 0) + struct.pack(">H", siblings)
    return seen + b"".join(struct.pack(">IQ", 9, number + 1) + counted("I", text) for number in range(siblings))


def memory(process, line="VmRSS"):
    """In MB: what a process has, or the most that it had."""
    with open(f"/proc/{process.pid}/status") as file:
        return next(int(it.split()[1]) for it in file if it.startswith(line + ":")) / 1000


def fill(client, keys):
    state = state_of(16)
    for number in range(keys):
        client.ask(0x29, counted("B", f"b{number:04}") + state)
    return len(state)


class Reader(threading.Thread):
    """Another client, which gets a key all the while."""

    def __init__(self, port):
        super().__init__(daemon=True)
        self.client, self.took, self.ends = Client(port), [], False
        self.start()

    def run(self):
        while not self.ends:
            begun = time.perf_counter()
            self.client.get("small")
            self.took.append(time.perf_counter() - begun)
            time.sleep(0.005)

    def end(self):
        self.ends = True
        self.join()
        return max(self.took)


def rest(program, folder, site):
    """What a server of a file has that names nobody."""
    server = Server(program, folder, site, free())
    Client(server.port).get("small")
    has = memory(server.process)
    server.end()
    return has


def meets(program, folder, keys):
    other = Server(program, folder, 1, free())
    client = Client(other.port)
    fill(client, keys)
    begun = time.perf_counter()
    server = Server(program, folder, 2, free(), "--every", 1, "--peer", other.port)
    reader, own = Reader(server.port), Client(server.port)
    until("both agree", lambda: root(own) == root(client), 600)
    took, waited, most = time.perf_counter() - begun, reader.end(), memory(server.process, "VmHWM")
    for it in other, server:
        it.end()
    has = rest(program, folder, 2)
    print(f"meets: {keys} keys of 1 MB in {took:.1f} s: at most {most:.0f} MB, and {has:.0f} MB with them at rest; another client's get "
          f"took {1000 * waited:.0f} ms at most, of {len(reader.took)}", flush=True)
    wanted("that is too much memory", most - has <= MORE)
    wanted("that get took too long", waited <= WAITED)


def syncs(program, folder, keys):
    other = Server(program, folder, 1, free())
    fill(Client(other.port), keys)
    begun, most = time.perf_counter(), 0
    words = [program, "sync", "--db", f"{folder}/3.db", "--site", 3, "--port", other.port]
    process = subprocess.Popen([str(word) for word in words], stdout=subprocess.PIPE, stderr=subprocess.PIPE)
    while process.poll() is None:
        try:
            most = max(most, memory(process, "VmHWM"))
        except (OSError, StopIteration):
            pass
        time.sleep(0.01)
    told, took = process.stdout.read(), time.perf_counter() - begun
    wanted(f"sync told {told} {process.stderr.read()}", process.returncode == 0 and told.startswith(b"keys %d\n" % keys))
    other.end()
    has = rest(program, folder, 3)
    print(f"syncs: {keys} keys of 1 MB in {took:.1f} s: at most {most:.0f} MB, and {has:.0f} MB with them at rest", flush=True)
    wanted("that is too much memory", most - has <= MORE)


class Liar(threading.Thread):
    """Tells random digests, a thousand keys in each bucket, and states: first a thousand small ones."""

    def __init__(self):
        super().__init__(daemon=True)
        self.listener, self.told = socket.create_server(("127.0.0.1", 0)), 0
        self.port, self.small, self.large = self.listener.getsockname()[1], struct.pack(">IH", 0, 0), state_of(17)
        self.start()

    def run(self):
        while True:
            peer, _ = self.listener.accept()
            threading.Thread(target=self.serve, args=[peer], daemon=True).start()

    def serve(self, peer):
        stream = peer.makefile("rb")
        try:
            while head := stream.read(5):
                length, kind = struct.unpack(">IB", head)
                peer.sendall(self.answer(kind, stream.read(length - 1)))
        except (OSError, struct.error):
            pass

    def answer(self, kind, asked):
        def frame(kind, payload=b""):
            return struct.pack(">IB", 1 + len(payload), kind) + payload
        if kind == 0x27:
            return frame(0xA7, os.urandom(32) + (b"\0" if asked[0] == 3 else b"\x10" + os.urandom(512)))
        if kind == 0x28:
            digits = "".join(f"{digit:x}" for digit in asked[1:1 + asked[0]])
            keys = (f"{digits}{number:04}" for number in range(1000))
            return frame(0xA8, b"\0" + struct.pack(">H", 1000) + b"".join(counted("B", key) + os.urandom(32) for key in keys))
        if kind == 0x21:
            self.told += 1
            return frame(0xA1, self.large if self.told > 1000 else self.small)
        return frame(0xA3)


def lies(program, folder, seconds):
    liar = Liar()
    server = Server(program, folder, 2, free(), "--every", 1, "--peer", liar.port, "--max-keys", 300)
    reader, most, before = Reader(server.port), 0, memory(server.process)
    end = time.perf_counter() + seconds
    while time.perf_counter() < end:
        stored = os.path.getsize(f"{folder}/2.db") / 1_000_000
        most = max(most, memory(server.process) - before - stored)
        time.sleep(0.02)
    waited = reader.end()
    told = server.told(liar.port, True)
    server.end()
    print(f"lies: for {seconds} s a peer told {liar.told} states: at most {most:.0f} MB more than what was stored; another client's get took "
          f"{1000 * waited:.0f} ms at most, of {len(reader.took)}; told {told[:3]}", flush=True)
    wanted("that is too much memory", most <= MORE_BESIDE_LIES)
    wanted("that get took too long", waited <= WAITED)


def main():
    short = "--short" in sys.argv[1:]
    words = [word for word in sys.argv[1:] if word != "--short"]
    parts = {"meets": meets, "syncs": syncs, "lies": lies}
    if not words or not set(words[1:]) <= set(parts):
        sys.exit(__doc__)
    program = os.path.realpath(words[0])
    keys = 40 if short else int(os.environ.get("HEAVY_KEYS", "400"))
    for name in words[1:] or parts:
        with tempfile.TemporaryDirectory() as folder:
            parts[name](program, folder, (8 if short else 25) if name == "lies" else keys)


if __name__ == "__main__":
    main()
