#!/usr/bin/env python3
"""Measures sessions over a link with a delay: `mvd serve` and `mvd sync` as processes, and a relay between them.

usage: tools/slow_link.py PROGRAM [BEFORE]

PROGRAM is `mvd` as built, and BEFORE another one, to compare with. The relay holds back what goes either way by LINK_DELAY
milliseconds (25). Three sessions are run: of two sites with 1000000 keys of which 10 differ, of two sites with 1000 keys and 10 more
on either side, and of a site with 100000 keys and one with none. LINK_KEYS has other numbers of keys than these three. A first
session is run without the relay's delay, too, and beside BEFORE in LINK_TURNS turns (3) of a run of each program. A row for each
tells how many keys crossed, how many bytes and round trips went over the link, and the seconds that went by; the last column has the
most that is expected. A round trip is counted where something comes from the session after something has come from the server. The
files are made in TMPDIR (else /tmp).
"""
import os
import queue
import socket
import sqlite3
import subprocess
import sys
import tempfile
import threading
import time

from measure_stored import Server, clear, ended, make, start, state

DELAY = float(os.environ.get("LINK_DELAY", "25")) / 1000
TURNS = int(os.environ.get("LINK_TURNS", "3"))
MANY, FEW, FIRST = (int(word) for word in os.environ.get("LINK_KEYS", "1000000 1000 100000").split())
DIFFERING = 10
MOST_TRIPS = {"differ": 12, "either": 14, "first": 200}


class Link:
    """One way of the link: what is put in comes out after the delay, in order."""

    def __init__(self, into, delay):
        self.into, self.delay = into, delay
        self.pieces = queue.SimpleQueue()
        self.thread = threading.Thread(target=self.run)
        self.thread.start()

    def put(self, piece):
        self.pieces.put((time.perf_counter() + self.delay, piece))

    def run(self):
        while True:
            due, piece = self.pieces.get()
            time.sleep(max(0, due - time.perf_counter()))
            if not piece:
                self.into.shutdown(socket.SHUT_WR)
                return
            self.into.sendall(piece)


class Relay(threading.Thread):
    """Stands between a session and a server, and holds back what goes either way."""

    def __init__(self, port, delay):
        super().__init__()
        self.listener = socket.create_server(("127.0.0.1", 0))
        self.port = self.listener.getsockname()[1]
        self.to, self.delay = port, delay
        self.trips, self.bytes, self.asks = 0, 0, False

    def run(self):
        with self.listener, self.listener.accept()[0] as near:
            with socket.create_connection(("127.0.0.1", self.to)) as far:
                self.first = time.perf_counter()
                for end in near, far:
                    end.setsockopt(socket.IPPROTO_TCP, socket.TCP_NODELAY, 1)
                back = threading.Thread(target=self.carry, args=(far, Link(near, self.delay), False))
                back.start()
                there = Link(far, self.delay)
                self.carry(near, there, True)
                back.join()
                there.thread.join()

    def carry(self, source, link, asks):
        while piece := source.recv(1 << 16):
            self.last = time.perf_counter()
            self.trips += asks and not self.asks
            self.asks = asks
            self.bytes += len(piece)
            link.put(piece)
        link.put(b"")
        if not asks:
            link.thread.join()


def add(path, site, names):
    """Adds keys that a site put."""
    db = sqlite3.connect(path)
    db.executemany("INSERT INTO states2 VALUES (?, ?)", ((name, state(site, 1)) for name in names))
    db.commit()
    db.close()


def make_both(near, far, kind, keys):
    """The files of both sites before a session: how many keys cross."""
    if kind == "differ":
        make(near, 2, keys, DIFFERING)
        make(far, 1, keys)
        return DIFFERING
    make(far, 1, keys)
    if kind == "first":
        return keys
    make(near, 2, keys)
    for path, site, name in (near, 2, "near"), (far, 1, "far"):
        add(path, site, (f"{name}{number}" for number in range(DIFFERING)))
    return 2 * DIFFERING


def session(program, folder, kind, keys, delay):
    """A session with a server of so many keys: how many crossed, and the relay."""
    clear(folder)
    near, far = (os.path.join(folder, name) for name in ("near.db", "far.db"))
    crossing = make_both(near, far, kind, keys)
    server = Server(program, far)
    relay = Relay(server.port, delay)
    relay.start()
    told, _ = ended(start([program, "sync", "--db", near, "--site", "2", "--port", str(relay.port)]))
    relay.join()
    ended(server.process)
    if told.splitlines()[0] != f"keys {crossing}":
        sys.exit(f"a session told {told}")
    return crossing, relay


def row(name, program, folder, kind, keys, delay):
    """Runs a session and prints its row: the seconds that went by."""
    crossing, relay = session(program, folder, kind, keys, delay)
    went_by = relay.last - relay.first
    most = MOST_TRIPS[kind] if delay else ""
    print(f"| {name} | {keys} | {crossing} | {delay * 1000:.0f} ms | {relay.trips} | {relay.bytes} | {went_by:.2f} s | {most} |", flush=True)
    return went_by


def main():
    program = os.path.realpath(sys.argv[1])
    before = os.path.realpath(sys.argv[2]) if len(sys.argv) > 2 else None
    print("\n| session | keys | crossed | delay each way | round trips | bytes | went by | round trips, at most |\n|---|---|---|---|---|---|---|---|")
    with tempfile.TemporaryDirectory() as folder:
        row("some differ", program, folder, "differ", MANY, DELAY)
        row("some more on either side", program, folder, "either", FEW, DELAY)
        row("a first session", program, folder, "first", FIRST, DELAY)
        now, then = [], []
        for _ in range(TURNS if before else 1):
            now.append(row("a first session", program, folder, "first", FIRST, 0))
            if before:
                then.append(row("the same before", before, folder, "first", FIRST, 0))
        if before:
            print(f"\nWithout a delay a first session takes {min(now) / min(then):.2f} of the time before, the best of {TURNS} runs.")


if __name__ == "__main__":
    main()
