#!/usr/bin/env python3
"""Tries what bounds in bytes have to hold: small requests whose answers are large take little memory, and keep nobody else waiting.

usage: tools/bounds.py [--short] PROGRAM [PART..]

PROGRAM is `mvd` as built. The parts are, all where none is named:

round    clients that each send 300 puts at once, at a key whose state has 1 MB
lists    `POST /keys` of 1,000 lines at such a key
many     four of these at once
spread   `POST /keys` of 200 lines at 200 keys of 1 MB
deletes  200 deletes at once, at a key whose context has 140,000 loose counters, each with a context of its own

In each memory stays under 400 MB, and another client's get is answered within 250 ms; of `spread` memory counts from where the keys are
there.

It ends with 1 at the first figure that is not as wanted. With --short there are 32 clients, for 4 seconds, in place
of 256 for 30, and a tenth of the lines and deletes.
`heavy.py` tries the same of sessions.
"""
import atexit
import json
import os
import struct
import sys
import tempfile
import threading
import time
import urllib.request

TOOLS = os.path.dirname(os.path.abspath(__file__))
sys.path.insert(0, os.path.join(TOOLS, "..", "examples"))
from client import Client  # noqa: E402
import peers_fast  # noqa: E402
from peers_fast import free  # noqa: E402

PATIENCE = 120
EMPTY = bytes(4)
# a document of 65,536 bytes; 16 siblings of such make a state of 1 MB
LARGE = {"t": "x" * 65_500}
SIBLINGS = 16
# what is wanted: seconds for another client's get, and megabytes of memory
GET_WITHIN, MEMORY = 0.25, 400


def wanted(what, holds):
    if not holds:
        sys.exit(f"bounds: {what}")


class Server(peers_fast.Server):
    """A server that ends with this program, however that ends."""

    def start(self):
        super().start()
        atexit.register(self.process.kill)


def frame(kind, payload):
    return struct.pack(">IB", 1 + len(payload), kind) + payload


def put_frame(key, document):
    text = json.dumps(document, separators=(",", ":")).encode()
    return frame(0x22, bytes([len(key)]) + key + EMPTY + struct.pack(">I", len(text)) + text)


def context(base, loose):
    """The context of a site 9: the counters up to `base`, and these."""
    return struct.pack(">IIQI", 1, 9, base, len(loose)) + b"".join(struct.pack(">Q", counter) for counter in loose)


def memory(server):
    """The memory that a server has, and the most that it had, in megabytes."""
    with open(f"/proc/{server.process.pid}/status", encoding="ascii") as status:
        sizes = dict(line.split(":", 1) for line in status)
    return tuple(int(sizes[name].split()[0]) // 1024 for name in ("VmRSS", "VmHWM"))


def fill(port, keys):
    """Gives each of these keys a state of 1 MB."""
    text = json.dumps(LARGE, separators=(",", ":")).encode()
    siblings = b"".join(struct.pack(">IQI", 9, counter, len(text)) + text for counter in range(1, SIBLINGS + 1))
    state = context(SIBLINGS, []) + struct.pack(">H", SIBLINGS) + siblings
    client = Client(port)
    for key in keys:
        client.ask(0x29, bytes([len(key)]) + key.encode() + state)
    client.bye()


class Other:
    """Another client, which asks for a key again and again; `slowest` is the most that it waited for a reply."""

    def __init__(self, port):
        self.slowest, self.gets, self.goes_on = 0.0, 0, True
        self.client = Client(port)
        self.client.put("small", EMPTY, {"n": 1})
        self.thread = threading.Thread(target=self.go, daemon=True)
        self.thread.start()

    def go(self):
        while self.goes_on:
            begun = time.perf_counter()
            self.client.get("small")
            self.slowest = max(self.slowest, time.perf_counter() - begun)
            self.gets += 1
            time.sleep(0.005)


def all_ended(threads, most):
    """Waits for these threads, so many seconds at most."""
    end = time.monotonic() + most
    for thread in threads:
        thread.join(max(0, end - time.monotonic()))


def started(work, count):
    threads = [threading.Thread(target=work, args=[number], daemon=True) for number in range(count)]
    for thread in threads:
        thread.start()
    return threads


def ended(server, other, part, before=0):
    """Ends a server, and says what it took at most of memory, and what another client waited."""
    other.goes_on = False
    other.thread.join(PATIENCE)
    most = memory(server)[1] - before
    server.end()
    print(f"{part}: at most {most} MB; another client's get waited at most {1000 * other.slowest:.0f} ms, of {other.gets}", flush=True)
    wanted(f"{part}: {most} MB", most < MEMORY)
    wanted(f"{part}: another client waited {other.slowest:.2f} s", other.slowest <= GET_WITHIN)


def posted(port, lines):
    """Posts these lines, and wants as many to be told as stored."""
    asked = urllib.request.Request(f"http://127.0.0.1:{port}/keys", b"".join(lines), method="POST")
    with urllib.request.urlopen(asked, timeout=PATIENCE) as response:
        told = response.read()
    wanted(f"of {len(lines)} lines {told.count(b'dot')} are told as stored", told.count(b'"dot"') == len(lines))


def line_at(key):
    return b'{"key":"%s","document":{}}\n' % key.encode()


# ---- the parts

def round_of_large(program, folder, short):
    clients, seconds = (32, 4) if short else (256, 30)
    server = Server(program, folder, 1, free(), "--clients", 2 * clients)
    fill(server.port, ["large"])
    other = Other(server.port)
    frames = b"".join(put_frame(b"large", {}) for _ in range(300))

    def go(_):
        client = Client(server.port)
        client.socket.sendall(frames)
        while client.stream.read(1):
            pass

    all_ended(started(go, clients), seconds)
    ended(server, other, f"round, {clients} clients for {seconds} s")


def lists_of_large(program, folder, short, clients=1):
    port = free()
    server = Server(program, folder, 2, free(), "--http", port)
    fill(server.port, ["large"])
    other = Other(server.port)
    lines = [line_at("large")] * (100 if short else 1_000)
    all_ended(started(lambda _: posted(port, lines), clients), clients * PATIENCE)
    ended(server, other, f"lists, {clients} of {len(lines)} lines")


def many_lists(program, folder, short):
    lists_of_large(program, folder, short, 4)


def list_at_many(program, folder, short):
    port = free()
    server = Server(program, folder, 3, free(), "--http", port)
    keys = [f"large{number}" for number in range(20 if short else 200)]
    fill(server.port, keys)
    before, other = memory(server)[0], Other(server.port)
    posted(port, [line_at(key) for key in keys])
    ended(server, other, f"spread, {len(keys)} keys", before)


def deletes(program, folder, short):
    server = Server(program, folder, 4, free())
    client = Client(server.port)
    client.put("loose", context(0, range(2, 280_000, 2)), {})
    other = Other(server.port)
    count = 20 if short else 200
    for number in range(count):
        seen = struct.pack(">IIQI", 1, 7, number + 1, 0)
        client.socket.sendall(frame(0x23, b"\5loose" + seen))
    for number in range(count):
        length = struct.unpack(">I", client.stream.read(4))[0]
        client.stream.read(length)
    ended(server, other, f"deletes, {count}")


PARTS = {"round": round_of_large, "lists": lists_of_large, "many": many_lists, "spread": list_at_many, "deletes": deletes}


def main(*words):
    short = "--short" in words
    program, *parts = [word for word in words if word != "--short"]
    for part in parts or PARTS:
        with tempfile.TemporaryDirectory() as folder:
            PARTS[part](os.path.abspath(program), folder, short)


if __name__ == "__main__":
    if len(sys.argv) < 2:
        sys.exit(__doc__)
    main(*sys.argv[1:])
