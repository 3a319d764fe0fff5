#!/usr/bin/env python3
"""Attacks on a running `mvd`, each with what is wanted of it: what it may take of memory, of the processor, and of another client's time.

usage: tools/attacks.py [--short] PROGRAM [PART..]

PROGRAM is `mvd` as built. The parts are, all where none is named:

round      `bounds.py round`: clients that send hundreds of puts at a state of 1 MB
dear       deletes at a key of 1 MB, and at one whose context has many loose counters; puts at a key of 60,000 siblings
strangers  60 clients without the token send 1 MiB of nested JSON each
windows    `heavy.py`: sessions of states of 1 MB, with a true peer and with one that lies
drip       four of five peers that say a byte each half second: a put is at the fifth within 10 seconds
files      the file or its log is removed, replaced or cut while it is served; a second name; a link
limits     limits of a file's size and of descriptors: what was acknowledged is there afterwards, and the descriptors are named
log        one changed bit in the log of a killed server: what stands behind it is gone, and nothing else is
pages      a server whose pages of a list repeat, fall, do not end, or have what was not asked: a shell refuses them with 33
forms      a state that is in no form is told as refused here, and not as a fault of the server
news       a peer that has a new key in each session is met at most twice a second
lists      a list of 1,000 puts at a state of 1 MB, over HTTP
contexts   a context whose text has more than 1 MiB is read over HTTP, and goes back as a line of `POST /keys`

It says of each part whether it held, with its figures, and ends with 1 if one did not. With --short there is less of each, no `windows`
but `lies`, and another client may wait twice as long: at most a minute.
"""
import json
import os
import socket
import struct
import sys
import tempfile
import threading
import time
import urllib.error
import urllib.request

TOOLS = os.path.dirname(os.path.abspath(__file__))
sys.path.insert(0, os.path.join(TOOLS, "..", "examples"))
from client import Client, counted  # noqa: E402
import bounds  # noqa: E402
import heavy  # noqa: E402
from attack_files import Broken, files, limits, log, wanted  # noqa: E402
from attack_peers import context, delete_frame, drip, forms, news, pages, state  # noqa: E402
from bounds import Other, Server, fill, frame, put_frame  # noqa: E402
from measure_stored import processor  # noqa: E402
from peers_fast import free  # noqa: E402

# its servers end with this program, however that ends
heavy.Server = Server
# what is wanted: seconds that another client waits beside dear requests, and beside bodies that are refused; megabytes; seconds of the
# processor for 60 MiB that are refused
DEAR, WAITED, MEMORY, REFUSED_COST = 1, 0.25, 400, 3
TOKEN = "sesame-sesame-sesame-42"
LAST = 2 ** 48 - 1


def beside(server, work):
    """Does a piece of work beside another client, and gives what that waited at most, and the most memory."""
    other = Other(server.port)
    work()
    time.sleep(0.2)
    other.goes_on = False
    other.thread.join(bounds.PATIENCE)
    return other.slowest, heavy.memory(server.process, "VmHWM")


def judged(part, slowest, most):
    print(f"  {part}: another client waited {1000 * slowest:.0f} ms at most; at most {most:.0f} MB", flush=True)
    wanted(f"{part}: another client waited {slowest:.2f} s", slowest <= DEAR)
    wanted(f"{part}: {most:.0f} MB", most < MEMORY)


# ---- dear requests

def sent(port, frames, count):
    """Sends frames at once, and reads so many replies."""
    client = Client(port)
    threading.Thread(target=client.socket.sendall, args=[frames], daemon=True).start()
    for _ in range(count):
        length, _kind = struct.unpack(">IB", client.stream.read(5))
        client.stream.read(length - 1)


def dear(program, folder, short):
    count = 100 if short else 1_000
    server = Server(program, folder, 1, free())
    fill(server.port, ["large"])
    client = Client(server.port)
    frames = b"".join(delete_frame(b"large", context((7, number + 1, []))) for number in range(count))
    judged(f"{count} deletes at a key of 1 MB", *beside(server, lambda: sent(server.port, frames, count)))
    loose = state(context((9, 0, list(range(2, 200_000, 2)))))
    client.ask(0x29, counted("B", "loose") + loose)
    frames = b"".join(delete_frame(b"loose", context((7, number + 1, []))) for number in range(count // 5))
    judged(f"{count // 5} deletes at a context of 100,000 counters", *beside(server, lambda: sent(server.port, frames, count // 5)))
    siblings = 60_000
    client.ask(0x29, counted("B", "many") + state(context((9, siblings, [])), *((9, number + 1, "{}") for number in range(siblings))))
    frames = put_frame(b"many", {}) * (count // 5)
    judged(f"{count // 5} puts at a key of {siblings} siblings", *beside(server, lambda: sent(server.port, frames, count // 5)))
    server.end()


# ---- without the token

def strangers(program, folder, short):
    clients = 20 if short else 60
    with open(f"{folder}/token", "w", encoding="ascii") as file:
        file.write(TOKEN + "\n")
    web = free()
    server = Server(program, folder, 1, free(), "--http", web, "--token-file", f"{folder}/token")
    known = Client(server.port)
    known.hello(TOKEN)
    body = ('{"a":[' + '{"":{}},' * 131_000 + "0]}").encode()
    head = b"PUT /keys/j HTTP/1.1\r\nHost: localhost\r\nContent-Length: %d\r\n\r\n" % len(body)
    peers = []
    for _ in range(clients):
        peer = socket.create_connection(("127.0.0.1", web))
        peer.sendall(head + body[:-1])
        peers.append(peer)
    time.sleep(1)
    before, slowest, done, told = processor(server.process.pid), 0.0, threading.Event(), []

    def ends():
        for peer in peers:
            peer.sendall(body[-1:])
        told.extend(peer.recv(4096).split(b" ")[1] for peer in peers)
        done.set()

    threading.Thread(target=ends, daemon=True).start()
    while not done.is_set():
        begun = time.perf_counter()
        known.get("small")
        slowest = max(slowest, time.perf_counter() - begun)
        time.sleep(0.005)
    cost = processor(server.process.pid) - before
    server.end()
    print(f"  {clients} clients without the token, 1 MiB each: {cost:.1f} s of the processor; another client waited {1000 * slowest:.0f} ms", flush=True)
    wanted(f"they were told {set(told)}", set(told) == {b"401"})
    wanted(f"another client waited {slowest:.2f} s", slowest <= WAITED)
    wanted(f"they took {cost:.1f} s of the processor", cost <= REFUSED_COST * clients / 60)


# ---- HTTP

def contexts(program, folder, short):
    web, sites = free(), 62_000
    server = Server(program, folder, 1, free(), "--http", web)
    seen = context(*((number + 1, LAST - 7, []) for number in range(1, sites + 1)))
    Client(server.port).ask(0x29, counted("B", "many") + state(seen, (2, 1, "{}")))
    with urllib.request.urlopen(f"http://127.0.0.1:{web}/keys/many") as response:
        told = json.load(response)
    line = json.dumps({"key": "many", "context": told["context"], "document": {"n": 2}}).encode() + b"\n"
    try:
        with urllib.request.urlopen(urllib.request.Request(f"http://127.0.0.1:{web}/keys", line, method="POST")) as response:
            answer = response.read()
    except urllib.error.HTTPError as error:
        answer = b"%d %s" % (error.code, error.read())
    server.end()
    print(f"  a context of {len(told['context'])} letters in a line of {len(line)} bytes: {answer[:80]}", flush=True)
    wanted(f"it does not go back: {answer!r}", answer.startswith(b'{"dot":'))


def rounds(program, folder, short):
    bounds.PARTS["round"](program, folder, short)


def lists(program, folder, short):
    web = free()
    server = Server(program, folder, 1, free(), "--http", web)
    fill(server.port, ["large"])
    body = b'{"key":"large","document":{}}\n' * (100 if short else 1_000)
    asked = urllib.request.Request(f"http://127.0.0.1:{web}/keys", body, method="POST")
    judged("a list of puts at a key of 1 MB", *beside(server, lambda: urllib.request.urlopen(asked).read()))
    server.end()


def windows(program, folder, short):
    heavy.lies(program, tempfile.mkdtemp(dir=folder), 8 if short else 25)
    if not short:
        keys = int(os.environ.get("HEAVY_KEYS", "400"))
        heavy.meets(program, tempfile.mkdtemp(dir=folder), keys)
        heavy.syncs(program, tempfile.mkdtemp(dir=folder), keys)


PARTS = {"round": rounds, "dear": dear, "strangers": strangers, "windows": windows, "drip": drip, "files": files, "limits": limits,
         "log": log, "pages": pages, "forms": forms, "news": news, "lists": lists, "contexts": contexts}


def main(*words):
    short = "--short" in words
    program, *parts = [word for word in words if word != "--short"]
    if not set(parts) <= set(PARTS):
        sys.exit(__doc__)
    if short:
        bounds.GET_WITHIN = heavy.WAITED = 2 * bounds.GET_WITHIN
    fell = []
    for part in parts or PARTS:
        begun = time.perf_counter()
        with tempfile.TemporaryDirectory() as folder:
            try:
                PARTS[part](os.path.abspath(program), folder, short)
                held = "held"
            except (Broken, SystemExit) as error:
                held = f"NOT HELD: {error}"
                fell.append(part)
        print(f"{part}: {held} ({time.perf_counter() - begun:.1f} s)", flush=True)
    if fell:
        sys.exit(f"attacks: not held: {', '.join(fell)}")


if __name__ == "__main__":
    if len(sys.argv) < 2:
        sys.exit(__doc__)
    main(*sys.argv[1:])
