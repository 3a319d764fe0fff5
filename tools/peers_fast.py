#!/usr/bin/env python3
"""Measures servers that meet by themselves (`mvd serve --peer`), and tries peers that do not behave.

usage: tools/peers_fast.py [--short] PROGRAM [PART..]

PROGRAM is `mvd` as built. The parts are, all of them where none is named:

soon     three servers in a ring with `--every 30`: how long a put at one of them takes until it is read at both others; wanted are
         100 ms in the middle, and 500 ms for the slowest hundredth
idle     two servers of PEERS_KEYS (1000000) keys that name each other with `--every 1`: what they take of a processor, which has to
         be less than 1 percent
rate     puts a second of 64 clients at a server with two peers and at one without, in turn: at least 0.6 of those without
amiss    a server with peers that are silent, no `mvd`, closed at once, full, stopped for a while, gone and back, or ask for a token:
         each is told once, also one that is named twice, no client waits for any, and the server takes little of a processor;
         one that names itself, and a quiet one
stalls   a server with five peers that answer one question and then nothing, and one that is well: a put is there within 3 seconds

It ends with 1 at the first answer that is not the one wanted. With --short, `soon` makes 40 puts, where each names the next, `idle`
has 20,000 keys, and `amiss` and `stalls` are tried; that takes at most 40 seconds.
"""
import collections
import os
import re
import signal
import socket
import struct
import subprocess
import sys
import tempfile
import threading
import time
import urllib.request

TOOLS = os.path.dirname(os.path.abspath(__file__))
sys.path.insert(0, os.path.join(TOOLS, "..", "examples"))
from client import Client, Refused  # noqa: E402
from measure_stored import make, processor  # noqa: E402

PATIENCE = 30
EMPTY = bytes(4)
# what is wanted: seconds until a put is read, in the middle and the slowest hundredth; of a processor; of the puts without peers
MIDDLE, SLOWEST = 0.1, 0.5
IDLES, BESIDE_AMISS = 0.01, 0.05
OF_PUTS = 0.6
BESIDE_STALLED = 3


def wanted(what, holds):
    if not holds:
        sys.exit(f"peers_fast: {what}")


def until(what, holds, most=PATIENCE):
    start = time.perf_counter()
    while not holds():
        wanted(f"not within {most} seconds: {what}", time.perf_counter() < start + most)
        time.sleep(0.005)
    return time.perf_counter() - start


def free():
    with socket.create_server(("127.0.0.1", 0)) as listener:
        return listener.getsockname()[1]


def keep(stream, lines):
    for line in stream:
        lines.append(line.rstrip("\n"))


class Server:
    """A server, with the lines that it told."""

    def __init__(self, program, folder, site, port, *words):
        self.words = [program, "serve", "--db", f"{folder}/{site}.db", "--site", site, "--port", port, *words]
        self.port, self.out, self.errors = port, [], []
        self.start()

    def start(self):
        before = len(self.out)
        self.process = subprocess.Popen([str(word) for word in self.words], stdout=subprocess.PIPE, stderr=subprocess.PIPE, text=True)
        for stream, lines in (self.process.stdout, self.out), (self.process.stderr, self.errors):
            threading.Thread(target=keep, args=[stream, lines], daemon=True).start()
        until("a server listens", lambda: any(line.startswith("listening") for line in self.out[before:]), 10 * PATIENCE)

    def told(self, port, all_lines=False):
        """What it told of a peer, but for sessions in which all keys crossed, if those are not wanted too."""
        start = f"peer 127.0.0.1:{port} "
        lines = [line[len(start):] for line in self.out if line.startswith(start)]
        return [line for line in lines if all_lines or not re.fullmatch("keys [0-9]+", line)]

    def end(self):
        self.process.kill()
        self.process.wait()


def servers(program, folder, ports, named, *words):
    """Servers at these ports, each of which names the ports of some."""
    return [Server(program, folder, number + 1, port, *peer_words(ports, named[number]), *words) for number, port in enumerate(ports)]


def peer_words(ports, named):
    return ["--peer", ",".join(str(ports[other]) for other in named)] if named else []


def root(client):
    return client.ask(0x27, b"\0").read(32)


def is_read(client, key):
    return bool(client.get(key)[1])


# ---- soon

NAMED = ("each names the next", [[1], [2], [0]]), ("each names both others", [[1, 2], [0, 2], [0, 1]])


def soon(program, folder, puts=200, namings=len(NAMED)):
    for what, named in NAMED[:namings]:
        ports = [free() for _ in named]
        all_sites = servers(program, tempfile.mkdtemp(dir=folder), ports, named, "--every", 30)
        clients, took = [Client(port) for port in ports], []
        until("three servers agree", lambda: len({root(client) for client in clients}) == 1)
        time.sleep(2)
        before = [len(server.out) for server in all_sites]
        for number in range(puts):
            at, key = number % len(ports), f"p{number}"
            clients[at].put(key, EMPTY, {"n": number})
            begun, left = time.perf_counter(), [client for client in clients if client is not clients[at]]
            while left:
                left = [client for client in left if not is_read(client, key)]
                wanted(f"{key} is not read after {PATIENCE} s", time.perf_counter() < begun + PATIENCE)
            took.append(time.perf_counter() - begun)
            time.sleep(0.02)
        told = [line for server, passed in zip(all_sites, before) for line in server.out[passed:]]
        for server in all_sites:
            server.end()
        told = [line for line in told if not re.fullmatch("peer .* keys [0-9]+", line)]
        wanted(f"a fault was told: {told}", not told)
        took.sort()
        slowest = took[-len(took) // 100]
        print(f"soon: {what}: {puts} puts read at both others after {took[len(took) // 2] * 1000:.1f} ms in the middle, "
              f"{slowest * 1000:.1f} ms the slowest hundredth, {took[-1] * 1000:.1f} ms the slowest", flush=True)
        wanted("that is too late", took[len(took) // 2] < MIDDLE and slowest < SLOWEST)


# ---- idle

def idle(program, folder, keys=int(os.environ.get("PEERS_KEYS", "1000000")), seconds=20):
    ports = [free(), free()]
    for site in (1, 2):
        make(f"{folder}/{site}.db", site, keys)
    pair = servers(program, folder, ports, [[], []])
    time.sleep(1)
    alone = used_all(pair, seconds / 4)
    for server in pair:
        server.end()
    pair = servers(program, folder, ports, [[1], [0]], "--every", 1)
    # The first was there before the second.
    until("they meet", lambda: len(pair[0].told(ports[1])) in (0, 2), 3 * PATIENCE)
    time.sleep(3)
    spent = used_all(pair, seconds)
    told = [server.told(port, True) for server in pair for port in ports]
    wanted(f"keys crossed: {told}", not any("keys" in line for lines in told for line in lines))
    for server in pair:
        server.end()
    print(f"idle: two servers of {keys} keys that name each other, `--every 1`: "
          + " and ".join(f"{100 * second / seconds:.2f} percent" for second in spent)
          + f" of a processor; without a peer {400 * max(alone) / seconds:.2f} percent", flush=True)
    wanted("that is too much", max(spent) / seconds < IDLES)


def used_all(some, seconds):
    before = [processor(server.process.pid) for server in some]
    time.sleep(seconds)
    return [processor(server.process.pid) - then for server, then in zip(some, before)]


# ---- rate

def rate(program, folder, turns=5):
    from many import SECONDS, run_load
    names, seen = [f"n{number}" for number in range(64)], collections.defaultdict(list)
    for turn in range(turns):
        for what, named in ("without a peer", [[]]), ("with two peers", [[1, 2], [], []]):
            ports = [free() for _ in named]
            some = servers(program, tempfile.mkdtemp(dir=folder), ports, named)
            time.sleep(1)
            before = processor(some[0].process.pid)
            took = sorted(run_load(ports[0], (names[n::2] for n in range(2)), 1, SECONDS))
            spent = (processor(some[0].process.pid) - before) / len(took)
            if len(some) > 1:
                clients = [Client(port) for port in ports]
                lag = until("they agree", lambda: len({root(client) for client in clients}) == 1)
            seen[what].append((len(took) / SECONDS, took[len(took) // 2], took[-len(took) // 100], spent))
            for server in some:
                server.end()
    figures = {}
    for what, runs in seen.items():
        runs.sort()
        figures[what] = runs[len(runs) // 2]
        print(f"rate: 64 clients {what}: {figures[what][0]:.0f} puts a second ({', '.join(f'{run[0]:.0f}' for run in runs)}), "
              f"the middle {figures[what][1] * 1000:.2f} ms, slowest hundredth from {figures[what][2] * 1000:.2f} ms, "
              f"{min(run[3] for run in runs) * 1e6:.0f} us of the server's processor a put", flush=True)
    part = figures["with two peers"][0] / figures["without a peer"][0]
    print(f"rate: with two peers {part:.2f} of without; all three had one root {lag:.2f} s after the last put of the last run", flush=True)
    wanted("those are too few", part >= OF_PUTS)


# ---- amiss

class Mute(threading.Thread):
    """Listens, and answers with these bytes, or with nothing; and closes at once, if it does."""

    def __init__(self, says=b"", closes=False):
        super().__init__(daemon=True)
        self.listener, self.says, self.closes, self.came = socket.create_server(("127.0.0.1", 0)), says, closes, []
        self.port = self.listener.getsockname()[1]
        self.start()

    def run(self):
        while True:
            peer, _ = self.listener.accept()
            self.came.append(peer)
            try:
                peer.sendall(self.says)
            except OSError:
                pass
            if self.closes:
                peer.close()


class Amiss:
    """A server that names peers that do not behave, and a client of it that puts all the while."""

    def __init__(self, program, folder):
        self.program, self.folder = program, folder
        self.mutes = {"silent": Mute(), "no mvd": Mute(b"HTTP/1.1 400 Bad Request\r\n\r\n"), "closing": Mute(closes=True),
                      "loud": Mute(bytes(100_000))}
        self.ports = {what: mute.port for what, mute in self.mutes.items()}
        self.ports |= {what: free() for what in ("itself", "closed", "gone", "full", "stopped")}
        with open(f"{folder}/token", "w") as file:
            file.write("sixteen-letters!\n")
        self.others = [Server(program, folder, 4, self.ports["closed"], "--token-file", f"{folder}/token"),
                       Server(program, folder, 2, self.ports["full"], "--max-keys", 3)]
        self.stopped, self.http, self.took = Server(program, folder, 5, self.ports["stopped"]), free(), []
        # two of them stand twice in the list
        named = [*self.ports.values(), self.ports["silent"], f"127.0.0.1:{self.ports['closed']}"]
        self.main = Server(program, folder, 1, self.ports["itself"], "--http", self.http, "--idle", 2, "--every", 1,
                           "--peer", ",".join(map(str, named)))
        self.client = Client(self.ports["itself"])

    def put_for(self, seconds):
        begun = time.perf_counter()
        while time.perf_counter() < begun + seconds:
            then = time.perf_counter()
            self.client.put(f"k{len(self.took) % 10}", EMPTY, {"n": len(self.took)})
            self.took.append(time.perf_counter() - then)
            time.sleep(0.01)

    def is_met(self, what):
        client = Client(self.ports[what])
        return root(client) == root(self.client)

    def go_on(self):
        self.put_for(1)
        self.stopped.process.send_signal(signal.SIGSTOP)
        self.others.append(Server(self.program, self.folder, 3, self.ports["gone"]))
        self.put_for(5)
        self.stopped.process.send_signal(signal.SIGCONT)
        self.put_for(1)
        self.back = {what: until(f"the one that was {what} is met", lambda what=what: self.is_met(what)) for what in ("gone", "stopped")}

    def check(self):
        told = {what: self.main.told(port) for what, port in self.ports.items()}
        faults = {what: [line for line in lines if line[0].isdigit()] for what, lines in told.items()}
        for what, fault in ("silent", "34 ReadFailed"), ("closed", "38 NotAdmitted"):
            wanted(f"one that is {what} is told once as {fault}: {told[what]}", told[what] == [fault])
        for what in "no mvd", "closing", "loud":
            wanted(f"one that is {what} is told once: {told[what]}", len(told[what]) == len(faults[what]) == 1)
        for what in "gone", "stopped":
            wanted(f"one that is {what} is told once, and once more: {told[what]}", len(faults[what]) == told[what].count("again") == 1)
        wanted(f"the server itself is told: {told['itself']}", not told["itself"])
        refuses = not faults["full"] and any(" refused 7" in line for line in told["full"])
        wanted(f"one that is full refuses seven keys: {told['full']}", refuses)
        named = [line for line in self.main.errors if "10 Full" in line]
        wanted(f"each refused key is named once: {self.main.errors}", len(named) == len(set(named)) == 7)
        with urllib.request.urlopen(f"http://127.0.0.1:{self.http}/metrics") as response:
            metrics = response.read().decode()
        for what, port in self.ports.items():
            series = metrics.count(f'mvd_peer_sessions_total{{peer="127.0.0.1:{port}"')
            wanted(f"metrics of {what}: {metrics}", series == (0 if what == "itself" else 3))

    def end(self):
        for server in self.main, self.stopped, *self.others:
            server.end()


def alone(program, folder):
    """A server that names itself ends once as many clients have come and gone as are to come."""
    port = free()
    server = Server(program, folder, 6, port, "--conns", 2, "--every", 1, "--peer", port)
    for number in 1, 2:
        Client(port).put("k", EMPTY, {"n": number})
    ends = [f"connection {number} end" for number in (1, 2)]
    until(f"a server that names itself ends after two clients: {server.out}", lambda: server.process.poll() == 0)
    until(f"it tells of these two alone: {server.out}", lambda: sorted(server.out[1:-1]) == ends)


def quiet(program, folder):
    """A quiet server tells that a peer has gone and is back, but not what they exchange."""
    near, far = free(), free()
    other = Server(program, folder, 8, far)
    server = Server(program, folder, 7, near, "--quiet", "--every", 1, "--peer", far)
    Client(near).put("k", EMPTY, {"n": 1})
    until("a put at a quiet server is at its peer", lambda: is_read(Client(far), "k"))
    other.end()
    until("a quiet server tells that its peer has gone", lambda: len(server.out) == 2)
    other.start()
    until(f"and that it is back: {server.out}", lambda: server.told(far, True)[1:] == ["again"])
    wanted(f"and nothing else: {server.out}", len(server.out) == 3 and server.told(far, True)[0][0].isdigit())
    server.end()
    other.end()


def amiss(program, folder):
    alone(program, folder)
    quiet(program, folder)
    run = Amiss(program, folder)
    run.go_on()
    spent = used_all([run.main], 2)[0] / 2
    run.check()
    run.end()
    took, tries = sorted(run.took), ", ".join(f"{what} {len(mute.came)}" for what, mute in run.mutes.items())
    back = " and ".join(f"{what} {second:.2f} s" for what, second in run.back.items())
    print(f"amiss: {len(took)} puts beside such peers: the middle {took[len(took) // 2] * 1000:.1f} ms, slowest hundredth "
          f"{took[-len(took) // 100] * 1000:.1f} ms, slowest {took[-1] * 1000:.1f} ms; tried {tries} times; met again after {back}; "
          f"then {100 * spent:.2f} percent of a processor", flush=True)
    wanted("a put waited for a peer", took[-1] < 0.5)
    wanted("that is too much of a processor", spent < BESIDE_AMISS)
    wanted(f"tried too often: {tries}", max(len(mute.came) for mute in run.mutes.values()) <= 12)


# ---- stalls

class Stalling(threading.Thread):
    """Hands the first question of each connection to a server, and its reply back. Then it says nothing more."""

    def __init__(self, port):
        super().__init__(daemon=True)
        self.listener, self.target, self.came = socket.create_server(("127.0.0.1", 0)), port, []
        self.port = self.listener.getsockname()[1]
        self.start()

    def run(self):
        while True:
            near, _ = self.listener.accept()
            far = socket.create_connection(("127.0.0.1", self.target))
            self.came.append((near, far))
            far.sendall(near.recv(65536))
            head = far.recv(4, socket.MSG_WAITALL)
            near.sendall(head + far.recv(*struct.unpack(">I", head), socket.MSG_WAITALL))


def stalls(program, folder, puts=10):
    other, well = (Server(program, folder, site, free()) for site in (2, 3))
    Client(other.port).put("there", EMPTY, {})
    stalled = [Stalling(other.port) for _ in range(5)]
    named = ",".join(str(it.port) for it in [*stalled, well])
    main = Server(program, folder, 1, free(), "--idle", 60, "--every", 1, "--peer", named)
    until("each stalled", lambda: all(it.came for it in stalled))
    client, reader, took = Client(main.port), Client(well.port), []
    for number in range(puts):
        client.put(f"p{number}", EMPTY, {"n": number})
        took.append(until(f"p{number} is read beside those that stalled", lambda: is_read(reader, f"p{number}"), BESIDE_STALLED))
    for server in other, well, main:
        server.end()
    print(f"stalls: beside five that stalled, {puts} puts were read at one that is well after "
          f"{1000 * sorted(took)[puts // 2]:.1f} ms in the middle, {1000 * max(took):.1f} ms at most", flush=True)


def main():
    short = "--short" in sys.argv[1:]
    words = [word for word in sys.argv[1:] if word != "--short"]
    parts = {"soon": soon, "idle": idle, "rate": rate, "amiss": amiss, "stalls": stalls}
    if not words or not set(words[1:]) <= set(parts):
        sys.exit(__doc__)
    program = os.path.realpath(words[0])
    shorter = {"soon": (40, 1), "idle": (20_000, 3), "amiss": (), "stalls": ()}
    for name in words[1:] or (shorter if short else parts):
        with tempfile.TemporaryDirectory() as folder:
            parts[name](program, folder, *(shorter.get(name, ()) if short else ()))


if __name__ == "__main__":
    try:
        main()
    except Refused as refusal:
        sys.exit(f"peers_fast: refused {refusal}")
