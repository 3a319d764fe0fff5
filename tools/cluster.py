#!/usr/bin/env python3
"""Runs three to five servers that meet, with writers at all of them, and breaks what can break, as users and networks do.

usage: tools/cluster.py [--short] [--between] PROGRAM [SEED..]

PROGRAM is `mvd` as built. A run is named by its seed; without one, 20 runs are made of the seeds 1 to 20, and with --short two of
6 seconds. The servers stand in a ring or in a star, and meet each other by `serve --peer` through relays: either end of an edge names
the other, or both do. With --between `mvd sync --with` runs between them, again and again. For CLUSTER_SECONDS (30)
writers read, resolve, put blindly and delete over frames and HTTP, while servers are killed and started again, are stopped and go
on, and relays cut, delay and hold back connections. Then the faults stop, and it is checked that
- all roots are equal soon: within two seconds, but with --short or --between,
- a server told each fault of a peer once, until it met it again, and no other fault than of the connection,
- no two puts of a key were told one dot,
- each put that was acknowledged is a sibling of its key, or a write of the key had its dot in its context,
- no sibling that a write had in its context is back, at the end or in any read,
- each read of a site had the dots that this site had acknowledged before, also after a kill.
It ends with 1 at the first that does not hold.
"""
import http.client
import json
import os
import random
import select
import signal
import socket
import struct
import subprocess
import sys
import tempfile
import threading
import time

sys.path.insert(0, os.path.join(os.path.dirname(os.path.abspath(__file__)), "..", "examples"))
from client import Client, Refused, read  # noqa: E402

KEYS = 40
PATIENCE = 30
# all roots are equal as many seconds after the last fault
SOON = 2
# that a connection ended, was given up, or broke
LINK_FAULTS = "30", "34", "35"
# a ring in which each names the next, and a star in which both ends do
SHORT_SEEDS = 2, 12


class Missed(Exception):
    """Something did not hold."""


def free():
    with socket.create_server(("127.0.0.1", 0)) as listener:
        return listener.getsockname()[1]


# ---- contexts: by site the base, and the counters above it

def of_bytes(data):
    (count,), at, context = struct.unpack_from(">I", data), 4, {}
    for _ in range(count):
        site, base, loose = struct.unpack_from(">IQI", data, at)
        context[site] = base, struct.unpack_from(f">{loose}Q", data, at + 16)
        at += 16 + 8 * loose
    return context


def of_text(text):
    """An entry is `site:base`, and behind it `+counter` for each counter above the base."""
    context = {}
    for entry in [] if text == "-" else text.split(","):
        site, counters = entry.split(":")
        base, *loose = counters.split("+")
        context[int(site)] = int(base), tuple(int(word) for word in loose)
    return context


def holds(context, dot):
    base, loose = context.get(dot[0], (0, ()))
    return dot[1] <= base or dot[1] in loose


def union_of(contexts):
    union = {}
    for context in contexts:
        for site, (base, loose) in context.items():
            most, above = union.get(site, (0, set()))
            union[site] = max(most, base), above.union(loose)
    return union


# ---- servers, relays and meetings

class Site:
    def __init__(self, program, folder, number):
        self.program, self.db, self.number = program, f"{folder}/{number}.db", number
        self.port, self.http, self.process = free(), free(), None
        self.lock = threading.Lock()
        # the dots that it acknowledged, by key
        self.told = {}
        # the relays to the servers that it names, what it told of each since it was started, and the sessions in which keys crossed
        self.peers, self.lines, self.sessions = [], [], 0

    def start(self):
        words = [self.program, "serve", "--db", self.db, "--site", self.number, "--port", self.port, "--http", self.http]
        if self.peers:
            words += ["--peer", ",".join(str(relay.port) for relay in self.peers), "--every", 1, "--idle", 3]
        self.process = subprocess.Popen([str(word) for word in words], stdout=subprocess.PIPE, stderr=subprocess.DEVNULL, text=True)
        line = self.process.stdout.readline()
        if not line.startswith("listening"):
            raise Missed(f"site {self.number} does not start: {line}")
        self.lines = []
        self.reader = threading.Thread(target=self.drain, args=[self.process, self.lines], daemon=True)
        self.reader.start()

    @staticmethod
    def drain(process, lines):
        for line in process.stdout:
            lines.append(line.split())

    def kill(self):
        if self.process:
            self.process.kill()
            self.process.wait()

    def check_told(self):
        """When it has ended: of each peer a fault was told once, until the peer was met again."""
        self.reader.join()
        at_fault = set()
        for _, peer, *what in [line for line in self.lines if line[:1] == ["peer"] and len(line) > 2]:
            if what[0] == "keys":
                self.sessions += 1
            elif what == ["again"]:
                if peer not in at_fault:
                    raise Missed(f"site {self.number} told `again` of {peer} without a fault")
                at_fault.remove(peer)
            elif peer in at_fault or what[0] not in LINK_FAULTS:
                raise Missed(f"site {self.number} told of {peer}: {what}")
            else:
                at_fault.add(peer)

    def acknowledges(self, key, dot):
        with self.lock:
            self.told.setdefault(key, set()).add(dot)

    def acknowledged(self, key):
        with self.lock:
            return set(self.told.get(key, ()))


class Relay(threading.Thread):
    """Hands on what goes to a port, unless it is told to cut, to delay or to hold back."""

    def __init__(self, port):
        super().__init__(daemon=True)
        self.target, self.listener = port, socket.create_server(("127.0.0.1", 0))
        self.port, self.pairs = self.listener.getsockname()[1], []
        self.delay, self.is_held = 0, False
        self.start()

    def run(self):
        while True:
            near, _ = self.listener.accept()
            try:
                far = socket.create_connection(("127.0.0.1", self.target), 5)
            except OSError:
                near.close()
                continue
            self.pairs.append((near, far))
            threading.Thread(target=self.carry, args=[near, far], daemon=True).start()

    def carry(self, near, far):
        try:
            while True:
                for one in select.select([near, far], [], [], 1)[0]:
                    piece = one.recv(65536)
                    while self.is_held:
                        time.sleep(0.01)
                    if self.delay:
                        time.sleep(self.delay)
                    if not piece:
                        return
                    (far if one is near else near).sendall(piece)
        except (OSError, ValueError):
            pass
        finally:
            near.close()
            far.close()

    def cut(self):
        pairs, self.pairs = self.pairs, []
        for pair in pairs:
            for one in pair:
                try:
                    one.shutdown(socket.SHUT_RDWR)
                except OSError:
                    pass


def edges_of(shape, count):
    return [(number, (number + 1) % count) for number in range(count)] if shape == "ring" else [(0, number) for number in range(1, count)]


class Naming:
    """A server names another one, which it meets through a relay."""

    def __init__(self, one, other):
        self.relays = [Relay(other.port)]
        one.peers += self.relays

    def end(self):
        pass


class Between:
    """Sessions of two servers, each through a relay and in a process of its own, a second apart."""

    def __init__(self, program, one, other):
        self.relays = [Relay(one.port), Relay(other.port)]
        self.words = [program, "sync", "--port", self.relays[0].port, "--with", self.relays[1].port, "--idle", 3]
        self.ended = threading.Event()
        self.thread = threading.Thread(target=self.meet, daemon=True)
        self.thread.start()

    def meet(self):
        while not self.ended.wait(1):
            subprocess.run([str(word) for word in self.words], stdout=subprocess.DEVNULL, stderr=subprocess.DEVNULL)

    def end(self):
        self.ended.set()
        self.thread.join()


# ---- writers

class OverFrames:
    def __init__(self, site):
        self.client = Client(site.port)
        self.client.socket.settimeout(PATIENCE)

    def get(self, key):
        context, siblings = self.client.get(key)
        return context, of_bytes(context), dict(siblings)

    def put(self, key, context, document):
        return self.client.put(key, context or bytes(4), document)

    def delete(self, key, context):
        self.client.delete(key, context)


class OverHttp:
    def __init__(self, site):
        self.connection = http.client.HTTPConnection("127.0.0.1", site.http, timeout=PATIENCE)

    def ask(self, method, key, context=None, document=None):
        fields = {} if context is None else {"Mvd-Context": context}
        self.connection.request(method, f"/keys/{key}", document and json.dumps(document), fields)
        response = self.connection.getresponse()
        body = response.read()
        if response.status not in (200, 201, 204, 404):
            raise Refused(response.status, body)
        return body and json.loads(body)

    def get(self, key):
        told = self.ask("GET", key)
        siblings = {tuple(int(word) for word in it["dot"].split(":")): it["document"] for it in told["siblings"]}
        return told["context"], of_text(told["context"]), siblings

    def put(self, key, context, document):
        return tuple(int(word) for word in self.ask("PUT", key, context, document)["dot"].split(":"))

    def delete(self, key, context):
        self.ask("DELETE", key, context)


class Writer(threading.Thread):
    """Asks one site, connects again when it was killed, and notes what it sent, what it was told and what it read."""

    def __init__(self, cluster, site, kind, seed):
        super().__init__(daemon=True)
        self.cluster, self.site, self.kind, self.random = cluster, site, kind, random.Random(seed)
        self.name, self.number, self.reads = f"{site.number}{kind.__name__[4:]}{seed}", 0, 0
        # the puts that were acknowledged: key, dot, document; and the contexts of writes, sent and acknowledged: key, context
        self.puts, self.sent, self.done = [], [], []
        # dots that were seen to be replaced at this site, by key
        self.gone = {}
        self.fault = None

    def run(self):
        try:
            while not self.cluster.is_over:
                try:
                    caller = self.kind(self.site)
                    while not self.cluster.is_over:
                        self.turn(caller)
                except (OSError, EOFError, http.client.HTTPException, ValueError):
                    time.sleep(0.05)
                except Refused as refusal:
                    raise Missed(f"{self.name} was refused: {refusal.args}") from refusal
        except Missed as fault:
            self.fault = fault

    def turn(self, caller):
        key = f"k{self.random.randrange(KEYS)}"
        before = self.site.acknowledged(key)
        sent, context, siblings = caller.get(key)
        self.reads += 1
        lost = [dot for dot in before if not holds(context, dot)]
        if lost:
            raise Missed(f"a read of {key} at site {self.site.number} lacks {lost}, which the site had acknowledged")
        gone = self.gone.setdefault(key, set())
        back = gone & set(siblings)
        if back:
            raise Missed(f"a read of {key} at site {self.site.number} has {back} back")
        what = self.random.random()
        if what < 0.15:
            return
        self.number += 1
        document = {"by": self.name, "n": self.number}
        if what < 0.3:
            sent, context = None, {}
        self.sent.append((key, context))
        if what < 0.4 and sent is not None:
            caller.delete(key, sent)
        else:
            dot = tuple(caller.put(key, sent, document))
            self.site.acknowledges(key, dot)
            self.puts.append((key, dot, document))
        self.done.append((key, context))
        gone.update(dot for dot in siblings if holds(context, dot))


# ---- a run

class Cluster:
    def __init__(self, program, folder, seed, seconds, is_between):
        self.random, self.seconds, self.is_over = random.Random(seed), seconds, False
        count, self.shape = self.random.randrange(3, 6), self.random.choice(["ring", "star"])
        self.sites = [Site(program, folder, number) for number in range(1, count + 1)]
        edges = [(self.sites[one], self.sites[other]) for one, other in edges_of(self.shape, count)]
        self.named = self.random.choice(["the first end", "the last end", "both ends"])
        if is_between:
            self.start()
            self.named, self.meetings = "neither", [Between(program, *edge) for edge in edges]
        else:
            ordered = edges if self.named != "the last end" else []
            ordered += [edge[::-1] for edge in edges] if self.named != "the first end" else []
            self.meetings = [Naming(*edge) for edge in ordered]
            self.start()
        self.writers = [Writer(self, site, kind, seed) for site in self.sites for kind in (OverFrames, OverHttp)]
        self.faults = {"kill": 0, "stop": 0, "cut": 0, "delay": 0, "hold": 0}

    def start(self):
        for site in self.sites:
            site.start()

    def end(self):
        self.is_over = True
        for meeting in self.meetings:
            meeting.end()
        for site in self.sites:
            site.kill()

    def break_one(self):
        """One fault, which is over when this returns."""
        what = self.random.choice(list(self.faults))
        self.faults[what] += 1
        site, relay = self.random.choice(self.sites), self.random.choice(self.random.choice(self.meetings).relays)
        pause = self.random.uniform(0.05, 1)
        if what == "kill":
            site.kill()
            site.check_told()
            time.sleep(pause / 2)
            site.start()
        elif what == "stop":
            site.process.send_signal(signal.SIGSTOP)
            time.sleep(pause)
            site.process.send_signal(signal.SIGCONT)
        elif what == "cut":
            relay.cut()
        elif what == "delay":
            relay.delay = pause / 20
            time.sleep(pause)
            relay.delay = 0
        else:
            relay.is_held = True
            time.sleep(pause)
            relay.is_held = False

    def run(self):
        for writer in self.writers:
            writer.start()
        until = time.perf_counter() + self.seconds
        while time.perf_counter() < until:
            time.sleep(self.random.uniform(0, 0.6))
            self.break_one()
            self.tell_faults()
        self.is_over, mended = True, time.perf_counter()
        for writer in self.writers:
            writer.join()
        self.tell_faults()
        return self.settles(mended)

    def tell_faults(self):
        for writer in self.writers:
            if writer.fault:
                raise writer.fault

    def settles(self, start):
        """The seconds until all roots are equal."""
        clients = [Client(site.port) for site in self.sites]
        while len({client.ask(0x27, b"\0").read(32) for client in clients}) > 1:
            if time.perf_counter() > start + 2 * PATIENCE:
                raise Missed("the roots are not equal")
            time.sleep(0.02)
        took = time.perf_counter() - start
        for client in clients:
            client.bye()
        self.check()
        return took

    def check(self):
        put = {}
        for writer in self.writers:
            for key, dot, document in writer.puts:
                if (key, dot) in put:
                    raise Missed(f"two puts of {key} were told {dot}")
                put[key, dot] = document
        sent, done = self.contexts("sent"), self.contexts("done")
        for site in self.sites:
            caller = OverFrames(site)
            last = {key: caller.get(key)[1:] for key in sent}
            check_site(site, last, put, sent, done)

    def contexts(self, which):
        """By key the union of the contexts of writes."""
        by_key = {f"k{number}": [] for number in range(KEYS)}
        for writer in self.writers:
            for key, context in getattr(writer, which):
                by_key[key].append(context)
        return {key: union_of(contexts) for key, contexts in by_key.items()}


def check_site(site, last, put, sent, done):
    for (key, dot), document in put.items():
        context, siblings = last[key]
        if not holds(context, dot):
            raise Missed(f"site {site.number} does not know {dot} of {key}")
        if dot in siblings and siblings[dot] != document:
            raise Missed(f"site {site.number} has another document at {dot} of {key}")
        if dot not in siblings and not holds(sent[key], dot):
            raise Missed(f"site {site.number} has lost {dot} of {key}, which no write had read")
    for key, (_, siblings) in last.items():
        back = [dot for dot in siblings if holds(done[key], dot)]
        if back:
            raise Missed(f"site {site.number} has {back} of {key} back")


def run(program, seed, seconds, most, is_between):
    with tempfile.TemporaryDirectory() as folder:
        cluster = Cluster(program, folder, seed, seconds, is_between)
        try:
            took = cluster.run()
            if took > most:
                raise Missed(f"the roots were not equal until {took:.2f} s after the last fault")
            cluster.end()
            for site in cluster.sites:
                site.check_told()
        except Missed as fault:
            sys.exit(f"cluster: seed {seed}: {fault}")
        finally:
            cluster.end()
        puts, reads = (sum(it) for it in zip(*((len(writer.puts), writer.reads) for writer in cluster.writers)))
        faults = ", ".join(f"{count} {what}" for what, count in cluster.faults.items() if count)
        sessions = sum(site.sessions for site in cluster.sites)
        print(f"seed {seed}: {len(cluster.sites)} sites in a {cluster.shape}, edges named by {cluster.named}; {reads} reads, {puts} puts, "
              f"{sessions} sessions with keys; {faults}; one root {took:.2f} s after the last fault", flush=True)


def main():
    words = sys.argv[1:]
    flags = [word for word in words if word in ("--short", "--between")]
    words = [word for word in words if word not in flags]
    if not words:
        sys.exit(__doc__)
    program, seeds, short = os.path.realpath(words[0]), [int(word) for word in words[1:]], "--short" in flags
    seconds, most = 6 if short else float(os.environ.get("CLUSTER_SECONDS", "30")), 2 * PATIENCE if flags else SOON
    for seed in seeds or (SHORT_SEEDS if short else range(1, 21)):
        run(program, seed, seconds, most, "--between" in flags)


if __name__ == "__main__":
    main()
