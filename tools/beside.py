#!/usr/bin/env python3
"""Asks two programs in turn, in frames and over HTTP, and says how many requests a second each answers, beside the other.

usage: tools/beside.py OLD NEW [ROUNDS]

OLD and NEW are `mvd` as built, alike: with proofs, or without them. Each serves a file of its own with 10,000 keys, and documents of
100 bytes; tools/peers_load.c asks them, compiled by gcc, and all connections are kept: puts, gets, and in frames both in turns on one
connection, of other keys. In each round, of which there are five by default, both are asked the same, and which is asked first changes. A
row has for each the requests a second, the least and the middle of the rounds, and the middle of the processor's time for a request; then
NEW by OLD: the middle of the ratios of the rounds. Other numbers than 1 and 8 clients, 1 and 16 requests in flight and 1 second are in
BESIDE_CLIENTS, BESIDE_DEPTHS and BESIDE_SECONDS.
"""
import os
import signal
import statistics
import subprocess
import sys
import tempfile

from peers import free_port, wait_for

KEYS, BYTES = "10000", "100"
SECONDS = os.environ.get("BESIDE_SECONDS", "1")
CLIENTS = os.environ.get("BESIDE_CLIENTS", "1 8").split()
DEPTHS = os.environ.get("BESIDE_DEPTHS", "1 16").split()
HERE = os.path.dirname(os.path.abspath(__file__))
SPOKEN = {"mvd": "frames", "web": "HTTP"}


class Server:
    def __init__(self, folder, name, program):
        self.ports, self.counters = {"mvd": str(free_port()), "web": str(free_port())}, f"{folder}/{name}.counters"
        words = [program, "serve", "--db", f"{folder}/{name}.db", "--site", "1", "--port", self.ports["mvd"], "--http", self.ports["web"]]
        self.process = subprocess.Popen(words, stdout=subprocess.DEVNULL, start_new_session=True)
        wait_for(int(self.ports["web"]))

    def ask(self, load, spoken, op, clients, depth):
        """Requests a second, and the microseconds of the processor that one takes."""
        words = [load, spoken, self.ports[spoken], clients, depth, op, KEYS, BYTES, SECONDS, self.counters, str(self.process.pid)]
        rate, _, _, cost = subprocess.run(words, stdout=subprocess.PIPE, check=True).stdout.split()
        return float(rate), float(cost)

    def stop(self):
        self.process.send_signal(signal.SIGTERM)
        self.process.wait(30)


def measured(load, servers, rounds):
    """For each shape the figures of both, round by round."""
    shapes = [(spoken, op, clients, depth) for op in ("put", "get") for spoken in SPOKEN for clients in CLIENTS for depth in DEPTHS]
    shapes += [("mvd", "turns", clients, depth) for clients in CLIENTS for depth in DEPTHS]
    found = {shape: ([], []) for shape in shapes}
    for number in range(rounds):
        for shape in shapes:
            for which in (0, 1) if number % 2 else (1, 0):
                found[shape][which].append(servers[which].ask(load, *shape))
    return found


def row(shape, old, new):
    spoken, op, clients, depth = shape
    ratio = statistics.median(after[0] / before[0] for before, after in zip(old, new))
    saved = statistics.median(before[1] / after[1] for before, after in zip(old, new))
    asked = {"turns": "put and get in turns"}.get(op, op)
    cells = [f"{asked} in {SPOKEN[spoken]}" if spoken == "mvd" else f"{asked} over {SPOKEN[spoken]}", f"{clients}, {depth}"]
    for told in old, new:
        rates, costs = zip(*told)
        cells.append(f"{min(rates):,.0f}, {statistics.median(rates):,.0f} ({statistics.median(costs):.1f} µs)")
    return f"| {' | '.join(cells)} | {ratio:.2f} | {saved:.2f} |"


def main(old, new, rounds="5"):
    with tempfile.TemporaryDirectory(prefix="mvd-beside-") as folder:
        load, servers = f"{folder}/load", []
        subprocess.run(["gcc", "-O2", "-o", load, f"{HERE}/peers_load.c"], check=True)
        try:
            for name, program in (("old", old), ("new", new)):
                servers.append(Server(folder, name, os.path.abspath(program)))
            for server in servers:
                server.ask(load, "mvd", "load", "8", "64")
            print("| what | clients, each in flight | before: least, middle | now: least, middle | now by before | the same of the processor |")
            print("|---|---|---|---|---|---|", flush=True)
            for shape, told in measured(load, servers, int(rounds)).items():
                print(row(shape, *told), flush=True)
        finally:
            for server in servers:
                server.stop()


if __name__ == "__main__":
    if len(sys.argv) not in (3, 4):
        sys.exit(__doc__)
    main(*sys.argv[1:])
