#!/usr/bin/env python3
"""Compares PROGRAM serve with redis, PostgreSQL and etcd, where they are installed, each with every commit on disk.

peers.py PROGRAM [OLD]: OLD is another mvd to measure in the same run. It needs gcc, and root for PostgreSQL's own user.
All are asked in turn, ROUNDS times, by tools/peers_load.c over the loopback; the best round counts. There are 10,000
keys, and documents of 100 bytes with three members. redis: appendfsync always. PostgreSQL: an upsert for each put, its
own transaction. etcd: put and linearizable get over gRPC. mvd: frames. It prints docs/PERFORMANCE.md's first table.
On a busy machine run it under `chrt -r 1`, since a thread else waits for the scheduler's tick.
"""

import glob, os, shutil, signal, socket, subprocess, sys, tempfile, time

ROUNDS, KEYS, BYTES, SECONDS = 3, 10_000, 100, 1.2
SHAPES = [("put", 1, 1), ("put", 8, 1), ("put", 64, 1), ("put", 8, 64), ("get", 1, 1), ("get", 64, 1), ("get", 8, 64)]
HERE = os.path.dirname(os.path.abspath(__file__))


def free_port():
    with socket.socket() as it:
        it.bind(("127.0.0.1", 0))
        return it.getsockname()[1]


def wait_for(port):
    for _ in range(300):
        try:
            socket.create_connection(("127.0.0.1", port), 1).close()
            return
        except OSError:
            time.sleep(0.1)
    sys.exit(f"peers.py: nothing listens at port {port}")


class Server:
    """A server that runs in a folder of its own."""

    def __init__(self, name, kind, folder, words, user=None):
        self.name, self.kind, self.port = name, kind, free_port()
        self.counters = f"{folder}/{name}.counters"
        words = [it.replace("PORT", str(self.port)) for it in words]
        with open(f"{folder}/{name}.log", "wb") as log:
            how = {"stdout": log, "stderr": log, "stdin": subprocess.DEVNULL, "start_new_session": True}
            self.process = subprocess.Popen(words, user=user, cwd=folder, **how)

    def ask(self, load, op, clients, depth):
        words = [load, self.kind, str(self.port), str(clients), str(depth), op, str(KEYS), str(BYTES), str(SECONDS)]
        ran = subprocess.run([*words, self.counters, str(self.process.pid)], stdout=subprocess.PIPE, check=True)
        return [float(it) for it in ran.stdout.split()]

    def stop(self):
        self.process.send_signal(signal.SIGINT if self.kind == "pg" else signal.SIGTERM)
        self.process.wait(30)


def postgres(folder):
    """PostgreSQL's server with an empty table, or None."""
    found = sorted(glob.glob("/usr/lib/postgresql/*/bin"))
    if not found or os.getuid():
        return None
    data, bin = f"{folder}/pg", found[-1]
    os.mkdir(data)
    shutil.chown(data, "postgres")
    quiet = {"user": "postgres", "stdout": subprocess.DEVNULL, "stderr": subprocess.DEVNULL, "cwd": data}
    subprocess.run([f"{bin}/initdb", "-D", data, "-U", "peers", "-A", "trust"], check=True, **quiet)
    words = [f"{bin}/postgres", "-D", data, "-p", "PORT", "-k", data, "-c", "max_connections=100"]
    it = Server("PostgreSQL", "pg", folder, words, "postgres")
    wait_for(it.port)
    psql = [f"{bin}/psql", "-q", "-h", "127.0.0.1", "-p", str(it.port), "-U", "peers"]
    table = "CREATE TABLE kv (key text PRIMARY KEY, doc jsonb)"
    for base, text in (("postgres", "CREATE DATABASE peers"), ("peers", table)):
        for _ in range(20):
            if not subprocess.run([*psql, "-d", base, "-c", text], **quiet).returncode:
                break
            time.sleep(0.3)
    return it


def servers(folder, programs):
    """Those that are installed, each listening."""
    found = []
    for name, program in programs:
        own = f"{folder}/{name.replace(' ', '_')}.db"
        found.append(Server(name, "mvd", folder, [program, "serve", "--db", own, "--site", "1", "--port", "PORT"]))
    if shutil.which("redis-server"):
        words = ["redis-server", "--port", "PORT", "--appendonly", "yes", "--appendfsync", "always", "--save", ""]
        found.append(Server("redis", "redis", folder, [*words, "--dir", folder]))
    pg = postgres(folder)
    if pg:
        found.append(pg)
    if shutil.which("etcd"):
        client, peer = "http://127.0.0.1:PORT", f"http://127.0.0.1:{free_port()}"
        words = ["etcd", "--data-dir", f"{folder}/etcd", "--listen-client-urls", client]
        words += ["--advertise-client-urls", client, "--listen-peer-urls", peer]
        words += ["--initial-advertise-peer-urls", peer, "--initial-cluster", f"default={peer}"]
        found.append(Server("etcd", "etcd", folder, words))
    for it in found:
        wait_for(it.port)
    return found


def main(program, old=None):
    folder = tempfile.mkdtemp(prefix="mvd-peers-")
    os.chmod(folder, 0o755)
    load, all_of = f"{folder}/load", []
    subprocess.run(["gcc", "-O2", "-o", load, f"{HERE}/peers_load.c"], check=True)
    programs = [("mvd", os.path.abspath(program))] + ([("mvd before", os.path.abspath(old))] if old else [])
    try:
        all_of = servers(folder, programs)
        for it in all_of:
            it.ask(load, "load", 8, 64)
        best = {}
        for _ in range(ROUNDS):
            for shape in SHAPES:
                for it in all_of:
                    told = it.ask(load, *shape)
                    best[shape, it.name] = max(best.get((shape, it.name), [0]), told)
        print("| what | clients, each in flight | " + " | ".join(it.name for it in all_of) + " |")
        print("|" + "---|" * (2 + len(all_of)))
        for shape in SHAPES:
            cells = (best[shape, it.name] for it in all_of)
            row = " | ".join(f"{rate:,.0f} ({median:.2f} ms, {cost:.0f} µs)" for rate, median, _, cost in cells)
            print(f"| {shape[0]} | {shape[1]}, {shape[2]} | {row} |")
    finally:
        for it in all_of:
            it.stop()
        shutil.rmtree(folder)


if __name__ == "__main__":
    if len(sys.argv) not in (2, 3):
        sys.exit(__doc__)
    main(*sys.argv[1:])
