#!/usr/bin/env python3
"""Measures stored sites and sessions, on files that it makes: opening, puts and reads over loopback, sessions.

usage: tools/measure_stored.py PROGRAM [FOLDER]

PROGRAM is `mvd` as built. FOLDER has a program to compare with, target/release/yardstick: tools/yardstick, where `cargo build
--release` makes it. Each figure is the best of three runs, the programs in turn, but of a first session, which is run once. What is
measured runs on the last processor, and the clients on the others. The files are made in TMPDIR (else /tmp), so the puts are those
of its disk. MEASURE_KEYS has other numbers of keys than 10000 100000 1000000, and MEASURE_RUNS another number of runs than 3.
MEASURE_BEFORE has an earlier `mvd` to compare with. It runs in turn with PROGRAM, and has rows of its own in each table.
"""
import os
import shutil
import socket
import sqlite3
import struct
import subprocess
import sys
import tempfile
import threading
import time

RUNS = int(os.environ.get("MEASURE_RUNS", "3"))
SIZES = [int(word) for word in os.environ.get("MEASURE_KEYS", "10000 100000 1000000").split()]
MOST_CARRIED = 100_000
PUTS = 1_000
READS = 200_000
DIFFERING = 10
STRIDE = 7919  # how far apart the keys of two puts or reads are
PROCESSORS = sorted(os.sched_getaffinity(0))
REFUSED = 0xEE
OPENING = {"opened": "{:.2f} s", "refused": "{:.2f} s", "opening": "{:.2f} s", "most": "{:.1f} MiB", "held": "{:.1f} MiB",
           "rows": "{:.2f} s", "rows_went_by": "{:.2f} s", "opened/rows": "{:.2f}"}
ASKING = {"1/put": "{:.0f}", "put_used": "{:.6f} s", "1/journal": "{:.0f}", "1/log": "{:.0f}", "1/read": "{:.0f}", "read_used": "{:.6f} s"}
SESSIONS = {"questions": "{}", "session": "{:.3f} s", "asking": "{:.2f} s", "asked": "{:.2f} s"}


# What stands in a file, and what goes over a socket.

def document(number):
    """A document of 22 bytes, with which the state of a key takes 60."""
    return b'{"n":"%014d"}' % number


def context(site, counter):
    return struct.pack(">IIQI", 1, site, counter, 0)


def state(site, counter):
    """The spelled state of a key with one sibling, whose dot and those before it were seen."""
    text = document(counter)
    return context(site, counter) + struct.pack(">HIQI", 1, site, counter, len(text)) + text


def make(path, site, keys, odd=0):
    """A file of records of a site with so many keys. Each was put by site 1, but for so many by site 2."""
    part = keys // odd if odd else keys + 1
    db = sqlite3.connect(path)
    for fast in "journal_mode = off", "synchronous = off", "cache_size = -400000":
        db.execute(f"PRAGMA {fast}").fetchall()
    db.execute("CREATE TABLE states (key TEXT PRIMARY KEY NOT NULL, state BLOB NOT NULL) STRICT")
    db.execute("CREATE TABLE meta (name TEXT PRIMARY KEY NOT NULL, value INTEGER NOT NULL) STRICT")
    db.execute("CREATE TABLE states2 (key TEXT PRIMARY KEY NOT NULL, state BLOB NOT NULL) STRICT")
    db.executemany("INSERT INTO meta VALUES (?, ?)", [("format", 2), ("site", site)])
    rows = ((f"k{n}", state(2 if n % part == part - 1 else 1, 1)) for n in range(keys))
    db.executemany("INSERT INTO states2 VALUES (?, ?)", rows)
    db.commit()
    db.close()


def with_log(path):
    """From now on SQLite writes a log of this file, in place of a journal, and syncs it once a commit."""
    db = sqlite3.connect(path)
    db.execute("PRAGMA journal_mode = wal").fetchall()
    db.close()


def frame(kind, payload=b""):
    return struct.pack(">IB", len(payload) + 1, kind) + payload


def short(key):
    return bytes([len(key)]) + key.encode()


def get(key):
    return frame(0x21, short(key))


def put(key, counter):
    """A put of site 1 in place of the one before it."""
    text = document(counter)
    return frame(0x22, short(key) + context(1, counter - 1) + struct.pack(">I", len(text)) + text)


def kinds_of(data):
    """The kinds of the whole frames at the head of some bytes, and what stands behind them."""
    kinds, at = [], 0
    while len(data) - at >= 5:
        end = at + 4 + struct.unpack_from(">I", data, at)[0]
        if end > len(data):
            break
        kinds.append(data[at + 4])
        at = end
    return kinds, data[at:]


def keys_of(count, keys):
    """So many keys far apart; none comes twice before all have come."""
    return (f"k{n * STRIDE % keys}" for n in range(count))


# Processes.

def start(words):
    """Starts a program on the last processor."""
    return subprocess.Popen(["taskset", "-c", str(PROCESSORS[-1]), *words], stdout=subprocess.PIPE)


def ended(process):
    """Waits for a program: what it printed, and the seconds of the processor that it used."""
    told = process.stdout.read().decode()
    _, process.returncode, used = os.wait4(process.pid, 0)
    if process.returncode:
        sys.exit(f"failed: {' '.join(process.args)}")
    return told, used.ru_utime + used.ru_stime


def processor(pid):
    """Seconds of the processor that a process has used so far."""
    with open(f"/proc/{pid}/schedstat") as file:
        return int(file.read().split()[0]) / 1e9


def memory(pid, name):
    """The most memory of a process that was resident (VmHWM), or what is now (VmRSS), in MiB."""
    with open(f"/proc/{pid}/status") as file:
        return next(int(line.split()[1]) / 1024 for line in file if line.startswith(name))


def refused(program, path):
    """Seconds of the processor until a file of site 1 is refused to another site: the database is opened, and one row of it read."""
    words = ["taskset", "-c", str(PROCESSORS[-1]), program, "shell", "--db", path, "--site", "2"]
    process = subprocess.Popen(words, stdin=subprocess.DEVNULL, stderr=subprocess.DEVNULL)
    _, process.returncode, used = os.wait4(process.pid, 0)
    if not process.returncode:
        sys.exit("another site was not refused")
    return used.ru_utime + used.ru_stime


class Server:
    """A server on a file of site 1, for one connection."""

    def __init__(self, program, path):
        with socket.create_server(("127.0.0.1", 0)) as free:
            self.port = free.getsockname()[1]
        begun = time.perf_counter()
        self.process = start([program, "serve", "--db", path, "--site", "1", "--port", str(self.port), "--conns", "1"])
        if not self.process.stdout.readline().startswith(b"listening"):
            sys.exit("no server")
        self.opening = time.perf_counter() - begun
        self.opened = processor(self.process.pid)
        self.peer = None

    def ask(self, requests, size):
        """Sends all requests at once, and reads replies of so many bytes: the seconds that went by, and the processor's."""
        if not self.peer:
            self.peer = socket.create_connection(("127.0.0.1", self.port))
        sender = threading.Thread(target=self.peer.sendall, args=(requests,))
        used, begun = processor(self.process.pid), time.perf_counter()
        sender.start()
        pieces = []
        while size > 0:
            pieces.append(self.peer.recv(1 << 20))
            size -= len(pieces[-1]) or sys.exit("the server closed")
        went_by, used = time.perf_counter() - begun, processor(self.process.pid) - used
        sender.join()
        kinds, rest = kinds_of(b"".join(pieces))
        if REFUSED in kinds or rest:
            sys.exit("the server refused")
        return went_by, used

    def end(self):
        self.ask(frame(0x2F), len(frame(0xA3)))
        ended(self.process)


class Relay(threading.Thread):
    """Stands between a session and a server. It counts the questions that pass, and notes the first of them and the last reply."""

    def __init__(self, server):
        super().__init__()
        self.server = server
        self.listener = socket.create_server(("127.0.0.1", 0))
        self.port = self.listener.getsockname()[1]
        self.questions = 0

    def run(self):
        with self.listener, self.listener.accept()[0] as near:
            with socket.create_connection(("127.0.0.1", self.server.port)) as far:
                back = threading.Thread(target=self.send_back, args=(far, near))
                back.start()
                rest = b""
                while piece := near.recv(1 << 16):
                    if not self.questions:
                        self.first = time.perf_counter()
                    kinds, rest = kinds_of(rest + piece)
                    self.questions += len(kinds)
                    far.sendall(piece)
                far.shutdown(socket.SHUT_WR)
                back.join()

    def send_back(self, far, near):
        while piece := far.recv(1 << 16):
            self.last = time.perf_counter()
            near.sendall(piece)


# The figures.

class Best:
    """The least of each figure."""

    def __init__(self):
        self.least = {}

    def add(self, **figures):
        for name, figure in figures.items():
            self.least[name] = min(figure, self.least.get(name, figure))

    def figure(self, name):
        """A figure, if there is one; `1/name` is how often in a second, and `name/other` a ratio."""
        parts = [1 if part == "1" else self.least.get(part) for part in name.split("/")]
        return None if None in parts else parts[0] / parts[1] if parts[1:] else parts[0]


def print_rows(head, found, forms):
    """Prints a row of figures for each program, and one of how those of PROGRAM are to those of before."""
    rows = {name: [best.figure(figure) for figure in forms] for name, best in found.items()}
    for name, figures in rows.items():
        cells = ["-" if figure is None else form.format(figure) for figure, form in zip(figures, forms.values())]
        print(f"| {'' if name == 'mvd' else name + ', '}{head} | {' | '.join(cells)} |")
    if "before" in rows:
        cells = [f"{now / then:.2f}" if then else "-" for now, then in zip(rows["mvd"], rows["before"])]
        print(f"| ratio, {head} | {' | '.join(cells)} |")


def rows_by(yardstick, path):
    begun = time.perf_counter()
    _, used = ended(start([yardstick, "rows", path]))
    return {"rows": used, "rows_went_by": time.perf_counter() - begun}


def upserts_by(yardstick, name, path, keys):
    told, _ = ended(start([yardstick, "upserts", path, str(PUTS), str(keys)]))
    return {name: float(told) / PUTS}


def measure_file(programs, yardstick, folder, keys):
    """Opening a file, reads of it and puts, by each program in turn, each on a file of its own, and by the yardstick."""
    journal, log, *ours = (os.path.join(folder, f"{name}.db") for name in ("journal", "log", *programs))
    make(journal, 1, keys)
    for copy in log, *ours:
        shutil.copy(journal, copy)
    with_log(log)
    reads = b"".join(map(get, keys_of(READS, keys)))
    found = {name: Best() for name in programs}
    for turn in range(RUNS):
        for best, program, path in zip(found.values(), programs.values(), ours):
            measure_turn(best, program, path, keys, turn, reads)
        if yardstick:
            plain = {**rows_by(yardstick, journal), **upserts_by(yardstick, "journal", journal, keys), **upserts_by(yardstick, "log", log, keys)}
            for best in found.values():
                best.add(**plain)
    return found


def measure_turn(best, program, path, keys, turn, reads):
    best.add(refused=refused(program, path))
    server = Server(program, path)
    pid = server.process.pid
    best.add(opened=server.opened, opening=server.opening, most=memory(pid, "VmHWM"), held=memory(pid, "VmRSS"))
    went_by, used = server.ask(reads, READS * len(frame(0xA1, state(1, 1))))
    best.add(read=went_by / READS, read_used=used / READS)
    puts = b"".join(put(key, turn + 2) for key in keys_of(PUTS, keys))
    went_by, used = server.ask(puts, PUTS * len(frame(0xA2, bytes(12))))
    best.add(put=went_by / PUTS, put_used=used / PUTS)
    server.end()


def measure_session(best, program, folder, keys, odd):
    """A session of a site with keys of which so many differ, or of a site with none."""
    clear(folder)
    near, far = (os.path.join(folder, name) for name in ("near.db", "far.db"))
    make(far, 1, keys)
    if odd:
        make(near, 2, keys, odd)
    server = Server(program, far)
    used = processor(server.process.pid)
    relay = Relay(server)
    relay.start()
    told, client = ended(start([program, "sync", "--db", near, "--site", "2", "--port", str(relay.port)]))
    relay.join()
    _, in_all = ended(server.process)
    if told.splitlines()[0] != f"keys {odd or keys}":
        sys.exit(f"a session told {told}")
    best.add(questions=relay.questions, session=relay.last - relay.first, asked=in_all - used, asking=client)


def seconds_of_a_sync(folder):
    """The least time in which the disk takes 4 KiB that are written over."""
    with open(os.path.join(folder, "synced"), "wb", buffering=0) as file:
        file.write(bytes(4096))
        os.fsync(file.fileno())
        best = Best()
        for _ in range(200):
            begun = time.perf_counter()
            file.seek(0)
            file.write(os.urandom(4096))
            os.fdatasync(file.fileno())
            best.add(sync=time.perf_counter() - begun)
    return best.least["sync"]


def print_files(programs, yardstick, folder):
    found = [(keys, measure_file(programs, yardstick, folder, keys)) for keys in SIZES if not clear(folder)]
    print("\n| keys | mvd opens: time | of it the database | went by | most memory | when open | yardstick reads: time | went by | ratio |")
    print("|---|---|---|---|---|---|---|---|---|")
    for keys, bests in found:
        print_rows(keys, bests, OPENING)
    print("\n| keys | puts a second | a put: time | upserts a second: journal | log | reads a second | a read: time |")
    print("|---|---|---|---|---|---|---|", flush=True)
    for keys, bests in found:
        print_rows(keys, bests, ASKING)


def print_sessions(programs, folder):
    print("\n| keys | differ | questions | went by | time: who asks | who is asked |")
    print("|---|---|---|---|---|---|", flush=True)
    few = [keys for keys in SIZES if keys <= MOST_CARRIED]
    more = [keys for keys in SIZES if keys > MOST_CARRIED]
    for keys, odd in [(k, DIFFERING) for k in few] + [(k, 0) for k in few] + [(k, DIFFERING) for k in more]:
        found = {name: Best() for name in programs}
        for _ in range(RUNS if odd else 1):
            for name, program in programs.items():
                measure_session(found[name], program, folder, keys, odd)
        print_rows(f"{keys} | {odd or 'all'}", found, SESSIONS)


def clear(folder):
    for name in os.listdir(folder):
        os.remove(os.path.join(folder, name))


def main(program, folder=None):
    programs = {"mvd": program}
    if "MEASURE_BEFORE" in os.environ:
        programs["before"] = os.environ["MEASURE_BEFORE"]
    yardstick = folder and os.path.join(folder, "target/release/yardstick")
    os.sched_setaffinity(0, PROCESSORS[:-1] or PROCESSORS)
    with tempfile.TemporaryDirectory() as room:
        print(f"a sync of 4 KiB: {seconds_of_a_sync(room) * 1000:.2f} ms; the best of {RUNS} runs; load {os.getloadavg()}")
        print_files(programs, yardstick, room)
        print_sessions(programs, room)


if __name__ == "__main__":
    if len(sys.argv) not in (2, 3):
        sys.exit(__doc__)
    main(*sys.argv[1:])
