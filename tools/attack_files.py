"""Attacks on the files of a running `mvd`, and limits: parts of `attacks.py`."""
import os
import resource
import signal
import struct
import subprocess
import tempfile
import time

from client import Client, Refused
from bounds import EMPTY, Server
from peers_fast import free


class Broken(Exception):
    """An attack that did not hold."""


def wanted(what, holds):
    if not holds:
        raise Broken(what)


def run(program, *words, given="", limits=(), seconds=60):
    def limit():
        for what, most in limits:
            resource.setrlimit(what, (most, most))
    done = subprocess.run([str(word) for word in (program, *words)], input=given.encode(), stdout=subprocess.PIPE, stderr=subprocess.PIPE,
                          timeout=seconds, preexec_fn=limit, check=False)
    return done.returncode, done.stdout.decode(errors="replace"), done.stderr.decode(errors="replace")


def shell(program, file, site, lines, **limits):
    return run(program, "shell", "--db", file, "--site", site, given=lines, **limits)


# ---- files

def harmed(program, folder, what, harm, words):
    """Serves three connections, the second of which finds the file harmed, and wants the end told as 21 with these words."""
    folder = tempfile.mkdtemp(dir=folder)
    server = Server(program, folder, 1, free(), "--conns", 3)
    Client(server.port).put("before", EMPTY, {"n": 1})
    harm(f"{folder}/1.db")
    for key in "after", "last":
        try:
            client = Client(server.port)
            client.put(key, EMPTY, {"n": 2})
            client.bye()
        except (Refused, EOFError, OSError):
            pass
    try:
        status = server.process.wait(20)
    except subprocess.TimeoutExpired:
        server.end()
        raise Broken(f"{what}: the server does not end") from None
    time.sleep(0.1)
    told = " ".join(server.errors)
    print(f"  {what}: status {status}, told {told[:110]!r}", flush=True)
    wanted(f"{what}: status {status}, told {told!r}", status == 1 and " 21 " in f" {told} " and words in told)


def replace(path):
    with open(path + ".new", "wb") as file:
        file.write(b"other")
    os.rename(path + ".new", path)


def files(program, folder, short):
    cases = ("the file is removed", os.unlink, "removed"), ("the file is replaced", replace, "replaced"), \
        ("the file is cut", lambda path: os.truncate(path, 0), "cut"), \
        ("its log is removed", lambda path: os.unlink(path + "-wal"), "log"), \
        ("its log is cut", lambda path: os.truncate(path + "-wal", 0), "log")
    for what, harm, words in cases:
        harmed(program, folder, what, harm, words)
    shell(program, f"{folder}/a.db", 1, "put k - {}\n")
    os.link(f"{folder}/a.db", f"{folder}/b.db")
    status, _, told = shell(program, f"{folder}/a.db", 1, "get k\n")
    wanted(f"a second name of a file: {told!r}", status == 1 and "hard link" in told)
    print("  a second name of a file is named as the cause", flush=True)


def limits(program, folder, short):
    # A signal ends a program whose file may grow no more: what was acknowledged is there.
    for size in (40, 300) if short else (0, 8, 40, 100, 300, 1000, 3000):
        file, port, kept = f"{folder}/f{size}.db", free(), []
        words = [program, "serve", "--db", file, "--site", 1, "--port", port]
        process = subprocess.Popen([str(word) for word in words], stdout=subprocess.DEVNULL, stderr=subprocess.DEVNULL,
                                   preexec_fn=lambda size=size: resource.setrlimit(resource.RLIMIT_FSIZE, (size << 10, size << 10)))
        end = time.monotonic() + 2
        client = None
        while time.monotonic() < end and process.poll() is None:
            try:
                client = client or Client(port)
                client.put(f"k{len(kept)}", EMPTY, {"t": "x" * 9_000})
                kept.append(f"k{len(kept)}")
            except (Refused, EOFError, OSError, struct.error):
                time.sleep(0.05)
        status = process.poll()
        process.kill()
        process.wait()
        _, shown, _ = shell(program, file, 1, "keys\n")
        lost = [key for key in kept if f"{key} 1" not in shown.splitlines()]
        print(f"  a limit of {size} kB: {'served on' if status is None else f'ended with {status}'}; {len(kept)} acknowledged, {len(lost)} lost", flush=True)
        wanted(f"{len(lost)} acknowledged writes are lost", not lost)
        wanted(f"it ended with {status}", status in (None, 1, -signal.SIGXFSZ))
    status, _, told = run(program, "serve", "--db", f"{folder}/n.db", "--site", 1, "--port", free(), "--conns", 1,
                          limits=[(resource.RLIMIT_NOFILE, 8)])
    wanted(f"eight descriptors: {told!r}", status == 1 and "ulimit -n" in told and "--address" not in told)
    print("  too few descriptors are named as the cause", flush=True)


def log(program, folder, short):
    count, server = 200 if short else 700, Server(program, folder, 1, free())
    client = Client(server.port)
    for number in range(count):
        client.put(f"k{number:04}", EMPTY, {"n": number})
    server.end()
    with open(f"{folder}/1.db", "rb") as file, open(f"{folder}/1.db-wal", "rb") as other:
        whole, wal = file.read(), other.read()
    size = 24 + struct.unpack(">I", wal[8:12])[0]
    frames = [at for at in range(32, len(wal) - 24, size) if wal[at + 8:at + 16] == wal[16:24]]
    for where in (0, len(frames) // 2, len(frames) - 1):
        changed = bytearray(wal)
        changed[frames[where] + 124] ^= 1
        for name, data in ("c.db", whole), ("c.db-wal", changed):
            with open(f"{folder}/{name}", "wb") as file:
                file.write(data)
        status, shown, told = shell(program, f"{folder}/c.db", 1, "keys\n")
        kept = [line.split()[0] for line in shown.splitlines() if line.startswith("k")]
        print(f"  a bit of frame {where} of {len(frames)} of the log: status {status}, {count - len(kept)} of {count} acknowledged writes gone", flush=True)
        if status == 0:
            wanted("what is left is no front of the writes", kept == [f"k{number:04}" for number in range(len(kept))])
        else:
            wanted(f"told {told!r}", " 21 " in f" {told} " or " 17 " in f" {told} ")
