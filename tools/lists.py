#!/usr/bin/env python3
"""What pages of keys, of keys in conflict and of changes take beside pages of an index, and what many writes in one request save.

usage: tools/lists.py PROGRAM [KEYS]      KEYS is 1,000,000 where it is not given

A server gets so many keys by POST /keys, 1,000 of them with a second sibling. Then 60 pages of each kind are asked in turns, and the
middle of each kind is printed, with how many times an index page it is. Last, 100,000 documents go into two new files: by POST /keys, and
by PUTs that do not wait for one another. All is done over one connection each. It ends with 1 where a page takes more than 1.5 times
an index page, or POST more than a quarter of the PUTs.
"""
import http.client
import json
import os
import socket
import statistics
import subprocess
import sys
import tempfile
import threading
import time

PAGES, CONFLICTS, DOCUMENTS, LINES = 60, 1_000, 100_000, 1_000


class Server:
    """A server of a new file, in a folder of its own."""

    def __init__(self, program, folder, name):
        with open(os.path.join(folder, "defs.txt"), "w") as file:
            file.write("index n\n")
        with socket.socket() as one, socket.socket() as other:
            one.bind(("127.0.0.1", 0)), other.bind(("127.0.0.1", 0))
            self.port, self.http = one.getsockname()[1], other.getsockname()[1]
        words = ["serve", "--db", f"{name}.db", "--site", "1", "--port", str(self.port), "--http", str(self.http), "--defs", "defs.txt"]
        self.process = subprocess.Popen([program, *words], cwd=folder, stdout=subprocess.DEVNULL, stderr=subprocess.DEVNULL)
        for _ in range(100):
            try:
                socket.create_connection(("127.0.0.1", self.http)).close()
                break
            except OSError:
                time.sleep(.1)
        self.link = http.client.HTTPConnection("127.0.0.1", self.http)

    def ask(self, method, path, body=None):
        self.link.request(method, path, body)
        response = self.link.getresponse()
        text = response.read()
        if response.status >= 300:
            sys.exit(f"{method} {path[:60]}: {response.status} {text[:200]}")
        return text

    def post(self, keys):
        keys = list(keys)
        for at in range(0, len(keys), LINES):
            # a connection takes at most 1,000,000 requests of the site
            if at % (100 * LINES) == 0:
                self.link.close()
            body = "".join(f'{{"key":"{key}","document":{{"n":1}}}}\n' for key in keys[at:at + LINES])
            if b"refused" in self.ask("POST", "/keys", body):
                sys.exit("a line was refused")

    def end(self):
        self.process.kill()
        self.process.wait()


def timed(action, *given):
    begun = time.perf_counter()
    action(*given)
    return time.perf_counter() - begun


def pages(server, keys):
    print(f"{keys} keys by POST /keys: {timed(server.post, (f'k{n:07}' for n in range(keys))):.1f} s", flush=True)
    root = json.loads(server.ask("GET", "/root"))["root"]
    server.post(f"k{n:07}" for n in range(0, keys, keys // CONFLICTS))
    counts = json.loads(server.ask("GET", "/root"))
    print(f"{counts['keys']} keys, {counts['conflicts']} in conflict", flush=True)
    asked = {"an index": "/index/n?is=1", "keys": f"/keys?after=k{keys // 2:07}", "keys by prefix": "/keys?prefix=k05", "conflicts": "/conflicts",
             "changes": f"/changes?since={root}"}
    took = {name: [] for name in asked}
    for _ in range(PAGES):
        for name, path in asked.items():
            took[name].append(timed(server.ask, "GET", path))
    whole = True
    for name, times in took.items():
        middle = statistics.median(times)
        share = middle / statistics.median(took["an index"])
        whole &= share <= 1.5
        print(f"a page of {name}: {1_000 * middle:.2f} ms, {share:.2f} of an index page", flush=True)
    return whole


def put_all(server):
    """Sends all PUTs without waiting for their responses."""
    with socket.create_connection(("127.0.0.1", server.http)) as link:
        def send():
            for n in range(DOCUMENTS):
                link.sendall(b"PUT /keys/k%07d HTTP/1.1\r\nHost: 127.0.0.1\r\nContent-Length: 7\r\n\r\n{\"n\":1}" % n)
        sender = threading.Thread(target=send)
        sender.start()
        stream, done = link.makefile("rb", 1 << 16), 0
        while done < DOCUMENTS:
            line = stream.readline()
            if not line:
                sys.exit("the server ended the connection")
            # a body has no line feed at its end, so the next status stands behind it
            done += line.count(b"HTTP/1.1 201")
        sender.join()


def main(program, keys):
    program = os.path.abspath(program)
    with tempfile.TemporaryDirectory() as folder:
        server = Server(program, folder, "pages")
        whole = pages(server, keys)
        server.end()
        server = Server(program, folder, "posts")
        posts = timed(server.post, (f"k{n:07}" for n in range(DOCUMENTS)))
        server.end()
        server = Server(program, folder, "puts")
        puts = timed(put_all, server)
        server.end()
        print(f"{DOCUMENTS} documents: POST /keys {posts:.2f} s, PUTs {puts:.2f} s: {posts / puts:.2f}")
    sys.exit(0 if whole and posts <= puts / 4 else 1)


if __name__ == "__main__":
    if len(sys.argv) not in (2, 3):
        sys.exit(__doc__)
    main(sys.argv[1], int(sys.argv[2]) if len(sys.argv) == 3 else 1_000_000)
