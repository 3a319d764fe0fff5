#!/usr/bin/env python3
"""What an application does with lists of states over HTTP, seen at servers of PROGRAM.

usage: tools/states.py [--only PART] PROGRAM      it takes some seconds

  copy       export by GET /keys and POST /get, and import by POST /push, twice: a root equal to the first site's each time, also of siblings
             and of deleted keys; and the same by GET /keys?documents=1
  again      a put that is pushed again is one put, also at another server, and where the two meet
  documents  50 documents of an index are one request; pages of 1 to 1,000 keys; numbers past 2^53 as text
  changes    2,500 changed keys in pages, of a prefix, and with their states
  stop       POST /stop amid writers: each write that was answered is in the file, and the server ends with 0
"""
import argparse
import collections
import http.client
import json
import pathlib
import socket
import subprocess
import sys
import tempfile
import threading
import time
import urllib.parse

TOKEN, READER, PART = "sixteen-letters!", "another-sixteen!", "one-more-sixteen"
PATIENCE = 60


def is_so(what, holds, seen=""):
    print(f"{'ok ' if holds else 'NOT'} {what}" + ("" if holds else f": {str(seen)[:400]}"), flush=True)
    if not holds:
        sys.exit(1)


class Server:
    """A server of a file in a folder, and what one asks of it. It counts the requests."""

    def __init__(self, program, folder, site):
        with socket.create_server(("127.0.0.1", 0)) as one, socket.create_server(("127.0.0.1", 0)) as other:
            port, self.http = one.getsockname()[1], other.getsockname()[1]
        self.requests = collections.Counter()
        (folder / "defs").write_text("index city\n")
        (folder / "token").write_text(f"{TOKEN}\n{READER} read\n{PART} write of/me/\n")
        self.words = [program, "serve", "--db", folder / f"{site}.db", "--site", str(site), "--port", str(port), "--http", str(self.http),
                      "--defs", folder / "defs", "--token-file", folder / "token"]
        self.start()

    def start(self):
        self.running = subprocess.Popen(self.words, stdout=subprocess.PIPE, stderr=subprocess.DEVNULL, text=True)
        lines = [self.running.stdout.readline() for _ in range(2)]
        is_so("a server listens", lines[1].startswith("listening http://"), lines)

    def asked(self, method, path, body=None, token=TOKEN, **fields):
        link = http.client.HTTPConnection("127.0.0.1", self.http, timeout=PATIENCE)
        try:
            headers = {"Authorization": f"Bearer {token}"} if token else {}
            link.request(method, path, body, headers | {name.replace("_", "-"): value for name, value in fields.items()})
            response = link.getresponse()
            self.requests[path.split("?")[0]] += 1
            return response.status, response.read().decode()
        finally:
            link.close()

    def told(self, method, path, body=None, **how):
        status, text = self.asked(method, path, body, **how)
        is_so(f"{method} {path[:40]} is told {status}", status < 300, text) if status >= 300 else None
        return json.loads(text) if text else None

    def lines(self, path, lines):
        """What is told of each line, 1,000 lines at once."""
        told = []
        for at in range(0, len(lines), 1000):
            status, text = self.asked("POST", path, "\n".join(lines[at:at + 1000]).encode())
            is_so(f"POST {path} of {len(lines[at:at + 1000])} lines", status == 200, text)
            told += text.rstrip("\n").split("\n")
        return told

    def pages(self, path):
        """The items of all pages of a list."""
        items, after = [], ""
        while True:
            page = self.told("GET", path + after)
            items += next(it for it in page.values() if isinstance(it, list))
            if "next" not in page:
                return items
            after = "&after=" + urllib.parse.quote(page["next"], safe="")

    def root(self):
        return self.told("GET", "/root")["root"]

    def end(self):
        self.running.kill()
        self.running.wait()


def copy(make):
    """The first site has siblings, deleted keys, and documents that JSON may spell in several ways."""
    first, second, third = make(1), make(2), make(3)
    first.lines("/keys", [json.dumps({"key": f"k{i:04}", "document": {"n": i, "city": f"c{i % 7}", "big": 2**53 + 1}}) for i in range(1500)])
    first.lines("/keys", [json.dumps({"key": f"k{i:04}", "document": {"again": "é\u2028"}}) for i in range(0, 1500, 10)])
    for i in range(0, 1500, 50):
        context = first.told("GET", f"/keys/k{i:04}")["context"]
        first.asked("DELETE", f"/keys/k{i:04}", mvd_context=context)
    keys = [one["key"] for one in first.pages("/keys?prefix=")]
    states = first.lines("/get", list(map(json.dumps, keys)))
    is_so("an export of 1,500 keys has a state for each", len(states) == 1500)
    for turn in "once", "twice":
        is_so(f"an import by /push, {turn}: each line is taken", second.lines("/push", states) == ["{}"] * 1500)
        is_so(f"an import by /push, {turn}: the roots are equal", second.root() == first.root())
    pages = list(map(json.dumps, first.pages("/keys?documents=1")))
    for turn in "once", "twice":
        is_so(f"the same by pages with documents, {turn}", third.lines("/push", pages) == ["{}"] * 1500 and third.root() == first.root())
    is_so("no key is in conflict that was not", len(second.pages("/conflicts?prefix=")) == len(first.pages("/conflicts?prefix=")) == 120)


def again(make):
    """A put with a dot of its author's own site, sent again, here and elsewhere; a put of HTTP that is sent again is a new one."""
    one, other = make(1), make(2)
    state = json.dumps({"key": "order", "context": "70000:1", "siblings": [{"dot": "70000:1", "document": {"total": 995}}]})
    for server in one, one, other, one:
        is_so("a push is taken", server.lines("/push", [state]) == ["{}"])
    seen = [server.asked("GET", "/keys/order") for server in (one, other)]
    is_so("a put that is pushed again, at two servers, is one put", seen == [(200, state.replace(": ", ":").replace(", ", ","))] * 2, seen)
    is_so("and the roots are equal", one.root() == other.root())
    changed = json.dumps({"key": "order", "context": "70000:2", "siblings": [{"dot": "70000:2", "document": {"total": 0}}]})
    one.lines("/push", [changed])
    one.lines("/push", [state])
    is_so("one that was replaced does not come back", '{"total":0}' in one.asked("GET", "/keys/order")[1] and '995' not in one.asked("GET", "/keys/order")[1])


def documents(make):
    one = make(1)
    one.lines("/keys", [json.dumps({"key": f"d{i:03}", "document": {"city": "Oslo" if i % 2 else "Rome", "n": 2**53 + i}}) for i in range(100)])
    before = sum(one.requests.values())
    page = one.told("GET", "/index/city?is=%22Oslo%22&documents=1")
    is_so("50 documents of an index are one request",
          sum(one.requests.values()) == before + 1 and len(page["places"]) == 50 and "next" not in page and all(it["document"]["city"] == "Oslo" for it in page["places"]), page)
    page = one.told("GET", "/index/city?is=%22Oslo%22&documents=1&text=1")
    is_so("as texts, no number is rounded", [json.loads(it["text"])["n"] for it in page["places"]] == [2**53 + i for i in range(1, 100, 2)], page)
    is_so("a key's documents as texts", one.told("GET", "/keys/d001?text=1")["siblings"][0]["text"] == '{"city":"Oslo","n":9007199254740993}')
    for limit in 1, 7, 100, 1000:
        page = one.told("GET", f"/keys?limit={limit}")
        is_so(f"a page of {limit}", len(page["keys"]) == min(limit, 100) and ("next" in page) == (limit < 100), page)
    is_so("pages of 7 have all", [it["key"] for it in one.pages("/keys?limit=7")] == [f"d{i:03}" for i in range(100)])
    is_so("an index in pages of 7", len(one.pages("/index/city?is=%22Oslo%22&limit=7&documents=1")) == 50)
    for limit in "0", "1001", "x", "-1":
        is_so(f"a limit of {limit!r} is refused", one.asked("GET", f"/keys?limit={limit}")[0] == 400)
    states = {it["key"]: it for it in one.pages("/keys?documents=1&digests=1")}
    is_so("keys with documents are their states", all(len(it["siblings"]) == 1 and it["context"] == "1:1" and len(it["digest"]) == 64 for it in states.values()))
    large = json.dumps({"text": "x" * 60000})
    one.lines("/keys", [f'{{"key":"e{i:02}","document":{large}}}' for i in range(30)])
    page = one.told("GET", "/keys?prefix=e&documents=1")
    is_so("a page ends where 1 MiB of documents is told", 17 <= len(page["keys"]) <= 19 and "next" in page, len(page["keys"]))
    is_so("and the next one goes on", len(one.pages("/keys?prefix=e&documents=1")) == 30)


def changes(make):
    one = make(1)
    root = one.root()
    one.lines("/keys", [json.dumps({"key": f"{'ab'[i % 2]}/{i}", "document": {"n": i}}) for i in range(2500)])
    last = one.root()
    for options, names in (("", 2500), ("&prefix=a/", 1250), ("&states=1", 2500), ("&prefix=b/&states=1", 1250)):
        at, seen, turns = root, [], 0
        while at != last:
            told = one.told("GET", f"/changes?since={at}{options}")
            is_so("no page wants all keys read anew", not told["resync"]) if told["resync"] else None
            at, turns = told["root"], turns + 1
            seen += told["keys"]
        is_so(f"changes{options} come in {turns} pages", len(seen) == names and turns <= 3, (len(seen), turns))
    waiting, began = threading.Thread(target=one.asked, args=("GET", f"/changes?since={last}&prefix=a/&wait=30")), time.time()
    waiting.start()
    time.sleep(.2)
    one.told("PUT", "/keys/b%2Fnew", "{}")
    time.sleep(.3)
    is_so("who waits for a prefix is not woken by another key", waiting.is_alive())
    one.told("PUT", "/keys/a%2Fnew", "{}")
    waiting.join(5)
    is_so("and is woken by its own", not waiting.is_alive() and time.time() - began < 10)


def stop(make):
    """The end of a server amid six writers and a reader that waits."""
    one = make(1)
    for whose, token, status in ("to read", READER, 403), ("below a prefix", PART, 403), ("of no token", None, 401):
        seen = one.asked("POST", "/stop", token=token)
        is_so(f"a right {whose} does not end a server", seen[0] == status, seen)
    written, ended = set(), threading.Event()

    def write(name):
        i = 0
        while not ended.is_set():
            i += 1
            try:
                if one.asked("PUT", f"/keys/{name}{i}", "{}")[0] == 201:
                    written.add(f"{name}{i}")
            except (OSError, http.client.HTTPException):
                return

    waits = threading.Thread(target=waited, args=(one, one.root()))
    writers = [threading.Thread(target=write, args=(name,)) for name in "uvwxyz"]
    for thread in [*writers, waits]:
        thread.start()
    time.sleep(1)
    is_so("POST /stop is told 202", one.asked("POST", "/stop")[0] == 202)
    begun = time.time()
    text = one.running.communicate(timeout=PATIENCE)[0]
    ended.set()
    for thread in [*writers, waits]:
        thread.join()
    is_so("the server ends with 0, within seconds", one.running.returncode == 0 and time.time() - begun < 10, (one.running.returncode, time.time() - begun))
    is_so("and prints its root last", text.splitlines()[-1].startswith("root "), text[-200:])
    one.start()
    held = {it["key"] for it in one.pages("/keys?prefix=")}
    is_so(f"each of {len(written)} writes that were answered is there", written and written <= held, sorted(written - held)[:5])
    is_so("and its root is the one that was printed", one.root() == text.splitlines()[-1].removeprefix("root "))


def waited(one, root):
    try:
        one.asked("GET", f"/changes?since={root}&prefix=none/&wait=60")
    except (OSError, http.client.HTTPException):
        pass


PARTS = {"copy": copy, "again": again, "documents": documents, "changes": changes, "stop": stop}


def main():
    words = argparse.ArgumentParser(usage=__doc__)
    words.add_argument("--only", choices=PARTS)
    words.add_argument("program")
    given = words.parse_args()
    program = str(pathlib.Path(given.program).resolve())
    for name, part in PARTS.items():
        if given.only not in (None, name):
            continue
        servers = []

        def make(site):
            servers.append(Server(program, pathlib.Path(folder), site))
            return servers[-1]

        with tempfile.TemporaryDirectory() as folder:
            try:
                part(make)
            finally:
                for server in servers:
                    server.end()


if __name__ == "__main__":
    main()
