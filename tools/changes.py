#!/usr/bin/env python3
"""Runs `mvd serve --http` as a process and asks it for keys, for keys in conflict, for many writes at once, and for what changed.

usage: tools/changes.py [--short] PROGRAM

PROGRAM is `mvd` as built. With `--short`, beside other work, no time is asked for. It ends with 1 at the first answer that is not the one wanted, and else prints figures: how long those wait
that wait for a change, and how long many writes take. The files are made in TMPDIR (else /tmp).
"""
import atexit
import http.client
import json
import os
import select
import signal
import socket
import subprocess
import sys
import tempfile
import time

SHORT = sys.argv[1:2] == ["--short"]
PROGRAM = os.path.realpath(sys.argv[-1]) if len(sys.argv) == 2 + SHORT else sys.exit(__doc__)
PATIENCE = 60
DOCUMENT = {"city": "Oslo", "days": 3}
# as many wait for one change, and are told it within so many milliseconds
READERS = 200
# half of the places are for those that wait
MANY = ("--clients", str(2 * READERS))
TOLD_WITHIN = 5_000 if SHORT else 20
# what is idle takes at most so many seconds of the processor
IDLE = 5 if SHORT else 0.05


def wanted(what, holds, seen=""):
    print(f"{'ok ' if holds else 'NOT'} {what}" + ("" if holds else f": {seen}"), flush=True)
    if not holds:
        sys.exit(1)


def free_ports():
    with socket.create_server(("127.0.0.1", 0)) as one, socket.create_server(("127.0.0.1", 0)) as two:
        return one.getsockname()[1], two.getsockname()[1]


def line(**said):
    return json.dumps(said)


class Server:
    def __init__(self, folder, *words, name="a.db"):
        self.frames, self.http = free_ports()
        self.process = subprocess.Popen(
            [PROGRAM, "serve", "--db", os.path.join(folder, name), "--site", "1", "--port", str(self.frames), "--http", str(self.http),
             *words], stdout=subprocess.PIPE, stderr=subprocess.DEVNULL)
        atexit.register(self.process.kill)
        lines = [self.process.stdout.readline() for _ in range(2)]
        wanted("it listens at both ports", lines[1] == b"listening http://127.0.0.1:%d/\n" % self.http, lines)

    def close(self):
        self.process.send_signal(signal.SIGTERM)
        self.process.communicate()

    def ask(self, method, path, body=None, **fields):
        client = http.client.HTTPConnection("127.0.0.1", self.http, timeout=PATIENCE)
        named = {name.replace("_", "-"): value for name, value in fields.items()}
        client.request(method, path, body if body is None or isinstance(body, (bytes, str)) else json.dumps(body), named)
        response = client.getresponse()
        text = response.read().decode()
        client.close()
        return response.status, text

    def told(self, what, status, body, *words, **named):
        got = self.ask(*words, **named)
        wanted(what, got == (status, body), got)

    def json(self, path):
        status, text = self.ask("GET", path)
        wanted(f"{path[:60]} is answered", status == 200, (status, text))
        return json.loads(text)

    def put(self, key, document=None, **fields):
        status, text = self.ask("PUT", f"/keys/{key}", document or DOCUMENT, **fields)
        wanted(f"a put of {key}", status == 201, (status, text))
        return json.loads(text)["context"]

    def post(self, lines):
        return self.ask("POST", "/keys", "\n".join(lines))

    def root(self):
        return self.json("/root")["root"]

    def metric(self, name):
        lines = self.ask("GET", "/metrics")[1].splitlines()
        return int(next(row.rsplit(" ", 1)[1] for row in lines if row.startswith(name + " ")))

    def since(self, root, wait=None):
        return self.json(f"/changes?since={root}" + ("" if wait is None else f"&wait={wait}"))

    def processor(self):
        """How many seconds of the processor it has had."""
        with open(f"/proc/{self.process.pid}/stat") as file:
            fields = file.read().rsplit(")", 1)[1].split()
        return (int(fields[11]) + int(fields[12])) / os.sysconf("SC_CLK_TCK")


class Reader:
    """One that waits for a change."""

    def __init__(self, server, root, wait, more=""):
        self.socket = socket.create_connection(("127.0.0.1", server.http), PATIENCE)
        self.socket.sendall(f"GET /changes?since={root}&wait={wait}{more} HTTP/1.1\r\nhost: 127.0.0.1\r\n\r\n".encode())
        self.came = b""

    def body(self):
        """The body of its answer, where all of it came."""
        self.came += self.socket.recv(65536)
        head, _, body = self.came.partition(b"\r\n\r\n")
        length = next((int(row.split(b":")[1]) for row in head.lower().split(b"\r\n") if row.startswith(b"content-length")), None)
        return json.loads(body) if length is not None and len(body) == length else None


# the bytes of a question for keys, or for keys in conflict, and of the reply to it, where nothing is held
FRAMES = (("all keys", "000000032b0000", "00000004a9000000"), ("keys in conflict", "000000022c00", "00000004a9000000"),
          ("a prefix that is none", "000000042b012000", "00000002ee01"))


def check_frames(server):
    with socket.create_connection(("127.0.0.1", server.frames), PATIENCE) as peer, peer.makefile("rb") as stream:
        for what, asked, told in FRAMES:
            peer.sendall(bytes.fromhex(asked))
            wanted(f"the bytes of {what}", stream.read(len(told) // 2).hex() == told)


def check_lists(server):
    told = server.told
    told("no key", 200, '{"keys":[]}', "GET", "/keys")
    for key in ("ada", "adele", "bob"):
        server.put(key)
    server.put("ada")
    told("a delete is 204", 204, "", "DELETE", "/keys/adele", mvd_context="1:1")
    told("all keys", 200, '{"keys":[{"key":"ada","siblings":2},{"key":"adele","siblings":0},{"key":"bob","siblings":1}]}', "GET", "/keys")
    told("keys by prefix", 200, '{"keys":[{"key":"ada","siblings":2},{"key":"adele","siblings":0}]}', "GET", "/keys?prefix=ad")
    told("keys after one", 200, '{"keys":[{"key":"bob","siblings":1}]}', "GET", "/keys?after=adele")
    told("keys by prefix after one", 200, '{"keys":[{"key":"adele","siblings":0}]}', "GET", "/keys?prefix=ad&after=ada")
    told("live keys", 200, '{"keys":[{"key":"ada","siblings":2}]}', "GET", "/keys?prefix=ad&live=1")
    told("keys in conflict", 200, '{"keys":[{"key":"ada","siblings":2}]}', "GET", "/conflicts")
    told("keys in conflict after one", 200, '{"keys":[]}', "GET", "/conflicts?after=ada")
    digests = {one["key"]: one["digest"] for place in range(4096) for one in server.json(f"/tree?path={place:03x}")["keys"]}
    page = server.json("/keys?digests=1")["keys"]
    wanted("keys with the digests of the tree", [(one["key"], one["siblings"], one["digest"]) for one in page] == [(key, count, digests[key]) for key, count in (("ada", 2), ("adele", 0), ("bob", 1))], page)
    page = server.json("/keys?digests=1&live=1&after=ada")
    wanted("live keys with theirs", page == {"keys": [{"key": "bob", "siblings": 1, "digest": digests["bob"]}]}, page)
    told("a prefix that is none is 1", 400, '{"refused":1,"name":"BadKey"}', "GET", "/keys?prefix=%20")
    root = server.json("/root")
    wanted("the root tells of conflicts", (root["keys"], root["conflicts"], root["site"]) == (3, 1, 1), root)
    wanted("so do the metrics", server.metric("mvd_conflicts") == 1)
    tree = server.json("/tree?path=")
    wanted("a node of the tree", tree["digest"] == root["root"] and len(tree["children"]) == 16, tree)
    wanted("each of its children", all(server.json(f"/tree?path={digit:x}")["digest"] == tree["children"][digit] for digit in range(16)))


def check_writes(server):
    commits = server.metric("mvd_commits_total")
    start = time.monotonic()
    status, text = server.post([line(key=f"many{n:04}", document={"n": n}) for n in range(1000)])
    took = time.monotonic() - start
    commits = server.metric("mvd_commits_total") - commits
    wanted("a thousand writes at once", (status, text) == (200, '{"dot":"1:1"}\n' * 1000), (status, text[:200]))
    wanted("they share commits", commits <= 4, commits)
    page = server.json("/keys?prefix=many&live=1")
    wanted("all of them are there", len(page["keys"]) == 1000 and "next" not in page, len(page["keys"]))
    status, text = server.post([
        line(key="one", document={"a": 1}), line(key="one", context="1:1", document={"a": 2}), line(key="one", context="1:2"),
        line(key="a b", document={}), line(key="two", context="x", document={}), line(key="two", document=[1]),
        line(key="two", document={"a": 1.5}), line(key="two", document={"a": "x" * 65537}), line(key="three", document={})])
    refused = ['{"refused":%d,"name":"%s"}' % it for it in ((1, "BadKey"), (2, "BadContext"), (4, "NotObject"), (5, "BadNumber"), (6, "DocumentTooLong"))]
    wanted("refused lines stand in their places", (status, text.splitlines()) == (200, ['{"dot":"1:1"}', '{"dot":"1:2"}', '{}', *refused, '{"dot":"1:1"}']), text)
    before = server.root()
    for what, body in (("no object", "7"), ("no key", '{"document":{}}'), ("a word more", '{"key":"q","document":{},"x":1}'), ("no JSON", "{")):
        status, text = server.post([line(key="q", document={}), body])
        wanted(f"a line that is none is 400: {what}", status == 400, (status, text))
    status, _ = server.post([line(key="q", document={})] * 1001)
    wanted("a line too many is 413", status == 413, status)
    status, _ = server.post([line(key="q", document={"a": "x" * 60000})] * 36)
    wanted("a body over the limit is 413", status == 413, status)
    wanted("nothing of them was done", server.root() == before)
    status, text = server.post([line(key=f"long{n}", document={"a": "x" * 60000}) for n in range(34)])
    wanted("long documents, in several pieces", (status, text) == (200, '{"dot":"1:1"}\n' * 34), (status, text[:200]))
    status, text = server.post([line(key="a b", document={})] * 3)
    wanted("lines that are all refused", (status, text) == (200, refused[0] + "\n" + (refused[0] + "\n") * 2), (status, text))
    wanted("no line", server.post([]) == (200, ""), "")
    return took * 1000, commits


def check_states(server, folder):
    """States in lists: told, and pushed into another site, twice."""
    keys = [f"long{n}" for n in range(34)] + ["many0000", "nobody", "one"]
    status, text = server.ask("POST", "/get", "".join(json.dumps(key) + "\n" for key in keys))
    told = [json.loads(it) for it in text.splitlines()]
    wanted("each key has a line", (status, [it["key"] for it in told]) == (200, keys), (status, len(told)))
    listed, pages, after = [], 0, ""
    while after is not None:
        page = server.json(f"/keys?prefix=long&digests=1&after={after}")
        listed, pages, after = listed + [it["key"] for it in page["keys"]], pages + 1, page.get("next")
    wanted("a mebibyte is hashed for a page", (listed, pages) == (sorted(keys[:34]), 2), (listed, pages))
    whole = [it for it in told if "later" not in it]
    wanted("a mebibyte is told, and no line more", sum(len(json.dumps(it, separators=(",", ":"))) + 1 for it in whole[:-1]) < 1 << 20 < len(text) < (1 << 20) + 65_536, len(text))
    wanted("further keys are to be asked again", told[len(whole):] == [{"key": key, "later": True} for key in keys[len(whole):]], told[len(whole):])
    wanted("a state is told as alone", whole[0] == server.json("/keys/long0"), "")
    other = Server(folder, name="pushed.db")
    left, after = [], ""
    while after is not None:
        page = server.json(f"/keys?after={after}")
        left, after = left + [it["key"] for it in page["keys"]], page.get("next")
    while left:
        asked, left = left[:1000], left[1000:]
        states = [json.loads(it) for it in server.ask("POST", "/get", "\n".join(json.dumps(key) for key in asked))[1].splitlines()]
        left = [it["key"] for it in states if "later" in it] + left
        lines = [json.dumps(it) for it in states if "later" not in it]
        for again in "", " again":
            wanted(f"states are pushed{again}", other.ask("POST", "/push", "\n".join(lines)) == (200, "{}\n" * len(lines)), "")
    wanted("the roots are equal", other.root() == server.root(), "")
    nodes = other.ask("GET", "/tree?paths=" + ",".join(f"{digit:x}" for digit in range(16)))[1].splitlines()
    children = server.json("/tree")["children"]
    wanted("and all nodes of a level", [json.loads(it)["digest"] for it in nodes] == children, nodes[:1])
    status, text = other.ask("POST", "/get", "x" * ((1 << 20) + 1))
    wanted("a body over 1 MiB is too long to ask", (status, text) == (413, '{"refused":0,"name":"ContentTooLarge"}'), (status, text[:100]))
    other.close()


def check_long_context(server):
    """A context that is too long for a field goes in a line."""
    context = ",".join(f"{site}:1" for site in range(2, 3002))
    wanted("a write whose author has seen 3,000 sites", server.post([line(key="wide", context=context, document={"n": 1})]) == (200, '{"dot":"1:1"}\n'))
    seen = server.json("/keys/wide")["context"]
    wanted("its context is told", seen == f"1:1,{context}" and len(seen) > 16_384, seen[:80])
    server.told("it is too long for a field", 431, '{"refused":0,"name":"HeaderTooLarge"}', "PUT", "/keys/wide", {"n": 2}, mvd_context=seen)
    wanted("and goes in a line", server.post([line(key="wide", context=seen, document={"n": 2})]) == (200, '{"dot":"1:2"}\n'))
    told = server.json("/keys/wide")
    wanted("so the key is resolved", ([one["dot"] for one in told["siblings"]], told["context"]) == (["1:2"], f"1:2,{context}"), told["siblings"])


def check_full(folder):
    server = Server(folder, "--max-keys", "2", name="full.db")
    _, text = server.post([line(key=key, document={}) for key in ("a", "b", "c", "a")])
    wanted("a key too many is 10 in its place", [json.loads(it).get("refused") for it in text.splitlines()] == [None, None, 10, None], text)
    server.close()


def check_changes(server):
    told, root = server.told, server.root()
    told("nothing changed", 200, '{"root":"%s","keys":[],"resync":false}' % root, "GET", f"/changes?since={root}")
    told("without a root all is to be read", 200, '{"root":"%s","keys":[],"resync":true}' % root, "GET", "/changes")
    told("so with one that is not known", 200, '{"root":"%s","keys":[],"resync":true}' % root, "GET", f"/changes?since={'f' * 64}&wait=30")
    told("a root that is none", 400, '{"refused":33,"name":"BadBody"}', "GET", "/changes?since=x")
    for key in ("x1", 'x"2', "x1"):
        server.put(key.replace('"', "%22"))
    now = server.root()
    told("what changed, each key once, in the order of its last change", 200,
         json.dumps({"root": now, "keys": ['x"2', "x1"], "resync": False}, separators=(",", ":")), "GET", f"/changes?since={root}")
    server.ask("GET", "/keys/x1")
    server.ask("DELETE", "/keys/none", mvd_context="-")
    wanted("a request that changes nothing is none", server.since(now) == {"root": now, "keys": [], "resync": False})
    wanted("nor does it hide what changed", server.since(root)["keys"] == ['x"2', "x1"])
    server.post([line(key=f"c{n}", document={"n": 1}) for n in range(1000)])
    wanted("a thousand keys are told", server.since(now)["keys"] == [f"c{n}" for n in range(1000)])
    whole = server.root()
    server.put("c1000")
    page = server.since(now)
    wanted("one more is told in a page of its own", (page["keys"], page["root"], page["resync"]) == ([f"c{n}" for n in range(1000)], whole, False), page["keys"][:2])
    wanted("which begins at the root of the first", server.since(whole)["keys"] == ["c1000"])
    wanted("of a prefix the keys that begin so alone", server.json(f"/changes?since={now}&prefix=c99") == {"root": server.root(), "keys": ["c99", *(f"c99{n}" for n in range(10))], "resync": False})
    told("so in their states", 200, '{"root":"%s","keys":[%s],"resync":false}' % (server.root(), server.ask("GET", "/keys/c1000")[1]), "GET", f"/changes?since={now}&prefix=c1000&states=1")
    told("a prefix that is none", 400, '{"refused":1,"name":"BadKey"}', "GET", "/changes?prefix=%20")
    start = time.monotonic()
    last = server.root()
    told_none = server.since(last, 1)
    took = time.monotonic() - start
    wanted("it waits as long as it is asked to", told_none == {"root": last, "keys": [], "resync": False} and 0.9 < took < (30 if SHORT else 2), took)
    wanted("61 seconds are too many", server.ask("GET", f"/changes?since={last}&wait=61")[0] == 400)
    return last


def check_restart(server, folder, last):
    server.close()
    server = Server(folder, *MANY)
    wanted("a server that starts knows the root of its file", server.since(last) == {"root": last, "keys": [], "resync": False})
    server.put("after")
    wanted("and lists from there on", server.since(last)["keys"] == ["after"])
    return server


def check_waiting(server):
    root = server.root()
    readers = [Reader(server, root, 50) for _ in range(READERS)]
    time.sleep(1)
    before = server.processor()
    time.sleep(3)
    used = server.processor() - before
    wanted(f"{READERS} that wait take no processor", used < IDLE, used)
    idle = [reader for reader in readers if select.select([reader.socket], [], [], 0)[0]]
    wanted("none of them is told", not idle, len(idle))
    poll = select.epoll()
    by_number = {reader.socket.fileno(): reader for reader in readers}
    for number in by_number:
        poll.register(number, select.EPOLLIN)
    writer = socket.create_connection(("127.0.0.1", server.http), PATIENCE)
    body = json.dumps(DOCUMENT)
    writer.sendall(f"PUT /keys/wake HTTP/1.1\r\nhost: 127.0.0.1\r\ncontent-length: {len(body)}\r\n\r\n{body}".encode())
    writer.recv(65536)
    start = time.monotonic()
    times, told = [], []
    while len(times) < READERS and time.monotonic() - start < PATIENCE:
        for number, _ in poll.poll(1):
            answer = by_number[number].body()
            if answer:
                times.append((time.monotonic() - start) * 1000)
                told.append(answer)
    now = server.root()
    wanted(f"all {READERS} are told", len(told) == READERS and all(it == {"root": now, "keys": ["wake"], "resync": False} for it in told), told[:1])
    times.sort()
    wanted(f"within {TOLD_WITHIN} ms of the put's own reply", times[-1] < TOLD_WITHIN, times[-1])
    for reader in readers:
        reader.socket.close()
    writer.close()
    return times[len(times) // 2], times[-1]


def check_prefix(server):
    """Those that wait for keys with a prefix are told of these alone."""
    root = server.root()
    reader, other = Reader(server, root, 50, "&prefix=own/&states=1"), Reader(server, root, 50)
    time.sleep(0.3)
    server.put("else")
    wanted("a change wakes who waits for any", other.body()["keys"] == ["else"])
    time.sleep(0.3)
    wanted("and not who waits for others", not select.select([reader.socket], [], [], 0)[0])
    server.put("own/one")
    wanted("who is told the first of these", reader.body() == {"root": server.root(), "keys": [server.json("/keys/own/one")], "resync": False})
    start = time.monotonic()
    none = server.json(f"/changes?since={root}&wait=1&prefix=none")
    wanted("where none changed it waits, and tells the root now", none == {"root": server.root(), "keys": [], "resync": False} and time.monotonic() - start > 0.9, none)
    for one in reader, other:
        one.socket.close()


def check_large(server):
    """States in changes: as many as a mebibyte takes."""
    root = server.root()
    server.post([line(key=f"large{n}", document={"a": "x" * 60000}) for n in range(20)])
    told = server.json(f"/changes?since={root}&states=1")["keys"]
    wanted("a mebibyte of states is told", [("later" in it, it["key"]) for it in told] == [(n >= 18, f"large{n}") for n in range(20)], [it["key"] for it in told if "later" in it])


def comes_to(server, count):
    """Whether the server comes to have so many connections, with the one that asks for their number."""
    for _ in range(100):
        if server.metric("mvd_connections") == count:
            return True
        time.sleep(0.1)
    return False


def check_leaving(server):
    root = server.root()
    readers = [Reader(server, root, 50) for _ in range(50)]
    wanted("they wait", comes_to(server, 51), server.metric("mvd_connections"))
    for reader in readers:
        reader.socket.close()
    wanted("those that leave are forgotten", comes_to(server, 1), server.metric("mvd_connections"))
    before = server.processor()
    time.sleep(1)
    wanted("and take no processor", server.processor() - before < IDLE)


def check_after_waiting(server):
    """A connection is used again after its answer, and what was sent behind the question is answered, too."""
    root = server.root()
    with socket.create_connection(("127.0.0.1", server.http), PATIENCE) as peer:
        question = f"GET /changes?since={root}&wait=1 HTTP/1.1\r\nhost: 127.0.0.1\r\n\r\n"
        peer.sendall((question + "GET /keys/none HTTP/1.1\r\nhost: 127.0.0.1\r\nconnection: close\r\n\r\n").encode())
        came = b"".join(iter(lambda: peer.recv(65536), b""))
    wanted("what stands behind it is answered in its turn", came.count(b"HTTP/1.1 200") == 1 and came.count(b"HTTP/1.1 404") == 1, came)


def check_places(folder):
    """Half of the places are for those that wait: a further one is answered at once, and one that writes has a place."""
    server = Server(folder, "--clients", "8", name="few.db")
    root = server.root()
    readers = [Reader(server, root, 50) for _ in range(4)]
    wanted("as many wait as may", comes_to(server, 5), server.metric("mvd_connections"))
    answer = server.since(root, 50)
    wanted("a further one is told so at once", answer == {"root": root, "keys": [], "resync": False, "wait": 0}, answer)
    server.put("in")
    told = [reader.body() for reader in readers]
    wanted("those that wait are told of a write", all(it and it["keys"] == ["in"] and "wait" not in it for it in told), told)
    root = server.root()
    wanted("then there is a place again", server.since(root, 1) == {"root": root, "keys": [], "resync": False})
    for reader in readers:
        reader.socket.close()
    server.close()


def main():
    with tempfile.TemporaryDirectory(prefix="mvd-changes-") as folder:
        server = Server(folder)
        check_frames(server)
        check_lists(server)
        took, commits = check_writes(server)
        check_states(server, folder)
        check_long_context(server)
        check_full(folder)
        check_places(folder)
        last = check_changes(server)
        server = check_restart(server, folder, last)
        check_after_waiting(server)
        check_leaving(server)
        check_prefix(server)
        check_large(server)
        median, most = check_waiting(server)
        server.close()
    print(f"{READERS} that wait for a change are told it {median:.1f} ms after the put's own reply (median), the last {most:.1f} ms")
    print(f"1,000 writes in one request take {took:.0f} ms and {commits} commits")


if __name__ == "__main__":
    main()
