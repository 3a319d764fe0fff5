#!/usr/bin/env python3
"""Tries who may come in: `mvd serve --token-file` as a process, asked in frames, over HTTP, by sessions and by shells.

usage: tools/admitted.py PROGRAM

PROGRAM is `mvd` as built. It tells what it tried, and ends with 1 at the first that is not as wanted:
- frames: a Hello with the token first, and all is answered; with another, with half of it, with more than it, with none, or
  with something else first, one Refused of 38 comes, and the end; the same in pieces of a byte;
- a length over 259, which no Hello has, is told 38 before a byte behind it came;
- a server without a token answers Hello whatever it says;
- HTTP: the page needs no token, and each other path does; a request without it changes nothing, whatever else it asks;
- a body of 1 MiB of a request without the token costs less than a tenth of the processor's time that it costs with it;
- sessions and shells say Hello with the token of their own file, also between servers; with another file, or none, they are
  told 38 with a hint;
- token files that are missing, too short, too long, hold a token twice, or a line that is none, are told with a hint that
  names the line, and no database is made;
- rights, over frames and over HTTP, of four tokens (all; to read; below a prefix; to read below it): each line of the table;
  what is not allowed is told 38, over HTTP 403, in a list in its own line, the site stays, and the connection goes on;
- sessions and shells by the four, and POST /stop: a session that pushes needs all rights, and so does who ends
  a server;
- rotation: the file is written anew, without one token and with another: at once, with no restart, the other is let in, the
  one is not, and a connection that showed it ends with 38 at its next frame; a file of wrong form changes nothing, and is
  told once on standard error;
- who waits for a change, and whose token is gone meanwhile, is not told what a session with a peer then brings;
- in nothing that a server or a client prints stands the token, nor in the metrics, nor in the file of the site.
The files are made in TMPDIR (else /tmp).
"""
import atexit
import http.client
import json
import os
import socket
import struct
import subprocess
import sys
import tempfile
import threading
import time

PATIENCE = 60
TOKEN = "sixteen-letters!"
OTHER = "sixteen-letters?"
DONE, REFUSED = b"\x00\x00\x00\x01\xa3", b"\x00\x00\x00\x02\xee\x26"
UNTOLD = '{"refused":38,"name":"NotAdmitted"}'
DOCUMENT = b'{"a":1}'


def miss(what):
    sys.exit(f"admitted: {what}")


def frame(kind, payload=b""):
    return struct.pack(">IB", len(payload) + 1, kind) + payload


def hello(token):
    return frame(0x2D, struct.pack(">H", len(token)) + token.encode())


def key(name):
    return bytes([len(name)]) + name.encode()


GET = frame(0x21, key("k"))
PUT = frame(0x22, key("k") + struct.pack(">I", 0) + struct.pack(">I", len(DOCUMENT)) + DOCUMENT)
BYE = frame(0x2F)


class Place:
    """The program, and a folder with what it needs."""

    def __init__(self, program, folder):
        self.program, self.folder, self.said = program, folder, []

    def path(self, name):
        return os.path.join(self.folder, name)

    def token_file(self, name, text):
        with open(self.path(name), "w", encoding="ascii") as it:
            it.write(text)
        return self.path(name)

    def run(self, *words, lines=None):
        """What a command prints: its status, standard output and standard error."""
        done = subprocess.run([self.program, *words], input=lines, text=True, capture_output=True, timeout=PATIENCE)
        self.said += [done.stdout, done.stderr]
        return done.returncode, done.stdout, done.stderr


class Server:
    """A server on a file, in frames and over HTTP."""

    def __init__(self, place, name, site, *words):
        self.place, self.port, self.http = place, free_port(), free_port()
        self.base = ["--db", place.path(name), "--site", str(site)]
        command = [place.program, "serve", *self.base, "--port", str(self.port), "--http", str(self.http), *words]
        self.process = subprocess.Popen(command, text=True, stdout=subprocess.PIPE, stderr=subprocess.PIPE)
        atexit.register(self.process.kill)
        for _ in range(2):
            if not self.process.stdout.readline().startswith("listening "):
                miss(f"no server: {self.process.stderr.read()}")

    def ends(self):
        """Ends it, and notes what it printed."""
        self.process.terminate()
        out, err = self.process.communicate(timeout=PATIENCE)
        self.place.said += [out, err]
        return out

    def told(self, sent, size=None):
        """All that a client is told who sends this, in pieces of so many bytes, and then nothing more."""
        with socket.create_connection(("127.0.0.1", self.port), timeout=PATIENCE) as peer:
            peer.setsockopt(socket.IPPROTO_TCP, socket.TCP_NODELAY, 1)
            try:
                for at in range(0, len(sent), size or max(1, len(sent))):
                    peer.sendall(sent[at:at + (size or len(sent))])
                peer.shutdown(socket.SHUT_WR)
            except OSError:
                pass
            came = b""
            while piece := peer.recv(65_536):
                came += piece
            return came

    def first_told(self, sent):
        """What a client is told first that sends this, and stays."""
        with socket.create_connection(("127.0.0.1", self.port), timeout=PATIENCE) as peer:
            peer.sendall(sent)
            return peer.recv(65_536)

    def work(self):
        """The processor's time that it took so far, in seconds."""
        with open(f"/proc/{self.process.pid}/stat", encoding="ascii") as it:
            fields = it.read().rsplit(")", 1)[1].split()
        return (int(fields[11]) + int(fields[12])) / os.sysconf("SC_CLK_TCK")

    def keeps_open(self, sent):
        """Whether a client that sends this and stays is told Done, and not the end."""
        with socket.create_connection(("127.0.0.1", self.port), timeout=PATIENCE) as peer:
            peer.sendall(sent)
            first = peer.recv(65_536)
            peer.sendall(GET)
            return first == DONE and peer.recv(65_536)[4:5] == b"\xa1"

    def asked(self, method, path, token=None, body=None, fields=None):
        """The status, the fields and the body of a response."""
        line = http.client.HTTPConnection("127.0.0.1", self.http, timeout=PATIENCE)
        fields = dict(fields or {})
        if token is not None:
            fields["Authorization"] = token
        line.request(method, path, body, fields)
        response = line.getresponse()
        body = response.read().decode()
        line.close()
        self.place.said.append(body)
        return response.status, dict((k.lower(), v) for k, v in response.getheaders()), body


def free_port():
    with socket.create_server(("127.0.0.1", 0)) as it:
        return it.getsockname()[1]


def in_frames(server):
    for size in None, 1:
        if server.told(hello(TOKEN) + PUT + GET + BYE, size)[:5] != DONE:
            miss("the token was refused")
    if not server.keeps_open(hello(TOKEN)):
        miss("it did not go on behind a Hello")
    if server.told(hello(TOKEN) + hello(OTHER) + BYE) != DONE * 3:
        miss("a Hello behind the first one is not answered Done")
    tries = [OTHER, TOKEN[:8], TOKEN[:-1], TOKEN + "!", "", TOKEN * 16, TOKEN[::-1], TOKEN.upper()]
    for token in tries:
        for size in None, 1:
            if server.told(hello(token) + PUT + GET, size) != REFUSED:
                miss(f"a Hello of {token!r} is not refused with 38")
    odd = [frame(0x2D), frame(0x2D, b"\x00\x10" + TOKEN[:-1].encode()), frame(0x2D, b"\x00\x10" + TOKEN.encode() + b"!"),
           frame(0x2D, TOKEN.encode()), frame(0x2C, hello(TOKEN)[5:])]
    for first in [GET, PUT, BYE, frame(0x55), *odd]:
        if server.told(first + hello(TOKEN) + GET) != REFUSED:
            miss(f"{first!r} in front of the Hello is not refused with 38")
    if server.told(b"") != b"":
        miss("a client that sends nothing is told something")
    for length in 260, 65_536, 1_200_000, 1_200_001, 2**32 - 1:
        if server.first_told(struct.pack(">I", length)) != REFUSED:
            miss(f"a first length of {length} is not refused with 38 at once")


def over_http(server):
    status, fields, body = server.asked("GET", "/")
    if status != 200 or "html" not in fields["content-type"]:
        miss("the page asks for a token")
    bearer = f"Bearer {TOKEN}"
    status, fields, body = server.asked("PUT", "/keys/web", bearer, DOCUMENT)
    if status != 201:
        miss(f"a put with the token was told {status}")
    before = server.asked("GET", "/root", bearer)
    if before[0] != 200:
        miss(f"/root with the token was told {before[0]}")
    wrong = [None, "", "Bearer", "Bearer ", TOKEN, f"Bearer {OTHER}", f"Bearer {TOKEN[:8]}", f"Bearer {TOKEN}!", f"Basic {TOKEN}", f"bearer{TOKEN}"]
    asked = [("GET", "/keys/web", None), ("PUT", "/keys/web", DOCUMENT), ("DELETE", "/keys/web", None), ("GET", "/root", None),
             ("GET", "/metrics", None), ("GET", "/index/a?is=1", None), ("GET", "/nowhere", None), ("POST", "/root", b"x")]
    for token in wrong:
        for method, path, sent in asked:
            status, fields, body = server.asked(method, path, token, sent, {"Mvd-Context": "1:1"})
            if (status, body, fields.get("www-authenticate")) != (401, UNTOLD, "Bearer"):
                miss(f"{method} {path} with {token!r} was told {status} {fields} {body}")
    if server.asked("GET", "/root", bearer)[2] != before[2]:
        miss("a request without the token changed the site")
    status, fields, metrics = server.asked("GET", "/metrics", bearer)
    if status != 200 or TOKEN in metrics:
        miss("the metrics are not as wanted")


def bodies_unread(server):
    """What bodies cost that are long to read as documents, with the token and without it."""
    body = b'{"a":[' + b'{"":{}},' * 131_000 + b"0]}"
    costs = []
    for token, wanted in (f"Bearer {TOKEN}", 400), (None, 401), (f"Bearer {OTHER}", 401):
        before = server.work()
        for _ in range(8):
            status = server.asked("PUT", "/keys/long", token, body)[0]
            if status != wanted:
                miss(f"a long body with {token!r} was told {status}")
        costs.append(server.work() - before)
    if max(costs[1:]) * 10 > costs[0]:
        miss(f"long bodies without the token took {costs[1:]} seconds of the processor, and {costs[0]} with it")


def fails(done, *texts):
    """It ended with 1, and said this on standard error."""
    if done[0] != 1 or not all(text in done[2] for text in texts):
        miss(f"{texts} is wanted, and was {done}")


def by_commands(place, server, other, right, wrong):
    port, far = str(server.port), str(other.port)
    hint = f"the server at 127.0.0.1:{port} asks for a token"
    local = ["--db", place.path("local.db"), "--site", "3"]
    done = place.run("sync", *local, "--port", port, "--token-file", right)
    if done[0] != 0 or "keys " not in done[1]:
        miss(f"a session with the token ended so: {done}")
    for words in [], ["--token-file", wrong]:
        fails(place.run("sync", *local, "--port", port, *words), "38 NotAdmitted", hint)
        fails(place.run("sync", "--port", port, "--with", far, *words), "38 NotAdmitted", hint)
        done = place.run("shell", "--port", port, *words, lines="get k\nput k - {}\n")
        if words:
            fails(done, "38 NotAdmitted", hint)
        elif done[:2] != (1, "refused 38 NotAdmitted\n" * 2) or "fault 38" not in done[2] or hint not in done[2]:
            miss(f"a shell without the token was told {done}")
    done = place.run("sync", "--port", port, "--with", far, "--token-file", right)
    told = [line.split() for line in done[1].splitlines()]
    roots = [["root", f"127.0.0.1:{at}"] for at in (port, far)]
    if done[0] != 0 or told[0][0] != "keys" or [root[:2] for root in told[1:]] != roots or told[1][2] != told[2][2]:
        miss(f"servers that ask for one token did not meet: {done}")
    done = place.run("shell", "--port", port, "--token-file", right, lines="get web\n")
    if done[0] != 0 or '{"a":1}' not in done[1]:
        miss(f"a shell with the token was told {done}")


def open_to_all(place, right):
    server = Server(place, "open.db", 4)
    for said in hello(""), hello(TOKEN), hello("x"):
        if not server.keeps_open(said):
            miss(f"a server without a token does not answer {said!r} with Done")
    if server.told(GET + BYE)[4:5] != b"\xa1":
        miss("a server without a token asks for a Hello")
    if server.asked("GET", "/root")[0] != 200 or server.asked("GET", "/root", f"Bearer {OTHER}")[0] != 200:
        miss("a server without a token asks for one over HTTP")
    done = place.run("sync", "--db", place.path("local.db"), "--site", "3", "--port", str(server.port), "--token-file", right)
    if done[0] != 0:
        miss(f"a session with a token that nobody asks for ended so: {done}")
    server.ends()


ALL, READS, BELOW, READS_BELOW = "all-that-there-is", "who-reads-it-all!", "writes-below-u1/!", "reads-below-u1/!!"
TOKENS = [ALL, READS, BELOW, READS_BELOW]
RIGHTS = f"{ALL}\n{READS} read\n{BELOW} write u1/\n{READS_BELOW} read u1/\n"


def name16(text):
    return struct.pack(">H", len(text)) + text.encode()


def put_frame(name):
    return frame(0x22, key(name) + struct.pack(">I", 0) + struct.pack(">I", len(DOCUMENT)) + DOCUMENT)


# a request, its frame, and which of the four tokens allow it
TERM = b"\x03" + struct.pack(">q", 1)
FRAMES = [
    ("Get within", frame(0x21, key("u1/x")), "yyyy"), ("Get beyond", frame(0x21, key("u2/x")), "yynn"),
    ("Put within", put_frame("u1/x"), "ynyn"), ("Put beyond", put_frame("u2/x"), "ynnn"),
    ("Delete within", frame(0x23, key("u1/x") + bytes(4)), "ynyn"), ("Delete beyond", frame(0x23, key("u2/x") + bytes(4)), "ynnn"),
    ("Push within", frame(0x29, key("u1/x") + bytes(6)), "ynyn"), ("Push beyond", frame(0x29, key("u2/x") + bytes(6)), "ynnn"),
    ("Keys of the prefix", frame(0x2B, key("u1/") + b"\0"), "yyyy"), ("Keys of a longer one", frame(0x2B, key("u1/x") + b"\0"), "yyyy"),
    ("Keys of a front of it", frame(0x2B, key("u") + b"\0"), "yynn"), ("Keys of all", frame(0x2B, b"\0\0"), "yynn"),
    ("Find", frame(0x24, name16("a") + TERM + b"\0"), "yynn"), ("Row", frame(0x25, name16("v") + TERM), "yynn"),
    ("Rows", frame(0x26, name16("v") + b"\0"), "yynn"), ("Node", frame(0x27, b"\0"), "yynn"),
    ("Bucket", frame(0x28, b"\3\0\0\0\0"), "yynn"), ("Range", frame(0x2A, name16("a") + TERM + TERM + b"\0"), "yynn"),
    ("Conflicts", frame(0x2C, b"\0"), "yynn"), ("Hello", hello(OTHER), "yyyy"),
]

# the same in lines of a shell
LINES = {"get u1/x": "yyyy", "get u2/x": "yynn", "put u1/x - {}": "ynyn", "put u2/x - {}": "ynnn", "get u1/y": "yyyy", "get u2/y": "yynn"}
TOLD = ("context ", "dot ", "refused ")

# the same over HTTP: a method, a path and a body
ASKED = [
    ("GET", "/keys/u1%2Fx", None, "yyyy"), ("GET", "/keys/u2%2Fx", None, "yynn"),
    ("PUT", "/keys/u1%2Fx", DOCUMENT, "ynyn"), ("PUT", "/keys/u2%2Fx", DOCUMENT, "ynnn"),
    ("DELETE", "/keys/u1%2Fx", None, "ynyn"), ("DELETE", "/keys/u2%2Fx", None, "ynnn"),
    ("GET", "/keys?prefix=u1/", None, "yyyy"), ("GET", "/keys?prefix=u1/x&live=1", None, "yyyy"),
    ("GET", "/keys?prefix=u", None, "yynn"), ("GET", "/keys", None, "yynn"), ("GET", "/conflicts", None, "yynn"),
    ("GET", "/index/a?is=1", None, "yynn"), ("GET", "/views/v/rows", None, "yynn"), ("GET", "/views/v/row?is=1", None, "yynn"),
    ("GET", "/tree?path=", None, "yynn"), ("GET", "/root", None, "yynn"), ("GET", "/metrics", None, "yynn"),
    ("GET", "/changes", None, "yynn"), ("GET", "/changes?prefix=u", None, "yynn"), ("GET", "/changes?states=1", None, "yynn"),
    ("GET", "/changes?prefix=u1/", None, "yyyy"), ("GET", "/changes?prefix=u1/x&states=1", None, "yyyy"),
    ("GET", "/keys?prefix=u1/&digests=1", None, "yyyy"), ("GET", "/keys?prefix=u&digests=1", None, "yynn"),
    ("GET", "/keys?digests=1&live=1", None, "yynn"), ("GET", "/tree?path=000", None, "yynn"), ("GET", "/", None, "yyyy"), ("GET", "/health", None, "yyyy"), ("GET", "/nowhere", None, "yyyy"),
    ("GET", "/keys/u1%2Fx?text=1", None, "yyyy"), ("GET", "/keys/u2%2Fx?text=1", None, "yynn"),
    ("GET", "/keys?prefix=u1/&documents=1", None, "yyyy"), ("GET", "/keys?prefix=u&documents=1", None, "yynn"),
    ("GET", "/keys?prefix=u1/&limit=1", None, "yyyy"), ("GET", "/keys?limit=1", None, "yynn"),
    ("GET", "/conflicts?documents=1", None, "yynn"), ("GET", "/index/a?is=1&documents=1", None, "yynn"),
    ("GET", "/index/a?from=1&to=2", None, "yynn"), ("GET", "/changes?prefix=u1/&states=1&text=1", None, "yyyy"),
]

# lists: which of the lines each token allows, all of `u1/x` and of `u2/x`
LISTS = [
    ("/get", b'"u1/x"\n"u2/x"\n', ["yy", "yy", "yn", "yn"]),
    ("/keys", b'{"key":"u1/x","document":{}}\n{"key":"u2/x","document":{}}\n', ["yy", "nn", "yn", "nn"]),
    ("/push", b'{"key":"u1/x","context":"-","siblings":[]}\n{"key":"u2/x","context":"-","siblings":[]}\n', ["yy", "nn", "yn", "nn"]),
]


def of_rights(place):
    server = Server(place, "rights.db", 7, "--token-file", place.token_file("rights", RIGHTS))
    root = lambda: server.asked("GET", "/root", f"Bearer {ALL}")[2]
    for name, sent, wanted in FRAMES:
        for token, allowed in zip(TOKENS, wanted):
            before = root()
            told = server.told(hello(token) + sent + BYE)
            if (told == DONE + REFUSED + DONE) == (allowed == "y") or told[:5] != DONE or told[-5:] != DONE:
                miss(f"{name} of {token} was told {told}")
            if allowed == "n" and root() != before:
                miss(f"{name} of {token} changed the site")
    for method, path, body, wanted in ASKED:
        for token, allowed in zip(TOKENS, wanted):
            before = root()
            status, fields, told = server.asked(method, path, f"Bearer {token}", body, {"Mvd-Context": "-"})
            if ((status, told) == (403, UNTOLD)) == (allowed == "y") or status == 401:
                miss(f"{method} {path} of {token} was told {status} {told}")
            if allowed == "n" and root() != before:
                miss(f"{method} {path} of {token} changed the site")
    for path, body, wanted in LISTS:
        for token, allowed in zip(TOKENS, wanted):
            status, fields, told = server.asked("POST", path, f"Bearer {token}", body)
            lines = told.splitlines()
            if status != 200 or len(lines) != 2 or ["n" if '"refused":38' in line else "y" for line in lines] != list(allowed):
                miss(f"POST {path} of {token} was told {status} {told}")
            if path == "/get" and token == READS_BELOW and lines[1] != '{"key":"u2/x","refused":38,"name":"NotAdmitted"}':
                miss(f"a key that may not be asked for was told {lines[1]}")
    for token, allowed in zip(TOKENS, "yynn"):
        status, fields, told = server.asked("GET", "/tree?paths=,0,000", f"Bearer {token}")
        lines = told.splitlines()
        if status != 200 or [f'"refused":38' in line for line in lines] != [allowed == "n"] * 3:
            miss(f"three paths of {token} were told {status} {told}")
    changes_within(server)
    server.ends()


def changes_within(server):
    """Of a prefix a client is told what changed below it, and of no other key, however it asks."""
    whole, below = f"Bearer {ALL}", f"Bearer {READS_BELOW}"
    start = json.loads(server.asked("GET", "/root", whole)[2])["root"]
    for name in "u1/one", "u2/two", "u1/three", "v":
        if server.asked("PUT", f"/keys/{name}".replace("u1/", "u1%2F").replace("u2/", "u2%2F"), whole, DOCUMENT)[0] != 201:
            miss(f"{name} was not put")
    told = json.loads(server.asked("GET", f"/changes?prefix=u1/&since={start}", below)[2])
    if sorted(told["keys"]) != ["u1/one", "u1/three"] or told["resync"]:
        miss(f"of a prefix it is told {told}")
    states = server.asked("GET", f"/changes?prefix=u1/&states=1&since={start}", below)[2]
    digests = server.asked("GET", "/keys?prefix=u1/&digests=1", below)[2]
    for text in states, digests:
        if "u1/one" not in text or "u2/" in text or '"v"' in text:
            miss(f"of a prefix it is told {text}")
    if server.asked("GET", f"/changes?prefix=u2/&since={start}", below)[0] != 403:
        miss("of another prefix it is told what changed")


def by_commands_of_rights(place):
    """A session that has something to push needs `write` and no prefix; a shell is told line by line what its right does not allow."""
    server = Server(place, "commands.db", 9, "--token-file", place.token_file("rights", RIGHTS))
    local = ["--db", place.path("local9.db"), "--site", "10"]
    for token, right, is_whole in (ALL, "", True), (READS, " read", False), (BELOW, " write u1/", False), (READS_BELOW, " read u1/", False):
        file = place.token_file("own", f"{token}{right}\n")
        words = ["--port", str(server.port), "--token-file", file]
        place.run("shell", *local, lines=f"put own/{token} - {{}}\n")
        if is_whole:
            done = place.run("sync", *local, *words)
            if done[0] != 0 or "keys " not in done[1]:
                miss(f"a session with a token of all rights ended so: {done}")
        else:
            fails(place.run("sync", *local, *words), "38 NotAdmitted")
        done = place.run("shell", *words, lines="".join(line + "\n" for line in LINES))
        told = [line == "refused 38 NotAdmitted" for line in done[1].splitlines() if line.startswith(TOLD)]
        if done[0] != 0 or told != [allowed[TOKENS.index(token)] == "n" for allowed in LINES.values()]:
            miss(f"a shell with {token} was told {done}")
    for token in READS, BELOW, READS_BELOW:
        status, fields, told = server.asked("POST", "/stop", f"Bearer {token}")
        if (status, told) != (403, UNTOLD):
            miss(f"POST /stop of {token} was told {status} {told}")
    server.ends()


def of_rotation(place):
    file = place.token_file("turning", RIGHTS)
    server = Server(place, "turning.db", 8, "--token-file", file)
    gone = socket.create_connection(("127.0.0.1", server.port), timeout=PATIENCE)
    stays = socket.create_connection(("127.0.0.1", server.port), timeout=PATIENCE)
    for peer, token in (gone, READS), (stays, ALL):
        peer.sendall(hello(token))
        if peer.recv(65_536) != DONE:
            miss("a token of the file is not let in")
    new = "come-in-from-now-on"
    place.token_file("turning.new", RIGHTS.replace(f"{READS} read\n", "") + new + "\n")
    os.replace(place.path("turning.new"), file)
    if server.told(hello(new) + BYE) != DONE * 2 or server.asked("GET", "/root", f"Bearer {new}")[0] != 200:
        miss("a new token is not let in")
    if server.told(hello(READS) + BYE) != REFUSED or server.asked("GET", "/root", f"Bearer {READS}")[0] != 401:
        miss("a token that is gone is let in")
    gone.sendall(GET)
    told = gone.recv(65_536)
    if told != REFUSED or gone.recv(1) != b"":
        miss(f"whose token is gone was told {told}")
    stays.sendall(GET)
    if stays.recv(65_536)[4:5] != b"\xa1":
        miss("whose token stays does not go on")
    with open(file, "a", encoding="ascii") as it:
        it.write("short\n")
    for _ in range(3):
        if server.asked("GET", "/root", f"Bearer {new}")[0] != 200:
            miss("a file of wrong form changed who comes in")
    os.remove(file)
    if server.asked("GET", "/root", f"Bearer {new}")[0] != 200:
        miss("a file that is missing changed who comes in")
    place.token_file("turning", f"{ALL} read\n")
    stays.sendall(GET)
    if stays.recv(65_536) != REFUSED:
        miss("whose right is another goes on")
    if server.asked("PUT", "/keys/k", f"Bearer {ALL}", DOCUMENT)[0] != 403:
        miss("a right that was taken away is there still")
    gone.close(), stays.close()
    server.process.terminate()
    out, err = server.process.communicate(timeout=PATIENCE)
    place.said += [out, err]
    if err.count("its tokens stay as they were") != 2:
        miss(f"a file of wrong form and a missing one are told so: {err}")


def of_waiting(place):
    file = place.token_file("waiting", RIGHTS)
    peer = Server(place, "met.db", 9)
    server = Server(place, "waiting.db", 10, "--token-file", file, "--peer", str(peer.port), "--every", "1")
    root = json.loads(server.asked("GET", "/changes", f"Bearer {READS}")[2])["root"]
    told = []
    waits = threading.Thread(target=lambda: told.append(server.asked("GET", f"/changes?since={root}&wait=8", f"Bearer {READS}")))
    waits.start()
    time.sleep(1)
    place.token_file("waiting.new", RIGHTS.replace(f"{READS} read\n", ""))
    os.replace(place.path("waiting.new"), file)
    time.sleep(1)
    if peer.asked("PUT", "/keys/k", None, DOCUMENT)[0] != 201:
        miss("a peer does not take a put")
    # (nobody else asks the server anything meanwhile)
    waits.join(PATIENCE)
    if '"k"' in told[0][2]:
        miss(f"who waits is told what came after its token was gone: {told}")
    for _ in range(100):
        if '"a":1' in server.asked("GET", "/keys/k", f"Bearer {ALL}")[2]:
            break
        time.sleep(0.1)
    else:
        miss("a server does not meet its peer")
    server.ends(), peer.ends()


def of_files(place):
    bad = {"none": "", "short": "fifteen-letters\n", "long": "x" * 257, "spaced": "sixteen letters!\n", "tab": "sixteen\tletters\n", "second": "\n" + TOKEN,
           "twice": f"{TOKEN}\n{TOKEN} read\n", "blank": f"{TOKEN} \n", "word": f"{TOKEN} reads\n", "prefix": f"{TOKEN} read a b\n",
           "many": "".join(f"{TOKEN}{i}\n" for i in range(65))}
    lines = {"twice": "line 2", "many": "64 lines"}
    for name, text in bad.items():
        file = place.token_file(name, text)
        words = ["serve", "--db", place.path("never.db"), "--site", "5", "--port", str(free_port()), "--token-file", file]
        fails(place.run(*words), "34 ReadFailed", file, lines.get(name, "line 1"))
        fails(place.run("sync", "--db", place.path("never.db"), "--site", "5", "--port", "1", "--token-file", file), "34 ReadFailed", file)
        fails(place.run("shell", "--port", "1", "--token-file", file), "34 ReadFailed", file)
    fails(place.run("serve", "--db", place.path("never.db"), "--site", "5", "--port", "1", "--token-file", place.path("missing")), "34 ReadFailed", "missing")
    if os.path.exists(place.path("never.db")):
        miss("a database was made though the token file is none")
    longest = place.token_file("longest", "~" * 256 + "\n" + TOKEN + "\n")
    server = Server(place, "longest.db", 6, "--token-file", longest)
    if server.told(hello("~" * 256) + BYE) != DONE * 2 or server.told(hello("~" * 255) + BYE) != REFUSED:
        miss("the longest token is not as wanted")
    server.ends()


def kept_secret(place):
    for text in place.said:
        if TOKEN in text:
            miss(f"the token was printed: {text}")
    for name in "guarded.db", "guarded.db-wal", "other.db", "local.db":
        if os.path.exists(place.path(name)):
            with open(place.path(name), "rb") as it:
                if TOKEN.encode() in it.read():
                    miss(f"the token stands in {name}")


def main(program):
    with tempfile.TemporaryDirectory() as folder:
        place = Place(os.path.realpath(program), folder)
        right, wrong = place.token_file("right", TOKEN + "\n"), place.token_file("wrong", OTHER)
        server = Server(place, "guarded.db", 1, "--token-file", right)
        other = Server(place, "other.db", 2, "--token-file", right)
        in_frames(server)
        print("admitted: frames with it, with another, with half of it, and without", flush=True)
        over_http(server)
        print("admitted: HTTP, with it and without", flush=True)
        bodies_unread(server)
        print("admitted: bodies without it are not read", flush=True)
        by_commands(place, server, other, right, wrong)
        print("admitted: sessions, servers that meet, and shells", flush=True)
        open_to_all(place, right)
        print("admitted: a server that asks for none", flush=True)
        of_files(place)
        print("admitted: files that hold none, and the longest token", flush=True)
        of_rights(place)
        print("admitted: each line of the table of rights, over both ports", flush=True)
        by_commands_of_rights(place)
        print("admitted: sessions and shells by their rights, and who may end a server", flush=True)
        of_rotation(place)
        print("admitted: a file that is written anew", flush=True)
        of_waiting(place)
        print("admitted: who waits while its token goes", flush=True)
        ended = server.ends().splitlines()
        other.ends()
        if not any(line.endswith(" 38 NotAdmitted") for line in ended):
            miss("no connection is told to have ended with 38")
        kept_secret(place)
        print(f"admitted: it is in none of {len(place.said)} texts that were printed, and in no file of a site", flush=True)


if __name__ == "__main__":
    main(*sys.argv[1:]) if len(sys.argv) == 2 else sys.exit(__doc__)
