#!/usr/bin/env python3
"""The clients beside the proved program: the module in JavaScript (clients/js), and the package in Python (clients/python).

usage: tools/clients.py [--short] [--scripts N] [--seeds N] [--seed S] [--jobs J] [--port P] [--only PART] PROGRAM

  rows      digests and spellings of docs/FORMATS.md, and documents, contexts and keys, good and bad, one by one
  scripts   N random scripts, in the module (by node) and in `PROGRAM sim`: each line, each digest and each root has to be equal. They have
            put, del, get, send, recv, sync, keys, conflicts, root and node, with made-up contexts and documents that are refused. Sessions
            that are cut at any request, of a part of the keys, or beside a write, are given to `sim` as the states that crossed
  merges    the merges of docs/OFFLINE.md: one result in any order, with any repeats and in any grouping, and the same in both languages
  requests  how many requests sessions over HTTP take; the code of docs/OFFLINE.md
  mesh      five sites of the module and two servers that meet, with half of the sessions cut and servers killed, for so many seeds: in the
            end all roots are equal, and no edit is lost
  python    the package's client with two servers, of which one is killed

--short takes less than a minute. Without it there are 100,000 scripts and 200 seeds. A script that differs is printed.
"""
import argparse
import collections
import json
import multiprocessing
import multiprocessing.pool
import pathlib
import random
import subprocess
import sys
import tempfile
import time

sys.dont_write_bytecode = True
TOP = pathlib.Path(__file__).resolve().parent.parent
TEST = TOP / "clients" / "js" / "test"
PACKAGE = TOP / "clients" / "python"
sys.path.insert(0, str(PACKAGE))
KEYS = ["k", "a/b", "unot", "z~!", "key0", "key1", "key2", "u1/a", "u1/b", "u1/c", "!", "~" * 128]
GOOD = ['{"v":1}', '{"v":2}', "{}", '{"b":1,"a":"\\u0001\\n\\"\\\\\\/\\u007f"}',
        '{"\U0001f600":1,"\uffee":2,"z":[null,true,-5],"\ue000":[],"\\ud83d\\ude01":{}}',
        '{"é":"é","a":{"b":{"a":0}}}', '{"v":9007199254740993}', '{"n":-9223372036854775808,"m":9223372036854775807}', '{"a":1,"a":2}',
        ' { "b" : 1 ,\t"a" : [ ] } ', '{"__proto__":1,"constructor":2,"10":1,"9":2}', '{"a":[[],[{}],false,null,"\u2028\u2029\x7f"]}',
        '{"a":{"a":1},"a":{"b":2}}', '{"":0,"\\u0000":1}', '{"text":"' + "é" * 90 + '"}']
BAD = ['{"a":1.5}', "[1]", "[1.5]", '"x"', "1", '{"n":-0}', '{"n":1e2}', '{"n":1.0}', '{"n":9223372036854775808}', '{"n":-9223372036854775809}', "{", "",
       '{"a":1,}', '{"a":01}', '{"a":+1}', '{"a":.5}', '{"a":1.}', '{"a":1e}', '{"a":1e400}', '{"a":-1e400}', '{"a":1e-400}', '{"a":1' + "0" * 400 + "}",
       '{"a":1' + "0" * 25 + "}", '{"a":tru}', '{"a":truex}', '{"a":nul', '{"a":"\\ud800"}', '{"a":"\\udc00\\ud800"}', '{"a":"\\ud83dx"}', '{"a":"\\x"}',
       '{"a":"\t"}', '{a:1}', "{'a':1}", '{"a" 1}', '{"a":1 "b":2}', '{"a":1}}', '{"a":1} x', "\ufeff{}", '{"a":[1,]}', '{"a":[1 2]}', "nan", '{"a":NaN}',
       '{"a":1.7976931348623157e308}', '{"a":1.7976931348623159e308}', '{"a":"\\u12g4"}', '{"a":"unended', '{"a":-}', '{"a":1,"a":1.5}', '{"a":1.5,"a":1}',
       '{"a":' + "[" * 126 + "]" * 126 + "}", '{"a":' + "[" * 127 + "]" * 127 + "}", '{"a":' + "[" * 200 + "]" * 200 + "}", "\u00a0{}", "\x0c{}"]
CONTEXTS = ["-", "@", "@", "@", "1:1", "1:2,2:1", "1:0+2", "2:0+3+5", "3:7", "2:1+3+4", "1:281474976710655", "70000:2", "2:0+281474976710655",
            "1:1,2:1,3:1,4:1,5:1", "4294967295:1", "1:5000", "2:4097+4099"]
BAD_CONTEXTS = ["1:1+2", "2:1,1:1", "0:1", "x", "1:0", "1:01", "", "1:1,", "1:1,1:2", "4294967296:1", "1:281474976710656", "1:0+1", "1:3+5+5", "1:3+6+5",
                "1:-1", "1:1+", "+", "1", "1:99999999999999999999999999", "01:1", "1:2+281474976710656", "--", "1:1.0", "1:1e3"]
BAD_KEYS = ["x" * 129, "é", "\x7f"]
faults = []
# How many scripts are a job of one process, and its module.
CHUNK = 100
NODES = []


def is_so(what, holds, seen=""):
    if not holds:
        faults.append(what)
        print(f"NOT SO: {what}  {seen}", flush=True)


class Maker:
    """Makes one script from its seed."""

    def __init__(self, seed):
        self.random = random.Random(seed)
        self.sites = self.random.randint(2, 5)
        self.messages = 0

    def site(self):
        return self.random.randint(1, self.sites) if self.random.random() < .995 else self.sites + 1

    def key(self):
        r = self.random
        return r.choice(BAD_KEYS) if r.random() < .01 else r.choice(self.keys)

    def context(self):
        r = self.random
        return r.choice(BAD_CONTEXTS) if r.random() < .03 else r.choice(CONTEXTS)

    def document(self):
        r = self.random
        if r.random() < .08:
            return r.choice(BAD)
        return r.choice(GOOD) if r.random() < .7 else json.dumps(self.value(0), ensure_ascii=r.random() < .5)

    def value(self, depth):
        r = self.random
        kind = 6 if depth == 0 else r.randrange(7 if depth < 4 else 5)
        if kind == 6:
            return {self.text(): self.value(depth + 1) for _ in range(r.randrange(4))}
        if kind == 5:
            return [self.value(depth + 1) for _ in range(r.randrange(4))]
        return (None, r.random() < .5, r.randrange(-9, 10), r.randrange(-2**63, 2**63), self.text())[kind]

    def text(self):
        r = self.random
        ranges = ((32, 127), (0, 32), (127, 0xd800), (0xe000, 0x110000))
        return "".join(chr(r.randrange(*r.choice(ranges))) for _ in range(r.randrange(5)))

    def put(self):
        r = self.random
        return f"put {self.site()} {self.key()} {'@' if r.random() < .5 else self.context()} {self.document()}"

    def session(self):
        r, a, b = self.random, self.site(), self.site()
        kind = r.random()
        if kind < (.2 if self.parted else .45):
            return f"sync {a} {b} {r.choice(('changes', 'changes', 'whole'))}"
        if kind < (.3 if self.parted else .65):
            return f"cut {a} {b} {r.randrange(7)} {r.randrange(3)}"
        if kind < .78:
            return f"part {a} {b} {r.choice(('u1/', 'k') if self.parted else ('u1/', 'key', 'k', 'nothing'))}"
        if kind < .93:
            return f"beside {a} {b} {r.randrange(5)} {self.key()} {self.document()}"
        return f"forget {a}"

    def line(self):
        r = self.random
        kind = r.random() * 100
        if kind < 32:
            return self.put()
        if kind < 40:
            return f"del {self.site()} {self.key()} {'@' if r.random() < .6 else self.context()}"
        if kind < 50:
            return f"get {self.site()} {self.key()}"
        if kind < 60:
            self.messages += 1
            return f"send {self.site()} {self.key()}"
        if kind < 72:
            return f"recv {self.site()} {r.randint(1, self.messages + 1)}"
        if kind < 86:
            return self.session()
        if kind < 90:
            return f"root {self.site()}"
        if kind < 93:
            return f"node {self.site()} {r.choice(('-', '8', '82', '825', '0', 'ab', 'xyz', '8255', 'A', self.random.choice('0123456789abcdef')))}"
        if kind < 97:
            return f"keys {self.site()}" + r.choice(("", "", " u1/", " k", " ~", " " + "x" * 129, " é"))
        return f"conflicts {self.site()}"

    def script(self):
        r = self.random
        self.keys = r.sample(KEYS, r.randint(2, len(KEYS)))
        self.limited = r.random() < .1
        self.parted = r.random() < .15
        if self.parted:
            self.sites, self.keys = 2, ["u1/a", "u1/b", "k", "key0", "z~!"]
        lines = [f"sites {self.sites}"] + ([f"max {r.randint(1, 4)}"] if self.limited else [])
        lines += [self.line() for _ in range(r.randint(5, 60))]
        for site in range(1, self.sites + 1):
            lines += [f"root {site}", f"keys {site}", f"conflicts {site}"]
            lines += [f"get {site} {key}" for key in self.keys]
        return lines


def bulk(seed):
    """A script with so many keys that sessions go by windows, pages and the tree."""
    r = random.Random(seed)
    sites, keys = 2, [f"n{i}" for i in range(r.choice((150, 700, 1300, 2600)))]
    lines = [f"sites {sites}"]
    lines += [f"put 1 {key} - {{\"n\":{i}}}" for i, key in enumerate(keys) if r.random() < .95]
    lines += [f"sync {r.choice(('1 2', '2 1'))} whole", "root 2"]
    for _ in range(3):
        some = r.sample(keys, r.choice((3, 30, len(keys) // 2)))
        lines += [f"put {r.choice((1, 2))} {key} {r.choice('@-')} {{\"v\":{r.randrange(9)}}}" for key in some]
        lines += [f"cut 1 2 {r.randrange(12)} {r.randrange(3)}"] * r.randrange(2) + ["forget 2"] * r.randrange(2)
        lines += [f"sync {r.choice(('1 2', '2 1'))} {r.choice(('changes', 'whole'))}", "root 1", "root 2", "conflicts 1", "node 1 7"]
    return lines


class Node:
    def __init__(self):
        self.process = subprocess.Popen(["node", str(TEST / "scripts.mjs")], stdin=subprocess.PIPE, stdout=subprocess.PIPE)

    def run(self, lines):
        self.process.stdin.write(json.dumps(lines).encode() + b"\n")
        self.process.stdin.flush()
        return json.loads(self.process.stdout.readline())


def sim(program, lines):
    done = subprocess.run([program, "sim"], input="\n".join(lines).encode() + b"\n", capture_output=True, close_fds=False)
    return done.stdout.decode().split("\n")[:-1], done.stderr.decode()


def compare(program, node, lines):
    """What differs, or None, and how many lines and sessions there were."""
    ours = node.run(lines)
    theirs, fault = sim(program, ours["script"])
    sessions = sum(line.startswith(("sync", "cut", "part")) for line in lines)
    if ours["told"] == theirs and not fault and "error" not in ours:
        return None, len(theirs), sessions
    at = next((i for i, (a, b) in enumerate(zip(ours["told"], theirs)) if a != b), min(len(ours["told"]), len(theirs)))
    seen = f"line {at} of what is printed: module {ours['told'][at:at + 1]}, sim {theirs[at:at + 1]} {fault.strip()} {ours.get('error', '')}"
    return seen, len(theirs), sessions


def work(given):
    """Runs some scripts: how many, their lines and sessions, and those that differ."""
    program, seed, first, end = given
    told = [0, 0, 0, []]
    for i in range(first, first + CHUNK):
        if time.time() > end:
            break
        lines = bulk(f"{seed} {i}") if i % 500 == 99 else Maker(f"{seed} {i}").script()
        seen, printed, sessions = compare(program, NODES[0], lines)
        told[:3] = told[0] + 1, told[1] + printed, told[2] + sessions
        if seen:
            told[3].append((i, seen, lines))
    return told


def scripts(program, count, seed, jobs, seconds):
    begun, chunks = time.time(), -(-count // CHUNK)
    done, printed, sessions, last = 0, 0, 0, 0
    with multiprocessing.Pool(jobs, lambda: NODES.append(Node())) as pool:
        for told in pool.imap_unordered(work, [(program, seed, i * CHUNK, begun + seconds) for i in range(chunks)]):
            done, printed, sessions = done + told[0], printed + told[1], sessions + told[2]
            for i, seen, lines in told[3][:3]:
                is_so(f"script {i} of seed {seed} is equal", False, seen)
                print("  " + "\n  ".join(lines[:200]), flush=True)
            if len(faults) > 5:
                break
            if done >= last + 2000:
                last = done
                print(f"  {done} scripts so far, in {time.time() - begun:.0f} seconds", flush=True)
    print(f"  {done} scripts, {printed} lines, {sessions} sessions", flush=True)
    is_so("all scripts were run", done >= count or seconds < 600, done)


def rows(program):
    """Each document, context and key by itself; the limits; the worked examples of docs."""
    node = Node()
    long = '{"a":"' + "x" * 65528 + '"}'
    one = ["sites 2"]
    for document in GOOD + BAD:
        one += [f"put 1 k @ {document}", "get 1 k", "root 1"]
    for context in [context for context in CONTEXTS + BAD_CONTEXTS]:
        one += [f"put 1 c {context} {{}}", f"del 2 c {context}", "get 1 c", "get 2 c", "root 1", "root 2"]
    for key in BAD_KEYS + ["x" * 128]:
        one += [f"put 1 {key} - {{}}", f"del 1 {key} @", f"get 1 {key}", f"send 1 {key}"]
    filled = ['{"a":"' + text + '"}' for text in ("é" * 32764, "é" * 32765, "\\n" * 32765)]
    for document in (long, long[:-2] + 'y"}', *filled, " " * 70000 + "{}"):
        one += [f"put 2 long @ {document}", "get 2 long", "root 2"]
    one += ["sync 1 2 whole", "root 1", "root 2", "put 1 k 1:0 {", "put 1 \u00e9 x {"]
    tall = ["sites 2"] + [f"put 1 k - {long}"] * 18 + ["root 1", "sync 1 2", "put 2 k - {}", "sync 2 1", "root 1", "root 2"]
    full = ["sites 2", "max 2", "put 1 a - {}", "put 1 c - {}", "put 2 b - {}", "sync 1 2 whole", "get 2 c", "get 1 b", "get 2 a", "del 1 b -", "del 1 b 1:1",
            "put 1 a @ {}", "keys 1", "keys 2"]
    forged = ["sites 2", 'put 1 k 2:0+7 {"v":1}', "send 1 k", "recv 2 1", 'put 2 k - {"v":2}', "get 2 k", 'put 1 k 2:8 {"v":3}', "send 2 k", "recv 1 2",
              "get 1 k"]
    whole = ["sites 2", 'put 1 k 2:281474976710655 {"a":1}', "send 1 k", "recv 2 1", "put 2 k @ {}", "get 2 k", "put 1 k 1:0+281474976710655 {}"]
    parts = {"documents, contexts and keys": one, "a state that is too long": tall, "a full site": full, "forged contexts": forged, "a whole base": whole}
    for name, lines in parts.items():
        seen, *_ = compare(program, node, lines)
        is_so(f"rows: {name}", seen is None, (seen or "")[:600])
    told = subprocess.run(["node", str(TEST / "vectors.mjs")], capture_output=True, text=True)
    is_so("rows: digests and spellings", told.returncode == 0, told.stderr[-600:])


def merges(count):
    """Each merge in Python and in JavaScript, on the same documents."""
    import mvd
    import try_client
    r, lines, wanted = random.Random(7), [], []
    for i in range(count):
        plain, counted = [try_client.some_document(r) for _ in range(r.randint(1, 4))], [try_client.some_counts(r) for _ in range(r.randint(1, 4))]
        name, given, act = (
            ("keepBoth", [plain], lambda: mvd.keep_both(plain)),
            ("greatest", [plain, "a"], lambda: mvd.greatest(plain, "a")),
            ("mergeCounts", [counted], lambda: mvd.merge_counts(counted)),
            ("addCount", [counted[0], "x", "apple", 2 - i % 5], lambda: mvd.add_count(counted[0], "x", "apple", 2 - i % 5)),
            ("countOf", [counted[0], "apple"], lambda: {"n": mvd.count_of(counted[0], "apple")}),
        )[i % 5]
        lines.append(json.dumps([name, *given]))
        wanted.append(mvd.compact(act()))
    told = subprocess.run(["node", str(TEST / "merges.mjs")], input="\n".join(lines).encode(), capture_output=True).stdout.decode().splitlines()
    at = next((i for i, (a, b) in enumerate(zip(told, wanted)) if a != b), None)
    is_so("merges agree in both languages", len(told) == count and at is None, at is not None and (lines[at], told[at], wanted[at]))
    done("merges", [sys.executable, PACKAGE / "try_client.py"])
    with tempfile.TemporaryDirectory() as folder:
        import backend
        wheel = pathlib.Path(folder) / backend.build_wheel(folder)
        script = f"import sys; sys.path.insert(0, {str(wheel)!r}); import mvd; assert 'whl' in mvd.__file__ and mvd.Client"
        done("the package is whole", [sys.executable, "-c", script])


def done(what, words):
    """Runs a program that fails by its status."""
    told = subprocess.run([str(word) for word in words], capture_output=True, text=True)
    is_so(what, told.returncode == 0, (told.stdout + told.stderr)[-1500:])
    if told.returncode == 0 and told.stdout:
        print("  " + told.stdout.strip().replace("\n", "\n  "), flush=True)


def mesh(program, seed, seeds, steps, port, jobs):
    sums = collections.Counter()
    with tempfile.TemporaryDirectory() as folder, multiprocessing.pool.ThreadPool(jobs) as pool:
        def one(i):
            words = ["node", TEST / "mesh.mjs", program, folder, seed + i, steps, port + 10 + 2 * (i % 40)]
            told = subprocess.run([str(word) for word in words], capture_output=True, text=True)
            is_so(f"mesh of seed {seed + i}", told.returncode == 0, (told.stdout + told.stderr)[-1500:])
            if told.returncode == 0:
                sums.update({**json.loads(told.stdout.splitlines()[-1]), "seeds": 1})
        pool.map(one, range(seeds), chunksize=1)
    print("  {seeds} seeds: {syncs} sessions, {cut} of them cut, {documents} documents, {there} of them there".format_map(sums), flush=True)
    is_so("half of the sessions are cut", 2 * sums["cut"] >= sums["syncs"], sums)


def requests(program, port):
    with tempfile.TemporaryDirectory() as folder:
        done("requests", ["node", TEST / "requests.mjs", program, folder, port])
        done("the code of docs/OFFLINE.md", ["node", TEST / "offline.mjs", program, folder, port + 1])


def main():
    words = argparse.ArgumentParser(usage=__doc__)
    words.add_argument("--short", action="store_true")
    words.add_argument("--scripts", type=int)
    words.add_argument("--seeds", type=int)
    words.add_argument("--seed", type=int, default=1)
    words.add_argument("--jobs", type=int, default=3)
    words.add_argument("--port", type=int, default=27600)
    words.add_argument("--only", help="one part, or several with commas between them")
    words.add_argument("program")
    given = words.parse_args()
    count, seeds = given.scripts or (3000 if given.short else 100000), given.seeds or (2 if given.short else 200)
    program = str(pathlib.Path(given.program).resolve())
    parts = {
        "rows": lambda: rows(program),
        "scripts": lambda: scripts(program, count, given.seed, given.jobs, 20 if given.short else 36000),
        "merges": lambda: merges(2000),
        "requests": lambda: requests(program, given.port),
        "mesh": lambda: mesh(program, given.seed, seeds, 120 if given.short else 300, given.port, given.jobs),
        "python": lambda: done("python", [sys.executable, PACKAGE / "try_client.py", program, given.port + 200]),
    }
    for name, part in parts.items():
        if given.only is None or name in given.only.split(","):
            begun = time.time()
            part()
            print(f"{name}: {time.time() - begun:.0f} seconds", flush=True)
    print("FAILED: " + ", ".join(faults) if faults else "all well")
    sys.exit(bool(faults))


if __name__ == "__main__":
    main()
