#!/usr/bin/env python3
"""Tries the package: merges by themselves, and a client of two servers of PROGRAM that meet, of which one is killed.

usage: clients/python/try_client.py PROGRAM [PORT]      the servers take PORT, PORT + 1, PORT + 100 and PORT + 101
"""
import itertools
import pathlib
import random
import subprocess
import sys
import tempfile
import threading
import time

sys.path.insert(0, str(pathlib.Path(__file__).parent))
from mvd import Client, Refused, Unreachable, add_count, compact, count_of, greatest, keep_both, merge_counts

TOKEN = "sixteen-letters!"


def some_document(r):
    return {name: r.choice((1, 2, "a", "b", None, ["a"], ["a", "b"], [2], {"c": 1}, 2**60)) for name in r.sample("abcd", r.randrange(4))}


def some_counts(r):
    document = {}
    for _ in range(r.randrange(6)):
        document = add_count(document, r.choice("xyz"), r.choice(("apple", "pear")), r.choice((1, 2, 3, -1, -2)))
    return document


def merges():
    """Each merge gives one result in any order, with any repeats, and in any grouping."""
    r = random.Random(5)
    for _ in range(300):
        for merge, make in ((keep_both, some_document), (merge_counts, some_counts), (lambda all: greatest(all, "a"), some_document)):
            documents = [make(r) for _ in range(3)]
            whole = {compact(merge(list(order))) for order in itertools.permutations(documents)} | {compact(merge(documents + documents[:2]))}
            grouped = {compact(merge([merge([a, b]), c])) for a, b, c in itertools.permutations(documents)}
            assert len(whole) == 1 and whole == grouped, (documents, whole, grouped)
    left, right = add_count({}, "left", "apple", 2), add_count({}, "right", "apple", 3)
    left = add_count(left, "left", "apple", -1)
    assert count_of(merge_counts([left, right]), "apple") == 4
    assert keep_both([{"title": "a", "n": 1}, {"title": "b", "n": 1}]) == {"title": ["a", "b"], "n": 1}
    assert greatest([{"rank": 1, "x": 1}, {"rank": 3}, {"x": 9}], "rank") == {"rank": 3}


class Servers:
    def __init__(self, program, folder, port):
        self.program, self.folder, self.port, self.running = program, folder, port, {}
        (folder / "token").write_text(TOKEN + "\n")
        (folder / "defs").write_text("index city\nview towns city n\n")
        self.urls = [f"http://127.0.0.1:{port + 100 + i}" for i in (0, 1)]

    def start(self, i):
        words = [self.program, "serve", "--db", self.folder / f"{i}.db", "--site", i + 1, "--port", self.port + i, "--http", self.port + 100 + i, "--peer",
                 self.port + 1 - i, "--every", 1, "--token-file", self.folder / "token", "--defs", self.folder / "defs"]
        self.running[i] = subprocess.Popen([str(word) for word in words], stdout=subprocess.PIPE, stderr=subprocess.DEVNULL)
        self.running[i].stdout.readline()
        threading.Thread(target=self.running[i].stdout.read, daemon=True).start()

    def kill(self, i):
        self.running[i].kill()
        self.running.pop(i).wait()

    def settle(self):
        """Waits until both have one root."""
        roots, end = set(), time.time() + 30
        while len(roots) != 1 and time.time() < end:
            roots = {Client(url, TOKEN).root()["root"] for url in self.urls}
            time.sleep(.1)
        assert len(roots) == 1


def keys(db):
    ada = db.put("ada", {"city": "Oslo", "n": 9007199254740993})
    assert db.get("ada").documents == [{"city": "Oslo", "n": 9007199254740993}]
    ada = db.put("ada", {"city": "Rome", "n": 2}, ada)
    db.put("ada", {"city": "Bergen", "n": 3})
    assert [one.document["city"] for one in db.get("ada").siblings] == ["Rome", "Bergen"] and list(db.conflicts()) == [("ada", 2)]
    db.resolve("ada", lambda documents: greatest(documents, "n"))
    assert db.get("ada").documents == [{"city": "Bergen", "n": 3}] and db.resolve("ada", keep_both) is None
    assert [(one["key"], one["document"]) for one in db.find("city", "Bergen", documents=True)] == [("ada", {"city": "Bergen", "n": 3})]
    assert db.row("towns", "Bergen")["sum"] == 3 and [one["term"] for one in db.rows("towns")] == ["Bergen"]
    db.delete("ada", db.get("ada"))
    assert db.get("ada").siblings == [] and db.get("nobody").context == "-"
    db.update("count", lambda old: add_count(old or {}, "me", "apple", 2), merge_counts)
    db.update("count", lambda old: add_count(old or {}, "me", "apple", 2), merge_counts)
    assert count_of(db.get("count").documents[0], "apple") == 4
    for wrong, number in ((lambda: db.put("a b", {}), 1), (lambda: db.put("a", {"price": 9.99}), 5), (lambda: db.row("no", 1), 13)):
        try:
            wrong()
            raise AssertionError(number)
        except Refused as refused:
            assert refused.number == number


def of_the_page(servers, token):
    """The code of docs/OFFLINE.md."""
    for city in ("Oslo", "Rome"):
        Client(servers, token).put("bo", {"city": city})
    db = Client(servers, token=token)
    ada = db.put("ada", {"city": "Oslo"}, db.get("ada"))
    db.update("count", lambda old: add_count(old or {}, "me", "apple", 1), merge_counts)
    for key, siblings in db.conflicts():
        db.resolve(key, keep_both)
    assert ada.key == "ada" and db.get("bo").documents == [{"city": ["Oslo", "Rome"]}]


def many(db):
    told = list(db.write({"key": f"m/{i:04}", "document": {"text": "lorem " * 30, "i": i}} for i in range(2500)))
    assert len(told) == 2500 and all(dot and refused is None for _, dot, refused in told)
    assert [refused and refused.number for _, _, refused in db.write([{"key": "m/a b", "document": {}}, {"key": "m/x", "document": {}}])] == [1, None]
    names = [key for key, _ in db.keys("m/")]
    assert len(names) == 2501 and names == sorted(names)
    states = list(db.get_many(names))
    assert [state.key for state in states] == names
    assert [state.key for state in db.keys("m/1", documents=True)] == [name for name in names if name.startswith("m/1")]
    root = db.root()["root"]
    assert all(refused is None for _, refused in db.push(states)) and db.root()["root"] == root


def fail_over(db, servers):
    """Writers go on while a server is killed and comes back; a follower goes on at the other, and every write is found."""
    follower, seen = db.changes(Client(servers.urls[0], TOKEN).root()["root"], prefix="w/", states=True), {}
    written, stop = {}, threading.Event()

    def write(name):
        mine = Client(servers.urls, TOKEN)
        for i in itertools.count():
            if stop.is_set():
                return
            try:
                mine.put(f"w/{name}/{i}", {"i": i})
                written[f"w/{name}/{i}"] = i
            except Unreachable:
                pass

    def follow():
        for change in follower:
            seen.update({state.key: state.documents for state in change.states})
            if stop.is_set() and len(seen) >= len(written):
                return

    threads = [threading.Thread(target=write, args=(name,)) for name in "abc"] + [threading.Thread(target=follow, daemon=True)]
    for thread in threads:
        thread.start()
    time.sleep(1)
    servers.kill(0)
    time.sleep(1)
    servers.start(0)
    time.sleep(1)
    stop.set()
    for thread in threads[:3]:
        thread.join()
    db.put("w/last", {})
    servers.settle()
    for url in servers.urls:
        there = {state.key: state.documents for state in Client(url, TOKEN).keys("w/", documents=True)}
        assert all({"i": i} in there[key] for key, i in written.items()), "a write that was answered is gone"
    return len(written)


def main():
    merges()
    if len(sys.argv) < 2:
        print("merges: all well")
        return
    with tempfile.TemporaryDirectory() as folder:
        servers = Servers(sys.argv[1], pathlib.Path(folder), int(sys.argv[2]) if len(sys.argv) > 2 else 27500)
        try:
            servers.start(0)
            servers.start(1)
            db = Client(servers.urls, TOKEN)
            keys(db)
            of_the_page(servers.urls[:1], TOKEN)
            many(db)
            count = fail_over(db, servers)
            print(f"all well; {count} writes beside a kill, none lost")
        finally:
            for i in list(servers.running):
                servers.kill(i)


if __name__ == "__main__":
    main()
