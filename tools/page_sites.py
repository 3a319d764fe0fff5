#!/usr/bin/env python3
"""Drives the page in a real browser against two sites that write apart: each a file and a server of its own.

usage: tools/page_sites.py PROGRAM

PROGRAM is `mvd` as built. Both sites write the same keys, `mvd sync` runs a session, and the page of the first shows two siblings of
each. There one is picked, and of another key a third document is written; where somebody else wrote in between, at that site or at
the other, the page says so and shows that sibling. After a second session both sites have the same, in the page too. It prints what
it saw, and ends with 1 at the first thing that is not so. It needs what tools/page.py needs. The files are made in TMPDIR (else /tmp).
"""
import json
import os
import signal
import socket
import subprocess
import sys
import tempfile

from page import Browser, Client, is_so

PROGRAM = os.path.realpath(sys.argv[1]) if len(sys.argv) == 2 else sys.exit(__doc__)
PATIENCE = 60
KEYS = "ada", "ben", "cleo", "dora"


def free_ports(count):
    taken = [socket.create_server(("127.0.0.1", 0)) for _ in range(count)]
    ports = [one.getsockname()[1] for one in taken]
    for one in taken:
        one.close()
    return ports


class Site:
    """A file and its server."""

    def __init__(self, folder, number):
        self.number, self.path = number, os.path.join(folder, f"{number}.db")
        self.frames, self.http = free_ports(2)
        self.client = Client(f"http://127.0.0.1:{self.http}")
        self.serve()

    def words(self, command, *more):
        return [PROGRAM, command, "--db", self.path, "--site", str(self.number), *map(str, more)]

    def serve(self):
        self.server = subprocess.Popen(self.words("serve", "--port", self.frames, "--http", self.http), stdout=subprocess.PIPE)
        lines = [self.server.stdout.readline() for _ in range(2)]
        is_so(f"site {self.number} serves", lines[1] == b"listening http://127.0.0.1:%d/\n" % self.http)

    def stop(self):
        self.server.send_signal(signal.SIGTERM)
        self.server.communicate(timeout=PATIENCE)

    def meet(self, other, keys):
        """A session of both servers, which exchanges so many keys, and both have one root."""
        words = [PROGRAM, "sync", "--port", str(self.frames), "--with", str(other.frames)]
        done = subprocess.run(words, capture_output=True, text=True, timeout=PATIENCE)
        root = other.client.ask("GET", "/root")["root"]
        roots = "".join(f"root 127.0.0.1:{site.frames} {root}\n" for site in (self, other))
        is_so(f"a session exchanges {keys} keys", (done.returncode, done.stdout) == (0, f"keys {keys}\n{roots}"),
              "" if done.returncode == 0 else done.stderr)

    def documents(self, key):
        return [one["document"] for one in self.client.get(key)["siblings"]]


def write_apart(first, second):
    for key in KEYS:
        is_so(f"{key}: site 1 writes", first.client.put(key, {"city": "Oslo", "days": 3}).startswith("1:"))
        is_so(f"{key}: site 2 writes", second.client.put(key, {"city": "Bergen", "days": 3}).startswith("2:"))


def other_dot(site, key, city):
    """The dot of the sibling with that city."""
    return next(one["dot"] for one in site.client.get(key)["siblings"] if one["document"]["city"] == city)


def pick(browser, site, key, city):
    browser.look_up(key, "2 siblings were written without one author seeing the other.")
    browser.press(f"button[aria-label='Pick {other_dot(site, key, city)}']")


def picks_one(browser, site):
    pick(browser, site, "ada", "Bergen")
    browser.until("ada: the other site's is picked", "#outcome", "It is the one sibling now.")


def edits_a_third(browser, site):
    browser.look_up("ben", "2 siblings were written")
    browser.set("#document", json.dumps({"city": ["Oslo", "Bergen"], "days": 6}))
    browser.press("#write")
    browser.until("ben: a third document is written", "#outcome", "It is the one sibling now.")


def meets_somebody(browser, site):
    browser.look_up("cleo", "2 siblings were written")
    dot = other_dot(site, "cleo", "Oslo")
    somebody = site.client.put("cleo", {"city": "Rome", "days": 1})
    browser.press(f"button[aria-label='Pick {dot}']")
    browser.until("cleo: the page tells who wrote in between", "#outcome", f"Somebody else wrote in between: {somebody} stands beside it.")
    browser.until("cleo: and shows what", "#siblings", "Rome")
    is_so("cleo: what was picked stands beside it", sorted(one["city"] for one in site.documents("cleo")) == ["Oslo", "Rome"])
    browser.set("#document", json.dumps({"city": ["Oslo", "Rome"]}))
    browser.press("#write")
    browser.until("cleo: a document for both is written", "#outcome", "It is the one sibling now.")


def meets_the_other_site(browser, site, other):
    """Somebody writes at the other site, which only the next session tells."""
    browser.look_up("dora", "2 siblings were written")
    other.client.put("dora", {"city": "Paris"}, other.client.get("dora")["context"])
    browser.press(f"button[aria-label='Pick {other_dot(site, 'dora', 'Oslo')}']")
    browser.until("dora: one is picked while the other site writes", "#outcome", "It is the one sibling now.")


def agree(first, second, wanted):
    for key in wanted:
        one, two = first.client.ask("GET", f"/keys/{key}"), second.client.ask("GET", f"/keys/{key}")
        is_so(f"{key}: both sites have the same", one == two and [each["document"] for each in one["siblings"]] == wanted[key],
              json.dumps(two["siblings"]))


def drive(browser, first, second):
    for site in first, second:
        for key in KEYS:
            is_so(f"{key}: site {site.number} knows one document", len(site.documents(key)) == 1)
    second.meet(first, len(KEYS))
    browser.driver.get(first.client.url + "/")
    browser.until("the page tells the site", "#site", "Site 1, 4 keys")
    picks_one(browser, first)
    edits_a_third(browser, first)
    meets_somebody(browser, first)
    meets_the_other_site(browser, first, second)
    second.meet(first, len(KEYS))
    both = {"ada": [{"city": "Bergen", "days": 3}], "ben": [{"city": ["Oslo", "Bergen"], "days": 6}], "cleo": [{"city": ["Oslo", "Rome"]}]}
    agree(first, second, {**both, "dora": [{"city": "Oslo", "days": 3}, {"city": "Paris"}]})
    browser.driver.get(second.client.url + "/")
    browser.until("the page of the other", "#site", "Site 2, 4 keys")
    for key, words in (("ada", "Bergen"), ("ben", "Oslo"), ("cleo", "Rome")):
        browser.look_up(key, "One sibling")
        browser.until(f"{key}: and shows what was chosen", "#siblings", words)
    pick(browser, second, "dora", "Paris")
    browser.until("dora: the page of the other resolves it", "#outcome", "It is the one sibling now.")
    second.meet(first, 1)
    agree(first, second, {**both, "dora": [{"city": "Paris"}]})


def main():
    with tempfile.TemporaryDirectory() as folder:
        sites = []
        try:
            for number in 1, 2:
                sites.append(Site(folder, number))
            write_apart(*sites)
            browser = Browser(sites[0].client.url)
            try:
                drive(browser, *sites)
            finally:
                browser.driver.quit()
        finally:
            for site in sites:
                site.stop()


main()
