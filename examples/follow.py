#!/usr/bin/env python3
"""Follows the changes of a site over HTTP, with Python's standard library alone, and prints each key that changed with its documents.

usage: follow.py URL [URL..]       where `mvd serve --http` listens, as http://127.0.0.1:7080; several sites that meet

Where MVD_TOKEN is set it is shown with each request.
It begins with the keys that are there. Where a site no longer answers, it goes on with the next one from the same root: two sites that
agree have one root. So where a site has no place or no memory. A site that does not know the root says so, and then all keys are read
again.
"""
import http.client
import json
import os
import sys
import time
import urllib.error
import urllib.parse
import urllib.request

WAIT = 30
TOKEN = os.environ.get("MVD_TOKEN")
FIELDS = {"Authorization": f"Bearer {TOKEN}"} if TOKEN else {}


def ask(server, path, **given):
    request = urllib.request.Request(f"{server}{path}?{urllib.parse.urlencode(given)}", headers=FIELDS)
    try:
        with urllib.request.urlopen(request, timeout=WAIT + 10) as response:
            return json.load(response)
    except urllib.error.HTTPError as fault:
        if fault.code == 404:
            return json.load(fault)
        if fault.code == 401:
            sys.exit(f"follow: {server} asks for a token, or for another one: set MVD_TOKEN")
        if fault.code < 500:
            sys.exit(f"follow: {server} refuses it: {fault.read().decode()}")
        raise


def tell(server, key):
    siblings = ask(server, f"/keys/{urllib.parse.quote(key, safe='')}")["siblings"]
    print(key, *([json.dumps(one["document"], sort_keys=True) for one in siblings] or ["deleted"]), flush=True)


def all_keys(server):
    after = {}
    while after is not None:
        page = ask(server, "/keys", **after)
        yield from (one["key"] for one in page["keys"])
        after = {"after": page["next"]} if "next" in page else None


def follow(server, root):
    """Prints what changes at a site, from the root that is known, and gives each root that it comes to."""
    while True:
        news = ask(server, "/changes", **({"since": root, "wait": WAIT} if root else {}))
        for key in all_keys(server) if news["resync"] else news["keys"]:
            tell(server, key)
        root = news["root"]
        yield root


def main(servers):
    root, place = None, 0
    while True:
        try:
            for root in follow(servers[place].rstrip("/"), root):
                pass
        except (OSError, http.client.HTTPException):
            place = (place + 1) % len(servers)
            print(f"follow: going on with {servers[place]}", file=sys.stderr, flush=True)
            time.sleep(1)


if __name__ == "__main__":
    if len(sys.argv) < 2:
        sys.exit(__doc__)
    try:
        main(sys.argv[1:])
    except KeyboardInterrupt:
        pass
