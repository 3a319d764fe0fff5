#!/usr/bin/env python3
"""Resolves the siblings of a key over HTTP, with Python's standard library alone.

usage: resolve.py URL [KEY]     where `mvd serve --http` listens, as http://127.0.0.1:7080; all keys in conflict where no KEY is given

Where MVD_TOKEN is set it is shown with each request.
Each name keeps the value that all siblings with that name have. Where they differ, it gets a list of all values. The write carries
the context that was read with the siblings, so it replaces just those: what somebody else wrote meanwhile stays as a sibling.
"""
import json
import os
import sys
import urllib.error
import urllib.parse
import urllib.request


TOKEN = os.environ.get("MVD_TOKEN")
FIELDS = {"Authorization": f"Bearer {TOKEN}"} if TOKEN else {}


def ask(method, url, document=None, context=None):
    """Sends one request, and gives the response's value. A refusal is told in words, and ends the program."""
    body = None if document is None else json.dumps(document).encode()
    fields = {**FIELDS, "Mvd-Context": context} if context else FIELDS
    try:
        with urllib.request.urlopen(urllib.request.Request(url, body, fields, method=method)) as response:
            return json.load(response)
    except urllib.error.HTTPError as fault:
        if fault.code == 401:
            sys.exit("the server asks for a token, or for another one: set MVD_TOKEN")
        told = json.load(fault)
        # a key without a sibling is told as 404, in the form of one with some
        if "refused" in told:
            at = f" at {told['at']}" if told.get("at") else ""
            sys.exit(f"refused {told['refused']} {told['name']}{at}")
        return told
    except OSError as fault:
        sys.exit(f"the server does not answer: {fault}")


def merged(documents):
    values = {}
    for document in documents:
        for name, value in document.items():
            # As text, since 1 equals True in Python.
            values.setdefault(name, {})[json.dumps(value, sort_keys=True)] = value
    values = {name: list(seen.values()) for name, seen in values.items()}
    return {name: seen[0] if len(seen) == 1 else seen for name, seen in values.items()}


def in_conflict(server):
    """The keys with more than one sibling, page after page."""
    after = ""
    while after is not None:
        page = ask("GET", f"{server}/conflicts{after}")
        yield from (one["key"] for one in page["keys"])
        after = f"?after={urllib.parse.quote(page['next'], safe='')}" if "next" in page else None


def resolve(server, key):
    url = f"{server}/keys/{urllib.parse.quote(key, safe='')}"
    read = ask("GET", url)
    if len(read["siblings"]) < 2:
        print(key, "has nothing to resolve")
        return
    document = merged(sibling["document"] for sibling in read["siblings"])
    written = ask("PUT", url, document, read["context"])
    print(key, written["dot"], json.dumps(document, sort_keys=True))


def main(server, *keys):
    for key in keys or in_conflict(server.rstrip("/")):
        resolve(server.rstrip("/"), key)


if __name__ == "__main__":
    if len(sys.argv) not in (2, 3):
        sys.exit(__doc__)
    main(*sys.argv[1:])
