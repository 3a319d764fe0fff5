#!/usr/bin/env python3
"""Loads lines of JSON over HTTP, many in one request, with Python's standard library alone.

usage: import.py URL < LINES       where `mvd serve --http` listens, as http://127.0.0.1:7080, or https://.. behind a proxy

Where MVD_TOKEN is set it is shown with each request.
A line is {"key":K,"document":D}; with "context":C it takes the place of what the context has seen, and without a document it deletes.
The lines of a request share commits. It prints what was refused, and at the end how many lines were taken, and how many a second.
"""
import http.client
import itertools
import json
import os
import sys
import time
import urllib.parse

LINES, BYTES = 1_000, 1_048_576
# as many writes are answered over one connection
WRITES = 1_000_000
TOKEN = os.environ.get("MVD_TOKEN")
FIELDS = {"Authorization": f"Bearer {TOKEN}"} if TOKEN else {}


def batches(lines):
    """The lines in requests of at most so many lines and bytes."""
    batch, size = [], 0
    for line in lines:
        if batch and (len(batch) == LINES or size + len(line) > BYTES):
            yield batch
            batch, size = [], 0
        batch.append(line)
        size += len(line)
    if batch:
        yield batch


def words_of(status, body):
    """What is wrong, in words."""
    if status == 401:
        return "the server asks for a token, or for another one: set MVD_TOKEN"
    try:
        told = json.loads(body)
    except ValueError:
        return f"the server answers {status}"
    line = f" in line {told['line']} of these" if "line" in told else ""
    return f"the server refuses all of it with {status} {told.get('name')}{line}"


def main(server):
    place = urllib.parse.urlsplit(server)
    link = (http.client.HTTPSConnection if place.scheme == "https" else http.client.HTTPConnection)(place.netloc)
    begun, taken, refused, sent = time.monotonic(), 0, 0, 0
    for batch in batches(line.rstrip(b"\n") + b"\n" for line in sys.stdin.buffer if line.strip()):
        if sent + len(batch) > WRITES:
            # the next request opens another one
            link.close()
            sent = 0
        sent += len(batch)
        link.request("POST", "/keys", b"".join(batch), FIELDS)
        response = link.getresponse()
        answers = response.read()
        if response.status != 200:
            sys.exit(f"{taken} lines were taken; of the next {len(batch)} none: {words_of(response.status, answers)}")
        for line, answer in itertools.zip_longest(batch, map(json.loads, answers.splitlines())):
            if "refused" in answer:
                refused += 1
                at = f" at {answer['at']}" if answer.get("at") else ""
                print(f"refused {answer['refused']} {answer['name']}{at}: {line.decode(errors='replace').strip()[:80]}")
            else:
                taken += 1
    passed = time.monotonic() - begun
    print(f"{taken} taken, {refused} refused, {taken / max(passed, 1e-9):.0f} a second")


if __name__ == "__main__":
    if len(sys.argv) != 2:
        sys.exit(__doc__)
    try:
        main(sys.argv[1])
    except OSError as fault:
        sys.exit(f"{sys.argv[1]} does not answer: {fault}")
