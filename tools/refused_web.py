#!/usr/bin/env python3
"""Refuses growths of memory, one a run, in a server that is asked one write over HTTP: a put, a delete, or a list of puts.

usage: tools/refused_web.py [--short] PROGRAM SHIM

PROGRAM is `mvd` as built, and SHIM the library of tools/faults.sh that refuses the growth of number REFUSE. What is told has to be true:
the whole response and the write is stored, or a refusal and it is not (but for 22, after which the file may hold it); or nothing is
told, and nothing is stored. It ends with 1 where something else was seen.
With --short it refuses those growths alone that come after the server listens, and some before them, and asks the put alone.
"""
import concurrent.futures
import os
import re
import socket
import subprocess
import sys
import tempfile

IS_SHORT = sys.argv[1:2] == ["--short"]
PROGRAM, SHIM = map(os.path.realpath, sys.argv[1 + IS_SHORT:]) if len(sys.argv) == 3 + IS_SHORT else sys.exit(__doc__)
BODY = b'{"a":1}'
CONTEXT = b"2:3+5,9:1"
LINES = b'{"key":"k","document":{"a":1}}\n{"key":"l","context":"2:3+5,9:1","document":{"a":1}}'


def asked(first, body=b""):
    """A request, behind which the connection ends."""
    return first + b" HTTP/1.1\r\nHost: localhost\r\nContent-Length: %d\r\nConnection: close\r\n\r\n" % len(body) + body


# of each write what is asked, how the head and the body of its response are, and what a shell tells of it once it is stored
WRITES = {
    "a put": (asked(b"PUT /keys/k", BODY).replace(b"Content-", b"Mvd-Context: " + CONTEXT + b"\r\nContent-"),
              b"HTTP/1.1 201 ", b'{"dot":"1:1","context":"1:1,2:3+5,9:1"}', BODY),
    "a delete": (asked(b"DELETE /keys/k").replace(b"Content-", b"Mvd-Context: " + CONTEXT + b"\r\nContent-"), b"HTTP/1.1 204 ", b"", b"k 0\n"),
    "a list of puts": (asked(b"POST /keys", LINES), b"HTTP/1.1 200 ", b'{"dot":"1:1"}\n{"dot":"1:1"}\n', BODY),
}
# as many growths before those of the put, and of the end, are refused with --short
BEFORE = 200


def free_port():
    with socket.create_server(("127.0.0.1", 0)) as free:
        return free.getsockname()[1]


def told_by(server, port, request):
    """What comes of the server until it ends the connection, if it lets anybody in."""
    line = server.stdout.readline() and server.stdout.readline()
    if not line:
        return b""
    told = b""
    try:
        with socket.create_connection(("127.0.0.1", port), 10) as peer:
            peer.sendall(request)
            if not request:
                peer.shutdown(socket.SHUT_WR)
            while piece := peer.recv(65536):
                told += piece
    except OSError:
        pass
    return told


def run(number, request, mark):
    """What was told, whether the write is stored, and how many growths there were."""
    with tempfile.TemporaryDirectory() as folder:
        file, port = os.path.join(folder, "a.db"), free_port()
        words = ["--db", file, "--site", "1", "--port", str(free_port()), "--http", str(port), "--conns", "1"]
        server = subprocess.Popen([PROGRAM, "serve", *words], stdout=subprocess.PIPE, stderr=subprocess.PIPE,
                                  env=dict(os.environ, REFUSE=str(number), LD_PRELOAD=SHIM))
        told = told_by(server, port, request)
        try:
            said = server.communicate(timeout=10)[1]
        except subprocess.TimeoutExpired:
            server.kill()
            said = server.communicate()[1]
        shell = subprocess.run([PROGRAM, "shell", "--db", file, "--site", "1"], input=b"get k\nkeys\n", capture_output=True)
        count = re.search(rb"allocations (\d+)", said)
        return told, mark in shell.stdout, int(count[1]) if count else 0


def is_whole(told):
    """Whether it is one response, with all of its body."""
    head, _, body = told.partition(b"\r\n\r\n")
    length = re.search(rb"\r\ncontent-length: (\d+)", head)
    return told.endswith(b"\r\n\r\n") if head.startswith(b"HTTP/1.1 204 ") else length is not None and len(body) == int(length[1])


def is_true(told, is_stored, head, body):
    if not told:
        return not is_stored
    if told.startswith(head) and not b'{"refused"' in told:
        return is_stored and is_whole(told) and told.endswith(b"\r\n\r\n" + body)
    if told.startswith(head):
        # Of a list each line tells of its own write, the first of the key that was looked at.
        line = told.partition(b"\r\n\r\n")[2].split(b"\n")[0]
        return is_whole(told) and (is_stored == line.startswith(b'{"dot":') or b'{"refused":22,' in line)
    # After 22 the write is in the file, for the site to be opened again.
    return is_whole(told) and told.startswith(b"HTTP/1.1 503 ") and (not is_stored or b'{"refused":22,' in told)


def tried(what, number):
    request, head, body, mark = WRITES[what]
    told, is_stored, _ = run(number, request, mark)
    return number, told, is_stored, is_true(told, is_stored, head, body)


def check(what):
    request, head, body, mark = WRITES[what]
    _, _, without = run(0, b"", mark)
    told, is_stored, count = run(0, request, mark)
    if not (without and count and is_stored and is_true(told, is_stored, head, body)):
        sys.exit(f"refused_web: {what}, where nothing is refused: {told}, {is_stored}, {without} and {count} growths")
    first = max(1, without - BEFORE) if IS_SHORT else 1
    with concurrent.futures.ThreadPoolExecutor(os.cpu_count()) as pool:
        found = list(pool.map(lambda number: tried(what, number), range(first, count + 1)))
    lies = [each for each in found if not each[3]]
    silent = sum(not told for _, told, _, _ in found)
    unsure = sum(not told and is_stored for _, told, is_stored, _ in found)
    print(f"{what} over HTTP: {len(found)} of {count} growths; nothing told {silent} times, {unsure} of them stored; "
          f"not true: {[number for number, *_ in lies] or 'none'}")
    for number, told, is_stored, _ in lies[:5]:
        print(f"  growth {number}: stored {is_stored}, told {told[-200:]}")
    return not lies


def main():
    wanted = ["a put"] if IS_SHORT else list(WRITES)
    sys.exit(not all([check(what) for what in wanted]))


main()
