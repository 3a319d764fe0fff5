#!/usr/bin/env python3
"""Tries sessions that do not go smoothly: `mvd serve` and `mvd sync` as processes, on files that it makes.

usage: tools/sessions.py PROGRAM

PROGRAM is `mvd` as built. It tells what it tried, and ends with 1 at the first that is not as wanted:
- a key whose two states are too long together, beside 100 others: all others cross in one session, and the key is named;
- a server with no room for some of the keys: the others cross, and each refused key is named;
- a file that was put back from a copy: the session says that it is older than what its peers saw;
- a session with what is no server of `mvd`, and with one that ends in the middle;
- shells through a server: a put to which no reply comes is `unknown`, and one that is not sent, or that the server refuses, is not;
- a server that is killed amid a session: what was exchanged stays, and the next session ends well.
The files are made in TMPDIR (else /tmp). The gate runs it as it is.
"""
import atexit
import os
import shutil
import signal
import socket
import subprocess
import sys
import tempfile
import threading

OTHERS = 100
WRITES = 10
LONG = '{"t":"' + "x" * 60_000 + '"}'
PATIENCE = 120


def miss(what):
    sys.exit(f"sessions: {what}")


class Files:
    """The program, and a folder with the files of its sites."""

    def __init__(self, program, folder):
        self.program, self.folder = program, folder

    def start(self, words, **how):
        """A process, which is killed at the end if it runs then."""
        process = subprocess.Popen([self.program, *words], text=True, **how)
        atexit.register(process.kill)
        return process

    def path(self, site):
        return os.path.join(self.folder, f"{site}.db")

    def remove(self, site):
        for name in self.path(site), self.path(site) + "-wal":
            if os.path.exists(name):
                os.remove(name)

    def lines(self, site, lines):
        """What a shell on the file of a site prints."""
        words = [self.program, "shell", "--db", self.path(site), "--site", str(site)]
        done = subprocess.run(words, input="\n".join(lines) + "\n", text=True, capture_output=True, timeout=PATIENCE)
        if done.returncode:
            miss(f"a shell ended with {done.returncode}: {done.stderr}")
        return done.stdout.splitlines()

    def alone(self, site, lines):
        """The same on a copy of the file, without its log."""
        with tempfile.TemporaryDirectory() as folder:
            shutil.copy(self.path(site), folder)
            return Files(self.program, folder).lines(site, lines)

    def serve(self, site, *options):
        with socket.create_server(("127.0.0.1", 0)) as free:
            port = free.getsockname()[1]
        words = ["serve", "--db", self.path(site), "--site", str(site), "--port", str(port), "--conns", "1", *options]
        server = self.start(words, stdout=subprocess.PIPE)
        if not server.stdout.readline().startswith("listening"):
            miss("no server")
        return server, port

    def sync(self, site, port):
        words = [self.program, "sync", "--db", self.path(site), "--site", str(site), "--port", str(port), "--idle", "20"]
        return subprocess.run(words, text=True, capture_output=True, timeout=PATIENCE)

    def meet(self, site, other, *options):
        """A session of a site's file with a server on another's."""
        server, port = self.serve(other, *options)
        done = self.sync(site, port)
        server.communicate(timeout=PATIENCE)
        return done


def puts(site, prefix, count):
    return [f'put {prefix}{number} - {{"of":{site}}}' for number in range(count)]


def wants(what, got, wanted):
    if got != wanted:
        miss(f"{what}: wanted {wanted!r}, got {got!r}")


def too_long(files):
    """One key is refused, and a hundred others cross."""
    for site in 1, 2:
        files.remove(site)
        files.lines(site, [f"put poison - {LONG}"] * WRITES)
    files.lines(1, puts(1, "a", OTHERS // 2))
    files.lines(2, puts(2, "b", OTHERS // 2))
    done = files.meet(2, 1)
    told = done.stdout.splitlines()
    wants("status of a session with a refused key", done.returncode, 1)
    wants("its counts", told[:2], [f"keys {OTHERS}", "refused 1"])
    wants("the key that it names", done.stderr.splitlines()[0], "mvd: key poison: 9 StateTooLarge at this side")
    for site, prefix in (1, "b"), (2, "a"):
        crossed = files.lines(site, [f"get {prefix}{number}" for number in range(OTHERS // 2)])
        wants(f"what crossed to site {site}", len([line for line in crossed if line.endswith(f'{{"of":{3 - site}}}')]), OTHERS // 2)
    wants("keys that crossed, in a copy of the file without its log", files.alone(2, [f"get a{number}" for number in range(OTHERS // 2)]),
          files.lines(2, [f"get a{number}" for number in range(OTHERS // 2)]))
    for site in 1, 2:
        kept = files.lines(site, ["get poison"])
        wants(f"what site {site} keeps of the key", len(kept), 1 + WRITES)
    print(f"done: {OTHERS} keys cross beside one that is refused with 9 and named")
    # The way out that docs/USING.md names: a write in place of what one of the two has seen.
    seen = files.lines(1, ["get poison"])[0].removeprefix("context ")
    files.lines(1, [f'put poison {seen} {{"t":"short"}}'])
    done = files.meet(2, 1)
    wants("status after the key was written anew", (done.returncode, done.stdout.splitlines()[0]), (0, "keys 1"))
    print("done: after a write at one side the same key crosses")


def full(files):
    """A server has room for two of eight keys."""
    for site, prefix in (1, "a"), (2, "b"):
        files.remove(site)
        files.lines(site, puts(site, prefix, 8))
    done = files.meet(2, 1, "--max-keys", "10")
    wants("status of a session with a full server", done.returncode, 1)
    told = done.stdout.splitlines()
    wants("its counts", told[:2], ["keys 10", "refused 6"])
    named = [line for line in done.stderr.splitlines() if line.endswith(": 10 Full at the server")]
    wants("how many keys it names", len(named), 6)
    wants("a session once there is room", files.meet(2, 1).stdout.splitlines()[0], "keys 6")
    print("done: a server with room for two of eight keys: the others are named with 10, and cross once there is room")


def put_back(files):
    """A file that was put back from a copy learns what it had lost, and says that it was older."""
    for site in 1, 2:
        files.remove(site)
    files.lines(2, puts(2, "k", 3))
    copy = files.path(2) + ".copy"
    shutil.copy(files.path(2), copy)
    files.lines(2, ['put k0 - {"of":"later"}'])
    files.lines(1, puts(1, "k", 1))
    wants("status of the session before", files.meet(2, 1).returncode, 0)
    files.remove(2)
    shutil.move(copy, files.path(2))
    done = files.meet(2, 1)
    wants("status of a session of a copy", done.returncode, 0)
    if "older than what the server saw of it, keys 1" not in done.stderr:
        miss(f"a copy is not told: {done.stderr}")
    got = files.lines(2, ["get k0"])
    if not any("later" in line for line in got):
        miss(f"what the copy had lost: {got}")
    print("done: a file put back from a copy is told, and has what it had lost")


def odd_peers(files):
    """What answers is no server of mvd, or ends early."""
    for what, answer, number in (("another protocol", b"HTTP/1.1 400 Bad Request\r\n\r\n", 31), ("an early end", b"", 30)):
        with socket.create_server(("127.0.0.1", 0)) as listener:
            def respond():
                with listener.accept()[0] as peer:
                    peer.recv(1 << 16)
                    peer.sendall(answer)
            thread = threading.Thread(target=respond)
            thread.start()
            done = files.sync(2, listener.getsockname()[1])
            thread.join()
        wants(f"status with {what}", done.returncode, 1)
        if not done.stderr.startswith(f"mvd: fault {number} "):
            miss(f"{what}: {done.stderr}")
        if number == 31 and "does not answer as mvd does" not in done.stderr:
            miss(f"{what} has no hint: {done.stderr}")
        print(f"done: {what} is fault {number}")


def through(files, answers, lines):
    """What a shell prints through a server that gives these answers, and then goes."""
    with socket.create_server(("127.0.0.1", 0)) as listener:
        def respond():
            with listener.accept()[0] as peer:
                for answer in answers:
                    peer.recv(1 << 16)
                    peer.sendall(answer)
        thread = threading.Thread(target=respond)
        thread.start()
        words = [files.program, "shell", "--port", str(listener.getsockname()[1]), "--idle", "20"]
        done = subprocess.run(words, input="\n".join(lines) + "\n", text=True, capture_output=True, timeout=PATIENCE)
        thread.join()
    return done.stdout.splitlines()


def lost_replies(files):
    """A put to which no reply came is unknown; one that did not go out, or that the server refuses, is refused."""
    put, over, refusal, done = "put k - {}", "refused 30 Truncated", bytes((0, 0, 0, 2, 0xEE, 20)), bytes((0, 0, 0, 1, 0xA3))
    wants("a put without a reply", through(files, [b""], [put, "put", put, "get k"]),
          ["unknown 30 Truncated", "line 2: not a command", over, over])
    wants("a put whose question has no reply", through(files, [b""], ["put k @ {}", put]), [over, over])
    wants("a question without a reply", through(files, [b""], ["get k", put]), [over, over])
    wants("a put that is refused", through(files, [refusal, refusal, done], [put, put]), ["refused 20 Memory"] * 2)
    for what, answer, told in (("no frame", b"HTTP/1.1 400 Bad Request\r\n\r\n", "31 FrameTooLong"), ("another kind", bytes((0, 0, 0, 1, 0x77)), "32 BadKind")):
        wants(f"a put that is answered by {what}", through(files, [answer], [put, put, "get k"]), [f"unknown {told}"] + [f"refused {told}"] * 2)
    seen = ",".join(f"{site}:1" for site in range(1, 110_000))
    wants("a put that is too long to send, and one behind it", through(files, [refusal], [f"put k {seen} {{}}", put]), ["refused 31 FrameTooLong", "refused 20 Memory"])
    files.remove(1)
    server, port = files.serve(1)
    shell = files.start(["shell", "--port", str(port), "--idle", "1"], stdin=subprocess.PIPE, stdout=subprocess.PIPE, stderr=subprocess.PIPE)
    shell.stdin.write("get k\n")
    shell.stdin.flush()
    wants("a question", shell.stdout.readline(), "context -\n")
    server.send_signal(signal.SIGSTOP)
    told = shell.communicate('put k - {"n":1}\nput k - {"n":2}\n', timeout=PATIENCE)[0].splitlines()
    server.send_signal(signal.SIGCONT)
    server.communicate(timeout=PATIENCE)
    wants("puts to a server that stands still", told, ["unknown 34 ReadFailed", "refused 34 ReadFailed"])
    wants("what it stored of them", files.lines(1, ["get k"]), ["context 1:1", '1:1 {"n":1}'])
    print("done: a shell tells of a put to which no reply came that it is unknown; the server had stored one of them")


def killed(files):
    """A server is killed amid a session; the next one ends well."""
    for site in 1, 2:
        files.remove(site)
    files.lines(1, puts(1, "a", 20_000))
    server, port = files.serve(1)
    words = ["sync", "--db", files.path(2), "--site", "2", "--port", str(port), "--idle", "20", "--verbose"]
    session = files.start(words, stdout=subprocess.PIPE, stderr=subprocess.PIPE)
    session.stderr.readline()  # that the file is new
    told = session.stderr.readline()
    if not told.endswith(" states so far\n"):
        miss(f"a session that tells how far it is: {told}")
    server.kill()
    server.communicate()
    told = [line for line in session.communicate(timeout=PATIENCE)[1].splitlines() if line.startswith("mvd: ")]
    wants("status of a session whose server was killed", session.returncode, 1)
    first = files.meet(2, 1)
    wants("status of the next session", first.returncode, 0)
    rest = int(first.stdout.splitlines()[0].removeprefix("keys "))
    wants("a session after that", files.meet(2, 1).stdout.splitlines()[0], "keys 0")
    print(f"done: a server killed amid a session ({told[0]}): the next one brings the {rest} keys that were left")


def main():
    signal.signal(signal.SIGTERM, lambda *_: sys.exit(1))
    with tempfile.TemporaryDirectory() as folder:
        files = Files(os.path.realpath(sys.argv[1]), folder)
        too_long(files)
        full(files)
        put_back(files)
        odd_peers(files)
        lost_replies(files)
        killed(files)


if __name__ == "__main__":
    if len(sys.argv) != 2:
        sys.exit(__doc__)
    main()
