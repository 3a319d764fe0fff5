#!/bin/sh
# Tries every block of every page, by the word behind its fence, one after the other, in a new folder; and what else somebody meets in the
# first hour. It tells what it did, and ends with 1 where something is not as the page says, or where a block has no word that it knows:
#   sh       is run as it stands, and prints just what the block `text` behind it says
#   look, build   are run at the top, and print what crates/mvd/stdout says; where a PROGRAM is given, it stands for `rt try` and `rt run`
#   hex      is the state that the file of docs/FORMATS.md holds, or the frame that examples/client.py sends, which reads the other
#   sql      is what a file's tables are made by
#   nginx, haproxy, unit   stand in examples/proxy/ (tools/proxy.py runs these)
#   rust, rattle   stand in the code, js and py in clients/, and edit in a file of wrong-bodies/ or must-fail/
#   mermaid, floors   are read by tools/check_docs.py
# It needs bash, python3, curl and node, and the ports 7007 to 7009 and 7080.
# usage: tools/first_hour.sh [--short] [PROGRAM]
# With no PROGRAM it is proved and built first. With --short, as the gate runs it, free ports stand in the blocks for these, and where
# there is no curl or node the blocks that run it are left out.
set -eu
short=
if [ "${1:-}" = --short ]; then
  short=--short
  shift
fi
top=$(cd "$(dirname "$0")/.." && pwd)
for tool in bash python3; do
  command -v $tool >/dev/null || { echo "$tool is not installed" >&2; exit 2; }
done
room=$(mktemp -d)
trap 'rm -rf "$room"' EXIT
trap 'exit 1' HUP INT TERM
mkdir "$room/bin" "$room/files"
ln -s "$top/clients" "$top/examples" "$top/tools" "$room/files/"
if [ $# -gt 0 ]; then
  printf '#!/bin/sh\nexec "%s" "$@"\n' "$(realpath "$1")" >"$room/bin/mvd"
  chmod +x "$room/bin/mvd"
fi
PATH="$room/bin:$PATH" python3 - "$top" "$room/files" $# $short <<'END'
import atexit, os, re, shutil, signal, socket, sqlite3, subprocess, sys, threading

top, room, given, is_short = sys.argv[1], sys.argv[2], sys.argv[3] != "0", len(sys.argv) > 4
sys.dont_write_bytecode = True
sys.path.insert(0, os.path.join(top, "tools"))
import places

# the ports of the documents, and those that are taken
ports = {port: port for port in ("7007", "7008", "7009", "7080")}
if is_short:
    taken = [socket.create_server(("127.0.0.1", 0)) for _ in ports]
    ports = {port: str(free.getsockname()[1]) for port, free in zip(ports, taken)}
    for free in taken:
        free.close()
signal.signal(signal.SIGTERM, lambda *_: sys.exit(1))


def miss(what):
    sys.exit(f"first_hour: {what}")


def at_ports(text):
    """A text of the documents, with the ports that are taken."""
    return re.sub(r"\b(7007|7008|7009|7080)\b", lambda found: ports[found[0]], text)


def start(words, **how):
    """Starts a process, in a group of its own."""
    started = subprocess.Popen(words, text=True, start_new_session=True, stdout=subprocess.PIPE, **how)
    running.append(started)
    return started


def kill(started):
    """Kills a process, and what it started, as far as these run yet."""
    running.remove(started)
    try:
        os.killpg(started.pid, signal.SIGKILL)
    except ProcessLookupError:
        pass
    started.wait()


running = []
atexit.register(lambda: [kill(started) for started in running[:]])


def run(script, stdin="", where=room, seconds=300):
    """What a script prints, on both outputs as they come, and its status."""
    started = start(["bash", "-c", script], cwd=where, stdin=subprocess.PIPE, stderr=subprocess.STDOUT)
    told = started.communicate(stdin, timeout=seconds)[0]
    kill(started)
    return told, started.returncode


def wants(what, script, wanted, status=0, stdin=""):
    script, wanted = at_ports(script), at_ports(wanted)
    got, ended = run(script, stdin)
    if (got, ended) != (wanted, status):
        miss(f"{what}: wanted {status}\n{wanted}got {ended}\n{got}")
    print("done:", what)


def blocks(file):
    """The blocks of a document: the word behind the first fence, and the text."""
    with open(os.path.join(top, file)) as text:
        return re.findall(r"^```(\w*)\n(.*?)^```$", text.read(), re.M | re.S)


def source(pattern):
    """The tracked files of a pattern, each as its lines without what stands before and behind them."""
    for name in places.tracked():
        if re.fullmatch(pattern, name):
            with open(os.path.join(top, name)) as text:
                yield "".join(line.strip() + "\n" for line in text)


def stands(text, pattern):
    return any("".join(line.strip() + "\n" for line in text.splitlines()) in code for code in source(pattern))


def looks(what, text):
    """The block is run at the top, up to the first command that fails, and the PATH that it sets is taken over."""
    with open(os.path.join(top, "crates/mvd/stdout")) as it:
        wanted = it.read()
    text = re.sub(r"\brt (?:try|run) --", "mvd", text) if given else text
    out, status = run("set -e\n" + text + "\necho \"PATH $PATH\"\n", where=top, seconds=14400)
    told, mark, path = out.rpartition("PATH ")
    if status != 0 or not (told == wanted if given else wanted in told):
        miss(f"{what}: {out}")
    os.environ["PATH"] = os.environ["PATH"] if given else path.rstrip("\n")


def sent_by_client(told, *words):
    """The frame that examples/client.py sends, and what it prints where it is told this frame, and Done behind it."""
    sent = []

    def answer(free):
        with free.accept()[0] as line, line.makefile("rb") as stream:
            for reply in told, bytes.fromhex("00000001a3"):
                length = stream.read(4)
                sent.append(length + stream.read(int.from_bytes(length, "big")))
                line.sendall(reply)

    with socket.create_server(("127.0.0.1", 0)) as free:
        threading.Thread(target=answer, args=(free,), daemon=True).start()
        out, status = run(" ".join(["python3 examples/client.py", str(free.getsockname()[1]), *words]), seconds=20)
    return sent[0], (out, status)


def spells(what, text):
    """The bytes are the state that docs/FORMATS.md has a file made with; or the frame of the put of its document."""
    spelled = bytes.fromhex(re.sub(r"#.*", "", text))
    if int.from_bytes(spelled[:4], "big") == len(spelled) - 4:
        sent, told = sent_by_client(bytes.fromhex("0000000da2" "00000001" "0000000000000001"), "put", "k", "-", """'{"a":1}'""")
        answered = run(f"echo {spelled.hex()} | mvd loop --site 1")
        if (sent, told) != (spelled, ("dot 1:1\n", 0)) or answered != ("0000000da2" "00000001" "0000000000000001\nended end\n", 0):
            miss(f"{what}: the client sends {sent.hex()}, and the program answers {answered}")
    else:
        with sqlite3.connect(os.path.join(room, "one.db")) as held:
            states = held.execute("SELECT state FROM states2").fetchall()
        held.close()
        length = (1 + len(spelled)).to_bytes(4, "big")
        _, told = sent_by_client(length + b"\xa1" + spelled, "get", "k")
        if states != [(spelled,)] or told != (f"context {spelled[:20].hex()}\n" '7:1 {"a":1}\n', 0):
            miss(f"{what}: the file holds {states}, and the client reads {told}")


def tables(what, text):
    """The lines are what the tables of a file are made by."""
    run("mvd shell --db tables.db --site 1 < /dev/null")
    with sqlite3.connect(os.path.join(room, "tables.db")) as held:
        made = sorted(row[0] for row in held.execute("SELECT sql FROM sqlite_schema WHERE sql IS NOT NULL"))
    held.close()
    if made != sorted(text.splitlines()):
        miss(f"{what}: a file has {made}")


def runs(file):
    before = ""
    found = blocks(file) + [("", "")]
    for number, (word, text) in enumerate(found[:-1]):
        what = f"{file}, block {number + 1}, {word}"
        needed = {"curl": r"\bcurl ", "node": r"^node \S+\.mjs"}
        missing = [tool for tool, by in needed.items() if is_short and re.search(by, text, re.M) and not shutil.which(tool)]
        if word == "sh" and missing:
            print(f"left out, as there is no {missing[0]}:", what)
        elif word == "sh":
            after, printed = found[number + 1]
            wants(what, text, printed if after == "text" else "")
        elif word in ("look", "build"):
            looks(what, text)
        elif word == "hex":
            spells(what, text)
        elif word == "sql":
            tables(what, text)
        elif word in ("nginx", "haproxy", "unit") and not stands(text, r"examples/proxy/.*"):
            miss(f"{what}: this stands in no file of examples/proxy/:\n{text}")
        elif word in ("rust", "rattle") and not stands(text, r"crates/.*\.rt"):
            miss(f"{what}: this stands in no file of code:\n{text}")
        elif word in ("js", "py") and not stands(text, r"clients/.*\.(mjs|py)"):
            miss(f"{what}: this stands in no file of clients/:\n{text}")
        elif word == "edit" and not stands(text, r"crates/.*\.edit"):
            miss(f"{what}: this is no edit:\n{text}")
        elif word not in ("rust", "rattle", "js", "py", "nginx", "haproxy", "unit", "edit", "mermaid", "floors") and not (word == "text" and before == "sh"):
            miss(f"{what}: no word says how this block is tried")
        if word not in ("sh", "text", "mermaid", "floors"):
            print("done:", what)
        before = word


def server(db):
    """A server of site 1 on a file, once it listens."""
    started = start(["mvd", "serve", "--db", db, "--site", "1", "--port", ports["7007"]], cwd=room)
    if started.stdout.readline() != at_ports("listening 127.0.0.1:7007\n"):
        miss("no server")
    return started


def helps():
    """Each command's help has an example; that of a shell is run as it stands."""
    wants("the version", "mvd --version", "mvd 0.3.0, format version 2\n", 2)
    for command in ["sim", "loop", "serve", "shell", "sync"]:
        out, status = run(f"mvd {command} --help")
        example = re.search(r"^Example: (.*)$", out, re.M)
        if status != 2 or not example:
            miss(f"{command} --help: {status}\n{out}")
        if command == "shell":
            wants("an example of the help", "mkdir pasted; cd pasted; " + example[1], "mvd: a.db is new: the file of site 1\ndot 1:1\n")
    print("done: help")


def long_session():
    """A session tells how far it is."""
    puts = "".join(f"put k{number} - {{}}\n" for number in range(1001))
    wants("1,001 puts", "mvd shell --db many.db --site 1 > puts.txt", "mvd: many.db is new: the file of site 1\n", 0, puts)
    started = server("many.db")
    out, status = run(at_ports("mvd sync --db less.db --site 2 --port 7007 --verbose"))
    words = sorted(line.split()[0] for line in out.splitlines())
    if status != 0 or words[1:] != ["keys", "mvd:", "root"] or not 1000 <= int(words[0]) <= 1001 or "keys 1001\n" not in out:
        miss(f"a long session: {out}")
    kill(started)
    print("done: a long session")


def old_file():
    """A file of version 1 is moved where it is opened, and then written as any other."""
    state = bytes.fromhex("0001" "0001" "0000000000000001" "00000000" "0001" "0001" "0000000000000001" "00000007") + b'{"a":1}'
    with sqlite3.connect(os.path.join(room, "old.db")) as old:
        old.execute("CREATE TABLE states (key TEXT PRIMARY KEY NOT NULL, state BLOB NOT NULL) STRICT")
        old.execute("CREATE TABLE meta (name TEXT PRIMARY KEY NOT NULL, value INTEGER NOT NULL) STRICT")
        old.execute("INSERT INTO meta VALUES ('format', 1), ('site', 1)")
        old.execute("INSERT INTO states VALUES ('k', ?)", (state,))
    old.close()
    wants("a file of version 1", "mvd shell --db old.db --site 1", 'context 1:1\n1:1 {"a":1}\ndot 1:2\n', 0, 'get k\nput k @ {"a":2}\n')
    old = sqlite3.connect(os.path.join(room, "old.db"))
    marks = old.execute("SELECT value FROM meta ORDER BY name").fetchall(), old.execute("SELECT count(*) FROM states").fetchall()
    old.execute("UPDATE meta SET value = 3 WHERE name = 'format'")
    old.commit()
    old.close()
    if marks != ([(2,), (1,)], [(0,)]):
        miss(f"a file of version 1 is left as {marks}")
    wants("a file of a later version", "mvd shell --db old.db --site 1", "mvd: fault 17 Damaged\nmvd: old.db is damaged, or of a "
          "later version of mvd: use that version, name another file, or make a new site from a copy "
          "(docs/USING.md, Backups)\n", 1, "get k\n")


def interrupted():
    """A server is killed, its port is bound again at once, and what it answered is in the file and the log beside it."""
    first = server("killed.db")
    wants("a write through a server", "mvd shell --port 7007", "dot 1:1\n", 0, 'put k - {"a":1}\n')
    wants("a file in use", "mvd shell --db killed.db --site 1", "mvd: fault 21 Store\nmvd: killed.db is in use: end the program "
          "that has it open, or ask that one through its port\n", 1, "get k\n")
    kill(first)
    wants("a copy with its log", "cp killed.db whole.db; cp killed.db-wal whole.db-wal; mvd shell --db whole.db --site 1",
          'context 1:1\n1:1 {"a":1}\n', 0, "get k\n")
    second = server("killed.db")
    wants("a client, after a kill", 'python3 examples/client.py 7007 get k', 'context 0000000100000001000000000000000100000000\n1:1 {"a":1}\n')
    wants("a client's delete", 'python3 examples/client.py 7007 del k 0000000100000001000000000000000100000000', "ok\n")
    wants("a refusal", 'python3 examples/client.py 7007 find city 1', "refused 12: there is no such index\n", 1)
    kill(second)
    wants("no server", "mvd shell --port 7007", "mvd: fault 34 ReadFailed\nmvd: 127.0.0.1:7007: Connection refused (os error 111); "
          "start `mvd serve` there, or name another --address and --port\n", 1)


def answers_at_once():
    """A line is answered before the next one is read."""
    shell = start(["mvd", "shell", "--db", "once.db", "--site", "1"], cwd=room, bufsize=1, stdin=subprocess.PIPE)
    for line, wanted in [("put k - {}", "dot 1:1"), ("", None), ("nothing", "line 3: not a command"), ("get k", "context 1:1"), ("", "1:1 {}")]:
        if line or wanted is None:
            shell.stdin.write(line + "\n")
        if wanted is not None and shell.stdout.readline() != wanted + "\n":
            miss(f"the shell did not answer {line}")
    shell.stdin.close()
    if shell.wait() != 0:
        miss("the shell's end")
    kill(shell)
    print("done: a shell answers at once")


def is_free(port):
    try:
        socket.create_server(("127.0.0.1", port)).close()
        return True
    except OSError:
        return False


def cluster():
    """The example starts three servers: what is written at the first is read at the third."""
    base = next(base for base in range(7000, 30000, 200) if all(is_free(base + more) for more in (1, 2, 3, 101, 102, 103)))
    started = start(["examples/cluster.sh", "three", str(base)], cwd=room)
    for _ in range(4):
        started.stdout.readline()
    wants("three servers of the example", f"sleep 2; echo 'put k - {{}}' | mvd shell --port {base + 1}; sleep 1; echo 'get k' | mvd shell "
          f"--port {base + 3}", "dot 1:1\ncontext 1:1\n1:1 {}\n")
    kill(started)


first = ["README.md", "docs/USING.md", "docs/PROTOCOL.md", "docs/FORMATS.md"]
for document in first + sorted(name for name in places.tracked() if name.endswith(".md") and name not in first):
    runs(document)
helps()
answers_at_once()
old_file()
interrupted()
long_session()
cluster()
END
echo "all as the documents say"
