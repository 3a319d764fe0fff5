#!/bin/sh
# Runs `mvd serve` and `mvd sync` as processes, on files in a new folder, and asks them over sockets. It tells what it did, and
# ends with 1 at the first answer that is not the one wanted. It needs python3. The gate runs it as it is.
# usage: tools/served.sh [PROGRAM]
# With no PROGRAM it proves and builds crates/mvd first.
set -eu
top=$(cd "$(dirname "$0")/.." && pwd)
command -v python3 >/dev/null || { echo "python3 is not installed" >&2; exit 2; }
program=${1:-}
if [ -z "$program" ]; then
  (cd "$top/crates/mvd" && rt run -- sim <stdin >/dev/null)
  program=$top/crates/mvd/out/mvd
fi
program=$(realpath "$program")
room=$(mktemp -d)
server=
trap 'if [ -n "$server" ]; then kill -9 "$server" 2>/dev/null || :; fi; rm -rf "$room"' EXIT
trap 'exit 1' HUP INT TERM
cd "$room"

# sql FILE STATEMENT..: runs these on a database, and prints what they give.
sql() {
  python3 -c 'import sqlite3, sys
db = sqlite3.connect(sys.argv[1], isolation_level=None)
print(*(row[0] for text in sys.argv[2:] for row in db.execute(text)))
db.close()' "$@"
}

# A client. Each word is a request, answered before the next one is sent; `cut` sends half a frame and leaves, and `gone` sends many
# requests and leaves at once, with the replies unread.
cat >client.py <<'END'
import socket, struct, sys

def frame(kind, payload):
    return struct.pack(">IB", len(payload) + 1, kind) + payload

def key(text):
    return bytes([len(text)]) + text.encode()

def request(word):
    name, _, rest = word.partition(" ")
    if name == "put":
        which, _, document = rest.partition(" ")
        return frame(0x22, key(which) + struct.pack(">II", 0, len(document)) + document.encode())
    if name == "get":
        return frame(0x21, key(rest))
    return frame(0x2F, b"")

def read(peer, count):
    data = b""
    while len(data) < count:
        more = peer.recv(count - len(data))
        if not more:
            sys.exit("the server closed")
        data += more
    return data

with socket.create_connection(("127.0.0.1", int(sys.argv[1])), 60) as peer:
    for word in sys.argv[2:]:
        if word == "cut":
            peer.sendall(b"\0\0")
            break
        if word == "gone":
            peer.setsockopt(socket.SOL_SOCKET, socket.SO_LINGER, struct.pack("ii", 1, 0))
            peer.sendall(request("get k") * 5000)
            break
        peer.sendall(request(word))
        print(read(peer, struct.unpack(">I", read(peer, 4))[0]).hex())
END

miss() {
  echo "served: $*" >&2
  exit 1
}

# same WHAT WANTED GOT
same() {
  [ "$2" = "$3" ] || miss "$1: wanted '$2', got '$3'"
  echo "$1: $2"
}

# Starts a server with these words, at a free port, and waits until it listens.
serve() {
  port=$(python3 -c 'import socket; s = socket.socket(); s.bind(("127.0.0.1", 0)); print(s.getsockname()[1])')
  "$program" serve --port "$port" "$@" >told 2>fault &
  server=$!
  for _ in $(seq 600); do
    if grep -q "^listening 127.0.0.1:$port$" told; then return; fi
    kill -0 "$server" 2>/dev/null || break
    sleep 0.1
  done
  miss "no server: $(cat told fault)"
}

# Waits for the server, which is to end well.
ended() {
  wait "$server" || miss "the server ended with $?: $(cat told fault)"
  server=
}

# refused WHAT STATUS TEXT HINT FILE WORD..: the program ends with this status, tells this text and on the next line this hint (where
# it is empty there is no next line), and the file stays as it is.
refused() {
  what=$1 wanted=$2 text=$3 hint=$4 file=$5
  shift 5
  before=$(cksum <"$file")
  status=0
  "$program" "$@" >out 2>fault || status=$?
  [ "$status" = "$wanted" ] || miss "$what: wanted status $wanted, got $status: $(cat out fault)"
  same "$what" "mvd: $text" "$(head -n 1 fault)"
  same "$what, hint" "${hint:+mvd: $hint}" "$(tail -n +2 fault)"
  [ "$before" = "$(cksum <"$file")" ] || miss "$what: $file changed"
}

echo 'index city' >defs
# A put's reply is the dot that it minted: the site, and then the counter.
first=a2000000010000000000000001
second=a2000000020000000000000001
done=a3

serve --db a.db --site 1 --conns 4 --defs defs
same "puts at site 1" "$first $first $done" \
  "$(python3 client.py "$port" 'put k {"city":"Oslo"}' 'put a {}' bye | tr '\n' ' ' | sed 's/ $//')"
python3 client.py "$port" cut
python3 client.py "$port" gone
same "a client after one that left" "$done" "$(python3 client.py "$port" bye)"
ended
same "its connections" "connection 1 bye connection 2 30 Truncated connection 3 3* connection 4 bye" \
  "$(grep connection told | sed 's/^connection 3 3.*/connection 3 3*/' | tr '\n' ' ' | sed 's/ $//')"
lone=$(grep root told)

serve --db b.db --site 2 --conns 1
same "puts at site 2" "$second $second $done" \
  "$(python3 client.py "$port" 'put k {"city":"Rome"}' 'put b {}' bye | tr '\n' ' ' | sed 's/ $//')"
ended

serve --db a.db --site 1 --conns 2 --defs defs
"$program" sync --db b.db --site 2 --port "$port" >one || miss "no session"
"$program" sync --db b.db --site 2 --port "$port" >two || miss "no second session"
ended
same "the session" "keys 3" "$(grep keys one)"
same "the second session" "keys 0" "$(grep keys two)"
root=$(grep root told)
[ "$root" != "$lone" ] || miss "the root did not change"
same "both roots" "$root $root" "$(grep root one) $(grep root two)"
for file in a.db b.db; do
  "$top/tools/integrity.sh" "$file" || miss "$file is not whole"
done

serve --db a.db --site 1
same "a put before the kill" a2000000010000000000000002 "$(python3 client.py "$port" 'put k {"city":"Bergen"}')"
kill -9 "$server"
wait "$server" 2>/dev/null || :
server=
serve --db a.db --site 1 --conns 1
case $(python3 client.py "$port" 'get k' bye) in
*7b2263697479223a2242657267656e227d*) echo "the put is there after the kill" ;;
*) miss "the put is gone after the kill" ;;
esac
ended

# A quiet server prints a fault, where it listens, and its root.
serve --db a.db --site 1 --conns 3 --quiet
python3 client.py "$port" 'get k' bye >out
python3 client.py "$port" cut
python3 client.py "$port" 'get k' >out
ended
same "what a quiet server prints" "listening connection 2 30 Truncated root" \
  "$(sed 's/^listening 127.*/listening/; s/^root [0-9a-f]*$/root/' told | tr '\n' ' ' | sed 's/ $//')"

# A missing file is made by the command that opens it, which says so.
# made FILE SITE: standard error says just that this file is new, and it is there.
made() {
  same "what is said of $1" "mvd: $1 is new: the file of site $2" "$(cat fault)"
  [ -s "$1" ] || miss "$1 is not there"
}

printf 'get k\ndel k -\nput k - []\nroot\n' | "$program" shell --db read.db --site 4 >out 2>fault || miss "a shell that reads"
same "what a shell says on a new file" "context - ok refused 4 NotObject at \"\"" "$(head -n 3 out | tr '\n' ' ' | sed 's/ $//')"
made read.db 4
empty=$(tail -n 1 out)
printf 'get k\nput k - {"n":1}\nget k\nput k @ {"n":2}\n' | "$program" shell --db read.db --site 4 >out 2>fault || miss "a shell that writes"
same "what a shell says that writes" 'context - dot 4:1 context 4:1 4:1 {"n":1} dot 4:2' "$(tr '\n' ' ' <out | sed 's/ $//')"
same "what is said of a file that is there" "" "$(cat fault)"
"$top/tools/integrity.sh" read.db || miss "read.db is not whole"
serve --db empty.db --site 5 --conns 4
made empty.db 5
"$program" sync --db sync.db --site 6 --port "$port" >one 2>fault || miss "no session with an empty server"
same "a session with an empty server" "keys 0 $empty" "$(tr '\n' ' ' <one | sed 's/ $//' | sed 's/root //')"
made sync.db 6
python3 client.py "$port" 'put k {}' 'put l {}' bye >out
"$program" sync --db sync2.db --site 7 --port "$port" >one 2>fault || miss "no session that makes a file"
made sync2.db 7
"$program" sync --db sync2.db --site 7 --port "$port" >two || miss "no session after one that made a file"
ended
same "sessions of a file that one of them made" "keys 2 keys 0" "$(grep -h keys one two | tr '\n' ' ' | sed 's/ $//')"
same "their roots" "$(grep root told) $(grep root told)" "$(grep root one) $(grep root two)"
"$top/tools/integrity.sh" sync2.db || miss "sync2.db is not whole"

# A file that was lost, whose log is there with what was stored: it is not made anew, and the log stays.
serve --db lost.db --site 8
python3 client.py "$port" 'put k {}' bye >out
kill -9 "$server"
wait "$server" 2>/dev/null || :
server=
mv lost.db kept.db
refused "a lost file" 1 "fault 21 Store" "lost.db is missing, but its log is there: put the file back, docs/USING.md tells how" \
  lost.db-wal shell --db lost.db --site 8
[ ! -e lost.db ] || miss "lost.db was made"
mv kept.db lost.db
same "the file, put back" "context 8:1 8:1 {}" "$(echo 'get k' | "$program" shell --db lost.db --site 8 | tr '\n' ' ' | sed 's/ $//')"

# A file that is changed while it is open, or whose log is: told once as 21 with what became of it, and never a good end.
# harmed WHAT HINT: the server ends by itself within seconds of a write, told so.
harmed() {
  for _ in $(seq 60); do
    kill -0 "$server" 2>/dev/null || break
    sleep 0.1
  done
  status=0
  wait "$server" || status=$?
  server=
  same "$1" "1 mvd: fault 21 Store" "$status $(head -n 1 fault)"
  same "$1, hint" "mvd: harm.db $2: docs/USING.md, Backups, tells what is left of it" "$(tail -n +2 fault)"
}
# harm COMMAND: a server of a new file with a key, then this command, and a write behind it.
harm() {
  rm -f harm.db harm.db-wal gone.db
  echo 'put k - {}' | "$program" shell --db harm.db --site 9 >out 2>fault
  serve --db harm.db --site 9
  eval "$1"
  python3 client.py "$port" 'put l {}' bye >out
}
keys_of() { echo keys | "$program" shell --db "$1" --site 9 | tr '\n' ' ' | sed 's/ $//'; }

harm 'mv harm.db gone.db'
harmed "a renamed file" "was removed or renamed while it was open"
refused "a renamed file, opened again" 1 "fault 21 Store" "harm.db is missing, but its log is there: put the file back, docs/USING.md tells how" \
  harm.db-wal shell --db harm.db --site 9
mv gone.db harm.db
same "the file, put back" "k 1 l 1" "$(keys_of harm.db)"
harm 'mv harm.db gone.db; echo "put m - {}" | "$program" shell --db other9.db --site 10 >out 2>&1; mv other9.db harm.db'
harmed "a replaced file" "was replaced by another file while it was open"
same "the file that was opened" "k 1 l 1" "$(keys_of gone.db)"
harm 'truncate -s 0 harm.db'
harmed "a file that was cut" "was cut while it was open"
harm 'rm harm.db-wal'
harmed "a log that was removed" "had its log removed while it was open"
same "its file" "k 1 l 1" "$(keys_of harm.db)"
harm 'echo other >log; mv log harm.db-wal'
harmed "a log that was replaced" "had its log replaced by another file while it was open"
rm harm.db-wal
same "its file" "k 1 l 1" "$(keys_of harm.db)"
harm 'truncate -s 0 harm.db-wal'
harmed "a log that was cut" "had its log cut while it was open"
rm -f harm.db harm.db-wal
mkfifo lines
"$program" shell --db harm.db --site 9 </dev/null >out 2>fault
"$program" shell --db harm.db --site 9 <lines >out 2>fault &
server=$!
exec 9>lines
echo 'put k - {}' >&9
for _ in $(seq 100); do grep -q dot out && break; sleep 0.1; done
rm harm.db
exec 9>&-
harmed "a shell whose file is removed" "was removed or renamed while it was open"
rm -f harm.db-wal

# A second name of a file; and too few descriptors.
echo 'put k - {}' | "$program" shell --db linked.db --site 9 >out 2>fault
ln linked.db second.db
refused "a file with a second name" 1 "fault 21 Store" "linked.db has a second name, a hard link, or its log has: remove that name, or copy the file" \
  linked.db shell --db linked.db --site 9
rm second.db
for limit in 5 8; do
  status=0
  (ulimit -n "$limit" && exec "$program" serve --db linked.db --site 9 --port "$port") </dev/null >out 2>fault || status=$?
  same "a limit of $limit descriptors" "1 mvd: no more files can be open: raise the limit of descriptors (\`ulimit -n\`)" "$status $(tail -n +2 fault)"
done

serve --db a.db --site 1
at="127.0.0.1:$port"
refused "a port in use" 1 "fault 34 ReadFailed" "$at is in use: end the program that listens there, or name another port" \
  b.db serve --db b.db --site 2 --port "$port" --conns 1
refused "a locked database" 1 "fault 21 Store" "a.db is in use: end the program that has it open, or ask that one through its port" \
  a.db sync --db a.db --site 1 --port "$port"
kill "$server"
wait "$server" 2>/dev/null || :
server=
refused "no server" 1 "fault 34 ReadFailed" \
  "$at: Connection refused (os error 111); start \`mvd serve\` there, or name another --address and --port" \
  b.db sync --db b.db --site 2 --port "$port"
refused "another site's database" 1 "fault 16 SiteMismatch" "b.db is the file of site 2: give that number as --site, or name another file" \
  b.db serve --db b.db --site 3 --port "$port"
refused "too many keys" 1 "fault 10 Full" "the file has no room for so many keys: raise --max-keys, up to 1000000" \
  b.db serve --db b.db --site 2 --port "$port" --max-keys 1
same "the same file with room for its keys" "context 1:1 1:1 {} context 2:1 2:1 {}" \
  "$(printf 'get a\nget b\n' | "$program" shell --db b.db --site 2 --max-keys 3 | tr '\n' ' ' | sed 's/ $//')"
cp b.db damaged.db
sql damaged.db "PRAGMA journal_mode = delete" "UPDATE states2 SET state = x'00' WHERE key = 'b'" >/dev/null
refused "a damaged row" 1 "fault 17 Damaged" \
  "damaged.db is damaged, or of a later version of mvd: use that version, name another file, or make a new site from a copy (docs/USING.md, Backups)" \
  damaged.db serve --db damaged.db --site 2 --port "$port"
sql other.db "CREATE TABLE note (title TEXT)" "INSERT INTO note VALUES ('a')" >/dev/null
other=$(cksum <other.db)
refused "another program's database" 1 "fault 17 Damaged" "other.db is the file of another program: name another file" \
  other.db serve --db other.db --site 2 --port "$port"
same "its bytes" "$other" "$(cksum <other.db)"
same "no log beside it" "" "$(ls other.db-wal 2>/dev/null || :)"
same "its journal and its rows" "delete a" "$(sql other.db "PRAGMA journal_mode" "SELECT title FROM note")"
rm other.db
sql other.db "CREATE TABLE states (code TEXT PRIMARY KEY, name TEXT)" "INSERT INTO states VALUES ('NY', 'New York')" >/dev/null
other=$(cksum <other.db)
refused "another program's database, with a table of one of our names" 1 "fault 17 Damaged" \
  "other.db is the file of another program: name another file" other.db shell --db other.db --site 2
same "its bytes" "$other" "$(cksum <other.db)"
same "no log beside it" "" "$(ls other.db-wal 2>/dev/null || :)"
python3 -c 'import os, sqlite3
db = sqlite3.connect("killed.db", isolation_level=None)
for text in "PRAGMA journal_mode = wal", "CREATE TABLE note (title TEXT)", "INSERT INTO note VALUES (1)":
    db.execute(text)
os._exit(0)'
other=$(cksum <killed.db)
refused "another program's database, with pages in its log" 1 "fault 17 Damaged" \
  "killed.db is the file of another program: name another file" killed.db-wal shell --db killed.db --site 2
same "its bytes" "$other" "$(cksum <killed.db)"
seq 2000 >none.db
refused "no database" 1 "fault 21 Store" "none.db is no database of mvd, or damaged, or was left half made, as on a full disk: make room and try again, name another file, or make a new site from a copy (docs/USING.md, Backups)" \
  none.db serve --db none.db --site 2 --port "$port"
refused "no folder" 1 "fault 21 Store" "no/b.db: unable to open database file; check its folder, its permissions and the disk" \
  b.db shell --db no/b.db --site 2
# An open that is refused for want of memory is told as that, and with no hint. Some of these limits (in KiB) leave too little.
short=0
for limit in 8000 10000 12000 14000; do
  status=0
  (ulimit -v "$limit" && exec "$program" shell --db short.db --site 2) </dev/null >out 2>fault || status=$?
  case $status:$(tr '\n' '|' <fault) in
    "1:mvd: fault 20 Memory|") short=$((short + 1)) ;;
    0:* | 12[67]:* | 1[34]?:*) ;;
    *) miss "an open with $limit KiB of memory: status $status: $(cat fault)" ;;
  esac
done
[ "$short" -gt 0 ] || miss "no open was refused for want of memory"
echo "opens without memory: $short, each told as 20"
printf 'index city\nview v city n\nmax 1\n' >bad
refused "a line that defines nothing" 3 "line 3: not a command" \
  "bad: a line is \`index F\` or \`view V G S\`, none of them twice, and at most 16 of either" \
  b.db serve --db b.db --site 2 --port "$port" --defs bad
refused "no file of definitions" 1 "fault 34 ReadFailed" \
  "none cannot be read: --defs names a file of lines \`index F\` and \`view V G S\`" \
  b.db serve --db b.db --site 2 --port "$port" --defs none
refused "a script that cannot be read" 1 "fault 34 ReadFailed" "standard input cannot be read" b.db sim <.
refused "a line of a script" 3 "line 1: not a command" \
  "standard input: docs/FORMATS.md lists the lines of a script, of which \`sites N\` is the first" b.db sim <bad
refused "a bad number" 2 "bad number: --site is 1 to 4294967295" "" b.db serve --db b.db --site 0 --port "$port"
refused "a bad port" 2 "bad number: --port is 1 to 65535" "" b.db serve --db b.db --site 2 --port 65536
refused "a word that is no text" 2 "a word is no UTF-8" "name each file in UTF-8" \
  b.db shell --db "$(printf '\377').db" --site 2
# Where standard error is closed, the status still tells.
for words in "2 shell --db b.db" "2 loop --site 0" "1 shell --db no/b.db --site 2" "3 serve --db b.db --site 2 --port $port --defs bad"; do
  status=0
  # shellcheck disable=SC2086
  "$program" ${words#* } 2>&- </dev/null >out || status=$?
  same "the status of \`${words#* }\` with standard error closed" "${words%% *}" "$status"
done
echo "served: all as wanted"
