#!/bin/sh
# Tests a database file of records with SQLite itself, as python3 has it.
# usage: tools/integrity.sh FILE
# It works on a copy, with the log beside it, so that the file stays as it is.
set -eu
file=${1:?usage: tools/integrity.sh FILE}
copy=$(mktemp -d)
trap 'rm -rf "$copy"' EXIT
cp "$file" "$copy/db"
if [ -f "$file-wal" ]; then cp "$file-wal" "$copy/db-wal"; fi
python3 - "$copy/db" <<'END'
import sqlite3, sys

db = sqlite3.connect(sys.argv[1])
answer = " ".join(row[0] for row in db.execute("PRAGMA integrity_check"))
print("integrity:", answer)
for name, value in db.execute("SELECT name, value FROM meta ORDER BY name"):
    print(name, value)
for table in "states", "states2":
    print(f"{table}: {db.execute(f'SELECT count(*) FROM {table}').fetchone()[0]}")
db.close()
sys.exit(answer != "ok")
END
