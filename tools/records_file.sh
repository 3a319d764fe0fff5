#!/bin/sh
# Makes a file of records with `Records`, in a copy of this tree, and has SQLite test it, as python3 has it.
# It runs the program unproved, with `rt try`, and takes a minute or two.
# usage: tools/records_file.sh
set -eu
top=$(cd "$(dirname "$0")/.." && pwd)
file=/tmp/mvd-records.db
tree=$(mktemp -d)
trap 'rm -rf "$tree"' EXIT
cp -r "$top/crates.txt" "$top/crates" "$tree"
libraries=$(sed -n 's/^mvd_records://p' "$tree/crates.txt")
echo "records_file: mvd_records$libraries" >>"$tree/crates.txt"
mkdir -p "$tree/crates/records_file/src"
cat >"$tree/crates/records_file/src/main.rt" <<'END'
//! Saves 300 states, some of them twice, in a file.
#![tactic(auto)]
use mvd_keys::Key;
use mvd_records::Records;
use sqlite::Connection;
use std::io;

fn main(rt: HostRuntime) -> io::Result<()> {
    let alloc = rt.alloc();
    let Ok(conn) = Connection::open(&rt, "/tmp/mvd-records.db") else {
        return println!(rt; "no file");
    };
    let Ok(mut records) = Records::open(alloc, conn, 1) else {
        return println!(rt; "no records");
    };
    for number in 0..330u32 {
        let text = format!(in alloc; "key{}", number % 300)?;
        let Ok(key) = Key::read(alloc, text.as_str()) else {
            return println!(rt; "no key");
        };
        let state = [(number % 256) as u8; 700];
        if records.save(&key, &state).is_err() {
            println!(rt; "not saved: {number}")?;
        }
    }
    let _conn = records.into_connection();
    Ok(())
}
END
rm -f "$file" "$file-wal"
(cd "$tree/crates/records_file" && rt try --seconds 300)
sh "$top/tools/integrity.sh" "$file"
