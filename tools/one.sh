#!/usr/bin/env bash
# Runs one script on the built program, and shows where it prints something else than wanted.
# usage: tools/one.sh SCRIPT [WANTED]
# WANTED is a file with what is to be printed; without one, what is printed is shown. MVD names another program than crates/mvd/out/mvd.
set -eu
script=${1:?usage: tools/one.sh SCRIPT [WANTED]}
top=$(cd "$(dirname "$0")/.." && pwd)
program=${MVD:-$top/crates/mvd/out/mvd}
[ -x "$program" ] || { echo "$program is not there: run rt run in crates/mvd first" >&2; exit 2; }
if [ $# -lt 2 ]; then
    exec "$program" sim <"$script"
fi
diff -u "$2" <("$program" sim <"$script") && echo "as wanted"
