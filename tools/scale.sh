#!/bin/bash
# Runs large scripts, each at half its size and whole: neither may take ten seconds of a processor, and twice
# the size not four times as long.
# usage: tools/scale.sh PROGRAM [BEFORE] (crates/mvd/out/mvd, after `rt run` there)
# BEFORE is an earlier one: it runs each script after PROGRAM, and a line tells the ratio of PROGRAM's time to its own.
set -eu
program=${1:?usage: tools/scale.sh PROGRAM [BEFORE]}
before=${2:-}
room=$(mktemp -d)
trap 'rm -rf "$room"' EXIT

keys() { # COUNT: an index, a view and the tree over so many keys
    printf 'sites 2\nindex city\nview spend city amount\n'
    awk -v n="$1" 'BEGIN { for (i = 0; i < n; i++) printf "put 1 k%d - {\"amount\":%d,\"city\":\"c%d\"}\n", i, i, i % 100 }'
    printf 'root 1\nrows 1 spend\nrow 1 spend "c7"\nget 1 k9\ndel 1 k9 @\nroot 1\n'
}

find_all() { # COUNT: all places of one term
    keys "$1"
    printf 'find 1 city "c7"\nrange 1 city ["c1","c3"]\n'
}

meet() { # COUNT: a session that gives all keys to the other site
    keys "$1"
    printf 'sync 1 2\nroot 1\nroot 2\nsync 1 2\n'
}

loose() { # COUNT: a context of so many loose counters is put, delivered, read and deleted
    printf 'sites 2\n'
    awk -v n="$1" 'BEGIN { printf "put 1 k 2:0"; for (i = 1; i <= n; i++) printf "+%d", 2 * i; printf " {}\n" }'
    printf 'send 1 k\nrecv 2 1\nget 2 k\nsync 1 2\n'
    awk -v n="$1" 'BEGIN { printf "del 2 k 1:1,2:0"; for (i = 1; i <= n; i++) printf "+%d", 2 * i; printf "\n" }'
    printf 'get 2 k\n'
}

longest() { # BYTES: a script of just so many bytes
    { printf 'sites 1\n'; awk 'BEGIN { for (i = 0; i < 700000; i++) printf "put 1 k%d @ {\"n\":%d}\n", i % 1000, i }'; } |
        head -c "$1" | sed '$d' >"$room/cut"
    cat "$room/cut"
    local left=$(($1 - $(wc -c <"$room/cut")))
    head -c "$left" /dev/zero | tr '\0' '#'
}

run() { # NAME SIZE
    "$1" "$2" >"$room/script"
    used "$program"
    echo "$1 $2: $(wc -c <"$room/script") bytes, $(wc -l <"$room/out") lines out, $user s of processor ($system s of the system), $wall s"
    if [ -n "$before" ]; then
        local now=$user
        used "$before"
        echo "$1 $2 before: $user s of processor; ratio $(echo "$now $user" | awk '{ if ($2 > 0) printf "%.2f", $1 / $2; else printf "-" }')"
    fi
}

used() { # PROGRAM
    local TIMEFORMAT='%U %S %R'
    { time "$1" sim <"$room/script" >"$room/out" 2>"$room/err"; } 2>"$room/time"
    read -r user system wall <"$room/time"
}

for half in "keys 50000" "find_all 50000" "meet 50000" "loose 35000" "longest 8388608"; do
    set -- $half
    run "$1" "$2"
    run "$1" $((2 * $2))
done
