#!/bin/sh
# Measures the program on scripts that it makes: seconds of the processor, the most memory held at one time (resident), and, with
# Debian's `valgrind`, counted instructions and how often a put allocates. Then measure_stored.py measures stored sites and sessions.
# usage: tools/measure.sh PROGRAM [FOLDER]
# PROGRAM is `mvd` as built. FOLDER has other programs to compare with, each of which may be missing: target/release/twin, which
# runs the same scripts, and target/release/yardstick (tools/yardstick). Each figure is the least of three runs, the programs in
# turn. Takes Debian's `time`, and python3. MEASURE_BEFORE has an earlier `mvd` to compare with, MEASURE_RUNS
# another number of runs than 3, and MEASURE_WRITES other numbers of writes than 10000 100000 (and 800000 for small).
set -eu
program=${1:?usage: tools/measure.sh PROGRAM [FOLDER]}
other=${2:+$2/target/release/twin}
[ -x "$other" ] || other=
before=${MEASURE_BEFORE:-}
runs=${MEASURE_RUNS:-3}
writes=${MEASURE_WRITES:-10000 100000}
[ -x /usr/bin/time ] || { echo "/usr/bin/time is not installed" >&2; exit 2; }
work=$(mktemp -d)
trap 'rm -rf "$work"' EXIT

# script KIND N: a script of N writes.
# core   two sites write with what they have read; each key is sent once, received and read
# blind  two sites write with nothing read, so that siblings gather: eight writes a key
# rows   as core with no messages, under two indexes and a view, which are asked
# tree   as core, with a root after every 100 writes
# small  one site, a key for each write, each document {}
# one    one site writes to one key, with what it has read
script() {
    awk -v kind="$1" -v n="$2" '
    function below(most) { seed = (seed * 16807) % 2147483647; return seed % most }
    function document() {
        return "{\"city\":\"" cities[below(4) + 1] "\",\"n\":" below(2000) - 1000 ",\"name\":\"" name "\"}"
    }
    BEGIN {
        seed = 7
        split("Oslo Rome Bonn Lima", cities, " ")
        while (length(name) < 60) name = name "x"
        if (kind == "small") {
            print "sites 1"
            for (i = 0; i < n; i++) print "put 1 k" i " - {}"
            exit
        }
        if (kind == "one") {
            print "sites 1"
            for (i = 0; i < n; i++) print "put 1 k @ {\"city\":\"Oslo\",\"n\":" i % 10 "}"
            exit
        }
        print "sites 2"
        if (kind == "rows") print "index city\nindex n\nview v city n"
        keys = int(n / (kind == "blind" ? 8 : 10))
        for (i = 0; i < n; i++) {
            print "put " i % 2 + 1 " key" below(keys) (kind == "blind" ? " - " : " @ ") document()
            if (kind == "tree" && i % 100 == 99) print "root 1"
        }
        if (kind == "core" || kind == "tree")
            for (i = 0; i < keys; i++) print "send 2 key" i "\nrecv 1 " i + 1
        if (kind == "rows") {
            for (i = 0; i < keys; i++) print "find 1 n " below(2000) - 1000
            for (i = 0; i < 100; i++) print "rows 1 v"
        }
        for (i = 0; i < keys; i++) print "get 1 key" i
    }'
}

# run NAME PROGRAM: one run on the script, noted with its seconds and its kibibytes.
run() {
    /usr/bin/time -f '%U %S %M' -o "$work/used" "$2" sim < "$work/script" > "$work/$1.out"
    awk -v name="$1" '{ print name, $1 + $2, $3 }' "$work/used" >> "$work/runs"
}

# measure KIND N: the least of the runs of each program.
measure() {
    script "$1" "$2" > "$work/script"
    : > "$work/runs"
    for _ in $(seq "$runs"); do
        run mvd "$program"
        if [ -n "$before" ]; then run before "$before"; fi
        if [ -n "$other" ]; then run twin "$other"; fi
    done
    awk -v kind="$1" -v n="$2" -v before="$before" '
    !($1 in seconds) { seconds[$1] = $2; memory[$1] = $3 }
    $2 < seconds[$1] { seconds[$1] = $2 }
    $3 < memory[$1] { memory[$1] = $3 }
    function used(name) {
        if (!(name in seconds)) return "- | -"
        return sprintf("%.2f s | %.1f MiB", seconds[name], memory[name] / 1024)
    }
    function ratio() { return seconds["before"] ? sprintf("%.2f", seconds["mvd"] / seconds["before"]) : "-" }
    END { print "| " kind " | " n " | " used("mvd") (before ? " | " used("before") " | " ratio() : "") " | " used("twin") " |" }' "$work/runs"
    for name in ${before:+before} ${other:+twin}; do
        if ! cmp -s "$work/mvd.out" "$work/$name.out"; then echo "mvd and $name print differently"; fi
    done
}

# counted PROGRAM: the instructions of one run on the script.
counted() {
    valgrind --tool=callgrind --callgrind-out-file=/dev/null "$1" sim < "$work/script" 2>&1 > /dev/null | sed -n 's/.*Collected : //p'
}

# count KIND N: what each program counts, which is the same at each run.
count() {
    script "$1" "$2" > "$work/script"
    for name in "$program" ${before:+"$before"} ${other:+"$other"}; do counted "$name"; done |
        awk -v kind="$1" -v n="$2" -v before="$before" -v other="$other" '
        { million[NR] = sprintf("%.0f", $1 / 1000000) }
        END {
            row = "| " kind " | " n " | " million[1]
            if (before) row = row " | " million[2] " | " sprintf("%.2f", million[1] / million[2])
            print row " | " (other ? million[NR] : "-") " |"
        }'
}

# allocated PROGRAM N: how often a program allocates in a run of so many puts at one key.
allocated() {
    script one "$2" > "$work/script"
    valgrind --leak-check=no "$1" sim < "$work/script" 2>&1 > /dev/null | sed -n 's/.*total heap usage: \([0-9,]*\) allocs.*/\1/p' | tr -d ,
}

# a_put NAME PROGRAM: how often one put more at a key with one sibling allocates.
a_put() {
    echo "$1: $((($(allocated "$2" 3000) - $(allocated "$2" 2000)) / 1000)) allocations for a put at a key with one sibling"
}

echo "machine: $(uname -srm), $(nproc) processors, $(sed -n 's/^model name[^:]*: //p' /proc/cpuinfo | head -1)"
echo "load at the start: $(cut -d ' ' -f 1-3 /proc/loadavg)"
if grep -q -w sha_ni /proc/cpuinfo; then echo "the processor has instructions for SHA-256"; fi
echo "| script | writes | mvd: time | memory |${before:+ before: time | memory | ratio |} twin: time | memory |"
echo "|---|---|---|---|${before:+---|---|---|}---|---|"
for n in $writes; do
    for kind in core blind rows tree; do measure $kind $n; done
done
for n in ${MEASURE_WRITES:-$writes 800000}; do measure small $n; done
if command -v valgrind > /dev/null; then
    echo
    echo "| script | writes | mvd: millions of instructions |${before:+ before | ratio |} twin |"
    echo "|---|---|---|${before:+---|---|}---|"
    for kind in core blind rows tree small; do count $kind "${writes%% *}"; done
    a_put mvd "$program"
    if [ -n "$before" ]; then a_put before "$before"; fi
    if [ -n "$other" ]; then a_put twin "$other"; fi
fi
"$(dirname "$0")/measure_stored.py" "$program" ${2:+"$2"}
echo "load at the end: $(cut -d ' ' -f 1-3 /proc/loadavg)"
