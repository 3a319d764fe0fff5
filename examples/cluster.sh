#!/bin/sh
# Starts three servers that meet by themselves, each with a page for a browser, until Ctrl-C stops them. `mvd` is on the PATH.
# usage: examples/cluster.sh [FOLDER [BASE]]
# The sites 1, 2 and 3 listen at the ports BASE + 1 to BASE + 3 of 127.0.0.1 (7001 to 7003 where BASE is left out), and over HTTP at
# BASE + 101 to BASE + 103. Each names the two others. In FOLDER (cluster) stand the file N.db of each site, which is made where it is
# missing, and the lines that its server prints, N.txt.
set -eu
folder=${1:-cluster}
base=${2:-7000}
servers=
mkdir -p "$folder"

stop() {
    trap - EXIT
    kill $servers 2>"$folder/stop.txt" || true
    wait
    exit
}
trap stop EXIT HUP INT TERM

for site in 1 2 3; do
    peers=
    for other in 1 2 3; do
        [ "$other" = "$site" ] || peers=${peers:+$peers,}$((base + other))
    done
    mvd serve --db "$folder/$site.db" --site "$site" --port $((base + site)) --http $((base + 100 + site)) --peer "$peers" \
        >"$folder/$site.txt" 2>&1 &
    servers="$servers $!"
    echo "site $site: port $((base + site)), http://127.0.0.1:$((base + 100 + site))/, lines in $folder/$site.txt"
done
echo "write at one and look at another; Ctrl-C stops the three"
wait
