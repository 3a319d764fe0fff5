#!/usr/bin/env bash
# Where the repository repeats itself: the tool `duplicates` on a copy whose .rt and .antt files have endings that it reads.
# usage, from the repository's top: tools/twice.sh [rows, 30 if left out]
set -eu
top=$(git rev-parse --show-toplevel); copy=$(mktemp -d); trap 'rm -rf "$copy"' EXIT
cd "$top"
git ls-files 'crates/*.rt' 'crates/*.antt' | while read -r file; do
  case "$file" in *.rt) to=${file%.rt}.rs ;; *) to=${file%.antt}.hs ;; esac
  mkdir -p "$copy/$(dirname "$file")"; cp "$file" "$copy/$to"
done
cd "$copy" && duplicates --most "${1:-30}" --seconds 60 | sed -e 's/\.rs:/.rt:/g' -e 's/\.hs:/.antt:/g'
