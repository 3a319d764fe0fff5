#!/bin/bash
# Tries the wrong bodies that the gate leaves out: the prover must refuse each. It counts where they were refused: at a clause (a goal
# of the code's own text), at an answer (a hand-written line of proofs/ that no longer fits its goal) or at a name that is gone.
# Run it in the repository's top, after a check: tools/wrong_bodies.sh [CRATE..]
set -eu -o pipefail
room=$(mktemp -d)
trap 'rm -rf "$room"' EXIT
cp -a crates.txt HANDLES crates "$room"
cd "$room"
git init -q .
for crate in crates/*; do
    rm -rf "$crate/must-fail"
    if [ -d "$crate/wrong-bodies" ]; then mv "$crate/wrong-bodies" "$crate/must-fail"; fi
done
status=0
rt must-fail "$@" | tee said || status=$?
awk '
    !/must-fail / { next }
    { tried++ }
    !/: refused, as it must be/ { open++; next }
    /only because a proof file names/ { name++; next }
    /: (note: )?src\// { clause++; next }
    { answer++ }
    END { printf "%d wrong bodies: %d refused at a clause, %d at an answer, %d at a name, %d not refused\n", tried, clause, answer, name, open }
' said
exit "$status"
