#!/usr/bin/env python3
"""Tries which damage to a file of records is found: changes one bit of a closed file, and opens the file with the program.

usage: tools/changed_bits.py PROGRAM [BITS [SEED]]

PROGRAM is `mvd` as built. It makes a file with 200 keys, reads the root of all that the file holds, and then changes one bit at a time, BITS
times (1,000 if none is given), each in a copy of its own. Which bits these are follows from SEED (1 if none is given). It tells how often
the file was refused, how often it held what it held before, and how often it held something else. It ends with 1 where the program ended in
any other way. The files are made in TMPDIR (else /tmp).
"""
import os
import random
import re
import shutil
import subprocess
import sys
import tempfile

KEYS = 200
REFUSED = re.compile(r"fault (\d+)")


def miss(what):
    sys.exit(f"changed_bits: {what}")


def shell(program, file, lines):
    """What a shell on a file prints, on both outputs, and its status."""
    done = subprocess.run([program, "shell", "--db", file, "--site", "1"], input=lines, text=True, errors="replace", timeout=60,
                          stdout=subprocess.PIPE, stderr=subprocess.PIPE)
    return done.stdout, done.stderr, done.returncode


def make(program, file):
    lines = "".join(f'put key{n} - {{"city":"Oslo","n":{n},"text":"{"abc" * (n % 40)}"}}\n' for n in range(KEYS))
    out, err, status = shell(program, file, lines)
    if status != 0 or out.count("dot ") != KEYS:
        miss(f"the file was not made: {out[-200:]}{err}")


def root(program, file):
    """The root of what a file holds, or the number of the refusal."""
    out, err, status = shell(program, file, "root\n")
    if status == 0:
        return out.strip()
    told = REFUSED.search(err)
    if status != 1 or not told:
        miss(f"status {status}: {out}{err}")
    return int(told.group(1))


def main(program, bits, seed):
    draw = random.Random(seed)
    with tempfile.TemporaryDirectory() as room:
        whole = os.path.join(room, "whole.db")
        make(program, whole)
        bytes_of = open(whole, "rb").read()
        before = root(program, whole)
        counts = {}
        for n in range(bits):
            at = draw.randrange(8 * len(bytes_of))
            changed = bytearray(bytes_of)
            changed[at // 8] ^= 1 << at % 8
            copy = os.path.join(room, "copy.db")
            for name in (copy, copy + "-wal"):
                if os.path.exists(name):
                    os.remove(name)
            with open(copy, "wb") as out:
                out.write(changed)
            found = root(program, copy)
            kind = f"refused with {found}" if isinstance(found, int) else "as before" if found == before else "another root"
            counts[kind] = counts.get(kind, 0) + 1
        print(f"{bits} bits of a file of {len(bytes_of)} bytes with {KEYS} keys:", ", ".join(f"{kind} {n}" for kind, n in sorted(counts.items())))


if __name__ == "__main__":
    if len(sys.argv) < 2:
        sys.exit(__doc__)
    main(os.path.realpath(sys.argv[1]), int((sys.argv[2:] or ["1000"])[0]), int((sys.argv[3:] or ["1"])[0]))
