#!/usr/bin/env python3
"""What the gate takes, crate by crate: runs a command, the gate if none is given, and samples its processes.

usage, at the repository's top: tools/gate_costs.py FILE [COMMAND..]

FILE gets a line `CRATE PROOF EDITS TESTS` for each crate, in processor seconds (a program's proof with its two compilers, the tests with
their compiler), as tools/lanes.py reads it; above them what was run and what it took, for docs/GATE.md. Behind them it gets a line
`tenth SECONDS` for the wrong bodies of a landing, a line `faults SECONDS` for the refused growths of memory, a line `pages SECONDS` for
the check of the pages, and a line `users SECONDS` for what users run: the other scripts that .ci/run names, with all that they started.
At the end the totals are printed: processor minutes, wall minutes, and the most memory that all processes took together. A process is
looked at twice a second, so of each its last half second may be missing."""
import os
import re
import resource
import subprocess
import sys
import time

TICK = os.sysconf("SC_CLK_TCK")
PAGE = os.sysconf("SC_PAGE_SIZE")


def parts_of(gate):
    """The parts of the gate behind the proofs, by their scripts."""
    with open(gate) as it:
        scripts = re.findall(r"^part \d+ tools/(\S+)", it.read(), re.M)
    return {name: {"wrong_bodies.py": "tenth", "faults.sh": "faults", "check_docs.py": "pages"}.get(name, "users") for name in scripts}


PARTS = parts_of(os.path.join(os.path.dirname(os.path.abspath(__file__)), "..", ".ci", "run"))


def children(root):
    """The processes below `root`: of each its start, its processor seconds, its bytes of memory, the processor seconds of those that it
    started and that have ended, and who started it."""
    under, found = {}, {}
    for name in filter(str.isdigit, os.listdir("/proc")):
        try:
            with open(f"/proc/{name}/stat") as it:
                words = it.read().rpartition(")")[2].split()
        except OSError:
            continue
        under.setdefault(int(words[1]), []).append(int(name))
        own, of_ended = (sum(map(int, words[at : at + 2])) / TICK for at in (11, 13))
        found[int(name)] = words[19], own, int(words[21]) * PAGE, of_ended, int(words[1])
    todo, below = [root], {}
    while todo:
        for pid in under.get(todo.pop(), []):
            below[pid] = found[pid]
            todo.append(pid)
    return below


def job(pid):
    """Which crate a process works for, and at what: 0 a proof, 1 edits, 2 tests. Of a script that the gate runs behind the proofs, which
    part it is, with None. None for any other process."""
    try:
        with open(f"/proc/{pid}/cmdline", "rb") as it:
            words = it.read().decode(errors="replace").split("\0")
        where = os.readlink(f"/proc/{pid}/cwd")
    except OSError:
        return None
    if "--crate-name" not in words:
        parts = [PARTS[os.path.basename(word)] for word in words[:2] if os.path.basename(word) in PARTS]
        return (parts[0], None) if parts else None
    if "/wrong-bodies-" in where:
        return PARTS["wrong_bodies.py"], None
    crate = words[words.index("--crate-name") + 1]
    return crate, 1 if "rt-edit-" in where else 2 if "--test" in words else 0


def commit():
    """The commit that is run, or that none is told."""
    told = subprocess.run(["git", "rev-parse", "--short=8", "HEAD"], capture_output=True, text=True)
    return f"commit {told.stdout.strip()}" if told.returncode == 0 else "no commit"


def main(file, command):
    jobs, spent, most, began = {}, {}, 0, time.time()
    gate = subprocess.Popen(command)
    while gate.poll() is None:
        below = children(gate.pid)
        most = max(most, sum(it[2] for it in below.values()))
        for pid, (start, seconds, _, of_ended, by) in below.items():
            # (a number is given again to a later process)
            each = pid, start
            jobs[each] = jobs.get(each) or job(pid)
            if not jobs[each] and by in below and (job(by) or (None, None))[1] is not None:
                # a compiler is counted with the crate that it works for
                jobs[each] = job(by)
            if jobs[each] and jobs[each][1] is None:
                # what a script starts is counted with the script
                seconds = 0.0 if by in below and job(by) == jobs[each] else seconds + of_ended
            spent[each] = max(seconds, spent.get(each, 0.0))
        time.sleep(0.5)
    costs, parts = {}, {}
    for each, at in jobs.items():
        if at and at[1] is None:
            parts[at[0]] = parts.get(at[0], 0.0) + spent[each]
        elif at:
            costs.setdefault(at[0], [0.0, 0.0, 0.0])[at[1]] += spent[each]
    used = resource.getrusage(resource.RUSAGE_CHILDREN)
    total, wall = used.ru_utime + used.ru_stime, time.time() - began
    with open(file, "w") as out:
        print(f"# run: `{' '.join(command)}`, {commit()}, {time.strftime('%Y-%m-%d')}, {os.cpu_count()} processors", file=out)
        print(f"# seen: {wall / 60:.0f} minutes, {total / 60:.0f} processor minutes, {most / 1e9:.1f} GB of memory at most", file=out)
        print("# crate, processor seconds of its proof, its edits, its tests", file=out)
        for crate, row in costs.items():
            print(crate, *(f"{it:.0f}" for it in row), file=out)
        for part, seconds in parts.items():
            print(part, f"{seconds:.0f}", file=out)
    told = sum(sum(row) for row in costs.values())
    of_parts = "".join(f", {seconds:.0f} seconds of {part}" for part, seconds in parts.items())
    print(f"{total / 60:.0f} processor minutes, {told / 60:.0f} of them of crates{of_parts}; {wall / 60:.0f} minutes; {most / 1e9:.1f} GB",
          file=sys.stderr)
    return gate.returncode


if __name__ == "__main__":
    if len(sys.argv) < 2 or sys.argv[1].startswith("-"):
        sys.exit(__doc__)
    sys.exit(main(sys.argv[1], sys.argv[2:] or [".ci/run"]))
