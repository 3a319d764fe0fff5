#!/usr/bin/env python3
"""How long the gate would take on so many processors, from what each crate costs.

usage, at the repository's top: tools/lanes.py COSTS [PROCESSORS..]
                                tools/lanes.py COSTS --page      prints what docs/GATE.md has of it
                                tools/lanes.py COSTS --write     writes that into docs/GATE.md

COSTS is what tools/gate_costs.py writes: a line `CRATE PROOF EDITS TESTS` for each crate, in processor seconds. The gate's order is
followed, with one job for each proof: a crate's proof and its tests wait for the proofs below it, its edits for both, and for a proof
that is made for them; what has the longest chain of lines behind it goes first, edits last. Building and running what was proved is put
at four minutes; behind it come the wrong bodies of a landing, for which COSTS has a line `tenth SECONDS`, on two processors. The last line is the longest chain of proofs, each of which waits for the one before: no processors make the gate
shorter than that. A crate that COSTS does not name counts as 25 seconds."""
import glob
import re
import sys
import textwrap

LAST = 240


def read_crates():
    below_of = {}
    for line in open("crates.txt"):
        name, _, deps = line.split("#")[0].strip().partition(":")
        if name:
            below_of[name] = deps.split()
    return {name: [it for it in deps if it in below_of] for name, deps in below_of.items()}


BELOW_OF = read_crates()


def below(name):
    found, todo = set(), list(BELOW_OF[name])
    while todo:
        it = todo.pop()
        if it not in found:
            found.add(it)
            todo += BELOW_OF[it]
    return found


def count(name, pattern):
    return sum(open(it, "rb").read().count(b"\n") for it in glob.glob(f"crates/{name}/{pattern}", recursive=True))


LINES = {name: count(name, "src/**/*.rt") for name in BELOW_OF}
EDITS = {name: len(glob.glob(f"crates/{name}/must-fail/*.edit")) for name in BELOW_OF}
EACH_TIME = {name: sum(open(it).read(5) == "gate:" for it in glob.glob(f"crates/{name}/wrong-bodies/*.edit")) for name in BELOW_OF}


def read_costs(file):
    costs = {}
    for line in open(file):
        words = line.split("#")[0].split()
        if words and words[0] in BELOW_OF:
            costs[words[0]] = tuple(map(float, words[1:4]))
    return {name: costs[name] for name in BELOW_OF if name in costs}


def tenth(file):
    """The processor seconds of the wrong bodies of a landing."""
    return sum(float(line.split()[1]) for line in open(file) if line.startswith("tenth "))


def tasks_of(costs):
    """Of each task what it waits for, its lines of code, and its processor seconds."""
    tasks = {}
    for name in sorted(BELOW_OF, key=lambda it: len(below(it))):
        proof, edits, tests = costs.get(name, (25.0, 0.0, 0.0))
        under = [(it, "proof") for it in below(name)]
        tasks[name, "proof"] = under, LINES[name], proof
        tasks[name, "tests"] = under, LINES[name] * (tests > 0), tests
        # (two edits or more are tried over a proof that is made for them)
        seed = min(proof, 0.7 * edits) if EDITS[name] > 1 else 0
        tasks[name, "seed"] = under, 0, seed
        for number in range(EDITS[name]):
            after = [(name, "proof"), (name, "tests"), (name, "seed")]
            tasks[name, f"edit {number}"] = after, LINES[name], (edits - seed) / EDITS[name]
    return tasks


def in_order(tasks):
    """The tasks, those with the longest chain of lines behind them first, and edits last."""
    behind = dict.fromkeys(tasks, 0)
    for key in reversed(tasks):
        behind[key] += tasks[key][1]
        for it in tasks[key][0]:
            behind[it] = max(behind[it], behind[key])
    return sorted(tasks, key=lambda key: (key[1] not in ("proof", "tests"), -behind[key]))


def minutes(tasks, lanes):
    left, running, done, now = in_order(tasks), [], set(), 0.0
    while left or running:
        ready = [key for key in left if all(it in done for it in tasks[key][0])]
        for key in ready[: lanes - len(running)]:
            left.remove(key)
            running.append((now + tasks[key][2], key))
        now, key = min(running)
        running.remove((now, key))
        done.add(key)
    return (now + LAST) / 60


def longest_chain(tasks):
    """The tasks of the chain that takes the most seconds, each of which waits for the one before it."""
    chains = {}
    for key, (under, _, seconds) in tasks.items():
        longest = max((chains[it] for it in under), default=(0.0, []))
        chains[key] = longest[0] + seconds, longest[1] + [key]
    return max(chains.values())


def page(file):
    """The lines of docs/GATE.md: the totals, a row for each crate, and the longest chain. (Nothing that hangs on lines of code.)"""
    costs = read_costs(file)
    notes = dict(re.findall(r"^# (run|seen): (.*)$", open(file).read(), re.M))
    lines = [f"- Sampled: {notes['run']}.", f"- Seen: {notes['seen']}."]
    lines += [f"- In the table: {sum(map(sum, costs.values())) / 60:.0f} processor minutes, and {tenth(file) / 60:.0f} of the wrong bodies of a landing.", ""]
    lines += ["| Crate | Its proof, seconds | Its `must-fail/` | Their seconds | With `gate:` | Its tests, seconds |", "|---|---|---|---|---|---|"]
    for name, (proof, edits, tests) in costs.items():
        told = f"{edits:.0f}" if edits else ""
        row = [f"`{name}`", f"{proof:.0f}", EDITS[name] or "", told, EACH_TIME[name] or "", f"{tests:.0f}" if tests else ""]
        lines.append(f"| {' | '.join(map(str, row))} |")
    seconds, chain = longest_chain(tasks_of(costs))
    lines += ["", f"- The longest chain of proofs, {seconds:.0f} seconds: {', '.join(f'`{name}`' for name, _ in chain)}."]
    return [part for line in lines for part in (textwrap.wrap(line, 100, subsequent_indent="  ") if line[:1] == "-" else [line])]


def write(lines):
    """Puts the lines into docs/GATE.md, between its two marks."""
    with open("docs/GATE.md") as it:
        before, mark, rest = it.read().partition("--page -->\n")
    with open("docs/GATE.md", "w") as it:
        it.write(before + mark + "\n" + "\n".join(lines) + "\n\n" + rest[rest.index("<!-- end -->") :])


def main(file, processors):
    costs = read_costs(file)
    tasks = tasks_of(costs)
    print(f"{(sum(map(sum, costs.values())) + tenth(file)) / 60:.0f} processor minutes")
    for lanes in processors:
        print(f"{minutes(tasks, lanes) + tenth(file) / 60 / min(lanes, 2):.0f} minutes on {lanes} processors")
    seconds, chain = longest_chain(tasks)
    print(f"{seconds:.0f} seconds: {', '.join(name if what == 'proof' else f'{name} ({what})' for name, what in chain)}")


if __name__ == "__main__":
    if len(sys.argv) < 2:
        sys.exit(__doc__)
    if sys.argv[2:] == ["--page"]:
        sys.exit(print("\n".join(page(sys.argv[1]))))
    if sys.argv[2:] == ["--write"]:
        sys.exit(write(page(sys.argv[1])))
    main(sys.argv[1], [int(it) for it in sys.argv[2:]] or [4, 2])
