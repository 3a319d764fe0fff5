#!/usr/bin/env python3
"""Tries many wrong bodies in one check: each must be refused in the function that it changes.

usage, at the repository's top: tools/wrong_bodies.py [--must-fail] [--built] [--seconds S] CRATE[/WRONG_BODY]..
                                tools/wrong_bodies.py --gate N [--seconds S] [--minutes M]       for each landing
                                tools/wrong_bodies.py --look                       by the texts alone: tries none

With --gate N it tries each wrong body whose first line begins with `gate:`, and all of the crates of one tenth (TENTHS, below), which the
last digit of N names. With --gate and with --built it stands over the libraries that `rt ci` left in out/, and copies and builds none.
Then checks of two crates run side by side, or one, where RT_JOBS is 1. It begins no check that would take the crates of the tenth, or all
that it is asked for, past S processor seconds, but for the wrong bodies of each time; and with --gate it ends after 25 minutes, or M where
that is less. What it did not try it names, and the digits of N before the last say where the tenth begins: so what was left comes first in
ten landings. It fails where a wrong body is proved, or its text cannot be applied; and, but with --gate, which names it, where that cannot
be compiled.

It puts the wrong bodies of a crate (of `wrong-bodies/`, or of `must-fail/`) into a copy of the repository, as many at once as change
different functions, and runs `rt check` there, of the changed functions alone. The check says of each whether it is proved. A wrong body
counts as refused if a function that it changes is not proved: at a clause, where a goal of the code's own text is left open; at an answer,
where a hand-written line of proofs/ no longer fits its goal. What only calls a changed function is tried once more, without those that are
refused. Text that cannot be compiled stops the whole check, so then each half of its group is tried. tools/wrong_bodies.sh tries each alone
from the first on, which takes some four times as long. For each crate the last line has the processor seconds that it took.

--look says, of all edits, which cannot be applied, which crate has none that the gate tries, and of which line of tools/wrong_bodies.txt
the gate tries none; and what the gate and each tenth take by tools/edit_costs.txt.
"""
import concurrent.futures
import functools
import os
import pathlib
import re
import shutil
import subprocess
import sys
import tempfile
import threading
import time
import zlib

sys.dont_write_bytecode = True
from edits import FN, applied, asked_for, groups_of, is_gate, is_hit, pairs_of

# The crates of each tenth, which --look reckons: as much each. One that is not listed is in one by its name. Of one with a part, as
# "mvd_server 1/2", those wrong bodies whose names fall into it.
TENTHS = [
    ["mvd_server 2/2"],
    ["mvd_world", "mvd_frames", "mvd_remote", "mvd_line_tests", "mvd_example"],
    ["mvd", "mvd_http", "mvd_wire", "mvd_conn", "mvd_site"],
    ["mvd_keys", "mvd_dots", "mvd_records", "mvd_docs", "mvd_hint", "mvd_count"],
    ["mvd_replica", "mvd_web", "mvd_print", "mvd_script", "mvd_start"],
    ["mvd_server 1/2", "mvd_model"],
    ["mvd_input", "mvd_host", "mvd_meet", "mvd_runs", "mvd_digest"],
    ["mvd_kept", "mvd_rows", "mvd_tree", "mvd_peer"],
    ["mvd_app", "mvd_sync"],
    ["mvd_client", "mvd_shell", "mvd_live"],
]
# What the gate's part is given in .ci/run, less what it takes to end.
MINUTES = 25
LEFT = pathlib.Path("crates").resolve()
COSTS = pathlib.Path(__file__).resolve().parent / "edit_costs.txt"
ROWS = pathlib.Path(__file__).resolve().parent / "wrong_bodies.txt"
# The costs of a crate that is not there.
ELSE = (15.0, 3.0)
REFUSED = ("clause", "answer", "name")
WORDS = {**{it: f"refused at {it}" for it in REFUSED}, "proved": "NOT REFUSED: it is proved", "unread": "NOT REFUSED: its text is not compiled",
         "unapplied": "CANNOT BE APPLIED: a text of it does not stand there once", "left": "left for want of time or memory"}


class Purse:
    """What a run may take, and what each crate took: processor seconds, and how many checks and edits these were for."""

    def __init__(self, seconds, minutes, bound):
        self.seconds, self.bound, self.until = seconds, bound, time.monotonic() + 60 * minutes
        self.spent, self.lock = {}, threading.Lock()

    def has(self, crate, edits, is_gate):
        begin, each = costs().get(crate, ELSE)
        is_free = is_gate or crate not in self.bound
        return time.monotonic() < self.until and (is_free or self.total(self.bound) + begin + each * edits <= self.seconds)

    def total(self, crates):
        return sum(seconds for crate, (seconds, _, _) in list(self.spent.items()) if crate in crates)

    def run(self, command, folder, edits, is_gate):
        """Runs a check, and gives what it says; None where there is no time for it, or it says nothing."""
        for _ in range(2):
            if not self.has(folder.name, edits, is_gate):
                return None
            run = subprocess.Popen(command, cwd=folder, stdout=subprocess.PIPE, stderr=subprocess.STDOUT, text=True, errors="replace")
            late = threading.Timer(max(self.until - time.monotonic(), 0), run.kill)
            late.daemon = True
            late.start()
            said = run.stdout.read()
            status, used = os.wait4(run.pid, 0)[1:]
            run.returncode = os.waitstatus_to_exitcode(status)
            late.cancel()
            with self.lock:
                seconds, checks, tried = self.spent.get(folder.name, (0.0, 0, 0))
                self.spent[folder.name] = seconds + used.ru_utime + used.ru_stime, checks + 1, tried + edits
            # (one that was killed, most likely for memory, says nothing)
            if run.returncode >= 0:
                return said
        return None


@functools.lru_cache(None)
def costs():
    """Of each crate the processor seconds of a check before it proves anything, and those of each edit."""
    lines = (line.split("#")[0].split() for line in COSTS.read_text().splitlines())
    return {words[0]: (float(words[1]), float(words[2])) for words in lines if words}


def check(folder, group, kept, purse, is_gate):
    """What a check says of the functions that a group changes, or of the crate, where an edit changes what stands outside of them."""
    texts, functions = {}, set().union(*(its for _, its in group))
    for edit, _ in group:
        texts = applied(texts, edit, folder)[0]
    was = {path: (folder / path).read_text() for path in texts}
    for path, text in texts.items():
        (folder / path).write_text(text)
    only = [f"--only={it}" for path, own in sorted(functions) for it in asked_for(folder, path, own)] if all(own for _, own in functions) else []
    said = purse.run([*(over_libraries(folder, kept) if kept else ["rt", "check"]), *only], folder, len(group), is_gate)
    for path, text in was.items():
        (folder / path).write_text(text)
    return said


@functools.lru_cache(None)
def kit():
    return pathlib.Path(subprocess.run(["rt", "doc"], stdout=subprocess.PIPE, text=True, check=True).stdout.split()[-1]).parent


def over_libraries(folder, kept):
    """The command that checks a crate over the libraries of the crates below it, which `rt ci` left in this repository's out/, and keeps
    what it proves in a folder."""
    lines = (line.split("#")[0].partition(":") for line in (folder.parent.parent / "crates.txt").read_text().splitlines())
    uses = {name.split()[0]: used.split() for name, colon, used in lines if colon}
    below, todo = [], list(uses[folder.name])
    while todo:
        name = todo.pop()
        if name in uses and name not in below:
            below.append(name)
            todo += uses[name]
    words = [kit() / "bin/rattle", "check", "--crate-name", folder.name, f"src/{'main' if (folder / 'src/main.rt').is_file() else 'lib'}.rt"]
    for name in ["std", *uses[folder.name]]:
        library = LEFT / name / "out/rlib" if name in uses else kit() / "rlibs"
        words += ["--extern", f"{name}={library / name}.rlib"]
    for library in [kit() / "rlibs", *(LEFT / name / "out/rlib" for name in below)]:
        words += ["-L", f"dependency={library}"]
    words += ["--antt-project", kit() / "rattle/logic/antt-project.json", "--logic-built", kit() / "logic_built"]
    return [*words, "--jobs", "1", "--incremental", kept]


def is_open(line):
    """Whether a line of a check tells that a function is not proved for a cause of its own. One that only calls such a function, or stands
    on its answers, tells nothing of its own change: that of another edit of the group may be why."""
    name, told = re.match(r"fn (\S+): (.*)", line).groups()
    own = "Rattle." + name.replace("::", ".proofs.", 1).replace("::", ".") + "."
    stands = re.findall(r"`(Rattle\.\S+\.Answers\.\S+)`", told)
    others = re.match(r"(no proof|not proved;) ?:? ?it calls", told) or (stands and not any(it.startswith(own) for it in stands))
    return not told.startswith("proved") and not others


def is_of_name(part, own):
    """Whether a line on the proof files of a function says that a name is gone."""
    owner = ""
    for line in part.split("\n"):
        named = re.match(r"(?:\./)?(proofs/\S*?/)[A-Z]\w*\.antt:", line)
        owner = named.group(1) if named else owner
        if owner == own and re.search(r"(has no field|is not in scope|has no `)", line):
            return True
    return False


def judged(said, functions, folder):
    """Where a check refused a change of these functions: 'clause', 'answer', 'name'; or 'proved', or 'unread' if it tells of no function."""
    lines = re.findall(r"^fn (\w+::(\S+): .*)", said, re.M)
    told = [name for _, name in lines]
    hit = [line.split(": ")[0] for line, name in lines if is_open(f"fn {line}")
           and any(is_hit(name, folder, path, own, told) for path, own in functions)]
    if not hit:
        return "proved" if told else "unread"
    lines = said.split("\n")
    for name in hit:
        at = next(n for n, line in enumerate(lines) if line.startswith(f"fn {name}: ") and is_open(line))
        before = at
        while before and not lines[before - 1].startswith("fn "):
            before -= 1
        part = "\n".join(lines[before : at + 1])
        if re.search(r"^note: (\./)?src/|did not prove", part, re.M):
            return "clause"
        if is_of_name(part, "proofs/" + name.partition("::")[2].replace("::", "/") + "/"):
            return "name"
    return "answer"


def tried(folder, group, kept, purse):
    """What came of each edit of a group."""
    said = check(folder, group, kept, purse, has_gate(group))
    if said is None:
        return {edit: "left" for edit, _ in group}
    found = {edit: judged(said, functions, folder) for edit, functions in group}
    again = [one for one in group if found[one[0]] not in REFUSED]
    half = len(group) // 2
    if len(group) > 1 and again:
        # (what calls a changed function is told as not proved for that: so without those that are refused, and in halves where none is)
        for part in [again] if len(again) < len(group) else [group[:half], group[half:]]:
            found |= tried(folder, part, kept, purse)
    return found


def has_gate(group):
    return any(is_gate(edit) for edit, _ in group)


class Work:
    """The edits of a crate that are to be tried, in groups: first those among which are edits of each time."""

    def __init__(self, folder, kind, names, kept, turn):
        edits = {edit for name in names for edit in named(folder, kind, name)}
        groups, bad = groups_of(sorted(edits, key=lambda it: (not is_gate(it), it)), folder)
        self.first = [group for group in groups if has_gate(group)]
        others = [group for group in groups if not has_gate(group)]
        at = turn % len(others) if others else 0
        self.others = others[at:] + others[:at]
        self.folder, self.kept, self.found = folder, kept, {edit: "unapplied" for edit in bad}

    def try_groups(self, groups, purse):
        for group in groups:
            found = tried(self.folder, group, self.kept, purse)
            self.found |= found
            lines = [f"{self.folder.name}/{edit.stem}: {WORDS[result]}" for edit, result in found.items() if result != "left"]
            seconds, checks, edits = purse.spent.get(self.folder.name, (0.0, 0, 0))
            told = f"{self.folder.name}: {seconds:.0f} processor seconds until now, in {checks} checks of {edits} edits"
            # (in one piece, since two crates print side by side)
            print("".join(f"{line}\n" for line in [*lines, told]), end="", flush=True)


def main(words):
    if "--look" in words:
        sys.exit(1 if look() else 0)
    kind = "must-fail" if "--must-fail" in words else "wrong-bodies"
    given = {word: int(words.pop(words.index(word) + 1)) for word in ("--gate", "--seconds", "--minutes") if word in words}
    is_gate_run = "--gate" in given
    is_built = is_gate_run or "--built" in words
    turn, tenth = divmod(given.get("--gate", 0), 10)
    names = names_of(tenth) if is_gate_run else [word for word in words if not word.startswith("--")]
    if not names:
        sys.exit(__doc__)
    crates = sorted({crate_of(name) for name in names}, key=lambda it: -costs().get(it, ELSE)[0])
    bound = [crate for crate in crates if not is_gate_run or any(crate_of(name) == crate and not name.endswith(" gate") for name in names)]
    minutes = min(MINUTES, given.get("--minutes", MINUTES)) if is_gate_run else 10**6
    purse = Purse(given.get("--seconds", 10**9), minutes, bound)
    room = pathlib.Path(tempfile.mkdtemp(prefix="wrong-bodies-"))
    try:
        # (where the libraries of this repository serve, what was built is not copied)
        shutil.copytree("crates", room / "crates", symlinks=True, ignore=shutil.ignore_patterns("out") if is_built else None)
        for part in ("crates.txt", "HANDLES"):
            shutil.copy(part, room)
        subprocess.run(["git", "init", "-q", "."], cwd=room, check=True)
        kept = {crate: begun(crate, room) if is_built else "" for crate in crates}
        works = [work_of(room / "crates", kind, names, crate, kept[crate], turn) for crate in crates]
        # (each crate by itself, over libraries that nothing changes; `rt check` builds them, so there one after the other)
        lanes = min(2, int(os.environ.get("RT_JOBS", os.cpu_count()))) if is_built else 1
        with concurrent.futures.ThreadPoolExecutor(lanes) as pool:
            list(pool.map(lambda work: work.try_groups(work.first, purse), works))
            at = turn % len(works)
            list(pool.map(lambda work: work.try_groups(work.others, purse), works[at:] + works[:at]))
    finally:
        shutil.rmtree(room, ignore_errors=True)
    told = faults() if is_gate_run else []
    print(*told, sep="\n", end="\n" if told else "")
    sys.exit(1 if report([work.found for work in works], purse, is_gate_run) + len(told) else 0)


def begun(crate, room):
    """A folder for what checks prove, which begins with what `rt check` or `rt lib` kept of the crate: then nothing is proved but what an
    edit changes. `rt ci` keeps nothing of it."""
    folder, kept = tempfile.mkdtemp(prefix="kept-", dir=room), LEFT / crate / "out/incremental"
    return shutil.copytree(kept, folder, dirs_exist_ok=True) if kept.is_dir() else folder


def crate_of(name):
    return re.split("[ /]", name)[0]


def work_of(crates, kind, names, crate, kept="", turn=0):
    return Work(crates / crate, kind, [it for it in names if crate_of(it) == crate], kept, turn)


def report(found, purse, is_gate_run):
    """Prints what came of all, and gives how many edits are at fault."""
    results = {f"{edit.parent.parent.name}/{edit.stem}": result for its in found for edit, result in its.items()}
    of = {word: sorted(name for name, result in results.items() if result == word) for word in WORDS}
    for word in ("left", "unapplied", "unread", "proved"):
        if of[word]:
            print(f"{WORDS[word]}: {', '.join(of[word])}")
    print(f"{len(results)} wrong bodies: {', '.join(f'{len(of[it])} {WORDS[it]}' for it in REFUSED)}, {len(of['left'])} left")
    print(f"{purse.total(purse.spent):.0f} processor seconds, {purse.total(purse.bound):.0f} of them of {', '.join(purse.bound)}")
    # (a text that is not compiled shows nothing, as in `rt ci`, and lets nothing through)
    return sum(len(of[it]) for it in ("unapplied", "proved") + ("unread",) * (not is_gate_run))


def faults():
    """What is at fault with the edits by their texts alone."""
    found, crates = [], sorted(file.parent.parent.name for file in pathlib.Path("crates").glob("*/src/*.rt") if file.stem in ("lib", "main"))
    each_time = set()
    for crate in crates:
        folder = pathlib.Path("crates") / crate
        edits = sorted(folder.glob("must-fail/*.edit")) + sorted(folder.glob("wrong-bodies/*.edit"))
        found += [f"{crate}/{edit.stem}: {WORDS['unapplied']}" for edit in edits if not pairs_of(edit) or applied({}, edit, folder) is None]
        tried = {f"{crate}/{edit.stem}" for edit in edits if edit.parent.name == "must-fail" or is_gate(edit)}
        each_time |= tried
        texts = [file.read_text() for file in folder.glob("src/**/*.rt")]
        # (a crate of tests promises nothing)
        is_of_tests = crate.endswith("_tests")
        if not tried and not is_of_tests and any(FN.match(line) for text in texts for line in text.split("\n")):
            found.append(f"{crate}: the gate tries no edit of it each time")
    for line in ROWS.read_text().splitlines():
        row, _, edits = line.partition("#")[0].partition(": ")
        if row and not set(edits.split(", ")) <= each_time:
            found.append(f"tools/wrong_bodies.txt: {row}: the gate does not try each of {edits} each time")
    return found


def look():
    """Prints what is at fault by the texts alone, and the processor seconds of each tenth by tools/edit_costs.txt: of its own crates, and
    of the edits of each time of all others. Gives how many faults there are."""
    told = faults()
    print(*told, sep="\n", end="\n" if told else "")
    for tenth in range(10):
        seconds, names = {True: 0.0, False: 0.0}, names_of(tenth)
        for crate in sorted({crate_of(name) for name in names}):
            begin, each = costs().get(crate, ELSE)
            work = work_of(pathlib.Path("crates"), "wrong-bodies", names, crate)
            is_own = any(crate_of(name) == crate for name in TENTHS[tenth])
            seconds[is_own] += sum(begin + each * len(group) for group in work.first + work.others)
        print(f"tenth {tenth}: {seconds[True]:.0f} processor seconds, and {seconds[False]:.0f} of other crates: {', '.join(TENTHS[tenth])}")
    return len(told)


def names_of(tenth):
    """What the gate tries: the crates of a tenth, and of all others the wrong bodies that are tried each time."""
    crates = sorted({edit.parts[1] for edit in pathlib.Path("crates").glob("*/wrong-bodies/*.edit")})
    listed = {name.split()[0] for names in TENTHS for name in names}
    new = [crate for crate in crates if crate not in listed and zlib.crc32(crate.encode()) % 10 == tenth]
    whole = [*TENTHS[tenth], *new]
    return [*whole, *(f"{crate} gate" for crate in crates if crate not in whole)]


def named(folder, kind, name):
    """The wrong bodies that a name stands for: CRATE, CRATE/WRONG_BODY, CRATE PART/PARTS, or CRATE gate."""
    word, _, part = name.partition(" ")
    edits = sorted((folder / kind).glob(f"{word.partition('/')[2] or '*'}.edit"))
    if part == "gate":
        edits = [edit for edit in edits if is_gate(edit)]
    elif part:
        one, _, parts = part.partition("/")
        edits = [edit for edit in edits if zlib.crc32(edit.stem.encode()) % int(parts) == int(one) - 1]
    return edits


if __name__ == "__main__":
    main(sys.argv[1:])
