#!/usr/bin/env python3
"""Counts the definitions that one must believe to read a contract: those that its clauses name, and all that these name in turn.

usage, at the repository's top: tools/closure.py                   each call of the table of docs/THEOREM.md, beside its bound
                                tools/closure.py [--names] CALL..  these calls; with --names each definition, file by file

A CALL is CRATE/src/FILE.rt:FUNCTION, or CRATE/src/FILE.rt:TYPE::FUNCTION; with /CLAUSE behind it that clause alone counts. A line tells
the definitions, their lines without comments, and the files and crates that hold them. Not counted are Rust types, and what std and the
kit's crates define. The text alone is read: a word counts as a name where its file declares or imports one that is spelled so. A name that
no file declares is told as missing, and then the tool ends with 1; so it does where a call of the table has more than its bound.
tools/dom.py shows what stands behind which definition.
"""
import functools
import pathlib
import re
import sys

TOP = pathlib.Path(__file__).resolve().parent.parent
CRATES = TOP / "crates"
WORD = r"[A-Za-z_ℕℤ][A-Za-z0-9_ℕℤ']*"
TABLE = re.compile(r"^\| `[\w:]+` \| `([\w/]+\.rt:[\w:/]+)` \| (\d+) \|$", re.M)


class Page:
    """A file of specs/: what it declares, and what it imports under which name."""

    def __init__(self, text):
        self.lines_of, self.owner_of, self.imports, self.aliases, self.passed_on = {}, {}, {}, {}, []
        text = re.sub(r"(?m)^((?:pub )?use [^\n]*\{)([^}]*)\}", lambda it: it[1] + " ".join(it[2].split()) + "}", text)
        name, indent = None, 0
        for line in text.split("\n"):
            depth = len(line) - len(line.lstrip())
            line = re.sub(r"(^|\s)--.*", "", line)
            used = re.match(r"\s*(pub )?use Rattle\.([^\s{]+?)(?:\.\{(.*)\}| as (\S+))?$", line)
            if used:
                self.take_in(*used.groups())
                name = None
            elif re.match(r"\s*(abbrev|unfoldable) mutual$|\s*module _ ", line):
                name = None
            elif line.strip():
                found = declared(line)
                if found and (name is None or depth <= indent or not re.match(r"\s*pub \S+ :", line)):
                    name, indent = found, depth
                if name:
                    self.lines_of.setdefault(name, []).append(line)
        for name, lines in self.lines_of.items():
            if re.match(r"\s*(pub )?data ", lines[0]):
                self.owner_of.update({case: name for case in re.findall(rf"(?m)^\s+({WORD}) :", "\n".join(lines[1:]))})

    def take_in(self, passed, path, names, alias):
        if names is not None:
            for item in names.split(","):
                name, _, other = item.strip().partition(" as ")
                self.imports[other or name] = (path, name)
        elif alias:
            self.aliases[alias] = path
        elif passed:
            self.passed_on.append(path)

    def words(self, text):
        """What a text of this file names: as (path, name), or (None, name) of the file itself."""
        # (a field behind a dot, a field's label, and what a λ binds are no names)
        bare = re.sub(rf"\.{WORD}", "", text)
        bare = re.sub(rf"(?m)^(\s*pub ){WORD} :", r"\1:", bare)
        bare = re.sub(rf"(record \w* ?\{{|;)\s*{WORD} = ", r"\1 ", bare)
        bare = re.sub(rf"λ ({WORD} ?)+\.", " ", bare)
        for word in set(re.findall(WORD, bare)):
            if word in self.lines_of or word in self.owner_of:
                yield None, self.owner_of.get(word, word)
            elif word in self.imports:
                yield self.imports[word]
        for word in [*self.lines_of, *self.imports]:
            if "◌" in word and f" {word.strip('◌')} " in bare:
                yield self.imports.get(word, (None, word))
        for alias, path in self.aliases.items():
            yield from ((path, name) for name in set(re.findall(rf"\b{alias}\.({WORD})", text)))


def declared(line):
    """The name that a line declares, if it does: a definition, a record, a type, or what a block of definitions has."""
    found = re.match(rf"\s*pub +(?:record|data) +({WORD})", line)
    found = found or re.match(r"\s*(?:(?:abbrev|unfoldable) +(?:pub +)?|pub +(?!use|mod))(\S+) :", line)
    return found and found[1]


@functools.lru_cache(None)
def page(file):
    return Page((CRATES / file).read_text()) if (CRATES / file).is_file() else None


def resolved(path, name, depth=0):
    """The definition that a path and a name mean, as (file, name); ('', name) of what is not ours, ('?', path) of what is not there."""
    crate, *rest = path.split(".")
    if not crate.startswith("mvd") or "declared" in rest:
        return "", name
    file = "/".join([crate, *rest]) + ".antt"
    its = page(file)
    if its is None:
        # (a crate may pass on the file of another)
        passed = page(f"{crate}/{rest[0]}/Lib.antt")
        others = [other for other in (passed.passed_on if passed else []) if other.split(".")[-1] == rest[-1]]
        return resolved(others[0], name, depth + 1) if others and depth < 9 else ("?", f"{path}.{name}")
    if name in its.lines_of or name in its.owner_of:
        return file, its.owner_of.get(name, name)
    if name in its.imports and depth < 9:
        return resolved(*its.imports[name], depth + 1)
    return "?", f"{path}.{name}"


@functools.lru_cache(None)
def names_in(definition):
    """What a definition names."""
    file, name = definition
    its = page(file)
    found = {(file, word) if path is None else resolved(path, word) for path, word in its.words("\n".join(its.lines_of[name]))}
    return {it for it in found if it[0]}


def closure(definitions):
    found, todo = set(), list(definitions)
    while todo:
        it = todo.pop()
        if it not in found:
            found.add(it)
            todo += names_in(it) if it[0] != "?" else []
    return found


def begins_body(line):
    """Whether a function's body begins at the end of a line: so it has no clauses."""
    return line.endswith(" {") and re.match(r"\s*(requires|ensures)", line) is None


def contract_of(lines, function):
    """The lines of a function's clauses."""
    owner, begun = "", None
    for number, line in enumerate(lines):
        head = re.match(r"(?:pub(?:\(\w+\))? )?(?:unsafe )?(?:impl|trait)\b\s*(?:<(?:[^<>]|<[^<>]*>)*>)?\s*(?:[\w:<>, ]+ for )?(\w+)", line)
        owner = head[1] if head else owner
        told = re.match(r"(\s*)(?:pub(?:\(\w+\))? )?(?:const )?(?:unsafe )?fn (\w+)", line)
        if told and function in (told[2], f"{owner}::{told[2]}"):
            begun, indent = number, told[1]
        if begun is not None and (re.match(rf"{indent}\{{(\}}|$)", line) or line.endswith(";") or begins_body(line)):
            return lines[begun:number]
    raise LookupError(f"no function {function}")


def named_by(call):
    """The definitions that the clauses of a call name."""
    file, _, function = call.partition(":")
    function, _, clause = function.partition("/")
    text = (CRATES / file).read_text()
    uses = Page("\n".join(re.findall(r"(?m)^\s*ghost (use .*?);", text)))
    contract = "\n".join(re.sub(r"\s*//.*", "", line) for line in contract_of(text.split("\n"), function))
    clauses = re.findall(r"(?ms)^\s*(?:requires|ensures)\s*(\w*)\s*(\{.*?)(?=^\s*(?:requires|ensures)\b|\Z)", contract)
    texts = [told for name, told in clauses if clause in ("", name)]
    if not texts:
        raise LookupError("no such clause")
    return {it for path, word in uses.words("\n".join(texts)) if (it := resolved(path, word))[0]}


def line_count(definition):
    return len(page(definition[0]).lines_of[definition[1]])


def measured(call):
    """The definitions behind a call, and the names that are missing."""
    found = closure(named_by(call))
    return {it for it in found if it[0] != "?"}, sorted(it[1] for it in found if it[0] == "?")


def bounds(text):
    """The calls of the table of docs/THEOREM.md, each with its bound."""
    return [(call, int(most)) for call, most in TABLE.findall(text)]


def faults(text):
    """What is wrong with the calls of that table: fewer than ten, more definitions than their bound, or names that are missing."""
    told = [] if len(bounds(text)) >= 10 else ["fewer than ten calls with a bound"]
    for call, most in bounds(text):
        try:
            found, missing = measured(call)
        except LookupError as it:
            told.append(f"{call}: {it}")
            continue
        if len(found) > most:
            told.append(f"{call}: {len(found)} definitions, and at most {most}: believe fewer, or raise the bound and say why")
        told += [f"{call}: no definition {name}" for name in missing]
    return told


def main(words):
    calls = [word for word in words if word != "--names"]
    most = dict(bounds((TOP / "docs/THEOREM.md").read_text()))
    status = 0
    for call in calls or most:
        try:
            found, missing = measured(call)
        except (LookupError, OSError) as it:
            sys.exit(f"{call}: {it}")
        files = {file for file, _ in found}
        crates = {file.split("/")[0] for file in files}
        bound = f" of at most {most[call]}" if call in most else ""
        print(f"{call}: {len(found)} definitions{bound}, {sum(map(line_count, found))} lines, {len(files)} files, {len(crates)} crates")
        for file in sorted(files) if "--names" in words else []:
            print(f"  {file}: {' '.join(sorted(name for its, name in found if its == file))}")
        for name in missing:
            print(f"  missing: {name}")
        if missing or len(found) > most.get(call, len(found)):
            status = 1
    return status


if __name__ == "__main__":
    if "--help" in sys.argv:
        sys.exit(__doc__)
    sys.exit(main(sys.argv[1:]))
