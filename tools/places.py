#!/usr/bin/env python3
"""Lists the functions and definitions that go through the cases of a type: a new case has a line in each of them.

usage: tools/places.py [Request|Reply|Ask]      (without a word: all three)

It reads the cases in the file that declares the type, and looks for them in the code (`Request::Row`), and in specs and proofs by the
names under which a file takes them in (`use .. Request.TheVariants ..`). A function or a definition is printed if it names more than
two thirds of the cases. One that names fewer is not: look for those by `git grep -w` of a case that is like the new one.
"""
import pathlib
import re
import subprocess
import sys

TOP = pathlib.Path(__file__).resolve().parent.parent
DECLARED = {
    "Request": "crates/mvd_wire/src/request.rt",
    "Reply": "crates/mvd_wire/src/reply.rt",
    "Ask": "crates/mvd_input/src/command.rt",
}


def tracked():
    """The files of the repository; where git cannot tell them, all that no build made."""
    try:
        out = subprocess.run(["git", "ls-files", "-co", "--exclude-standard"], cwd=TOP, capture_output=True, text=True, check=True)
        names = out.stdout.splitlines()
    except (OSError, subprocess.CalledProcessError):
        paths = [path.relative_to(TOP) for path in TOP.rglob("*")]
        names = [str(path) for path in paths if not {".git", "out", "target", "__pycache__"} & set(path.parts)]
    return [name for name in names if (TOP / name).is_file()]


def cases_of(name):
    body = re.search(r"pub enum %s\b[^{]*\{\n(.*?)\n\}" % name, (TOP / DECLARED[name]).read_text(), re.S).group(1)
    return re.findall(r"^    ([A-Z]\w*)", body, re.M)


def shown_names(text, name, cases):
    """How a spec or a proof calls each case: from the word that stands there to the case."""
    words = {}
    for rest in re.findall(r"^use \S*\.%s\.TheVariants(.*)$" % name, text, re.M):
        listed = re.match(r"\.\{(.*)\}", rest)
        alias = re.match(r" as (\w+)", rest)
        if alias:
            words.update({f"{alias.group(1)}.{case}": case for case in cases})
        elif listed:
            for item in listed.group(1).split(","):
                case, _, other = item.strip().partition(" as ")
                words[other or case] = case
    return words


def in_code(text, name):
    """Of each function the cases that it names."""
    found = {}
    function = "-"
    for line in text.splitlines():
        head = re.match(r"\s*(?:pub(?:\(crate\))? )?(?:const )?fn (\w+)", line)
        function = head.group(1) if head else function
        found.setdefault(function, set()).update(re.findall(r"\b%s::([A-Z]\w*)" % name, line))
    return found


def in_logic(text, words):
    """Of each definition the cases by which its equations go."""
    found = {}
    for line in text.splitlines():
        left = re.match(r"\s*([a-zA-Z_][\w-]*)\s+([^=]*?)=", line)
        if left and not line.startswith("use "):
            for word in re.findall(r"(?<![\w.])[A-Za-z][\w.]*", left.group(2)):
                if word in words:
                    found.setdefault(left.group(1), set()).add(words[word])
    return found


def chained(text, words):
    """A chain of cases, one a line, such as that of a decoder: it has no equation for each."""
    found = {}
    head = "-"
    for line in text.splitlines():
        start = re.match(r"(?:abbrev |unfoldable )?(?:pub )?([a-z]\w*) (?::|=)", line) or re.match(r"([a-z]\w*) =$", line)
        head = start.group(1) if start else head
        if line.startswith("    ") and "tagged" in line:
            for word in re.findall(r"(?<![\w.])[A-Za-z][\w.]*", line):
                if word in words:
                    found.setdefault(head, set()).add(words[word])
    return found


def places_of(name):
    cases = cases_of(name)
    for path in sorted(path for path in tracked() if path.startswith("crates/")):
        text = (TOP / path).read_text() if path.endswith((".rt", ".antt")) else ""
        # (most files name no case)
        if path.endswith(".rt") and f"{name}::" in text:
            found = in_code(text, name)
        elif path.endswith(".antt") and f"{name}.TheVariants" in text:
            words = shown_names(text, name, cases)
            found = in_logic(text, words)
            for function, named in chained(text, words).items():
                found.setdefault(function, set()).update(named)
        else:
            continue
        many = [function for function, named in found.items() if 3 * len(named & set(cases)) > 2 * len(cases)]
        if many:
            yield path.removeprefix("crates/"), many


def main():
    for name in sys.argv[1:] or DECLARED:
        if name not in DECLARED:
            sys.exit(__doc__)
        print(f"{name}: {', '.join(cases_of(name))}")
        for path, functions in places_of(name):
            print(f"  {path}: {', '.join(functions)}")
    return 0


if __name__ == "__main__":
    sys.exit(main())
