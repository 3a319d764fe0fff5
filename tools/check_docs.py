#!/usr/bin/env python3
"""Checks what the documents name, and how long they are.

usage: tools/check_docs.py [FILE..]      (without a file: every page of the repository)

In each page it looks at the texts between backquotes, at file names that stand without them (docs/NAME.md), at the sections that it
names (docs/NAME.md, "SECTION"), at the width of lines and the length of sentences. A file, a folder or a crate has to be there. A name that looks like a function or a type has to be one:
a word of the code outside comments and texts; behind `Type::` a member of that type, behind `module::` a name of that module. Any
other word has to stand somewhere in the code, the specs, the proofs, the tools or the examples, or in the list below.

CONTRIBUTING.md has to name each file that tools/places.py prints, and each file of its lists under its crate. The floors of
docs/ARCHITECTURE.md have to be those of crates.txt, and the lines of docs/GATE.md those of tools/lanes.py. No call of the table of
docs/THEOREM.md has more definitions behind it than its bound (tools/closure.py). What looks like a name in a picture is looked up too.
Each page keeps its length. Prints a line for each fault, and ends with 1 if there is one.

Without a file it first breaks each rule in a copy of a page, and ends with 1 where that is not refused.
"""
import pathlib
import re
import subprocess
import sys

sys.dont_write_bytecode = True
import closure
import places

TOP = pathlib.Path(__file__).resolve().parent.parent
# The pages that are looked at in place of those that are there.
COPIES = {}
WIDTH = 100
SENTENCE = 45
# The most lines of a page, of a crate's page, and of all pages of docs/ together.
LINES = {"README.md": 174, "docs/THEOREM.md": 120, "docs/PROOFS.md": 150}
CRATE_LINES = 30
# Of those of docs/, 190 are docs/OFFLINE.md, and 160 "A back end" and "Behind a proxy" of docs/USING.md, whose blocks are files.
DOCS_LINES = 3940
# Words of other projects, of the toolchain, of HTTP and of the command line that no file of ours has as a name.
FOREIGN = {
    "rt", "cargo", "valgrind", "perf", "top", "du", "sqlite3", "taskset", "sha256sum", "curl", "chromium", "python3", "Wait",
    "Allow", "chunked", "Wary", "core.hooksPath", "NAME", "Retry-After",
}
CODE = (".rt", ".antt", ".py", ".sh", ".txt", ".edit", ".mvd", ".toml", ".rs", ".html", ".js", ".mjs", ".ts", ".conf", ".cfg", ".service")
NAME = r"[A-Za-z_][A-Za-z0-9_]*"


class Code:
    """The words of the code: all of them; those outside comments and texts; of each type its members, of each module its names."""

    def __init__(self, names):
        self.paths, self.words, self.declared, self.called = "", set(), set(), set()
        self.members, self.modules, self.sources = {}, {}, {}
        for name in names:
            self.words.update(re.findall(r"[A-Za-z_][A-Za-z0-9_-]*", name))
            if name.endswith(CODE) or "/" in name and name.split("/")[0] in (".ci", "tools"):
                self.read(name, (TOP / name).read_text(errors="replace"))

    def read(self, name, text):
        self.words.update(re.findall(NAME + r"(?:-[A-Za-z0-9_]+)*", text))
        self.words.update(re.findall(NAME, text))
        if name.endswith(".rt"):
            bare = re.sub(r"b?'(?:\\.|[^'\\])'", "''", re.sub(r"//.*", "", text))
            bare = re.sub(r'"(?:[^"\\]|\\.)*"', '""', bare, flags=re.S)
            self.read_code(name, bare)
        elif name.endswith(".antt"):
            bare = re.sub(r"(^|\s)--.*", "", text)
            self.declared.update(re.findall(NAME + r"(?:-[A-Za-z0-9_]+)*", bare))
        else:
            self.declared.update(re.findall(NAME, text))
            return
        self.declared.update(re.findall(NAME, bare))

    def read_code(self, name, bare):
        """The members of each type that stands in a file, and the names of its module and its crate."""
        crate, stem = name.split("/")[1], pathlib.Path(name).stem
        self.called.update(re.findall(r"\b(\w+)::(\w+)", bare))
        found = set(re.findall(r"(?:fn|struct|enum|trait|const|type|mod|static) (\w+)", bare))
        self.modules.setdefault(stem, {}).setdefault(crate, set()).update(re.findall(NAME, bare))
        passed = " ".join(re.findall(r"^pub use ([^;]*);", bare, re.M))
        self.sources.setdefault(crate, set()).update({stem} | found | set(re.findall(r"\w+", passed)))
        for head, body in re.findall(r"^((?:pub(?:\(crate\))? )?(?:unsafe )?(?:impl|trait|enum|struct)\b[^;{]*)\{\n(.*?)^\}", bare, re.M | re.S):
            kind = re.sub(r"<.*", "", re.sub(r"^(?:pub(?:\(crate\))? )?(?:unsafe )?\w+\s*(?:<(?:[^<>]|<[^<>]*>)*>)?\s*", "", head))
            whose = re.search(r"\bfor (\w+)", head) if "impl" in head else None
            for owner in {whose.group(1) if whose else kind.strip(), kind.strip()}:
                here = self.members.setdefault(owner, set())
                here.update(re.findall(r"^    (?:pub(?:\(crate\))? )?(?:ghost |const )?(?:fn )?(\w+)", body, re.M))

    def unknown(self, text, crate):
        """The faults of a text between backquotes, which is no path."""
        if re.search(r"[^A-Za-z0-9_:.\-<>(),&'*\[\]; ]", text) or " " in text:
            return []
        faults = [f"no {whose}::{word}" for whose, word in re.findall(r"\b(\w+)::(\w+)", text) if not self.has(whose, word, crate)]
        for word in re.findall(NAME + r"(?:-[A-Za-z0-9_]+)*", text):
            if not self.is_known(word):
                faults.append(f"no name {word}")
        return faults

    def has(self, whose, word, crate):
        """Whether a word is one of a crate, a module or a type; of those that are not ours, any word is."""
        if (whose, word) in self.called:
            return True
        if whose in self.sources:
            return word in self.sources[whose]
        if whose in self.modules:
            there = self.modules[whose]
            return word in there.get(crate, set()) if crate in there else any(word in words for words in there.values())
        return word in self.members[whose] if whose in self.members else True

    def is_known(self, word):
        """A word that ends with _ stands for all that begin so; goals of proofs and the kit's name are the toolchain's."""
        if word in FOREIGN or len(word) < 3 or word.isupper() or re.match(r"[A-Z]+-|returns-|rattle-kit-", word):
            return True
        if word.endswith("_"):
            return any(known.startswith(word) for known in self.declared)
        if re.fullmatch(r"mvd_\w+", word):
            return word in self.sources or word in self.declared
        looks_declared = "_" in word.strip("_") or re.match(r"[A-Z][a-z]", word) and "-" not in word
        return word in (self.declared if looks_declared else self.words)


def page(path):
    return COPIES.get(path) or (TOP / path).read_text()


def is_path(token):
    return re.fullmatch(r"[A-Za-z0-9_.+-]*(/[A-Za-z0-9_.+*-]+)+/?|[A-Za-z0-9_-]+\.(rt|antt|md|sh|py|mvd|txt|edit)", token) is not None


def path_is_there(token, names):
    """A path counts from the top, from crates/, from a crate, or from a folder of one."""
    token = token.rstrip("/")
    if "/out/" in token or token.startswith(("target/", "out/")):
        return True  # made by a build
    pattern = re.sub(r"NAME|MODULE|FUNCTION|TYPE|METHOD", r"[^/\\n]+", re.escape(token).replace(r"\*", r"[^/\n]*"))
    return re.search(r"(?:^|/)" + pattern + r"(?:$|/|\.antt$|\.rt$)", names, re.M) is not None


def tokens(line):
    for text in re.findall(r"`([^`]+)`", line):
        yield text
    for text in re.findall(r"(?<![`\w/])((?:docs|tools|crates|examples|specs|src|proofs)/[A-Za-z0-9_/.-]*[A-Za-z0-9_])", line):
        yield text


def prose(path):
    """The lines of a page outside blocks, with their numbers."""
    in_block = False
    for number, line in enumerate(page(path).splitlines(), 1):
        if line.lstrip().startswith("```"):
            in_block = not in_block
        elif not in_block:
            yield number, line


def long_sentences(path):
    """The sentences that have too many words; a text between backquotes is one word. A table has none."""
    faults, part, begun = [], [], 1
    for number, line in [*prose(path), (0, "")]:
        if not line.strip() or re.match(r"\s*(-|\d+\.|>) |[#|]", line):
            for sentence in re.split(r"(?<=[.!?])[*_)\"]*\s+", " ".join(part)):
                if len(sentence.split()) > SENTENCE:
                    faults.append(f"{path}:{begun}: {len(sentence.split())} words: {sentence[:60]}..")
            part, begun = [], number
        if line.strip() and not re.match("[#|]", line):
            part.append(re.sub(r"`[^`]+`", "x", line))
    return faults


def misnamed(path, code):
    """The names of code in a page's pictures that are not there."""
    pictures = "".join(re.findall(r"^```mermaid\n(.*?)^```", page(path), re.M | re.S))
    names = re.findall(r"\b(?:\w+::)?\w*[a-z]_\w+\b|\b\w+::\w+", pictures)
    return [f"{path}: {fault} (in a picture)" for name in names for fault in code.unknown(name, "")]


def check(path, code):
    faults = []
    crate = path.split("/")[1] if path.startswith("crates/") else ""
    for number, line in prose(path):
        if len(line) > WIDTH and not line.startswith("|") and "](" not in line:
            faults.append(f"{path}:{number}: {len(line)} columns")
        for text in tokens(line):
            if is_path(text):
                if not path_is_there(text, code.paths):
                    faults.append(f"{path}:{number}: no file {text}")
                continue
            faults += [f"{path}:{number}: {fault} (in `{text}`)" for fault in code.unknown(text, crate)]
        for target in re.findall(r"\]\(([^)#]+)\)", line):
            if "://" not in target and not ((TOP / path).parent / target).exists() and not (TOP / target).exists():
                faults.append(f"{path}:{number}: no link {target}")
    return faults + long_sentences(path) + lost_sections(path) + misnamed(path, code)


def headings(path):
    """The headings of a page, and the words that begin a paragraph in bold."""
    if not (TOP / path).is_file():
        return set()
    return {found.strip("*. ") for _, line in prose(path) for found in re.findall(r"^#+ (.*)|^\s*(?:- )?\*\*([^*]+)\*\*", line) for found in found if found}


def lost_sections(path):
    """The sections of other pages that a page names, as docs/OPEN.md, "Counts", and that are not there."""
    text = " ".join(re.sub(r"^\s*(?:- |> )?", "", line) for _, line in prose(path))
    faults = []
    for named_page, titles in re.findall(r'((?:[a-z]+/)*[A-Z]+\.md),? ("[^"]+"(?:(?:,| and) "[^"]+")*)', text):
        there = headings(named_page)
        named = [title.strip(".,") for title in re.findall(r'"([^"]+)"', titles)]
        faults += [f'{path}: no section "{title}" of {named_page}' for title in named if not any(it.startswith(title) for it in there)]
    return faults


def too_long(names):
    """The pages that have more lines than they may."""
    count = {name: page(name).count("\n") for name in names if name.endswith(".md")}
    most = {name: LINES.get(name, CRATE_LINES if re.fullmatch(r"crates/\w+/README\.md", name) else None) for name in count}
    faults = [f"{name}: {count[name]} lines, and at most {most[name]}" for name in count if most[name] and count[name] > most[name]]
    told = sum(lines for name, lines in count.items() if re.fullmatch(r"docs/[^/]*\.md", name))
    return faults + ([f"docs/: {told} lines, and at most {DOCS_LINES}"] if told > DOCS_LINES else [])


def listed_places(*sections):
    """The files that the lists of CONTRIBUTING.md name, as CRATE/FILE. A name without a crate is of the crate of the last heading
    (**4. `mvd_kept`**), or of the last name that has one."""
    lists = page("CONTRIBUTING.md")
    text = "".join(lists.split(f"## {section}\n", 1)[1].split("\n## ", 1)[0] for section in sections)
    crate, listed = "", set()
    for heading, name in re.findall(r"\*\*\d+\. `(mvd_\w+)`|`([\w/]+\.(?:rt|antt))`", re.sub(r"```.*?```", "", text, flags=re.S)):
        if name.startswith("mvd_"):
            crate = name.split("/")[0]
        crate = heading or crate
        if name:
            listed.add(f"{crate}/{name.rsplit('/', 1)[-1]}")
    return listed


def unlisted_places():
    """The files that go through all requests, replies or lines, and that the lists of CONTRIBUTING.md leave out."""
    listed = listed_places("A new request")
    files = {path for name in places.DECLARED for path, _ in places.places_of(name)}
    return [f"CONTRIBUTING.md: no {path}" for path in sorted(files) if f"{path.split('/')[0]}/{path.rsplit('/', 1)[1]}" not in listed]


def misplaced(names):
    """The files that those lists name and that are in another crate, or in none."""
    there = {f"{name.split('/')[1]}/{name.rsplit('/', 1)[1]}" for name in names if name.startswith("crates/")}
    listed = listed_places("A new request", "A new option of a command")
    return [f"CONTRIBUTING.md: no file {name} in that crate" for name in sorted(listed - there)]


def floors_drawn():
    """The crates of the picture of docs/ARCHITECTURE.md, floor by floor from the top, each floor from left to right."""
    picture = page("docs/ARCHITECTURE.md").split("## The floors\n\n```floors\n", 1)[1].split("```", 1)[0]
    drawn = [name for line in picture.splitlines() for name in re.split(r"\s{2,}", line)[1].split(" · ")]
    return [name if name == "mvd" else f"mvd_{name}" for name in drawn]


def floors_of_graph():
    """The crates of the second picture, in the same order: its nodes are the floors."""
    graph = page("docs/ARCHITECTURE.md").split("```mermaid\n", 1)[1].split("```", 1)[0]
    drawn = [name for floor in re.findall(r'\["[a-z ]+: ([^"]*)"\]', graph) for name in re.split(r" · |<br>", floor)]
    return [name if name == "mvd" else f"mvd_{name}" for name in drawn]


def misdrawn():
    """The crates that the picture makes up, and those that use a crate which is not drawn below them or to their right."""
    uses = {}
    for line in (TOP / "crates.txt").read_text().splitlines():
        name, colon, used = line.split("#")[0].partition(":")
        if colon and not name.endswith("_tests"):
            uses[name] = used.split()
    drawn = floors_drawn()
    faults = [] if floors_of_graph() == drawn else ["draws two pictures of the floors that differ"]
    faults += [f"draws {name}, which is no crate" for name in drawn if name not in uses]
    faults += [f"does not draw {name}" for name in uses if name not in drawn]
    for at, name in enumerate(drawn):
        faults += [f"draws {name} below {used}, which it uses" for used in uses.get(name, []) if used in drawn[: at + 1]]
    return [f"docs/ARCHITECTURE.md {fault}" for fault in faults]


def miscounted():
    """Whether docs/GATE.md has just the lines that tools/lanes.py makes of tools/costs.txt."""
    made = subprocess.run([sys.executable, "tools/lanes.py", "tools/costs.txt", "--page"], cwd=TOP, capture_output=True, text=True).stdout
    return [] if f"--page -->\n\n{made}\n<!-- end -->" in page("docs/GATE.md") else ["docs/GATE.md: other lines than tools/lanes.py tools/costs.txt --page makes"]


def faults_of(documents, names, code):
    faults = [fault for path in documents for fault in check(path, code)] + too_long(names)
    if "CONTRIBUTING.md" in documents:
        faults += unlisted_places() + misplaced(names)
    if "docs/ARCHITECTURE.md" in documents:
        faults += misdrawn()
    if "docs/GATE.md" in documents:
        faults += miscounted()
    if "docs/THEOREM.md" in documents:
        faults += [f"docs/THEOREM.md: {fault}" for fault in closure.faults(page("docs/THEOREM.md"))]
    return faults


# Of each rule a page, what stands there, what breaks the rule in its place (behind the page, where nothing stands there), and the fault.
# (A name that stands here in one piece would be a name of the tools.)
BROKEN = [
    ("README.md", "", "\n" * 174, "lines, and at most 174"),
    ("crates/mvd_keys/README.md", "", "\n" * 30, "lines, and at most 30"),
    ("docs/USING.md", "", "\n" * DOCS_LINES, f"lines, and at most {DOCS_LINES}"),
    ("docs/USING.md", "", "\n" + "a word " * 22 + "\nand two more.\n", "47 words"),
    ("docs/USING.md", "", "\n" + "x" * 101 + "\n", "101 columns"),
    ("docs/USING.md", "", "\n`no_such_" "call`\n", "no name no_such_" "call"),
    ("docs/USING.md", "", "\n`NoSuch" "Type`\n", "no name NoSuch" "Type"),
    ("docs/USING.md", "", "\n`Site::no_call`\n", "no Site::no_call"),
    ("docs/USING.md", "", "\nThe file docs/NOWHERE.md says it.\n", "no file docs/NOWHERE.md"),
    ("docs/USING.md", "", "\nSee docs/OPEN.md, \"No such section\".\n", 'no section "No such section" of docs/OPEN.md'),
    ("docs/USING.md", "", "\nSee [a page](nowhere.md).\n", "no link nowhere.md"),
    ("docs/ARCHITECTURE.md", "install_all: hash tree", "install_" "nobody: hash tree", "no name install_" "nobody (in a picture)"),
    ("docs/ARCHITECTURE.md", "keys · docs · dots", "docs · keys · dots", "draws mvd_keys below mvd_docs, which it uses"),
    ("docs/ARCHITECTURE.md", "· tree ·", "· trees ·", "draws mvd_trees, which is no crate"),
    ("CONTRIBUTING.md", "`mvd_wire/src/request.rt`", "`mvd_docs/src/request.rt`", "no file mvd_docs/request.rt in that crate"),
    ("CONTRIBUTING.md", "`Clashes.antt`, ", "", "no mvd_kept/proofs/Clashes.antt"),
    ("docs/THEOREM.md", "sites.rt:answer` | 2", "sites.rt:answer` | ", "definitions, and at most"),
    ("docs/THEOREM.md", "sites.rt:answer` | 2", "sites.rt:no_such_" "call` | 2", "no function no_such_" "call"),
    ("docs/THEOREM.md", "| `run:", "| ", "fewer than ten calls"),
    ("docs/GATE.md", "| `mvd_dots` | ", "| `mvd_dots` | 9", "other lines than tools/lanes.py"),
]
# What no rule is against: a table's row, and a sentence of 45 words, as long as they like.
SOUND = "\n| " + "a word " * 40 + "|\n\n" + "a word " * 14 + "\n" + "a word " * 8 + "more.\n"


def unrefused(names, code):
    """The rules that a copy of a page broke without a fault."""
    missed = []
    for path, stands, other, wanted in [*BROKEN, ("SECURITY.md", "", SOUND, "")]:
        text = page(path)
        COPIES[path] = text.replace(stands, other) if stands else text + other
        if not any(wanted in fault for fault in faults_of([path], names, code)) if wanted else faults_of([path], names, code):
            missed.append(f"tools/check_docs.py: a copy of {path} that has {other.strip()[:40]!r} is not told {wanted!r}")
        COPIES.clear()
    return missed


def main():
    names = places.tracked()
    documents = sys.argv[1:] or [name for name in names if name.endswith(".md")]
    code = Code([name for name in names if not name.endswith(".md")])
    code.paths = "\n".join(names)
    faults = faults_of(documents, names, code)
    if not faults and not sys.argv[1:]:
        faults = unrefused(names, code)
    print("\n".join(faults) if faults else f"{len(documents)} documents: all that they name is there, and none is too long")
    return 1 if faults else 0


if __name__ == "__main__":
    sys.exit(main())
