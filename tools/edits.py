"""What an edit changes, by its text: the functions of a crate, and which edits one check can try together."""
import functools
import re

FN = re.compile(r"^( *)(?:pub(?:\([a-z]+\))? )?(?:const )?(?:unsafe )?fn (\w+)")
HEAD = re.compile(r"(?:unsafe )?(?:impl|(?:pub(?:\(\w+\))? )?trait)\b")
OWNER = re.compile(HEAD.pattern + r"\s*(?:<(?:[^<>]|<[^<>]*>)*>)?\s*(?:(?:\w+::)*(\w+)(?:<.*?>)? for )?(?:\w+::)*(\w+)(<[^{]*>)?")


def pairs_of(edit):
    """The changes of an edit: of each its file, the old text and the new one."""
    found, path, old = [], "", ""
    for line in edit.read_text().split("\n"):
        if line.startswith("file: "):
            path = line[6:].strip()
        elif line.startswith("old: "):
            old = line[5:]
        elif line.startswith("new:"):
            found.append((path, old, line[4:].removeprefix(" ")))
    return found


def function_at(text, at):
    """The function that stands around a position of a file: TYPE::NAME of a method, with the trait's name behind the type's where it is a
    trait's, and ?::NAME where that is none of a plain type; `const NAME` of a constant; and '' elsewhere."""
    lines = text[: text.find("\n", at) + 1 or None].rstrip("\n").split("\n")
    constant = re.match(r"(?:pub(?:\([a-z]+\))? )?(const|static|use|type) (\w+)", lines[-1])
    if constant:
        return f"const {constant.group(2)}" if constant.group(1) == "const" else ""
    at, told = next(((at, FN.match(lines[at])) for at in reversed(range(len(lines))) if FN.match(lines[at])), (0, None))
    if told is None or not told.group(1):
        return told.group(2) if told else ""
    line = next(line for line in reversed(lines[:at]) if HEAD.match(line))
    head = OWNER.match(line)
    if head is None or " for " in line and not head.group(1) or "<" in (head.group(3) or "")[1:]:
        return f"?::{told.group(2)}"
    return f"{head.group(2)}{head.group(1) or ''}::{told.group(2)}"


def module_of(path):
    return "::".join(it for it in path.removeprefix("src/").removesuffix(".rt").split("/") if it not in ("lib", "main", "mod"))


@functools.lru_cache(None)
def declared_in(folder):
    """The module in which each type of a crate is declared: there a check has the type's own methods."""
    found = {}
    for file in sorted(folder.glob("src/**/*.rt")):
        for name in re.findall(r"(?m)^(?:pub(?:\(\w+\))? )?(?:struct|enum|trait) (\w+)", file.read_text()):
            found.setdefault(name, module_of(str(file.relative_to(folder))))
    return found


def told_as(folder, path, function):
    """A function's name as a check prints it behind the crate's."""
    owner, _, name = function.rpartition("::")
    module = declared_in(folder).get(owner, module_of(path))
    return "::".join(it for it in (module, owner, name) if it)


def asked_for(folder, path, function):
    """What is checked where a function was changed: itself, or its module; where it is a constant, the modules that name it."""
    if function.startswith("?"):
        return [module_of(path)]
    if not is_outside(function):
        return [told_as(folder, path, function)]
    texts = [(file, file.read_text()) for file in sorted(folder.glob("src/**/*.rt"))]
    # (a check knows no module without a function)
    files = [file for file, text in texts if re.search(rf"\b{function.split()[1]}\b", text) and any(map(FN.match, text.split("\n")))]
    return [module_of(str(file.relative_to(folder))) for file in files if module_of(str(file.relative_to(folder)))]


def is_hit(name, folder, path, function, told):
    """Whether a check that leaves a name open refuses the change of a function."""
    # (a member of a cycle of calls is told by the cycle's name)
    whole = told_as(folder, path, function)
    in_module = name.startswith(module_of(path)) and name.endswith(function[1:]) and function.startswith("?")
    return is_outside(function) or name == whole or in_module or "+" in name and whole not in told


def applied(texts, edit, folder):
    """The texts with an edit's changes, and the functions that it changes; None where an old text does not stand once."""
    after, changed = dict(texts), set()
    for path, old, new in pairs_of(edit):
        text = after.get(path) or (folder / path).read_text()
        if text.count(old) != 1:
            return None
        changed.add((path, function_at(text, text.find(old))))
        after[path] = text.replace(old, new)
    return after, changed


def clash(some, others):
    """Whether two edits change one function, or one of them what stands outside of functions, on which any function may rest."""
    return any(is_outside(name) or is_outside(its) or (path, name) == (other, its) for path, name in some for other, its in others)


def is_outside(name):
    return not name or name.startswith("const ")


def groups_of(edits, folder):
    """The edits in groups: those of one group change different functions. Each group is a list of edits with their functions; behind the
    groups come the edits that cannot be applied."""
    groups, left = [], list(edits)
    while left:
        texts, taken, group, later = {}, set(), [], []
        for edit in left:
            made = applied(texts, edit, folder)
            if made is None or clash(made[1], taken):
                later.append(edit)
                continue
            texts, taken = made[0], taken | made[1]
            group.append((edit, made[1]))
        if not group:
            break
        groups.append(group)
        left = later
    return groups, left


def is_gate(edit):
    return edit.read_text().startswith("gate:")
