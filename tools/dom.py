#!/usr/bin/env python3
"""Shows which definitions behind a contract stand behind one alone: what would leave a reader's sight if that one were opaque.

usage, at the repository's top: tools/dom.py CALL [DEPTH [LEAST]]      (a CALL as tools/closure.py takes it; 4 deep, from 8 definitions on)

The first line counts the definitions and their lines, the next those of each crate. Then a tree, indented: a definition that is behind
another in it is reached from the contract only through that one (it is dominated by it). Each line says how many definitions, with their
lines, would go with it. What is not in the tree is reached in several ways, or has fewer than LEAST.
"""
import collections
import sys

sys.dont_write_bytecode = True
from closure import closure, line_count, named_by, names_in

ROOT = ("", "")


def graph_of(call):
    """Of each definition behind a call those that it names; of ROOT those that the clauses name."""
    first = {it for it in named_by(call) if it[0] != "?"}
    graph = {it: {other for other in names_in(it) if other[0] != "?" and other != it} for it in closure(first) if it[0] != "?"}
    return {ROOT: first, **graph}


def postorder(graph):
    order, seen, path = [], {ROOT}, [(ROOT, iter(sorted(graph[ROOT])))]
    while path:
        at, rest = path[-1]
        for it in rest:
            if it not in seen:
                seen.add(it)
                path.append((it, iter(sorted(graph[it]))))
                break
        else:
            order.append(at)
            path.pop()
    return order


def dominators(graph):
    """Of each definition the nearest one through which every way to it goes (Cooper, Harvey and Kennedy, 2001)."""
    order = postorder(graph)
    number = {it: at for at, it in enumerate(order)}
    before = collections.defaultdict(list)
    for it, others in graph.items():
        for other in others:
            before[other].append(it)
    nearest, changed = {ROOT: ROOT}, True
    while changed:
        changed = False
        for it in reversed(order[:-1]):
            known = [other for other in before[it] if other in nearest]
            best = known[0]
            for other in known[1:]:
                best = common(best, other, nearest, number)
            changed |= nearest.get(it) != best
            nearest[it] = best
    return nearest


def common(one, other, nearest, number):
    while one != other:
        while number[one] < number[other]:
            one = nearest[one]
        while number[other] < number[one]:
            other = nearest[other]
    return one


def weights(order, nearest):
    """Of each definition how many go with it, and their lines."""
    count, lines = collections.Counter(), collections.Counter()
    for it in order[:-1]:
        count[it] += 1
        lines[it] += line_count(it)
        count[nearest[it]] += count[it]
        lines[nearest[it]] += lines[it]
    return count, lines


def main(call, deepest=4, least=8):
    graph = graph_of(call)
    nearest = dominators(graph)
    # (a definition comes before the one that dominates it: it is reached from there)
    count, lines = weights(postorder(graph), nearest)
    below = collections.defaultdict(list)
    for it, other in nearest.items():
        if it != ROOT:
            below[other].append(it)
    print(f"{call}: {count[ROOT]} definitions, {lines[ROOT]} lines")
    of_crate = collections.Counter(file.split("/")[0] for file, _ in graph if file)
    print(", ".join(f"{crate} {number}" for crate, number in of_crate.most_common()))

    def show(at, depth):
        for it in sorted(below[at], key=lambda it: (-count[it], it)):
            if count[it] >= least:
                print(f"{'  ' * depth}{it[0].replace('/specs/', '/').removesuffix('.antt')}: {it[1]}, {count[it]} definitions, {lines[it]} lines")
                if depth < deepest:
                    show(it, depth + 1)

    show(ROOT, 1)


if __name__ == "__main__":
    if len(sys.argv) < 2 or "--help" in sys.argv:
        sys.exit(__doc__)
    main(sys.argv[1], *map(int, sys.argv[2:]))
