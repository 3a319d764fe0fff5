"""Merges that work: each gives the same whatever the order of the documents, and however often one of them comes.

So whoever resolves, and wherever, comes to the same document. They are those of clients/js; docs/OFFLINE.md says which is for what.
"""
import json


def compact(document):
    """A document's compact text, with its names in the order of their bytes."""
    return json.dumps(document, sort_keys=True, separators=(",", ":"), ensure_ascii=False, allow_nan=False)


def keep_both(documents):
    """Keeps what each wrote: a member that all have alike stays; where they differ it is the list of all values, and lists are joined."""
    merged = {}
    for name in {name for document in documents for name in document}:
        values = [document[name] for document in documents if name in document]
        if len({compact(value) for value in values}) == 1:
            merged[name] = values[0]
        else:
            items = {compact(item): item for value in values for item in (value if isinstance(value, list) else [value])}
            merged[name] = [items[text] for text in sorted(items)]
    return merged


def greatest(documents, field):
    """The document whose whole number `field` is the greatest; of several the one whose text is."""
    def rank(document):
        number = document.get(field)
        whole = isinstance(number, int) and not isinstance(number, bool)
        return (whole, number if whole else 0, compact(document))
    return max(documents, key=rank)


def merge_counts(documents):
    """A set in which each thing has a count for each writer: {thing: {writer: [added, taken]}}, whose numbers only grow."""
    merged = {}
    for document in documents:
        for thing, writers in document.items():
            mine = merged.setdefault(thing, {})
            for writer, (added, taken) in writers.items():
                before = mine.get(writer, [0, 0])
                mine[writer] = [max(before[0], added), max(before[1], taken)]
    return merged


def add_count(document, writer, thing, count):
    """The set after its writer added so many of a thing, or, where `count` is negative, took them."""
    added, taken = document.get(thing, {}).get(writer, [0, 0])
    pair = [added + count, taken] if count > 0 else [added, taken - count]
    return {**document, thing: {**document.get(thing, {}), writer: pair}}


def count_of(document, thing):
    """How many of a thing there are."""
    return sum(added - taken for added, taken in document.get(thing, {}).values())
