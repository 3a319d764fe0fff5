"""A client of `mvd serve --http`, with the standard library alone.

    from mvd import Client

    db = Client(["http://127.0.0.1:7080", "http://127.0.0.1:7081"], token="..")
    ada = db.get("ada")                            # .context, .siblings, .documents
    ada = db.put("ada", {"city": "Oslo"}, ada)     # in place of what was read; what it gives may be written with next
    db.resolve("ada", keep_both)                   # where there are several documents
"""
from .client import Change, Client, Refused, Sibling, State, Unknown, Unreachable, Written, compact
from .merges import add_count, count_of, greatest, keep_both, merge_counts

__all__ = ["Change", "Client", "Refused", "Sibling", "State", "Unknown", "Unreachable", "Written", "compact",
           "add_count", "count_of", "greatest", "keep_both", "merge_counts"]
