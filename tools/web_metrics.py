"""Reads the metrics of a server, as tools/web.py does: the text form of Prometheus, and what its numbers owe each other."""
import re

LINE = re.compile(r'([a-z_]+)(?:\{((?:[a-z]+="[^"\\]*",?)+)\})? ([0-9]+(?:\.[0-9]+)?)')
PARTS = "_bucket", "_sum", "_count"


def samples(text):
    """The number of each line by its name and its labels. Each stands below the HELP and the TYPE of its metric, and once."""
    found, kinds, name = {}, {}, None
    for line in text.splitlines():
        if line.startswith("# HELP "):
            name, told = line[7:].split(" ", 1)
            assert name not in kinds and told.endswith("."), line
        elif line.startswith("# TYPE "):
            assert line[7:].split(" ")[0] == name, line
            kinds[name] = line.split(" ")[3]
        else:
            parts = LINE.fullmatch(line)
            assert parts and name in kinds, line
            names = {name + part for part in PARTS} if kinds[name] == "histogram" else {name}
            at = parts[1], parts[2] or ""
            assert parts[1] in names and at not in found, line
            found[at] = float(parts[3])
    assert set(kinds.values()) == {"gauge", "counter", "histogram"}, kinds
    return found


def check_histogram(found, name, label=""):
    """Its buckets rise to its count, and so do their bounds. Gives the count."""
    rows = [(labels[len(label):], count) for (row, labels), count in found.items() if row == name + "_bucket" and labels.startswith(label)]
    bounds, counts = [float(labels[4:-1]) for labels, _ in rows], [count for _, count in rows]
    count, total = found[name + "_count", label.rstrip(",")], found[name + "_sum", label.rstrip(",")]
    assert len(rows) == 11 and bounds[-1] == float("inf") and bounds == sorted(set(bounds)), bounds
    assert counts == sorted(counts) and counts[-1] == count, (name, label, counts, count)
    assert (total == 0) if count == 0 else (total < 60 * count), (name, label, total)
    return count


def check(text):
    """What holds of each server. Gives the samples."""
    found = samples(text)
    assert check_histogram(found, "mvd_commit_seconds") == found["mvd_commits_total", ""], text
    kinds = [labels[6:-1] for row, labels in found if row == "mvd_request_seconds_count"]
    assert len(kinds) == 14, kinds
    for kind in kinds:
        ended = sum(found["mvd_requests_total", f'kind="{kind}",outcome="{outcome}"'] for outcome in ("done", "refused"))
        assert check_histogram(found, "mvd_request_seconds", f'kind="{kind}",') == ended, (kind, ended)
    return found
