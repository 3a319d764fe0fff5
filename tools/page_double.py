#!/usr/bin/env python3
"""A TEST DOUBLE of `mvd serve --http`: one site over a dictionary, for tools/page.py. It is not mvd.

It answers the HTTP interface as docs/BEHAVIOUR.md describes the site: a multi-value register for each key, with dots and
contexts; indexes, views, keys in conflict, and the hash tree by walking over all keys; changes by the root and the keys
of each write. Nothing is stored. With a token it lets in whoever shows it. It serves the page at `/`.
"""
import contextlib
import functools
import hashlib
import json
import re
import struct
import threading
from http.server import BaseHTTPRequestHandler, ThreadingHTTPServer
from urllib.parse import parse_qs, unquote, urlsplit

NAMES = {1: "BadKey", 2: "BadContext", 3: "BadDocument", 4: "NotObject", 5: "BadNumber", 6: "DocumentTooLong",
         12: "NoIndex", 13: "NoView", 14: "BadPath", 15: "BadTerm", 33: "BadBody", 38: "NotAdmitted"}
ZERO = bytes(32)


class Refused(Exception):
    def __init__(self, number):
        super().__init__(number)
        self.number = number


def read_key(text):
    if not re.fullmatch(r"[!-~]{1,128}", text):
        raise Refused(1)
    return text


def print_context(dots):
    entries = []
    for site in sorted({site for site, _ in dots}):
        counters = sorted(counter for of, counter in dots if of == site)
        base = 0
        while base + 1 in counters:
            base += 1
        entries.append(f"{site}:{base}" + "".join(f"+{counter}" for counter in counters if counter > base))
    return ",".join(entries) or "-"


def read_context(text):
    dots = set()
    for entry in [] if text == "-" else text.split(","):
        found = re.fullmatch(r"(\d{1,10}):(\d{1,6})((?:\+\d{1,15})*)", entry)
        if not found:
            raise Refused(2)
        site = int(found[1])
        dots |= {(site, counter) for counter in range(1, int(found[2]) + 1)}
        dots |= {(site, int(counter)) for counter in found[3].split("+")[1:]}
    if print_context(dots) != text:
        raise Refused(2)
    return dots


def compact(value):
    return json.dumps(value, separators=(",", ":"), sort_keys=True, ensure_ascii=False)


def is_whole(value):
    return isinstance(value, int) and not isinstance(value, bool) and -2**63 <= value < 2**63


def no_number(_):
    raise ValueError


def numbers_are_whole(value):
    if isinstance(value, (dict, list)):
        return all(map(numbers_are_whole, value.values() if isinstance(value, dict) else value))
    return value is None or isinstance(value, (str, bool)) or is_whole(value)


def read_document(body):
    try:
        value = json.loads(body.decode(), parse_constant=no_number)
    except (ValueError, RecursionError):
        raise Refused(3) from None
    if not isinstance(value, dict):
        raise Refused(4)
    if not numbers_are_whole(value):
        raise Refused(5)
    if len(compact(value).encode()) > 65536:
        raise Refused(6)
    return value


def is_term(value):
    if isinstance(value, str):
        return len(value.encode()) <= 512
    return value is None or isinstance(value, bool) or is_whole(value)


def rank(term):
    """What terms are ordered by: null, false, true, numbers, texts."""
    if isinstance(term, str):
        return (4, 0, term.encode())
    return (0, 0, b"") if term is None else (1 + term, 0, b"") if isinstance(term, bool) else (3, term, b"")


def read_term(text):
    try:
        value = json.loads(text, parse_constant=no_number)
    except ValueError:
        raise Refused(15) from None
    if not is_term(value):
        raise Refused(15)
    return value


def at_field(document, field):
    """The value at a field, in a list, or an empty list."""
    for name in field.split("."):
        if not isinstance(document, dict) or name not in document:
            return []
        document = document[name]
    return [document]


def dot_text(dot):
    return f"{dot[0]}:{dot[1]}"


@functools.cache
def place(key):
    return hashlib.sha256(key.encode()).hexdigest()[:3]


class Site:
    """One site: for each key its siblings, from dot to document, and its context, a set of dots."""

    def __init__(self, number, indexes, views, page):
        self.number, self.indexes, self.views, self.page = number, indexes, views, page
        self.states = {}
        # The root after each write, and the write's key; the first root is that of the empty site.
        self.moments = [(ZERO.hex(), None)]
        self.token = None
        self.lock = threading.Condition()

    def note(self, key):
        root = self.node("").hex()
        if root != self.moments[-1][0]:
            self.moments.append((root, key))
            self.lock.notify_all()

    def changes(self, since, wait):
        """The keys that changed since a root, each once, in the order of their last change; None for an unknown root."""
        at = next((place for place, (root, _) in enumerate(self.moments) if root == since), None)
        if at is not None and at + 1 == len(self.moments):
            self.lock.wait_for(lambda: at + 1 < len(self.moments), wait)
        return None if at is None else list(dict.fromkeys(key for _, key in self.moments[:at:-1]))[::-1]

    def state(self, key):
        return self.states.get(key, ({}, set()))

    def put(self, key, context, document):
        siblings, seen = self.state(key)
        counter = 1 + max((counter for site, counter in seen | context if site == self.number), default=0)
        dot = (self.number, counter)
        kept = {one: value for one, value in siblings.items() if one not in context}
        self.states[key] = (kept | {dot: document}, seen | context | {dot})
        self.note(key)
        return dot

    def delete(self, key, context):
        siblings, seen = self.state(key)
        if seen | context:
            self.states[key] = ({one: value for one, value in siblings.items() if one not in context}, seen | context)
            self.note(key)

    def counts(self, prefix="", least=0):
        return [{"key": key, "siblings": len(self.states[key][0])} for key in sorted(self.states)
                if key.startswith(prefix) and len(self.states[key][0]) >= least]

    def siblings(self):
        return [(key, dot, document) for key in sorted(self.states) for dot, document in sorted(self.states[key][0].items())]

    def places(self, field):
        if field not in self.indexes:
            raise Refused(12)
        found = [(term, key, dot) for key, dot, document in self.siblings() for term in at_field(document, field) if is_term(term)]
        return sorted(found, key=lambda place: (rank(place[0]), place[1:]))

    def rows(self, view):
        if view not in self.views:
            raise Refused(13)
        group, summed = self.views[view]
        rows = {}
        for _, _, document in self.siblings():
            for term in filter(is_term, at_field(document, group)):
                count, wholes = rows.get(rank(term), (term, []))[1], list(filter(is_whole, at_field(document, summed)))
                rows[rank(term)] = (term, count + [wholes])
        return [row_of(term, parts) for _, (term, parts) in sorted(rows.items())]

    def digest(self, key):
        siblings, seen = self.state(key)
        spelled = struct.pack(">B", len(key)) + key.encode() + spell_context(seen) + struct.pack(">H", len(siblings))
        for (site, counter), document in sorted(siblings.items()):
            text = compact(document).encode()
            spelled += struct.pack(">IQI", site, counter, len(text)) + text
        return hashlib.sha256(spelled).digest()

    def under(self, path):
        return [key for key in sorted(self.states) if place(key).startswith(path)]

    def node(self, path, above=None):
        """The digest of a node. `above` has the keys of the node above it, where they are known."""
        keys = self.under(path) if above is None else [key for key in above if place(key).startswith(path)]
        if not keys:
            return ZERO
        parts = map(self.digest, keys) if len(path) == 3 else (self.node(f"{path}{digit:x}", keys) for digit in range(16))
        return hashlib.sha256(b"".join(parts)).digest()


def spell_context(dots):
    sites = sorted({site for site, _ in dots})
    spelled = struct.pack(">I", len(sites))
    for site in sites:
        entry = print_context({dot for dot in dots if dot[0] == site}).split(":")[1]
        base, *loose = map(int, entry.split("+"))
        spelled += struct.pack(f">IQI{len(loose)}Q", site, base, len(loose), *loose)
    return spelled


def row_of(term, parts):
    wholes = [whole for part in parts for whole in part]
    ends = {"least": min(wholes), "greatest": max(wholes)} if wholes else {}
    return {"term": term, "count": len(parts), "sum": sum(wholes), **ends}


def paged(name, entries, after, mark, order):
    """A page of entries, rising by `order` of their mark, which is the JSON text for `after`."""
    left = [entry for entry in entries if after is None or order(mark(entry)) > order(json.loads(after))]
    shown, more = left[:Double.page_size], len(left) > Double.page_size
    return {name: shown, **({"next": compact(mark(shown[-1]))} if more else {})}


class Double(BaseHTTPRequestHandler):
    protocol_version = "HTTP/1.1"
    site = None
    asked = []
    headers_of_page = {}
    page_size = 1000

    def log_message(self, *_):
        pass

    def reply(self, status, value=None, kind="application/json", text=None, headers=None):
        body = text if text is not None else b"" if value is None else compact(value).encode()
        self.send_response(status)
        for name, content in {"Cache-Control": "no-store", "X-Content-Type-Options": "nosniff", **(headers or {})}.items():
            self.send_header(name, content)
        if status != 204:
            self.send_header("Content-Type", kind)
            self.send_header("Content-Length", str(len(body)))
        # A page that is left does not take what it waited for.
        with contextlib.suppress(BrokenPipeError, ConnectionResetError):
            self.end_headers()
            self.wfile.write(body)

    def handle_request(self):
        body = self.rfile.read(int(self.headers.get("Content-Length", 0)))
        url = urlsplit(self.path)
        parts = [unquote(part) for part in url.path.split("/")[1:]]
        given = {name: values[0] for name, values in parse_qs(url.query, keep_blank_values=True).items()}
        with self.site.lock:
            self.asked.append((self.command, url.path, self.headers.get("Mvd-Context")))
            try:
                self.route(parts, given, body)
            except Refused as refusal:
                status = {12: 404, 13: 404, 38: 401}.get(refusal.number, 400)
                self.reply(status, {"refused": refusal.number, "name": NAMES[refusal.number]})

    do_GET = do_PUT = do_POST = do_DELETE = handle_request

    def route(self, parts, given, body):
        if self.site.token and parts != [""] and self.headers.get("Authorization") != f"Bearer {self.site.token}":
            raise Refused(38)
        match self.command, parts:
            case "GET", [""]:
                self.reply(200, text=self.site.page(), kind="text/html; charset=utf-8", headers=self.headers_of_page)
            case "GET", ["root"]:
                counts = {"keys": len(self.site.states), "conflicts": len(self.site.counts(least=2))}
                self.reply(200, {"root": self.site.node("").hex(), **counts, "site": self.site.number})
            case "GET", ["keys"]:
                self.reply(200, self.keys(self.site.counts(given.get("prefix", "")), given.get("after"), 1 if "live" in given else 0))
            case "GET", ["conflicts"]:
                self.reply(200, self.keys(self.site.counts(least=2), given.get("after"), 0))
            case "POST", ["keys"]:
                self.reply(200, text=b"".join(compact(self.line(one)).encode() + b"\n" for one in body.splitlines()))
            case "GET", ["changes"]:
                found = self.site.changes(given.get("since"), int(given.get("wait", "0")))
                self.reply(200, {"root": self.site.node("").hex(), "keys": found or [], "resync": found is None})
            case "GET", ["tree"]:
                self.reply(200, self.node_or_bucket(given.get("path", ""), given.get("after")))
            case _, ["keys", key]:
                self.of_key(read_key(key), body)
            case "GET", ["index", field]:
                self.reply(200, self.index(field, given))
            case "GET", ["views", view, "rows"]:
                order = lambda mark: rank(mark[0])
                self.reply(200, paged("rows", self.site.rows(view), given.get("after"), lambda row: [row["term"]], order))
            case "GET", ["views", view, "row"]:
                term = read_term(given.get("is", ""))
                found = [row for row in self.site.rows(view) if rank(row["term"]) == rank(term)]
                self.reply(200, (found or [row_of(term, [])])[0])
            case _:
                self.reply(404, text=b"no such page\n", kind="text/plain")

    def of_key(self, key, body):
        context = self.headers.get("Mvd-Context")
        if self.command == "GET":
            siblings, seen = self.site.state(key)
            shown = [{"dot": dot_text(dot), "document": document} for dot, document in sorted(siblings.items())]
            self.reply(200 if siblings else 404, {"key": key, "context": print_context(seen), "siblings": shown})
        elif self.command == "PUT":
            seen = read_context("-" if context is None else context)
            dot = self.site.put(key, seen, read_document(body))
            self.reply(201, {"dot": dot_text(dot), "context": print_context(seen | {dot})})
        elif context is None:
            raise Refused(2)
        else:
            self.site.delete(key, read_context(context))
            self.reply(204)

    def line(self, text):
        """One write of POST /keys."""
        asked = json.loads(text)
        seen = read_context(asked.get("context", "-"))
        if "document" not in asked:
            self.site.delete(read_key(asked["key"]), seen)
            return {}
        return {"dot": dot_text(self.site.put(read_key(asked["key"]), seen, read_document(compact(asked["document"]).encode())))}

    def keys(self, counts, after, least):
        left = [one for one in counts if after is None or one["key"] > after]
        page = left[:self.page_size]
        more = {"next": page[-1]["key"]} if len(left) > self.page_size else {}
        return {"keys": [one for one in page if one["siblings"] >= least], **more}

    def node_or_bucket(self, path, after):
        if not re.fullmatch("[0-9a-f]{0,3}", path):
            raise Refused(14)
        if len(path) < 3:
            children = [self.site.node(f"{path}{digit:x}").hex() for digit in range(16)]
            return {"path": path, "digest": self.site.node(path).hex(), "children": children}
        left = [key for key in self.site.under(path) if after is None or key > after]
        page = [{"key": key, "digest": self.site.digest(key).hex()} for key in left[:self.page_size]]
        return {"keys": page, **({"next": page[-1]["key"]} if len(left) > self.page_size else {})}

    def index(self, field, given):
        low = read_term(given.get("is", given.get("from", "")))
        high = read_term(given.get("is", given.get("to", "")))
        places = [{"term": term, "key": key, "dot": dot_text(dot)} for term, key, dot in self.site.places(field)
                  if rank(low) <= rank(term) <= rank(high)]
        order = lambda mark: (rank(mark[0]), mark[1], tuple(map(int, mark[2].split(":"))))
        return paged("places", places, given.get("after"), lambda place: list(place.values()), order)


def serve(page, headers, page_size):
    """Serves a new site with an index and a view as in docs/USING.md. `page` gives the page's bytes. Returns the server."""
    site = Site(1, {"city"}, {"visits": ("city", "days")}, page)
    handler = type("Handler", (Double,), {"site": site, "asked": [], "headers_of_page": headers})
    Double.page_size = page_size
    server = ThreadingHTTPServer(("127.0.0.1", 0), handler)
    server.daemon_threads = True
    threading.Thread(target=server.serve_forever, daemon=True).start()
    return server
