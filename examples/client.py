#!/usr/bin/env python3
"""A client of `mvd serve`, with Python's standard library alone. docs/PROTOCOL.md tells how to write one.

usage: client.py PORT get KEY | put KEY CONTEXT DOCUMENT | del KEY CONTEXT | find FIELD TERM | keys [PREFIX] | conflicts

CONTEXT is what `get` printed, or `-` where nothing was read. DOCUMENT and TERM are JSON. `keys` and `conflicts` list keys, each with
the number of its siblings. Where MVD_TOKEN is set it is shown first.
"""
import io
import json
import os
import socket
import struct
import sys


WORDS = {
    1: "a key is 1 to 128 letters of ASCII without a space", 2: "the context is none", 3: "the document is no JSON", 4: "the document is no object",
    5: "a number of the document is not whole, or is too great", 6: "the document is too long", 8: "no counter is left", 9: "the key has too much",
    10: "the site is full", 12: "there is no such index", 15: "that is no term", 20: "memory was refused", 21: "the server's file was refused",
    22: "the server has to be started again", 36: "the server has no place", 38: "the server asks for a token, or for another one: set MVD_TOKEN",
}


class Refused(Exception):
    """The server refused a request, with this number."""


def read(stream, form):
    """What comes next: B, H, I and Q are numbers of one to eight bytes, `5s` is five bytes, and `5x` passes over five."""
    data = stream.read(struct.calcsize(">" + form))
    if len(data) < struct.calcsize(">" + form):
        raise EOFError("the server ended the connection")
    return struct.unpack(">" + form, data)


def counted(form, text):
    """A text behind its length, which is a number of this form."""
    return struct.pack(">" + form, len(text.encode())) + text.encode()


def compact(document):
    """The one text of a document: no spaces, names in rising order, and only what has to be escaped is."""
    return json.dumps(document, sort_keys=True, separators=(",", ":"), ensure_ascii=False)


def spelled(term):
    if isinstance(term, str):
        return b"\4" + counted("H", term)
    if term is None or isinstance(term, bool):
        return {None: b"\0", False: b"\1", True: b"\2"}[term]
    return struct.pack(">Bq", 3, term)


class Client:
    """One connection. A context is kept as the bytes that the server sent, and goes back as they are."""

    def __init__(self, port, address="127.0.0.1"):
        self.socket = socket.create_connection((address, port))
        self.stream = self.socket.makefile("rb")

    def ask(self, kind, payload=b""):
        """Sends one frame, and gives the payload of the reply as a stream."""
        self.socket.sendall(struct.pack(">IB", 1 + len(payload), kind) + payload)
        length, kind = read(self.stream, "IB")
        reply = io.BytesIO(*read(self.stream, f"{length - 1}s"))
        if kind == 0xEE:
            raise Refused(*read(reply, "B"))
        return reply

    def get(self, key):
        """The context of a key, and its siblings as pairs of a dot (site, counter) and a document."""
        reply, siblings = self.ask(0x21, counted("B", key)), []
        for _ in range(*read(reply, "I")):
            _site, _base, loose = read(reply, "IQI")
            read(reply, f"{8 * loose}x")
        context = reply.getvalue()[:reply.tell()]
        for _ in range(*read(reply, "H")):
            site, counter, length = read(reply, "IQI")
            siblings.append(((site, counter), json.loads(*read(reply, f"{length}s"))))
        return context, siblings

    def put(self, key, context, document):
        """Writes a document in place of the siblings that the context has seen, and gives its dot."""
        return read(self.ask(0x22, counted("B", key) + context + counted("I", compact(document))), "IQ")

    def delete(self, key, context):
        """Deletes the siblings that the context has seen."""
        self.ask(0x23, counted("B", key) + context)

    def find(self, field, term):
        """The keys whose documents have a term at an indexed field, with their dots, page after page."""
        question, after, more = counted("H", field) + spelled(term), b"\0", True
        while more:
            reply = self.ask(0x24, question + after)
            more, count = read(reply, "BH")
            for _ in range(count):
                (length,) = read(reply, f"{len(spelled(term))}xB")
                key, site, counter = read(reply, f"{length}sIQ")
                after = b"\1" + bytes([length]) + key + struct.pack(">IQ", site, counter)
                yield key.decode(), (site, counter)

    def hello(self, token):
        """Shows the token, as the first request of a connection."""
        self.ask(0x2D, counted("H", token))

    def counts(self, kind, prefix=b""):
        """Pages of keys, each with the number of its siblings."""
        after, more = b"\0", True
        while more:
            reply = self.ask(kind, prefix + after)
            more, count = read(reply, "BH")
            for _ in range(count):
                key, siblings = read(reply, "{}sI".format(*read(reply, "B")))
                after = b"\1" + bytes([len(key)]) + key
                yield key.decode(), siblings

    def keys(self, prefix=""):
        """The keys that begin with a prefix: 0 siblings are a deleted key."""
        return self.counts(0x2B, counted("B", prefix))

    def conflicts(self):
        """The keys with more than one sibling."""
        return self.counts(0x2C)

    def bye(self):
        self.ask(0x2F)
        self.socket.close()


def main(port, command, name="", *rest):
    client = Client(int(port))
    if "MVD_TOKEN" in os.environ:
        client.hello(os.environ["MVD_TOKEN"])
    if command in ("keys", "conflicts"):
        for key, siblings in client.keys(name) if command == "keys" else client.conflicts():
            print(key, siblings)
    elif command == "get":
        context, siblings = client.get(name)
        print("context", context.hex())
        for (site, counter), document in siblings:
            print(f"{site}:{counter} {compact(document)}")
    elif command == "find":
        for key, (site, counter) in client.find(name, json.loads(rest[0])):
            print(f"{key} {site}:{counter}")
    else:
        context = bytes(4) if rest[0] == "-" else bytes.fromhex(rest[0])
        if command == "put":
            print("dot {}:{}".format(*client.put(name, context, json.loads(rest[1]))))
        else:
            client.delete(name, context)
            print("ok")
    client.bye()


if __name__ == "__main__":
    wanted = {"get": (4,), "put": (6,), "del": (5,), "find": (5,), "keys": (3, 4), "conflicts": (3,)}
    if len(sys.argv) not in wanted.get("".join(sys.argv[2:3]), ()):
        sys.exit(__doc__)
    try:
        main(*sys.argv[1:])
    except Refused as refusal:
        (number,) = refusal.args
        sys.exit(f"refused {number}: {WORDS[number]}" if number in WORDS else f"refused {number}")
    except (OSError, EOFError) as fault:
        sys.exit(f"the server does not answer: {fault}")
