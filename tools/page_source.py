#!/usr/bin/env python3
"""Writes the page into the program: crates/mvd_http/page/page.html becomes the literal of crates/mvd_http/src/page.rt.

With `--check` nothing is written, and the status is 1 where the two differ.
"""
import pathlib
import sys

CRATE = pathlib.Path(__file__).resolve().parent.parent / "crates" / "mvd_http"
HEAD = "//! The page, made by tools/page_source.py from page/page.html: change that file, and run the script.\n\n"


def source():
    page = (CRATE / "page" / "page.html").read_text()
    mark = "#" * next(n for n in range(1, 9) if '"' + "#" * n not in page)
    return f'{HEAD}/// One file of HTML, with its style and its script.\npub const PAGE: &str = r{mark}"{page}"{mark};\n'


def main():
    target = CRATE / "src" / "page.rt"
    if "--check" in sys.argv[1:]:
        sys.exit(0 if target.read_text() == source() else 1)
    target.write_text(source())


main()
