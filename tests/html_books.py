#!/usr/bin/env python3
"""Indexes the HTML books of Debian's packages by `python3 -m elasticlunr.site`, and searches them on the page in Chromium.

usage: html_books.py [FOLDER]

The packages of BOOKS are downloaded from the sources of this machine, and unpacked in FOLDER, out/books unless it says
otherwise; nothing of them is installed. It needs root and the network, and the built command (`make command`).

- Each file that ends in .html is read: it has a document, or is left out for a reason that docs/COMMAND.md names. With
  `--sections` there are more documents, and each is on its page: the part of its address behind `#` is an id there.
- The search page, next to the book, with the whole index and with its pieces: for each title of TITLES, as it is typed, the
  section is among the first results, and a click on it leads to the very element.
"""
import json
import os
import re
import subprocess
import sys
import tempfile
import time
import urllib.parse

sys.path.insert(0, os.path.join(os.path.dirname(__file__), ".."))

from tests.browser_page import Page
from tests.browser_tools import World, prepare
from tests.report import Results
from tools import search_page
from tools.repository import TOP, program, read, run, write

BOOKS = {  # the package, the folder of the book in it, and sections to look for: what is typed, and a part of the address
    "rust-doc": ("usr/share/doc/rust-doc/html/book", {
        "storing lists of values vectors": "ch08-01-vectors.html",
        "reference cycles leak memory": "ch15-06-reference-cycles.html",
        "installing rustup on linux": "ch01-01-installation.html#",
        "unrecoverable errors panic": "ch09-01-unrecoverable-errors-with-panic.html",
    }),
    "python3.11-doc": ("usr/share/doc/python3.11/html", {
        "json encoders and decoders": "library/json.html#",
        "defaultdict examples": "library/collections.html#",
        "the with statement": "reference/compound_stmts.html#",
        "pickling class instances": "library/pickle.html#",
    }),
}
MINUTES = 20
SKIPPED = re.compile(r'<meta[^>]*(http-equiv="?refresh|name="?robots"?[^>]*noindex)', re.IGNORECASE)
FIRST = 10  # results among which a section has to be
PYTHON = os.path.join(TOP, "python")


def unpacked(folder):
    """The folder of each book, by its package."""
    for package, (inner, _) in BOOKS.items():
        root = os.path.join(folder, package)
        if not os.path.isdir(os.path.join(root, inner)):
            with tempfile.TemporaryDirectory() as at:
                subprocess.run(["apt-get", "-qq", "download", package], cwd=at, check=True)
                (archive,) = os.listdir(at)
                subprocess.run(["dpkg-deb", "-x", os.path.join(at, archive), root], check=True)
        yield package, os.path.join(root, inner)


def documents(book, *words):
    """The documents of a book, and what was said on the error stream."""
    ended = run([sys.executable, "-m", "elasticlunr.site", *words, book], seconds=60 * MINUTES, env={**os.environ, "PYTHONPATH": PYTHON})
    if ended.status != 0:
        raise ValueError(f"elasticlunr.site: status {ended.status}, {ended.err[-300:]!r}")
    return [json.loads(line) for line in ended.out.decode().splitlines()], ended.err.decode(errors="replace")


def pages_of(book):
    """The path of each page, and its text."""
    for folder, _, names in os.walk(book):
        for name in names:
            if name.endswith(".html"):
                with open(os.path.join(folder, name), encoding="utf-8", errors="replace") as file:
                    yield os.path.relpath(os.path.join(folder, name), book), file.read()


def check_documents(package, book, results):
    """Whether each page is there, and each section is on its page."""
    pages = dict(pages_of(book))
    whole, said = documents(book)
    results.note(not said, f"{package}: {said[:300]}")
    found = {urllib.parse.unquote(it["id"]) for it in whole}
    for path, text in pages.items():
        results.note((path in found) != bool(SKIPPED.search(text)), f"{package}: {path} has {'a' if path in found else 'no'} document")
    sections, _ = documents(book, "--sections")
    results.note(len(sections) > len(whole), f"{package}: {len(sections)} sections of {len(whole)} pages")
    for document in sections:
        path, _, part = document["id"].partition("#")
        text, name = pages.get(urllib.parse.unquote(path), ""), urllib.parse.unquote(part)
        is_there = not part or re.search(rf"""\b(id|name)=["']?{re.escape(name)}["'\s>]""", text.replace("&amp;", "&"))
        results.note(is_there, f"{package}: {document['id']} is not on its page")


def index(book, *words):
    command = [sys.executable, "-m", "elasticlunr.site", "--sections", book, "--command", program("elasticlunr_cli"), *words]
    subprocess.run(command, check=True, env={**os.environ, "PYTHONPATH": PYTHON}, stderr=subprocess.DEVNULL, timeout=60 * MINUTES)


def check_titles(package, world, page, results):
    """Whether each section is found, and a click leads to it."""
    for asked, part in BOOKS[package][1].items():
        shown = Page(world, page)
        shown.type(asked)
        links = shown.all("#results a")[:FIRST]
        fitting = [link for link in links if part in link.get_attribute("href")]
        results.note(fitting, f"{package}, {page}: {asked!r} finds {[link.get_attribute('href') for link in links]}")
        if fitting:
            address = fitting[0].get_attribute("href")
            fitting[0].click()
            end = time.monotonic() + 20
            while shown.driver.current_url != address and time.monotonic() < end:
                time.sleep(0.05)
            name = urllib.parse.unquote(urllib.parse.urlparse(address).fragment)
            there = not name or shown.script(f"document.getElementById({json.dumps(name)}) !== null")
            results.note(there and shown.driver.current_url == address, f"{package}: a click leads to {shown.driver.current_url}, not {address}")


def check_page(package, book, results):
    """The search page next to the book, over the whole index and over its pieces."""
    lacking = prepare()
    if lacking:
        results.skipped += 1
        return
    index(book, "-o", os.path.join(book, "search_index.json"), "--pieces", os.path.join(book, "search"))
    with World(book, set()) as world:
        check_titles(package, world, "search.html", results)
        page = os.path.join(book, "search.html")
        in_pieces = os.path.join(book, "pieces.html")
        write(in_pieces, read(page))
        search_page.take_pieces(in_pieces)
        check_titles(package, world, "pieces.html", results)


def main():
    results = Results("html_books", 40)
    folder = os.path.abspath(sys.argv[1] if len(sys.argv) > 1 else os.path.join(TOP, "out", "books"))
    for package, book in unpacked(folder):
        check_documents(package, book, results)
        check_page(package, book, results)
    return results.report()


if __name__ == "__main__":
    sys.exit(main())
