#!/usr/bin/env python3
"""Serves sites with the search page, on this machine alone: those of the jobs of examples/ in three languages, and one of 2,000
pages whose index is in pieces.

usage: demo.py [PORT]

A site is made as docs/BROWSER.md says: the page with its style and script, the scripts and the index lie in one folder. The
pages of the large site have the words of texts on this machine (bench/make_job.py).
"""
import functools
import html
import http.server
import json
import os
import subprocess
import sys

sys.path.insert(0, os.path.join(os.path.dirname(__file__), ".."))

from tools import search_page
from tools.repository import TOP, printed, program, read, write

DEMO = os.path.join(search_page.FETCHED, "demo")
SITES = {"english": "job.json", "german": "german.json", "korean": "korean.json"}
LARGE = "2000-pages"
PAGE = '<!doctype html><meta charset="utf-8"><meta name="viewport" content="width=device-width"><title>{title}</title><style>:root{{color-scheme:light dark}}body{{margin:2rem auto;padding:0 1rem;max-width:40rem;font:1rem/1.5 system-ui,sans-serif}}</style><h1>{title}</h1>{body}\n'


def make_site(name, example):
    """Makes one site: what the page needs, and a page for each document."""
    folder = os.path.join(DEMO, name)
    job = json.loads(read(f"examples/{example}"))
    search_page.copy(folder)
    write(os.path.join(folder, "search_index.json"), printed(job))
    write_pages(folder, job)


def write_pages(folder, job):
    for reference, title, body in job["docs"]:
        write(os.path.join(folder, reference), PAGE.format(title=html.escape(title), body=f"<p>{html.escape(body)}</p>"))


def make_large_site():
    """Makes a site of 2,000 pages, whose index is in pieces."""
    folder = os.path.join(DEMO, LARGE)
    made = subprocess.run([sys.executable, os.path.join(TOP, "bench", "make_job.py"), "--docs", "2000"], stdout=subprocess.PIPE, check=True)
    job = json.loads(made.stdout)
    search_page.copy(folder)
    search_page.take_pieces(os.path.join(folder, "search.html"))
    command = [program("elasticlunr_cli"), "build", "--format", "job", "--pieces", os.path.join(folder, "search")]
    subprocess.run(command, input=made.stdout, check=True)
    write_pages(folder, job)


def main():
    if not search_page.fetch():
        path = os.path.relpath(search_page.ELASTICLUNR, TOP)
        sys.exit(f"elasticlunr.min.js 0.9.5 could not be downloaded: put a copy with the checksum of tools/fetch_elasticlunr.sh at {path}")
    for name, example in SITES.items():
        try:
            make_site(name, example)
        except ValueError as error:
            sys.exit(f"examples/{example}: {error}")
    make_large_site()
    names = {name: name.capitalize() for name in SITES} | {LARGE: "English, 2,000 pages, an index in pieces"}
    links = "".join(f'<p><a href="{name}/search.html">{said}</a></p>' for name, said in names.items())
    write(os.path.join(DEMO, "index.html"), PAGE.format(title="Search in three languages", body=links))
    handler = functools.partial(http.server.SimpleHTTPRequestHandler, directory=DEMO)
    port = int(sys.argv[1]) if len(sys.argv) > 1 else 8095
    try:
        server = http.server.ThreadingHTTPServer(("127.0.0.1", port), handler)
    except OSError as error:
        sys.exit(f"port {port}: {error.strerror}; take another one by `make demo PORT=8096`")
    print(f"http://127.0.0.1:{port}/ shows the search; Ctrl-C ends it", flush=True)
    try:
        server.serve_forever()
    except KeyboardInterrupt:
        pass


if __name__ == "__main__":
    main()
