#!/usr/bin/env python3
"""Times ten searches by the built command and by elasticlunr.js in node, each from a cold start, and prints a table for each site.

usage: searches.py [--rounds N] [SITE ..]

A site is `book` (tests/browser_book.py), or a number of pages, which make_job.py makes of the words of docs/; without sites all
of SITES. For each query the two run one after the other, --rounds times. A run reads the index, searches it and prints all hits
with their scores. The tables have the medians: the seconds from start to end, the most memory in megabytes, and `in memory`, the
milliseconds of the search alone in node, after the index was loaded. The two must find the same references; else it ends
with status 1.
"""
import argparse
import json
import os
import statistics
import sys
import tempfile

sys.path.insert(0, os.path.join(os.path.dirname(__file__), ".."))

from bench.measure import measured
from tests import browser_book
from tools import search_page
from tools.repository import TOP, program, read, run, write

SITES = ["book", "2000", "16000"]
OF_PAGES = ["search", "index", "a word of the text", "reader", "documents and fields", "begin", "w", "se", "st", "nowhere"]
OF_BOOK = ["lantern", "harbour", "the lantern by the harbour", "carving", "stones and water", "gold", "w", "se", "st", "nowhere"]
EXPANDED = {"begin", "gold", "w", "se", "st"}  # these find longer words, too
HEADING = """| Query | Documents | `elasticlunr search`: seconds, MB | elasticlunr.js in node: seconds, MB | Seconds, ratio | In memory, ms |
|---|---|---|---|---|---|"""
SCRIPT = """
const fs = require('fs');
const elasticlunr = require(process.argv[2]);
const index = elasticlunr.Index.load(JSON.parse(fs.readFileSync(process.argv[3], 'utf8')));
const begun = performance.now();
const hits = index.search(process.argv[4], { expand: process.argv[5] === 'true' });
const took = performance.now() - begun;
process.stdout.write(JSON.stringify({ took, hits: hits.map((it) => [it.ref, it.score]) }));
"""


def job_of(site, folder):
    """The path of a job."""
    path = os.path.join(folder, "job.json")
    if site == "book":
        return write(path, json.dumps({"fields": ["title", "body"], "docs": [list(section) for section in browser_book.book()]}))
    words = ["--docs", site, "--words", "200", os.path.join(TOP, "docs")]
    with open(path, "wb") as file:
        file.write(run([sys.executable, os.path.join(TOP, "bench", "make_job.py"), *words], seconds=600).out)
    return path


def timed(command, out):
    """A run, whose answer goes to a file."""
    ended = measured(command, os.devnull, out)
    if ended.status != 0:
        sys.exit(f"searches.py: {' '.join(command[:2])}: status {ended.status}")
    return ended


def row(index, folder, query, rounds):
    """How many documents a query finds, the runs of both, and the milliseconds in memory."""
    driver, out = os.path.join(folder, "driver.js"), os.path.join(folder, "out")
    is_expanded = query in EXPANDED
    mine, theirs, inner = [], [], []
    for _ in range(rounds):
        words = ["search", index, query, "--json", "--limit", "0", *(["--expand"] if is_expanded else [])]
        mine.append(timed([program("elasticlunr_cli"), *words], out))
        found = sorted(json.loads(line)["ref"] for line in read(out).splitlines())
        theirs.append(timed(["node", driver, search_page.ELASTICLUNR, index, query, str(is_expanded).lower()], out))
        answer = json.loads(read(out))
        inner.append(answer["took"])
        if found != sorted(ref for ref, _ in answer["hits"]):
            sys.exit(f"searches.py: {query}: other documents than elasticlunr.js finds")
    return len(found), mine, theirs, statistics.median(inner)


def medians(runs):
    return statistics.median(it.seconds for it in runs), statistics.median(it.megabytes for it in runs)


def show(site, folder, rounds):
    """Prints the table of a site."""
    index = os.path.join(folder, "index.json")
    timed([program("elasticlunr_cli"), "build", "--format", "job", job_of(site, folder), "-o", index], os.devnull)
    print(f"\n{site}: {os.path.getsize(index) / 1e6:.1f} MB\n\n{HEADING}")
    for query in OF_BOOK if site == "book" else OF_PAGES:
        count, mine, theirs, inner = row(index, folder, query, rounds)
        name = f"`{query}`" + (", `--expand`" if query in EXPANDED else "")
        (own, own_megabytes), (other, other_megabytes) = medians(mine), medians(theirs)
        both = f"{own:.3f}, {own_megabytes:.0f} | {other:.3f}, {other_megabytes:.0f}"
        print(f"| {name} | {count} | {both} | {own / other:.2f} | {inner:.1f} |", flush=True)


def main():
    parser = argparse.ArgumentParser(description=__doc__, formatter_class=argparse.RawDescriptionHelpFormatter)
    parser.add_argument("sites", nargs="*", metavar="SITE", default=SITES)
    parser.add_argument("--rounds", type=int, default=5)
    options = parser.parse_args()
    if not search_page.fetch():
        sys.exit("elasticlunr.min.js can't be had")
    for site in options.sites:
        with tempfile.TemporaryDirectory() as folder:
            write(os.path.join(folder, "driver.js"), SCRIPT)
            show(site, folder, options.rounds)


if __name__ == "__main__":
    main()
