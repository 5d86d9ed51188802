#!/usr/bin/env python3
"""Prints a table of the sizes of indexes in pieces, and of what a first query fetches of them, next to the whole index.

usage: pieces_sizes.py [--model] [SITE ..]

A site is `book` (tests/browser_book.py), or a number of pages, which bench/make_job.py writes; without sites all of SITES. The
command writes each index whole and in pieces of 8 KB. With --model the program elasticlunr_index prints it, and
tests/pieces_model.py cuts it.

All sizes are in kB after `gzip -9`. A query is two words of a title, searched as the search page does, in a page that has
nothing yet: it fetches the head, the pieces of its words, and the titles and the texts of the ten best pages. pieces_queries.js
runs it in node; the milliseconds are without a network. The share is that of the median in the whole index.

The command prints the whole index, writes the pieces to a new folder, and writes them once more, where the same ones are
there, in turn and each ROUNDS times: the seconds of the processor and the megabytes are the medians, and the ratios are those of
the pieces to the whole index. The third one compares each piece with the one that is there. TMPDIR names where the files go: on
a disk, making some thousand files takes longer than making their texts.
"""
import argparse
import gzip
import json
import os
import random
import shutil
import statistics
import subprocess
import sys
import tempfile

sys.path.insert(0, os.path.join(os.path.dirname(__file__), ".."))

from bench.measure import measured
from tests import browser_book, pieces_model
from tools import search_page
from tools.repository import TOP, program, read, write

SITES = ["book", "400", "2000", "16000"]
QUERIES = 200
ROUNDS = 5
DEEP = 20000  # characters of a token, whose node nests as deep
HEADING = """| Site | Pages | Whole index | Head | First query: median, nine tenths, most | Share | In milliseconds | Pieces of tries, of texts, of titles | Seconds: whole, pieces, again | Ratios: pieces, again | Megabytes |
|---|---|---|---|---|---|---|---|---|---|---|"""
READER = [os.path.join(TOP, "browser", name) for name in ("elasticlunr-languages.js", "elasticlunr-pieces.js")]


def job_of(name, folder):
    """The path of a job."""
    path = os.path.join(folder, "job.json")
    if name.isdecimal():
        with open(path, "wb") as file:
            subprocess.run([sys.executable, os.path.join(TOP, "bench", "make_job.py"), "--docs", name], stdout=file, check=True)
        return path
    return write(path, json.dumps({"fields": ["title", "body"], "docs": [list(section) for section in browser_book.book()]}))


def built(job, *words):
    ended = measured([program("elasticlunr_cli"), "build", "--format", "job", *words], job, os.devnull)
    if ended.status != 0:
        sys.exit(f"pieces_sizes.py: elasticlunr build {' '.join(words)}: status {ended.status}")
    return ended


def build(job, index, folder):
    """Writes an index whole, in pieces, and in the same pieces again, in turn. Gives the processor's seconds, their ratios to
    those of the whole index, and the megabytes."""
    rounds = []
    for _ in range(ROUNDS):
        shutil.rmtree(folder, ignore_errors=True)
        rounds.append([built(job, *words) for words in (("-o", index), ("--pieces", folder), ("--pieces", folder))])
    whole, *pieces = (statistics.median(one.processor for one in ended) for ended in zip(*rounds))
    megabytes = (statistics.median(one.megabytes for one in ended) for ended in zip(*rounds))
    seconds = ", ".join(f"{it:.2f}" for it in (whole, *pieces))
    return seconds, ", ".join(f"{it / whole:.2f}" for it in pieces), ", ".join(f"{it:.0f}" for it in megabytes)


def model(job, index, folder):
    sys.setrecursionlimit(DEEP)
    with open(job, "rb") as given, open(index, "wb") as printed:
        subprocess.run([program("elasticlunr_index")], stdin=given, stdout=printed, check=True)
    pieces_model.write(read(index), folder)
    return "not measured", "not measured", "not measured"


def size(path):
    with open(path, "rb") as file:
        return len(gzip.compress(file.read(), 9))


def queries(job):
    rng = random.Random(20261127)
    with open(job, encoding="utf-8") as file:
        titles = [doc[1].split() for doc in json.load(file)["docs"]]
    return [" ".join(rng.sample(title, min(2, len(title)))) for title in rng.choices(titles, k=QUERIES)]


def fetched(folder, asked):
    """For each query the bytes of the tries, the titles and the texts that it fetches, and its milliseconds."""
    command = ["node", os.path.join(TOP, "bench", "pieces_queries.js"), search_page.ELASTICLUNR, *READER, folder]
    return json.loads(subprocess.run(command, input=json.dumps(asked).encode(), stdout=subprocess.PIPE, check=True).stdout)


def kilobytes(number):
    return f"{number / 1000:.1f}" if number < 10000 else f"{number / 1000:.0f}"


def spread(numbers, show):
    """The median, what nine tenths of the numbers don't exceed, and the greatest."""
    ordered = sorted(numbers)
    return ", ".join(map(show, (statistics.median(ordered), ordered[len(ordered) * 9 // 10], ordered[-1])))


def measure(name, make):
    with tempfile.TemporaryDirectory() as room:
        folder, index = os.path.join(room, "search"), os.path.join(room, "index.json")
        job = job_of(name, room)
        took = make(job, index, folder)
        head, whole = size(os.path.join(folder, pieces_model.HEAD)), size(index)
        with open(os.path.join(folder, pieces_model.HEAD), encoding="utf-8") as file:
            about = json.load(file)
        told = fetched(folder, queries(job))
    pages, sizes = len(about["references"]), [head + sum(kinds) for *kinds, _ in told]
    columns = [name, f"{pages:,}", kilobytes(whole), f"{kilobytes(head)} ({head / pages:.1f} bytes a page)",
               spread(sizes, kilobytes), f"{statistics.median(sizes) / whole:.3f}", spread([it for *_, it in told], lambda it: f"{it:.0f}"),
               f"{len(about['tries'])}, {len(about['texts'])}, {len(about['titles'])}", *took]
    print(f"| {' | '.join(columns)} |", flush=True)


def main():
    parser = argparse.ArgumentParser(description=__doc__, formatter_class=argparse.RawDescriptionHelpFormatter)
    parser.add_argument("--model", action="store_true")
    parser.add_argument("sites", nargs="*", metavar="SITE")
    options = parser.parse_args()
    if not search_page.fetch():
        sys.exit("pieces_sizes.py: elasticlunr.min.js isn't there")
    print(HEADING)
    for name in options.sites or SITES:
        measure(name, model if options.model else build)


if __name__ == "__main__":
    main()
