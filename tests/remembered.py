#!/usr/bin/env python3
"""Builds an index of pages that have the same words over and over, with stems and without: a stem that is remembered is not
made anew, so with stems the index may take TIMES as long.

usage: remembered.py

Each build has RUNS runs. Where that with stems takes too long, instructions decide (tests/growth.py).
"""
import json
import os
import random
import sys
import tempfile

sys.path.insert(0, os.path.join(os.path.dirname(__file__), ".."))

from tests.growth import Runs, check_growth, growth
from tests.report import Results
from tools.repository import lines_of, program, read, write

COMMAND = program("elasticlunr_cli")
WORDS = "crates/elasticlunr_vectors/data/snowball/current/de.tsv"
PAGES, LENGTH, SEED = 1_000, 300, 20_261_201
RUNS = 3
TIMES = 1.5  # 1.1 where stems are remembered, and 2 where each is made anew


class Build(Runs):
    """Builds of the pages."""

    def __init__(self, pages, folder, options):
        given = write(os.path.join(folder, "pages"), pages)
        super().__init__([COMMAND, "build", "--lang", "German", *options], given, os.path.join(folder, "index"))

    def wrong(self, status):
        """An index has all pages, and each with the stage that was asked for or without."""
        if status:
            return f"status {status}"
        index = json.loads(read(self.printed))
        count, stages = index["documentStore"]["length"], [it for it in index["pipeline"] if it.startswith("stemmer")]
        wanted = ["stemmer-de"] if "--stems" in self.command else []
        return "" if (count, stages) == (PAGES, wanted) else f"{count} pages of {PAGES}, stages {stages}"


def pages_of(words):
    """Pages of these words, of which each comes the less often the later it stands in the list."""
    drawn, weights = random.Random(SEED), [1 / (place + 1) for place in range(len(words))]
    bodies = (" ".join(drawn.choices(words, weights, k=LENGTH)) for _ in range(PAGES))
    return "".join(json.dumps({"id": str(number), "body": body}) + "\n" for number, body in enumerate(bodies))


def main():
    results = Results("builds")
    try:
        words = [line.split("\t")[0] for line in lines_of(WORDS)]
        with tempfile.TemporaryDirectory() as folder:
            pages = pages_of(words)
            plain, stemmed = (Build(pages, tempfile.mkdtemp(dir=folder), it) for it in ([], ["--stems"]))
            said = f"remembered, {len(words)} words: without stems and with"
            check_growth(said, growth(plain, stemmed, RUNS, TIMES), "", results, TIMES)
    except (KeyError, OSError, ValueError) as error:
        results.note(False, f"remembered: {error!r}")
    return results.report()


if __name__ == "__main__":
    sys.exit(main())
