#!/usr/bin/env python3
"""Builds indexes of words that all have one hash in std's hash maps, at two sizes: what is built must be right, and twice as
many words may take TIMES as long.

usage: one_hash.py [WORD ..]

Each word is the reference and the text of a document; in one case all words are the text of one document, and in another
one they are stemmed by a table, and the stemmer remembers words. Each build has RUNS runs, and one more where they take too
long (tests/growth.py). With words, only the cases are tried that have one of them in their names.
"""
import json
import os
import shutil
import subprocess
import sys
import tempfile

sys.path.insert(0, os.path.join(os.path.dirname(__file__), ".."))

from tests.growth import Runs, check_growth, growth
from tests.report import Results, is_asked
from tools.repository import TOP, program, read, run, write

COMMAND = program("elasticlunr_cli")
SIZES = 1 << 14, 1 << 15
RUNS = 2
OPTIONS = {"with stems": ("--lang", "Danish", "--stems")}
PATIENCE = 300  # seconds for the words


def words_of_one_hash(count, folder):
    """So many words that differ. The hasher's seed is fixed, so words can be chosen that share a hash."""
    made, source = os.path.join(folder, "words"), os.path.join(TOP, "tests", "words_of_one_hash.c")
    subprocess.run(["cc", "-O2", "-o", made, source], check=True)
    words = run([made, str(count)], seconds=PATIENCE).out.decode().split()
    if len(set(words)) != count:
        raise ValueError(f"{len(set(words))} words of one hash instead of {count}")
    return words


class Build(Runs):
    """Builds of documents."""

    def __init__(self, name, documents, folder):
        self.pieces = os.path.join(folder, "pieces")
        in_pieces = ["--pieces", self.pieces] if name == "in pieces" else []
        text = "".join(json.dumps({"id": reference, "body": body}) + "\n" for reference, body in documents)
        given = write(os.path.join(folder, "documents"), text)
        options = OPTIONS.get(name, ("--lang", "Arabic"))
        super().__init__([COMMAND, "build", *options, *in_pieces], given, os.path.join(folder, "index"))
        self.documents_printed = self.documents_in_pieces if in_pieces else self.documents_of_index
        self.count = len(documents)

    def begin(self):
        shutil.rmtree(self.pieces, ignore_errors=True)
        os.makedirs(self.pieces)

    def wrong(self, status):
        count = self.documents_printed()
        return "" if (status, count) == (0, self.count) else f"status {status}, {count} documents of {self.count}"

    def documents_of_index(self):
        found = read(self.printed).split('"length":', 1)
        return int(found[1].split(",", 1)[0]) if len(found) > 1 else 0

    def documents_in_pieces(self):
        head = os.path.join(self.pieces, "search.json")
        return len(json.loads(read(head))["references"]) if os.path.exists(head) else 0


def cases(words):
    """The names of the cases, and for each the documents of both sizes."""
    each = [[(word, word) for word in words[:size]] for size in SIZES]
    return {"an index": each, "in pieces": each, "with stems": each, "one document": [[("1", " ".join(words[:size]))] for size in SIZES]}


def check_case(name, documents, folder, results):
    few, many = (Build(name, it, tempfile.mkdtemp(dir=folder)) for it in documents)
    check_growth(f"one hash, {name}", growth(few, many, RUNS), "", results)


def check_all(results):
    with tempfile.TemporaryDirectory() as folder:
        for name, documents in cases(words_of_one_hash(SIZES[-1], folder)).items():
            if is_asked(name):
                check_case(name, documents, folder, results)


def main():
    results = Results("words")
    try:
        check_all(results)
    except (KeyError, OSError, ValueError) as error:
        results.note(False, f"one hash: {error!r}")
    return results.report()


if __name__ == "__main__":
    sys.exit(main())
