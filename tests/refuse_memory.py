#!/usr/bin/env python3
"""Runs the built programs with their first, second and each later request for memory refused.

usage: refuse_memory.py [WORD ..]

Each run of elasticlunr_index must end with status 1 and nothing written, or, if the program does without the refused
request, with the whole answer. The first run that makes fewer requests must give the whole answer. The jobs, and what must
be printed for them, are rows of the table of jobs: of each kind the one with the shortest text. At least LEAST requests of
each job must have been refused with status 1. So a program that never asks for memory, or whose requests aren't seen, fails.

A search ends with what there is to find, or with status 1 and nothing written. `elasticlunr` then says that it is out of
memory, or nothing if it was reading its command line. Of the requests for that FEW are refused, and of those of a search
MOST, both evenly spread.

With words, only the jobs and searches run that have one of them in their names.
"""
import json
import os
import sys
import tempfile
from typing import NamedTuple

sys.path.insert(0, os.path.join(os.path.dirname(__file__), ".."))

from tests.memory_shim import Refusing
from tests.report import Results, is_asked
from tests.tables import jobs
from tools.repository import printed, program, write

PROGRAM = program("elasticlunr_index")
LEAST = 20
MOST = 400
FEW = 100
WRONG = 10  # after more wrong runs the others are not tried
MESSAGE = "out of memory\n"

KINDS = {
    "one document": lambda job: job == {"fields": ["body"], "docs": [["1", "go"]]},
    "three fields": lambda job: len(job["fields"]) > 2 and any(len(doc) > 3 for doc in job["docs"]),
    "a removal and a compaction": lambda job: removes(job) and job.get("compact"),
    "a removal, printed pretty": lambda job: removes(job) and job.get("pretty"),
    "a document that is added again": lambda job: len({doc[0] for doc in job["docs"]}) < len(job["docs"]),
    "Arabic": lambda job: job.get("lang") == "Arabic",
    "Korean": lambda job: job.get("lang") == "Korean",
}


def removes(job):
    return any(doc[0] in job.get("remove", []) for doc in job["docs"])


def chosen():
    """Of each kind the job with the shortest text, among those that leave a posting."""
    rows = []
    for row in jobs():
        if row.status == 0 and b'"tf":' in row.out.replace(b" ", b""):
            rows.append((len(row.out), row.given.decode(), row.out.decode()))
    for name, is_of_kind in KINDS.items():
        yield name, next(((given, out) for _, given, out in sorted(rows) if is_of_kind(json.loads(given))), None)


def note_refused(name, refused, results):
    if refused < LEAST:
        results.note(False, f"refused memory, {name}: {refused} requests were refused with status 1, and {LEAST} are the least")


def check(name, row, refusing, results):
    if row is None:
        results.note(False, f"refused memory, {name}: the table has no such job")
        return
    job, expected = row
    number = refused = 0
    failed = results.failed
    while True:
        number += 1
        run = refusing.run(PROGRAM, job, number)
        ended = (run.out, run.status)
        was_refused = run.requests >= number and ended == ("", 1)
        refused += was_refused
        good = was_refused or ended == (expected, 0)
        results.note(good, f"refused memory, {name}: request {number}: status {run.status}, {len(run.out)} characters written")
        if run.requests < number or results.failed - failed > WRONG:
            break
    note_refused(name, refused, results)
    print(f"refused memory, {name}: {number - 1} requests refused in turn, {results.failed - failed} wrong", flush=True)


# Searches

DOCS = [["1", "Red fox", "The quick fox runs"], ["2", "Dog", "A lazy dog sleeps"], ["3", "Both", ""]]


class Search(NamedTuple):
    name: str
    is_pretty: bool  # the program reads a pretty index in another way than a compact one
    words: list  # of the command, or the request of elasticlunr_find
    found: str


LAZY_DOG = '{"ref":"2","score":811445.6585028752,"doc":{"body":"A lazy dog sleeps","id":"2","title":"Dog"}}\n'
SEARCHES = [
    Search("any word", False, ["foxes dogs red"], "1\n2\n"),
    Search("all words", False, ["lazy dog", "--all"], "2\n"),
    Search("one field", False, ["quick", "--field", "body", "--boost", "body=2"], "1\n"),
    Search("beginnings", False, ["fox dogs re", "--expand", "--limit", "0"], "2\n1\n"),
    Search("JSON", False, ["lazy", "--json"], LAZY_DOG),
    Search("a pretty index", True, ["foxes dogs red", "--field", "title"], "1\n2\n"),
]
FINDS = [
    Search("find any", False, ["body", "foxes dogs", "any"], "1\n2\n"),
    Search("find all", True, ["body", "lazy dog", "all"], "2\n"),
]


def spread(first, last, most):
    """The numbers from the first to the last, or so many of them, with these two."""
    if last - first < most:
        return list(range(first, last + 1))
    return [first + at * (last - first) // (most - 1) for at in range(most)]


def command_of(search, folder):
    """The program, its words and its input."""
    index = printed({"fields": ["title", "body"], "docs": DOCS, "pretty": search.is_pretty})
    if search in FINDS:
        return program("elasticlunr_find"), [], json.dumps(search.words) + "\n" + index
    path = write(os.path.join(folder, "index.json"), index)
    return program("elasticlunr_cli"), ["search", path, *search.words], ""


def check_search(search, refusing, folder, results):
    try:
        path, words, given = command_of(search, folder)
    except ValueError as error:
        results.note(False, f"refused memory, {search.name}: {error}")
        return
    whole = refusing.run(path, given, 0, words).requests
    # those for the command line: a search in a file that doesn't exist makes no others
    own = refusing.run(path, given, 0, [words[0], "", *words[2:]]).requests if words else 0
    tried = refused = 0
    failed = results.failed
    for number in [0, *spread(1, own, FEW), *spread(own + 1, whole, MOST)]:
        run = refusing.run(path, given, number, words)
        is_said = run.err.endswith(MESSAGE) or (run.err == "" and number <= own) or search in FINDS
        was_refused = number > 0 and (run.out, run.status) == ("", 1) and is_said
        refused += was_refused and number > own
        tried += number > 0
        good = was_refused or (run.out, run.status, run.err) == (search.found, 0, "")
        results.note(good, f"refused memory, {search.name}: request {number}: status {run.status}, {run.out!r}, {run.err!r}")
        if results.failed - failed > WRONG:
            break
    note_refused(search.name, refused, results)
    print(f"refused memory, {search.name}: {tried} of {whole} requests refused in turn, {results.failed - failed} wrong", flush=True)


def main():
    results = Results("memory")
    with Refusing() as refusing, tempfile.TemporaryDirectory() as folder:
        for name, row in chosen():
            if is_asked(name):
                check(name, row, refusing, results)
        for search in SEARCHES + FINDS:
            if is_asked(search.name):
                check_search(search, refusing, folder, results)
    return results.report()


if __name__ == "__main__":
    sys.exit(main())
