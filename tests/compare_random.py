#!/usr/bin/env python3
"""Makes random jobs, a quarter of them damaged, and compares the answers of the built program with those of the model.

usage: compare_random.py [--jobs N] [--seed N]

Each answer is compared byte for byte with that of the model (model.py), which was written from the definitions and not from
the program. For one job in twenty the laws between two runs of the program are tried, too: these hold whatever the model
says. The same seed makes the same jobs; a job with another answer is printed.
"""
import argparse
import collections
import json
import os
import random
import sys

sys.path.insert(0, os.path.join(os.path.dirname(__file__), ".."))

from tests import model, random_jobs
from tests.report import Results
from tools.repository import printed, program, run

PROGRAM = program("elasticlunr_index")
SHOWN = 5  # jobs that are printed


def current(job):
    """The document that each reference has at the end."""
    now = {doc[0]: doc for doc in job["docs"]}
    return [doc for reference, doc in now.items() if reference not in job.get("remove", [])]


def in_another_order(rng, docs):
    """The same documents, those of each reference in the same order."""
    rows = {}
    for doc in docs:
        rows.setdefault(doc[0], []).append(doc)
    turns = [doc[0] for doc in docs]
    rng.shuffle(turns)
    return [rows[reference].pop(0) for reference in turns]


def laws(rng, job):
    """The name of each law, and whether it holds for this job."""
    job = {key: job[key] for key in job if key not in ("pretty", "compact")}
    text = printed(job)
    value = json.loads(text)
    yield "documents in another order print the same text", printed(dict(job, docs=in_another_order(rng, job["docs"]))) == text
    yield "a document that is added again changes nothing", printed(dict(job, docs=job["docs"] * 2)) == text
    unknown = job.get("remove", []) + ["?"]
    yield "to remove a reference without a document changes nothing", printed(dict(job, remove=unknown)) == text
    pretty = printed(dict(job, pretty=True))
    yield "both texts have the same value", json.loads(pretty) == value and pretty.count("\n") > 1
    fresh = {key: job[key] for key in job if key != "remove"}
    fresh["docs"] = current(job)
    rng.shuffle(fresh["docs"])
    once = printed(fresh)
    yield "a compacted index is a new index", printed(dict(job, compact=True)) == once
    yield "a new index is compact", printed(dict(fresh, compact=True)) == once
    yield "removals leave the store of a new index", value["documentStore"] == json.loads(once)["documentStore"]


def compared(rng, job, number):
    """The name of each comparison, and how its answer differs, or None."""
    given = random_jobs.damaged(rng, job) if number % 4 == 3 else random_jobs.written(rng, job)
    expected, status = model.answer(given)
    ended = run([PROGRAM], given)
    if (ended.out, ended.err, ended.status) == (expected.encode(), b"", status):
        yield expected if status else "printed", None
    else:
        yield "the model's answer", f"{given!r}: status {ended.status} instead of {status}, or another text"
    if number % 20 == 0:
        try:
            for law, holds in laws(rng, job):
                yield "a law", None if holds else f"it doesn't hold that {law}: {json.dumps(job)}"
        except (ValueError, LookupError, TypeError) as error:
            yield "a law", f"{error!r}: {json.dumps(job)}"


def main():
    parser = argparse.ArgumentParser(description=__doc__, formatter_class=argparse.RawDescriptionHelpFormatter)
    parser.add_argument("--jobs", type=int, default=10000)
    parser.add_argument("--seed", type=int, default=1)
    options = parser.parse_args()
    rng = random.Random(options.seed)
    kinds = collections.Counter()
    results = Results("random", most=SHOWN)
    for number in range(options.jobs):
        for kind, wrong in compared(rng, random_jobs.job(rng), number):
            kinds[kind.strip()] += wrong is None
            results.note(wrong is None, f"random: seed {options.seed}, job {number}: {wrong}")
    print("random: " + ", ".join(f"{count} of {kind}" for kind, count in kinds.most_common()))
    return results.report()


if __name__ == "__main__":
    sys.exit(main())
