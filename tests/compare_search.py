#!/usr/bin/env python3
"""Searches printed indexes with the built program and with elasticlunr.js 0.9.5, and compares what they find.

usage: compare_search.py [--queries N] [--indexes N] [--seed N] [--script FILE] [--folder DIR]

The English texts are the paragraphs of this project's own pages. The others are those of random jobs in all languages, which
the JavaScript knows by the script for browsers (browser/elasticlunr-languages.js, or --script). Both search the text that
the program printed, one field at a time, without expansion, by any of the query's tokens and by all of them. The program
must print the references that the JavaScript finds, in the order of their bytes. LEAST says how many queries there must be,
and how many must find something. So neither a program nor a script that finds nothing passes.

The command `elasticlunr search` is compared in the same way, with what elasticlunr.js ranks (ranked_queries.py): on the
examples, on the same pages and on --indexes random indexes, with all options. LEAST_RANKED counts these.

elasticlunr.js is downloaded (tools/fetch_elasticlunr.sh), or is in --folder already. If it or node can't be had, the
comparison is counted as skipped.
"""
import argparse
import collections
import glob
import json
import math
import os
import random
import re
import shutil
import sys
import tempfile
from typing import NamedTuple

sys.path.insert(0, os.path.join(os.path.dirname(__file__), ".."))

from tests import browser_tools, random_jobs, ranked_queries
from tests.model_tokens import LANGUAGES
from tests.report import Results
from tools import search_page
from tools.repository import TOP, printed, program, read, run, write

FINDS = program("elasticlunr_find")
SCRIPT = os.path.join(TOP, "browser/elasticlunr-languages.js")
# For each query of --queries: how many queries of a kind there must be, and how many of them must find something
LEAST = {"English pages": (2, 0.8), "random": (1, 0.2)}
# The same of ranked queries. Of random ones there are EACH for each of --indexes; of others as many as --queries
LEAST_RANKED = {"examples": (1, 0.1), "pages": (1, 0.3), "random indexes": (ranked_queries.EACH, 1.5)}
SHOWN = 5  # failures that are printed

# Reads one JSON object: the texts of indexes, and requests with the number of an index each.
DRIVER = """
const fs = require('fs');
const elasticlunr = require(process.argv[2]);
require(process.argv[3])(elasticlunr);
elasticlunr.Pipeline.warnIfFunctionNotRegistered = () => {};
const given = JSON.parse(fs.readFileSync(0, 'utf8'));
const indexes = given.indexes.map((text) => elasticlunr.Index.load(JSON.parse(text)));
const found = given.requests.map(([number, query, config]) => indexes[number].search(query, config));
process.stdout.write(JSON.stringify(found));
"""


class Query(NamedTuple):
    kind: str
    job: dict
    field: str
    text: str
    join: str  # any or all
    index: int  # the number of the job's index


def found(index, query):
    """The lines that the program prints."""
    line = json.dumps([query.field, query.text, query.join], ensure_ascii=False)
    ended = run([FINDS], f"{line}\n{index}".encode())
    return ended.out.decode(errors="replace").split("\n")[:-1] if ended.status == 0 else [f"status {ended.status}"]


def paragraphs():
    """The paragraphs of the project's pages, each with the heading above it."""
    for path in sorted(glob.glob(os.path.join(TOP, "*.md")) + glob.glob(os.path.join(TOP, "docs/*.md"))):
        heading = ""
        for number, piece in enumerate(re.split(r"\n\s*\n", read(path))):
            if piece.startswith("#"):
                heading = piece.lstrip("# ")
            elif len(piece) > 40:
                yield [f"{os.path.basename(path)}/{number}", heading, piece]


def english(rng, count):
    """One index of the project's own pages, and queries of their words."""
    docs = list(paragraphs())
    job = {"fields": ["heading", "body"], "docs": docs}
    words = sorted({word for doc in docs for word in " ".join(doc[1:]).split()})
    for _ in range(count):
        asked = rng.choices(words, k=rng.randint(1, 4))
        if rng.random() < 0.2:
            asked.append(rng.choice(["the", "nowhere", "zebra", "IT"]))
        if rng.random() < 0.3:
            near = rng.choice(docs)[2].split()
            at = rng.randrange(len(near))
            asked = near[at : at + rng.randint(1, 3)]
        yield job, rng.choice(["heading", "body", "body"]), " ".join(asked)


def in_all_languages(rng, count):
    """Small random indexes in all languages, and queries of the words of their documents."""
    for _ in range(count):
        job = random_jobs.job(rng)
        code = LANGUAGES[job.get("lang", "English")].code
        names = [name for name in job["fields"] if name != job.get("ref", "id")]
        words = [one for doc in job["docs"] for value in doc[1:] for one in value.split()]
        if names and words:
            asked = rng.choices(words, k=rng.randint(1, 3)) + [random_jobs.word(rng, code)]
            yield job, rng.choice(names), " ".join(asked)


def answers(library, script, indexes, requests):
    """What elasticlunr.js finds for each request: the number of an index, a query and options."""
    with tempfile.TemporaryDirectory() as folder:
        driver = write(os.path.join(folder, "driver.js"), DRIVER)
        sent = json.dumps({"indexes": indexes, "requests": requests}).encode()
        ended = run(["node", driver, os.path.abspath(library), os.path.abspath(script)], sent, seconds=600)
    if ended.status != 0:
        sys.exit(f"search: node: status {ended.status}: {ended.err.decode(errors='replace')[-500:]}")
    return json.loads(ended.out)


def request(query):
    options = {"boost": 1, "bool": "OR" if query.join == "any" else "AND", "expand": False}
    return [query.index, query.text, {"fields": {query.field: options}}]


def indexed(options, results):
    """The texts of the indexes, and the queries. The program must print an index for each job."""
    rng = random.Random(options.seed)
    asked = [("English pages", *one) for one in english(rng, options.queries)]
    asked += [("random", *one) for one in in_all_languages(rng, options.queries)]
    texts, queries, numbers = [], [], {}
    for kind, job, field, text in asked:
        key = json.dumps(job)
        if key not in numbers:
            numbers[key] = None
            try:
                texts.append(printed(job))
                numbers[key] = len(texts) - 1
            except ValueError as error:
                results.note(False, f"search: {error}: {key[:300]}")
        if numbers[key] is not None:
            queries += [Query(kind, job, field, text, join, numbers[key]) for join in ("any", "all")]
    return texts, queries


def compare(options, library, results):
    texts, queries = indexed(options, results)
    theirs = answers(library, options.script, texts, list(map(request, queries)))
    theirs = [sorted((hit["ref"] for hit in hits), key=str.encode) for hits in theirs]
    equal, some = collections.Counter(), collections.Counter()
    for query, references in zip(queries, theirs, strict=True):
        mine = found(texts[query.index], query)
        good = mine == [line for one in references for line in one.split("\n")]
        said = {"field": query.field, "query": query.text, "join": query.join, "lang": query.job.get("lang"), "program": mine, "script": references}
        results.note(good, f"search: {json.dumps(said)}")
        equal[query.kind] += good
        some[query.kind] += bool(good and references)
    for kind, (least, least_found) in LEAST.items():
        print(f"search, {kind}: {equal[kind]} equal, {some[kind]} of them found something")
        tried = sum(query.kind == kind for query in queries)
        if tried < max(1, least * options.queries):
            results.note(False, f"search: {kind}: {tried} queries, and {least * options.queries} are the least")
        if some[kind] < least_found * options.queries:
            results.note(False, f"search: {kind}: {some[kind]} queries found something, and {round(least_found * options.queries)} are the least")


def ranked_indexes(rng, options):
    """For each index its kind, its job, the number of its queries and their words."""
    examples = list(ranked_queries.jobs_of_examples())
    for job in examples:
        yield "examples", job, math.ceil(options.queries / len(examples)), ranked_queries.words_of(job["docs"])
    docs = list(paragraphs())
    yield "pages", {"fields": ["heading", "body"], "docs": docs}, options.queries, ranked_queries.words_of(docs)
    for _ in range(options.indexes):
        yield "random indexes", *with_count(ranked_queries.random_index(rng))


def with_count(index):
    job, words = index
    return job, ranked_queries.EACH, words


def ranked(options, results):
    """The texts of the indexes, and the ranked queries."""
    rng = random.Random(options.seed)
    texts, queries = [], []
    for kind, job, count, words in ranked_indexes(rng, options):
        try:
            text = printed(job)
        except ValueError as error:
            results.note(False, f"search: {error}: {json.dumps(job)[:300]}")
            continue
        fields = json.loads(text)["fields"]
        queries += [ranked_queries.ranked_query(rng, kind, len(texts), fields, words) for _ in range(count)]
        texts.append(text)
    return texts, queries


def compare_ranked(options, library, results):
    texts, queries = ranked(options, results)
    theirs = answers(library, options.script, texts, [[it.index, it.text, it.config()] for it in queries])
    equal, some = collections.Counter(), collections.Counter()
    with tempfile.TemporaryDirectory() as folder:
        paths = [write(os.path.join(folder, f"{number}.json"), text) for number, text in enumerate(texts)]
        for query, hits in zip(queries, theirs, strict=True):
            wrong = ranked_queries.why_wrong(ranked_queries.hits_of(paths[query.index], query), hits)
            results.note(wrong is None, f"search: {json.dumps(query.said())}: {wrong}")
            equal[query.kind] += wrong is None
            some[query.kind] += wrong is None and len(hits) > 1
    for kind, (least, least_found) in LEAST_RANKED.items():
        print(f"search, ranked, {kind}: {equal[kind]} equal, {some[kind]} of them found several documents")
        base = options.indexes if kind == "random indexes" else options.queries
        tried = sum(query.kind == kind for query in queries)
        if tried < max(1, least * base):
            results.note(False, f"search: {kind}: {tried} queries, and {least * base} are the least")
        if some[kind] < least_found * base:
            results.note(False, f"search: {kind}: {some[kind]} queries found several documents, and {round(least_found * base)} are the least")


def main():
    parser = argparse.ArgumentParser(description=__doc__, formatter_class=argparse.RawDescriptionHelpFormatter)
    parser.add_argument("--queries", type=int, default=300)
    parser.add_argument("--indexes", type=int, default=500)
    parser.add_argument("--seed", type=int, default=1)
    parser.add_argument("--script", default=SCRIPT)
    parser.add_argument("--folder", default=search_page.FETCHED)
    options = parser.parse_args()
    results = Results("search", most=SHOWN)
    library = os.path.join(options.folder, "elasticlunr.min.js")
    if not os.path.exists(library) or not shutil.which("node"):
        lacking = browser_tools.prepare() & {"node", "elasticlunr.min.js"}
        if lacking:
            results.skip("search", lacking)
            return results.report()
        library = search_page.ELASTICLUNR
    if os.path.exists(options.script):
        compare(options, library, results)
        compare_ranked(options, library, results)
    else:
        results.note(False, f"search: there is no {options.script}")
    return results.report()


if __name__ == "__main__":
    sys.exit(main())
