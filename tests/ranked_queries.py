"""Ranked searches by the command and by elasticlunr.js: which queries are tried, and when two answers agree.

The command prints all hits of a query as JSON, with --limit 0. They must be the references that elasticlunr.js finds, each
once, with the same stored texts and the same scores, up to TOLERANCE. The order must be that of elasticlunr.js, up to hits
whose scores agree so far; of the command's hits those with equal scores stand in the order of the bytes of their references.
"""
import json
import math
import os
import sys
from typing import NamedTuple

sys.path.insert(0, os.path.join(os.path.dirname(__file__), ".."))

from tests import random_jobs
from tests.model_tokens import LANGUAGES
from tools.repository import program, read, run

COMMAND = program("elasticlunr_cli")
TOLERANCE = 1e-12  # of two scores, relative to the greater one
BOOSTS = [0, 1, 2, 3, 10, 255]
NOWHERE = ["zebra", "qqq", "nowhere"]
EACH = 3  # queries of a random index
REFERENCES = ["1", "2", "10", "a/b.html", "", '\u00e9"\n', "id", "b", "Z"]


class Ranked(NamedTuple):
    kind: str
    index: int  # the number of the index
    text: str
    fields: list  # in which is searched
    named: list  # of these, the ones that the command is given; none is all
    boosts: dict
    bool: str  # OR or AND
    expand: bool

    def config(self):
        """The options as elasticlunr.js takes them."""
        return {
            "fields": {name: {"boost": self.boosts.get(name, 1), "bool": self.bool, "expand": self.expand} for name in self.fields}
        }

    def words(self, path):
        """The words of the command."""
        options = ["--json", "--limit", "0", *(["--expand"] if self.expand else [])]
        options += ["--bool", self.bool] if self.bool == "AND" else []
        options += [f"--field={name}" for name in self.named]
        options += [f"--boost={name}={number}" for name, number in self.boosts.items()]
        return ["search", *options, "--", path, self.text]

    def said(self):
        return {"options": self.config(), "query": self.text, "index": self.index, "kind": self.kind}


def asked_words(rng, words, beginnings):
    """Some words: of the documents, their beginnings, one twice, one of no document."""
    asked = rng.choices(words, k=rng.randint(1, 3))
    if rng.random() < beginnings:
        asked = [word[: rng.randint(1, len(word))] for word in asked]
    if rng.random() < 0.25:
        asked.append(rng.choice(asked))
    if rng.random() < 0.2:
        asked.append(rng.choice(NOWHERE))
    rng.shuffle(asked)
    return " ".join(asked).replace("\0", "")


def ranked_query(rng, kind, index, fields, words):
    """A query with random options."""
    expand = rng.random() < 0.4
    named = sorted(rng.sample(fields, rng.randint(1, len(fields)))) if rng.random() < 0.4 else []
    searched = named or fields
    boosts = {name: rng.choice(BOOSTS) for name in searched if rng.random() < 0.4}
    bool_word = rng.choice(["OR", "OR", "AND"])
    text = asked_words(rng, words, 0.7 if expand else 0.1)
    return Ranked(kind, index, text, searched, named, boosts, bool_word, expand)


def words_of(docs):
    return sorted({word for doc in docs for value in doc[1:] for word in value.split()})


def jobs_of_examples():
    """The jobs that are examples, and the job of the lines that are one."""
    for name in ("job", "small", "german", "korean"):
        job = json.loads(read(f"examples/{name}.json"))
        if isinstance(job, dict):
            yield job
    lines = [json.loads(line) for line in read("examples/docs.jsonl").splitlines()]
    names = sorted({key for line in lines for key in line if key != "id" and isinstance(line[key], str)})
    yield {"fields": names, "docs": [[str(line["id"]), *(line.get(name, "") for name in names)] for line in lines]}


def random_index(rng):
    """A random job whose documents share their words, some of which begin others, and the words."""
    lang = rng.choice(random_jobs.NAMES)
    code = LANGUAGES[lang].code
    short = [random_jobs.word(rng, code) or "x" for _ in range(6)]
    words = short + [word + rng.choice(["s", "x", "ness", "\u00e9", "1", "\U00010428"]) for word in short]
    fields = rng.sample(["title", "body", "tags", "", "\u00dc", "df"], rng.randint(1, 3))
    docs = [
        [reference, *(random_jobs.text(rng, words) for _ in fields)] for reference in rng.sample(REFERENCES, rng.randint(3, len(REFERENCES)))
    ]
    job = {"fields": fields, "docs": docs, "lang": lang, "save": rng.random() < 0.8, "pretty": rng.random() < 0.2}
    if rng.random() < 0.2:
        job["remove"] = rng.sample(REFERENCES, 2)
    return job, words


def hits_of(path, query):
    """The hits that the command prints, or what it printed instead."""
    ended = run([COMMAND, *query.words(path)])
    try:
        hits = [json.loads(line) for line in ended.out.decode().split("\n")[:-1]]
    except ValueError:
        hits = None
    has_form = hits is not None and all(isinstance(hit, dict) and list(hit) == ["ref", "score", "doc"] for hit in hits)
    return hits if ended.status == 0 and has_form else f"status {ended.status}: {(ended.out + ended.err)[:200]!r}"


def are_close(one, other):
    return math.isclose(one, other, rel_tol=TOLERANCE, abs_tol=0)


def why_wrong(mine, theirs):
    """What is wrong with the command's hits, next to those of elasticlunr.js. None if nothing is."""
    if isinstance(mine, str):
        return mine
    scores = {hit["ref"]: hit["score"] for hit in theirs}
    if sorted(hit["ref"] for hit in mine) != sorted(scores):
        return f"finds {[hit['ref'] for hit in mine]} instead of {list(scores)}"
    docs = {hit["ref"]: hit.get("doc") for hit in theirs}
    for hit, other in zip(mine, theirs):
        if not are_close(hit["score"], scores[hit["ref"]]):
            return f"scores {hit['ref']!r} with {hit['score']!r} instead of {scores[hit['ref']]!r}"
        if not are_close(scores[hit["ref"]], other["score"]):
            return f"has {hit['ref']!r} where elasticlunr.js has {other['ref']!r}"
        if (hit["doc"] or {}) != (docs[hit["ref"]] or {}):
            return f"has another text of {hit['ref']!r}"
    for hit, after in zip(mine, mine[1:]):
        if (-hit["score"], hit["ref"].encode()) >= (-after["score"], after["ref"].encode()):
            return f"has {hit['ref']!r} before {after['ref']!r}"
    return None
