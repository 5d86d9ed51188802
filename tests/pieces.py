#!/usr/bin/env python3
"""Searches printed indexes whole and in pieces, by elasticlunr.js 0.9.5 in node, and compares what is found.

usage: pieces.py [--indexes N] [--seed N] [--reader FILE] [--folder DIR]

The program prints the indexes: of examples/, of the paragraphs of this project's pages, and of random documents, some of them
in characters whose order in UTF-16 isn't that of their bytes. pieces_model.py cuts them, and `elasticlunr build --pieces` must
write the same files, which are the ones that are searched. For each query the reader of pieces
(browser/elasticlunr-pieces.js, or --reader) must give the references, the scores to the last bit and the order that
elasticlunr.js gives for the whole index, may fetch only what it needs, and must give each stored document. pieces.js has these
comparisons and the cases of faults. LEAST says how many queries there must be, and how many must find something.

elasticlunr.js breaks on references such as `constructor`. Where an index has them, it gets other names for them.

elasticlunr.js is downloaded (tools/fetch_elasticlunr.sh), or is in --folder already. Where it or node can't be had, the check
is counted as skipped.
"""
import argparse
import glob
import json
import os
import random
import shutil
import statistics
import sys
import tempfile
from typing import NamedTuple

sys.path.insert(0, os.path.join(os.path.dirname(__file__), ".."))

from tests import pieces_model, random_jobs
from tests.command_pieces import files_in
from tests.compare_search import paragraphs
from tests.model_tokens import LANGUAGES
from tests.report import Results
from tools import search_page
from tools.repository import TOP, lines_of, printed, program, read, run

LANGUAGES_SCRIPT = os.path.join(TOP, "browser/elasticlunr-languages.js")
READER = os.path.join(TOP, "browser/elasticlunr-pieces.js")
DRIVER = os.path.join(TOP, "tests/pieces.js")
SHOWN = 10  # failures that are printed
SECONDS = 600
CASES = 27  # of pieces.js
# For each kind of index: how many queries each gets, and how many of them must find something
LEAST = {"examples": (60, 0.35), "pages": (300, 0.35), "random": (24, 0.35), "characters": (24, 0.35)}
FEW_PIECES = 5  # most indexes have more

# References that are in the order of numbers, of UTF-16 or of nothing in JavaScript, and those that every object has
ODD = ["1", "2", "10", "007", "4294967294", "4294967295", "-1", "", '\u00e9"\n', "id", "\uff01", "\U0001f600", "constructor\0"]
OF_EVERY_OBJECT = """constructor __proto__ __defineGetter__ __defineSetter__ __lookupGetter__ __lookupSetter__ hasOwnProperty
    isPrototypeOf propertyIsEnumerable toLocaleString toString valueOf""".split()
# Characters around the places where UTF-16 has another order than UTF-8, and those that come first in a trie of JavaScript
CHARACTERS = ["\ue000", "\uffee", "\U00010000", "\U0001f600", "\U0001f601", "\U0010ffff", "a", "0", "1", "9", ".", "/", ":", "z"]
UNKNOWN = ["zebra", "\u0001", "zzzzzz", "\U0001f602", "__proto__", "nowhere", "9999", "\uffff"]
HALF = "\ud83d"  # one half of some of these characters
ANOTHER_NAME = "renamed "


class Given(NamedTuple):
    kind: str
    job: dict
    size: int  # bytes of a piece


# Indexes


def examples():
    for path in sorted(glob.glob(os.path.join(TOP, "examples/*.json"))):
        yield Given("examples", json.loads(read(path)), 400)
    docs = [json.loads(line) for line in lines_of("examples/docs.jsonl")]
    yield Given("examples", {"fields": ["title", "body"], "docs": [[str(doc["id"]), doc["title"], doc["body"]] for doc in docs]}, 200)


def random_words(rng):
    """Some words of a language, and the language."""
    lang = rng.choice(random_jobs.NAMES)
    return [random_jobs.word(rng, LANGUAGES[lang].code) for _ in range(rng.choice([10, 60]))], lang


def random_characters(rng):
    """Words of odd characters, half of which begin alike. Arabic has no stage that drops them."""
    return [rng.choice(["a", ""]) + "".join(rng.choices(CHARACTERS, k=rng.randint(1, 4))) for _ in range(40)], "Arabic"


def random_index(rng, kind, words_of):
    words, lang = words_of(rng)
    fields = rng.sample(["id", "title", "body", "tags", "", "\u00dc", "df"], rng.randint(1, 4))
    references = rng.sample(ODD + [f"page/{number}.html" for number in range(10)], rng.randint(1, 12))
    if rng.random() < 0.3:
        references += rng.sample(OF_EVERY_OBJECT, rng.randint(1, 4))
    docs = [[reference] + [random_jobs.text(rng, words) for _ in range(rng.randint(0, len(fields)))] for reference in references * 2]
    job = {"fields": fields, "docs": docs, "lang": lang, "save": rng.random() < 0.8}
    if rng.random() < 0.3:
        job["remove"] = rng.sample(references, 1)
    return Given(kind, job, rng.choice([1, 200, 300, 500]))


def all_indexes(rng, count):
    yield from examples()
    yield Given("pages", {"fields": ["heading", "body"], "docs": list(paragraphs())}, 600)
    for number in range(count):
        yield random_index(rng, "characters", random_characters) if number % 5 == 0 else random_index(rng, "random", random_words)


def cases():
    """The indexes that the cases of pieces.js need."""
    docs = [[f"page/{number}.html", f"word{number} alpha{number % 3}", f"text{number} word beta{number % 4} 42 7"] for number in range(6)]
    job = {"fields": ["title", "body"], "docs": docs}
    other = [[f"other/{number}.html", f"other{number} gamma", f"text{number} word delta {number}"] for number in range(6)]
    hostile = [[reference, "x", f"word {reference}"] for reference in OF_EVERY_OBJECT + ["a", "constructor\0"]]
    yield "site", Given("cases", job, 160)
    yield "other", Given("cases", {**job, "docs": other}, 160)
    yield "hostile", Given("cases", {**job, "docs": hostile}, 160)
    german = [["1", "Wort", "Ein Wort"], ["2", "Satz", "Zwei Sätze und ein Wort"]]
    of_objects = ["constructor", "toString", "__proto__", "hasOwnProperty", "plain"]
    docs = [[str(at), *("word" if field == of_objects[0] and at < 3 else f"own{at}" if number == at else "" for number, field in enumerate(of_objects))] for at in range(len(of_objects))]
    docs[0][1] = "word own0"
    yield "fields", Given("cases", {**job, "fields": of_objects, "docs": docs, "lang": "Arabic"}, 160)
    yield "named", Given("cases", {**job, "docs": [[str(number), f"A title {number}" if number % 3 else "", "word"] for number in range(9)]}, 640)
    yield "german", Given("cases", {**job, "docs": german, "lang": "German"}, 160)
    rng = random.Random(20261127)
    alike = [f"a{one}{other}" for one in "./:019z" for other in ("", ".", "5")]
    sums = [[str(number), " ".join(rng.choices(alike, k=30)), " ".join(rng.choices(alike, k=30))] for number in range(8)]
    yield "sums", Given("cases", {**job, "docs": sums, "lang": "Arabic"}, 160)
    yield "bare", Given("cases", {**job, "save": False}, 160)
    yield "empty", Given("cases", {**job, "docs": []}, 160)


def renamed(text):
    """The text of an index in which references that every object has have other names, in the same order, and these names."""
    index = json.loads(text)
    names = {name: ANOTHER_NAME + name for name in OF_EVERY_OBJECT if name in index["documentStore"]["docs"]}
    if not names:
        return text, []

    def rename(holder):
        return {names.get(key, key): value for key, value in holder.items()}

    store = index["documentStore"]
    store["docs"], store["docInfo"] = rename(store["docs"]), rename(store["docInfo"])
    for field in index["fields"]:
        for node in pieces_model.nodes(index["index"][field]["root"]).values():
            node["docs"] = rename(node["docs"])
    return json.dumps(index), [[new, old] for old, new in names.items()]


def first_entry(text):
    value = json.loads(text)
    if isinstance(value, list):
        return pieces_model.compact(value[0])
    return pieces_model.compact(dict(list(value.items())[:1]))[1:-1]


def wrong_sizes(texts, size):
    """What is wrong with the sizes of pieces, or None: each has one entry or is short enough, and the next entry doesn't fit."""
    for text, after in zip(texts, texts[1:] + [None]):
        if len(text.encode()) > size and len(json.loads(text)) > 1:
            return f"a piece of {len(text.encode())} bytes"
        if after and len(f"{text},{first_entry(after)}".encode()) <= size:
            return f"a piece of {len(text.encode())} bytes, though the next entry fits"
    return None


def postings_of_pieces(tokens, references):
    """The frequencies in pieces, by token, field number and reference."""
    for token, lists in tokens:
        for field, flat in enumerate(lists):
            for number, frequency in zip(flat[::2], flat[1::2], strict=True):
                yield (token, field, references[number]), frequency


def postings_of_tries(index):
    """The same of a whole index."""
    for number, field in enumerate(index["fields"]):
        for token, node in pieces_model.nodes(index["index"][field]["root"]).items():
            for reference, posting in node["docs"].items():
                yield (token, number, reference), posting["tf"]


def written(given):
    """The files that the command writes for a job. Raises a ValueError if it fails."""
    with tempfile.TemporaryDirectory() as folder:
        words = ["build", "--format", "job", "--pieces", folder, "--piece-size", str(given.size)]
        ended = run([program("elasticlunr_cli"), *words], json.dumps(given.job).encode())
        if ended.status != 0 or ended.out:
            raise ValueError(f"elasticlunr writes no pieces: status {ended.status}, {(ended.out + ended.err)[:200]!r}")
        return {name: text.decode() for name, text in files_in(folder).items()}


def wrong_files(files, index, size):
    """What is wrong with the files of an index, or None. Put together, they are the index."""
    head = json.loads(files[pieces_model.HEAD])
    tries = [files[f"{head['folder']}/t{number}.json"] for number in range(len(head["tries"]))]
    texts = [files[f"{head['folder']}/d{number}.json"] for number in range(len(head["texts"]))]
    titles = [files[f"{head['folder']}/h{number}.json"] for number in range(len(head["titles"]))]
    if len(files) != 1 + len(tries) + len(texts) + len(titles):
        return f"{len(files)} files"
    if any(pieces_model.compact(json.loads(text)) != text for text in files.values()):
        return "another layout"
    tokens = [member for text in tries for member in json.loads(text).items()]
    whole = dict(postings_of_tries(index))
    if dict(postings_of_pieces(tokens, head["references"])) != whole:
        return "other postings"
    if [token for token, _ in tokens] != sorted({token for token, _, _ in whole}, key=str.encode):
        return "other tokens, or another order"
    docs = index["documentStore"]["docs"] if head["save"] else {}
    if [doc for text in texts for doc in json.loads(text)] != [docs[reference] for reference in sorted(docs, key=str.encode)]:
        return "other texts"
    wanted = [docs[reference].get("title", "") for reference in sorted(docs, key=str.encode)] if "title" in head["fields"] else []
    if [title for text in titles for title in json.loads(text)] != wanted:
        return "other titles"
    if head["sizes"] != [len(text.encode()) for text in tries + texts + titles]:
        return "other sizes"
    return wrong_sizes(tries, size) or wrong_sizes(texts, size // 8) or wrong_sizes(titles, size // 32)


# Queries


def beginning(rng, word):
    return word[: rng.randint(1, len(word))]


def a_text(rng, words, tokens):
    word, token = rng.choice(words), rng.choice(tokens)
    return rng.choice([
        word,
        token,
        beginning(rng, token),
        beginning(rng, token) + HALF,
        token[0],
        f"{word} {word} {beginning(rng, token)}",
        " ".join(rng.choices(words, k=rng.randint(2, 4))),
        " ".join(beginning(rng, one) for one in rng.choices(tokens, k=2)),
        rng.choice(UNKNOWN),
        f"{rng.choice(UNKNOWN)} {word} {token}",
    ])


def a_query(rng, fields, words, tokens):
    if rng.random() < 0.8:
        return a_text(rng, words, tokens)
    keys = rng.sample([*fields, "any", "nowhere"], rng.randint(1, 2))
    return {key: a_text(rng, words, tokens) for key in keys}


def some_options(rng, fields):
    options = {}
    for key, chance, values in [("bool", 0.6, ["OR", "AND", "AND"]), ("expand", 0.6, [True, True, False]), ("minimum", 0.4, [1, 1, 3]), ("maxPieces", 0.2, [1, 2, 5])]:
        if rng.random() < chance:
            options[key] = rng.choice(values)
    if rng.random() < 0.4:
        options["fields"] = {field: field_options(rng) for field in rng.sample([*fields, "nowhere"], rng.randint(1, len(fields)))}
    return rng.choice([options, options, options, options, None])


def field_options(rng):
    made = {}
    for key, values in [("bool", ["OR", "AND"]), ("expand", [True, False]), ("boost", [0, 1, 2, 0.3, 1e-9])]:
        if rng.random() < 0.5:
            made[key] = rng.choice(values)
    return made


def some_queries(rng, given, files, count):
    """Queries of the words and the tokens of an index. One without either has none."""
    words = [word for doc in given.job["docs"] for value in doc[1:] for word in value.split()]
    tokens = [token for name, text in files.items() if "/t" in name for token in json.loads(text)]
    if not words or not tokens:
        return
    fields = given.job["fields"]
    for number in range(count):
        if number % 4 == 0:  # sums of many scores, which depend on their order
            yield rng.choice(tokens)[0], {"expand": True}
        else:
            yield a_query(rng, fields, words, tokens), some_options(rng, fields)


# The check


class Tried:
    """What the driver is handed: the indexes, and queries with the number of an index."""

    def __init__(self):
        self.given, self.indexes, self.queries, self.cases = [], [], [], {}

    def add(self, given, text, files):
        whole, names = renamed(text)
        self.given.append(given)
        self.indexes.append({"whole": whole, "files": files, "names": names})

    def kind(self, query):
        return self.given[query[0]].kind

    def pieces(self, number):
        return len(self.indexes[number]["files"]) - 1


def collect(options, results):
    rng = random.Random(options.seed)
    tried = Tried()
    named = [("", given) for given in all_indexes(rng, options.indexes)] + list(cases())
    for name, given in named:
        try:
            text, files = printed(given.job), written(given)
        except ValueError as error:
            results.note(False, f"pieces: {error}")
            continue
        tried.add(given, text, files)
        same = files == pieces_model.files(text, given.size)
        results.note(same, f"pieces, {given.kind}: {json.dumps(given.job)[:300]}: the command writes other files than the model")
        wrong = wrong_files(files, json.loads(text), given.size)
        results.note(wrong is None, f"pieces, {given.kind}: {json.dumps(given.job)[:300]}: {wrong}")
        number = len(tried.indexes) - 1
        if name:
            tried.cases[name] = number
        else:
            tried.queries += [(number, *one) for one in some_queries(rng, given, files, LEAST[given.kind][0])]
    return tried


def told_by_node(options, library, tried):
    """What the driver answers. It may not make a function of a text, as under a strict Content-Security-Policy."""
    command = ["node", "--disallow-code-generation-from-strings", DRIVER, library, LANGUAGES_SCRIPT, options.reader]
    sent = json.dumps({"indexes": tried.indexes, "queries": tried.queries, "cases": tried.cases})
    ended = run(command, sent.encode(), seconds=SECONDS)
    if ended.status != 0:
        return None, f"pieces: node: status {ended.status}: {ended.err.decode(errors='replace')[-500:]}"
    return json.loads(ended.out), None


def note_kind(kind, tried, answers, results):
    """Counts the queries of a kind, of which there must be enough and enough must find something."""
    each, share = LEAST[kind]
    indexes = sum(given.kind == kind for given in tried.given)
    least = max(1, each * indexes // 2)
    some = sum(answer["hits"] > 0 for answer in answers)
    fetched = [answer["fetched"] for answer in answers if answer["hits"]]
    print(f"pieces, {kind}: {indexes} indexes, {len(answers)} queries, {some} found something; these fetched "
          f"{statistics.median(fetched or [0]):g} pieces each, at most {max(fetched or [0])}", flush=True)
    if len(answers) < least:
        results.note(False, f"pieces: {kind}: {len(answers)} queries, and {least} are the least")
    if some < share * least:
        results.note(False, f"pieces: {kind}: {some} queries found something, and {round(share * least)} are the least")


def compare(options, library, results):
    tried = collect(options, results)
    if not tried.cases:
        return results.note(False, "pieces: no index is printed")
    told, wrong = told_by_node(options, library, tried)
    if told is None:
        return results.note(False, wrong)
    for query, answer in zip(tried.queries, told["queries"], strict=True):
        number, *rest = query
        said = {"query": rest, "lang": tried.given[number].job.get("lang"), "index": number}
        results.note(answer["wrong"] is None, f"pieces, {tried.kind(query)}: {json.dumps(said)}: {answer['wrong']}")
    for given, wrong in zip(tried.given, told["texts"], strict=True):
        results.note(wrong is None, f"pieces, {given.kind}: a stored document: {wrong}")
    for name, wrong in told["cases"]:
        results.note(wrong is None, f"pieces, {name}: {wrong}")
    if len(told["cases"]) != CASES:
        results.note(False, f"pieces: {len(told['cases'])} cases instead of {CASES}")
    for kind in LEAST:
        answers = [answer for query, answer in zip(tried.queries, told["queries"]) if tried.kind(query) == kind]
        note_kind(kind, tried, answers, results)
    pieces = statistics.median(tried.pieces(number) for number in range(len(tried.indexes)))
    if pieces <= FEW_PIECES:
        results.note(False, f"pieces: half of the indexes have {pieces:g} pieces or fewer")
    return None


def main():
    parser = argparse.ArgumentParser(description=__doc__, formatter_class=argparse.RawDescriptionHelpFormatter)
    parser.add_argument("--indexes", type=int, default=300)
    parser.add_argument("--seed", type=int, default=1)
    parser.add_argument("--reader", default=READER)
    parser.add_argument("--folder", default=search_page.FETCHED)
    options = parser.parse_args()
    results = Results("pieces", most=SHOWN)
    library = os.path.join(options.folder, "elasticlunr.min.js")
    there = {"node": shutil.which("node"), "elasticlunr.min.js": os.path.exists(library) or search_page.fetch()}
    lacking = [name for name, is_there in there.items() if not is_there]
    if lacking:
        results.skip("pieces", lacking)
    elif not os.path.exists(options.reader):
        results.note(False, f"pieces: there is no {options.reader}")
    else:
        compare(options, library if os.path.exists(library) else search_page.ELASTICLUNR, results)
    return results.report()


if __name__ == "__main__":
    sys.exit(main())
