#!/usr/bin/env python3
"""Searches long texts of indexes, most of them such as no index prints, at two sizes each: what is found must be right, and
a text twice as long may take TIMES as long.

usage: orders.py [WORD ..]

Each search has RUNS runs, and one more where they take too long (tests/growth.py). The last cases search texts that the
library printed, with a token that is deeper than `serde_json` reads: such a text is found to be an index, or it is refused.
With words, only the cases are tried that have one of them in their names.
"""
import json
import os
import random
import sys
import tempfile
from typing import NamedTuple

sys.path.insert(0, os.path.join(os.path.dirname(__file__), ".."))

from tests import random_jobs
from tests.growth import Runs, check_growth, growth
from tests.report import Results, is_asked
from tools.repository import printed, program, run, write

PROGRAM = program("elasticlunr_find")
RUNS = 3
STEPS_PER_BYTE, MORE_STEPS = 64, 1 << 20  # how many steps through tries a text may cost
DEEP = "k" * 130 + "7"  # a token that is deeper than 127 levels, and its own stem
JOBS = 150  # random jobs with a deep token
SETTINGS = '"lang":"English","pipeline":["trimmer","stopWordFilter","stemmer"],"ref":"id","version":"0.9.5"'
EMPTY = '"df":0,"docs":{}'
NO_TRIE = (2, "refused: no trie of a field\n")
TOO_DEEP = (2, "refused: nested deeper than 127 levels\n")


class Search(NamedTuple):
    query: str
    index: str  # its text
    answer: tuple  # the status, and what is printed


def reference(number):
    return f"{number:06}"


def letters(count):
    """Characters in their order, of four bytes each."""
    return map(chr, range(0x20000, 0x20000 + count))


def lines(references):
    return (0, "".join(f"{it}\n" for it in references))


def posted(references):
    """The members of a node with postings."""
    docs = ",".join(f'"{it}":{{"tf":1000000}}' for it in references)
    return f'"df":{len(references)},"docs":{{{docs}}}'


def node(letter, members):
    return f'"{letter}":{{{members}}}'


def index_of(references, tries):
    """The text of an index that has no texts: the references with a length, and the tries' members."""
    lengths = ",".join(f'"{it}":{{"body":1}}' for it in references)
    texts = ",".join(f'"{it}":{{}}' for it in references)
    store = f'{{"docInfo":{{{lengths}}},"docs":{{{texts}}},"length":{len(references)},"save":false}}'
    return f'{{"documentStore":{store},"fields":["body"],"index":{{{",".join(tries)}}},{SETTINGS}}}'


def trie(*members):
    return node("body", node("root", ",".join(members)))


def falling_keys(count):
    children = [node(letter, "") for letter in reversed(list(letters(count)))]
    return Search("k", index_of(["1"], [trie(*children)]), NO_TRIE)


def falling_children(count):
    children = [node(letter, posted(["1"])) for letter in reversed(list(letters(count)))]
    return Search("k", index_of(["1"], [trie(*children, node("k", posted(["1"])), EMPTY)]), lines(["1"]))


def a_key_again(count):
    references = [reference(number) for number in range(count)]
    again = [node("j", EMPTY)] * (count // 2)
    members = [EMPTY, node("e", EMPTY), node("j", posted(references)), *again, node("k", posted(["000000"]))]
    return Search("j k", index_of(references, [trie(*members)]), lines(["000000"]))


def no_reference_again(count):
    """Nodes with a posting of the empty reference, each of which comes again."""
    nodes = [node(letter, posted([""])) for letter in letters(count)]
    return Search("k", index_of([""], [trie(EMPTY, node("k", posted([""])), *nodes, *nodes)]), lines([""]))


def falling_references(count):
    references = [reference(number) for number in range(count)]
    members = [EMPTY, node("j", posted(references)), node("k", posted(references[::-1]))]
    return Search("k", index_of(references, [trie(*members)]), lines(references))


def own_letters(count, known):
    """Tokens of one reference each, whose references fall, and a token of all of them."""
    references = [reference(number) for number in range(count)]
    below = [node(letter, posted([it])) for letter, it in zip(letters(count), reversed(references))]
    members = [node("A", ",".join([EMPTY, *below])), EMPTY, node("k", posted(references))]
    return Search("k", index_of(references if known else [], [trie(*members)]), lines(references))


def unknown_references(count):
    return own_letters(count, known=False)


def known_references(count):
    return own_letters(count, known=True)


def levels_and_children(count):
    children = ",".join([EMPTY, *(node(letter, EMPTY) for letter in letters(count))])
    root = f"{EMPTY}," + f'"k":{{{EMPTY},' * count + node("k", children) + "}" * count
    return Search("k", index_of(["1"], [trie(root)]), TOO_DEEP)


def tries_again(count):
    references = [reference(number) for number in range(count)]
    tries = [trie(EMPTY)] * count + [trie(EMPTY, node("k", posted(references[:1])))]
    return Search("k", index_of(references, tries), lines(references[:1]))


def other_tries(count):
    references = [reference(number) for number in range(count)]
    tries = [node(it, node("root", EMPTY)) for it in references] + [trie(EMPTY, node("k", posted(references[:1])))]
    return Search("k", index_of(references, tries), lines(references[:1]))


def fields_and_other_tries(count):
    """Fields, and a hundred times as many tries, of which those of the fields come last."""
    fields = [f"f{number}" for number in range(count // 100)]
    tries = [node(it, node("root", EMPTY)) for it in [*(reference(number) for number in range(count)), *fields]]
    index = index_of(["1"], [*tries, trie(EMPTY, node("k", posted(["1"])))])
    return Search("k", index.replace('"fields":["body"]', f'"fields":{json.dumps([*fields, "body"])}'), lines(["1"]))


def own_numbers(count):
    """An index that the library prints: each document has a number of its own, and the same words."""
    words = " ".join(f"{first}{second}7" for first in "bcdfghjk" for second in "lmnpq")
    docs = [[f"page/{reference(number)}", f"{(number * 7919) % count} {words}"] for number in range(count)]
    index = printed({"fields": ["body"], "docs": docs})
    return Search("bl7", index, lines(doc[0] for doc in docs))


ORDERS = [  # a name, a size, and what makes the text of a size
    ("keys that fall", 150_000, falling_keys),
    ("children that fall", 60_000, falling_children),
    ("a key that comes again", 50_000, a_key_again),
    ("postings of no reference that come again", 30_000, no_reference_again),
    ("references that fall", 30_000, falling_references),
    ("references that docInfo has", 40_000, known_references),
    ("references that docInfo hasn't", 40_000, unknown_references),
    ("levels and children", 8_000, levels_and_children),
    ("tries that come again", 50_000, tries_again),
    ("tries of other names", 50_000, other_tries),
    ("fields and tries of other names", 45_000, fields_and_other_tries),
    ("numbers of their own", 10_000, own_numbers),
]


class Text(Runs):
    """Runs of a search."""

    def __init__(self, search, folder, name):
        given = write(os.path.join(folder, name), json.dumps(["body", search.query, "any"]) + "\n" + search.index)
        super().__init__([PROGRAM], given, os.path.join(folder, "found"))
        self.search = search

    def wrong(self, status):
        with open(self.printed, encoding="utf-8", errors="replace") as file:
            out = file.read()
        return "" if (status, out) == self.search.answer else f"status {status}, or another answer: {out[:60]!r}"


def check_order(case, folder, results):
    """Whether the answers to both sizes of a text are right, and the longer one doesn't take too long."""
    name, size, make = case
    short, long = (Text(make(count), folder, f"{count}") for count in (size, 2 * size))
    sizes = f"{len(short.search.index) / 1e6:.1f} and {len(long.search.index) / 1e6:.1f} million characters"
    grown = growth(short, long, RUNS)
    check_growth(f"order, {name}: {sizes}", grown, f", {long.megabytes} MB at most", results)
    os.remove(short.given)
    os.remove(long.given)


def answer(search, field="body"):
    ended = run([PROGRAM], (json.dumps([field, search.query, "any"]) + "\n" + search.index).encode())
    return ended.status, ended.out.decode(errors="replace")


def long_tokens(count, length):
    """An index without texts in which documents share a token."""
    docs = [[reference(number), "k" * length] for number in range(count)]
    return printed({"fields": ["body"], "docs": docs, "save": False}).rstrip("\n")


def check_bound(length, results):
    """Whether the most documents may share a token that cost no more steps than the text may, and one more may not."""
    one, two = (len(long_tokens(count, length)) for count in (1_001, 1_002))
    count = next(it for it in range(1_001, 100_000) if it * length > STEPS_PER_BYTE * (one + (it - 1_001) * (two - one)) + MORE_STEPS)
    for documents, is_read in [(count - 1, True), (count, False)]:
        index = long_tokens(documents, length)
        allowed = STEPS_PER_BYTE * len(index) + MORE_STEPS
        wanted = lines(map(reference, range(documents))) if is_read else TOO_DEEP
        good = (documents * length <= allowed) == is_read and answer(Search("k" * length, index, wanted)) == wanted
        results.note(good, f"order, the bound of steps: {documents} documents share {length} letters: another answer")


def deep_job(rng):
    """A random job with the token in each value that is indexed, and for each field the references that have it."""
    made = random_jobs.job(rng)
    made.pop("lang", None)
    made["docs"] = [[name, *(f"{DEEP} {value}" for value in values)] for name, *values in made["docs"]]
    current = {name: len(values) for name, *values in made["docs"]}
    for name in made.get("remove", []):
        current.pop(name, None)
    indexed = [(place, field) for place, field in enumerate(made["fields"]) if field != made.get("ref", "id")]
    return made, {field: sorted((name for name in current if current[name] > place), key=str.encode) for place, field in indexed}


def check_deep_jobs(results):
    """Whether each index that the library prints is read, however deep it is: also after a removal or a second document of a
    reference, and without texts."""
    rng = random.Random(1)
    for number in range(JOBS):
        made, having = deep_job(rng)
        index = printed(made)
        for field, references in having.items():
            found = answer(Search(DEEP, index, ()), field)
            results.note(found == lines(references), f"order, deep job {number}, {field!r}: {found} instead of {references}")
            if results.failed:
                return


def check_all(results):
    with tempfile.TemporaryDirectory() as folder:
        for case in ORDERS:
            if is_asked(case[0]):
                check_order(case, folder, results)
    if is_asked("the bound of steps"):
        for length in (10_000, 30_000):
            check_bound(length, results)
    if is_asked("deep jobs"):
        check_deep_jobs(results)


def main():
    results = Results("orders")
    try:
        check_all(results)
    except ValueError as error:
        results.note(False, f"order: {error}")
    return results.report()


if __name__ == "__main__":
    sys.exit(main())
