#!/usr/bin/env python3
"""Runs the built programs on long inputs, checks what they print, and says how much time and memory they took.

usage: long_inputs.py [WORD ..]

The stack is limited to 256 KB. A program that recurses over the depth of the input or of a trie crashes then. A search of a
printed index may take TIMES the memory of its text: one that first reads the text into a JSON value takes more. With words,
only the inputs are tried that have one of them in their names.
"""
import json
import math
import os
import sys
import tempfile

sys.path.insert(0, os.path.join(os.path.dirname(__file__), ".."))

from bench.measure import measured
from tests.report import Results, is_asked
from tools.repository import program, write

PROGRAM = program("elasticlunr_index")
COMMAND = program("elasticlunr_cli")
STACK = 256 * 1024
TIMES = 8
LEAST = 4  # megabytes of the index that is searched
PAGES, WORDS, DISTINCT = 400, 600, 30_000  # of the index that is searched
POSTED = '{"df":1,"docs":{"1":{"tf":1000000}}}'


def distinct(number):
    """A word of seven letters for each number, without an ending that the stemmer would change."""
    letters = []
    for _ in range(6):
        letters.append("bcdfghjkmn"[number % 10])
        number //= 10
    return "k" + "".join(letters)


def one_word(repeats):
    root = math.isqrt(repeats * 10**12)
    job = '{"fields":["body"],"docs":[["1","' + "word " * repeats + '"]]}'
    return job, lambda out: f'"docInfo":{{"1":{{"body":{repeats}}}}}' in out and f'"d":{{"df":1,"docs":{{"1":{{"tf":{root}}}}}}}' in out


def many_words(count):
    job = '{"fields":["body"],"docs":[["1","' + " ".join(map(distinct, range(count))) + '"]]}'
    return job, lambda out: out.count(POSTED) == count and f'"docInfo":{{"1":{{"body":{count}}}}}' in out


def long_token(length):
    job = '{"fields":["body"],"docs":[["1","' + "k" * length + '"]],"save":false}'
    trie = '{"root":{"df":0,"docs":{},' + '"k":{"df":0,"docs":{},' * (length - 1) + '"k":' + POSTED + "}" * (length + 1)
    return job, lambda out: trie in out


def many_fields(count):
    names = ",".join(f'"{number:04}"' for number in range(count))
    texts = ",".join(['"k"'] * count)
    job = f'{{"fields":[{names}],"docs":[["1",{texts}]]}}'
    return job, lambda out: out.count(POSTED) == count


def many_documents(count, words):
    body = " ".join(distinct(number % 1000) for number in range(words))
    docs = ",".join(f'["{number:06}","{body}"]' for number in range(count))
    job = '{"fields":["body"],"docs":[' + docs + '],"save":false}'
    return job, lambda out: f'"length":{count},"save":false' in out and out.count(f'"df":{count},') == min(words, 1000)


def deep_text(depth):
    return "[" * depth + "]" * depth, lambda out: out == "refused: not JSON\n"


def run(job, folder):
    """Runs the program on a job: what it printed, and its status, seconds and megabytes."""
    job_path = write(os.path.join(folder, "job.json"), job)
    index_path = os.path.join(folder, "index.json")
    ended = measured([PROGRAM], job_path, index_path, stack=STACK)
    with open(index_path, encoding="utf-8", errors="replace") as file:
        return file.read(), ended


def figures(ended):
    return f"{ended.seconds:.2f} s, {ended.megabytes} MB at most"


def check_input(case, folder, results):
    name, status, (job, is_right) = case
    out, ended = run(job, folder)
    said = f"long input, {name}: {len(job) / 1e6:.1f} MB in, {len(out) / 1e6:.1f} MB out, {figures(ended)}"
    good = ended.status == status and is_right(out)
    results.note(good, f"{said}: status {ended.status}, or another text")
    if good:
        print(said, flush=True)


def check_search(folder, results):
    """Whether a search of an index of some megabytes finds what it must, within its memory."""
    words = [[distinct(page * place % DISTINCT) for place in range(1, WORDS + 1)] for page in range(1, PAGES + 1)]
    docs = [[f"page/{number:04}.html", " ".join(body)] for number, body in enumerate(words)]
    _, ended = run(json.dumps({"fields": ["body"], "docs": docs}), folder)
    index, lines = os.path.join(folder, "index.json"), os.path.join(folder, "found")
    megabytes = os.path.getsize(index) / 1e6
    if ended.status != 0 or megabytes < LEAST:
        results.note(False, f"long input, a search: no index of {LEAST} MB: status {ended.status}, {megabytes:.1f} MB")
        return
    query = words[-1][WORDS // 2]
    wanted = [f"{doc[0]}\n" for doc, body in zip(docs, words) if query in body]
    ended = measured([COMMAND, "search", index, query, "--limit", "0"], os.devnull, lines, stack=STACK)
    with open(lines, encoding="utf-8", errors="replace") as file:
        is_right = ended.status == 0 and sorted(file) == wanted
    most = round(TIMES * megabytes)
    said = f"long input, a search: {megabytes:.1f} MB of an index, {len(wanted)} found, {figures(ended)}, and {most} are the most"
    good = is_right and ended.megabytes <= most
    results.note(good, said if is_right else f"long input, a search: status {ended.status}, or another text")
    if good:
        print(said, flush=True)


def check_deep_search(folder, results):
    """A search on a small stack reads an index with a token of a million characters."""
    run(json.dumps({"fields": ["body"], "docs": [["1", "k" * 1_000_000]]}), folder)
    index, lines = os.path.join(folder, "index.json"), os.path.join(folder, "found")
    ended = measured([COMMAND, "search", "--all", index, "kk"], os.devnull, lines, stack=STACK)
    with open(lines, encoding="utf-8", errors="replace") as file:
        good = ended.status == 0 and file.read() == ""
    said = f"long input, a deep search: {os.path.getsize(index) / 1e6:.1f} MB of an index, {figures(ended)}"
    results.note(good, said if ended.status == 0 else f"long input, a deep search: status {ended.status}")
    if good:
        print(said, flush=True)


def main():
    results = Results("long")
    cases = [
        ("10 MB of one word", 0, one_word(2_000_000)),
        ("100,000 distinct words", 0, many_words(100_000)),
        ("a token of 20,000 characters", 0, long_token(20_000)),
        ("a token of 1,000,000 characters", 0, long_token(1_000_000)),
        ("1,000 fields", 0, many_fields(1_000)),
        ("50 MB of documents", 0, many_documents(3_000, 2_080)),
        ("1,000,000 brackets", 2, deep_text(500_000)),
    ]
    with tempfile.TemporaryDirectory() as folder:
        for case in cases:
            if is_asked(case[0]):
                check_input(case, folder, results)
        if is_asked("a search"):
            check_search(folder, results)
        if is_asked("a deep search"):
            check_deep_search(folder, results)
    return results.report()


if __name__ == "__main__":
    sys.exit(main())
