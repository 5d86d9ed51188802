#!/usr/bin/env python3
"""Compares the built program with the original crate, elasticlunr-rs 3.0.2.

usage: compare.py [--jobs N] [--seed N] [--runs N] [--only replay|speed] ORIGINAL

ORIGINAL is the program that fetch.sh builds. First both index random documents in English,
Arabic and Korean, and each posting, length and text is compared. This allows for the differences of docs/DIFFERENCES.md:

- each index has one field, because the crate's counts continue from one field to the next, and each reference has one
  document, because the crate keeps the postings of a document that is added again;
- a frequency of the crate is the square root of a count, and ours is the same in millionths, rounded down;
- the texts have no character whose small letter is another one in the two, or that is new in Unicode;
- the keys of an object are compared without their order.

Then both are timed on large jobs in one run, and the table of README is printed. What they print is read from a pipe: a file
of hundreds of megabytes would measure the disk.
"""
import argparse
import glob
import json
import math
import os
import random
import subprocess
import sys
import tempfile
import unicodedata

sys.path.insert(0, os.path.join(os.path.dirname(__file__), "..", ".."))

from bench.measure import PIPED, measured
from tests import random_jobs
from tests.model_tokens import LANGUAGES, lower
from tests.report import Results
from tools.repository import TOP, program, run, write

PROGRAM = program("elasticlunr_index")
COMPARED = ["English", "Arabic", "Korean"]  # the languages of Debian's package
SHOWN = 5  # failures that are printed


def is_shared(character):
    """Whether both have the same small letter of a character, and each version of Unicode in use has the character."""
    return lower(character) == character.lower() and unicodedata.category(character) != "Cn" and character != "\u03a3"


def a_job(rng):
    lang = rng.choice(COMPARED)
    words = [random_jobs.word(rng, LANGUAGES[lang].code) for _ in range(30)]
    words = ["".join(filter(is_shared, word)) for word in words]
    docs = [[f"{number}", random_jobs.text(rng, words)] for number in range(rng.randint(1, 8))]
    return {"fields": ["body"], "docs": docs, "lang": lang}


def counted(node):
    """A node of the crate's trie with our frequencies instead of its own, and their number."""
    found = 0
    made = {}
    for key, held in node.items():
        if key == "docs":
            made[key] = {reference: {"tf": millionths(posting["tf"])} for reference, posting in held.items()}
            found += len(held)
        elif key == "df":
            made[key] = held
        else:
            made[key], below = counted(held)
            found += below
    return made, found


def millionths(frequency):
    count = round(frequency * frequency)
    if abs(math.sqrt(count) - frequency) > 1e-9:
        raise ValueError(f"{frequency} is not the square root of a count")
    return math.isqrt(count * 10**12)


def replay(original, jobs, seed, results):
    """Compares random jobs, and prints how many postings, lengths and texts agree."""
    rng = random.Random(seed)
    made = [a_job(rng) for _ in range(jobs)]
    lines = "".join(json.dumps(job) + "\n" for job in made).encode()
    theirs = run([original, "lines"], lines, seconds=600)
    answers = theirs.out.splitlines()
    if theirs.status != 0 or len(answers) != len(made):
        results.note(False, f"replay: the original crate ended with status {theirs.status} after {len(answers)} jobs")
        return
    docs = postings = lengths = texts = 0
    for number, (job, answer) in enumerate(zip(made, answers)):
        expected = json.loads(answer)
        trie = expected["index"]["body"]
        trie["root"], found = counted(trie["root"])
        ended = run([PROGRAM], json.dumps(job).encode())
        good = ended.status == 0 and json.loads(ended.out) == expected
        results.note(good, f"replay: seed {seed}, job {number}: status {ended.status}, or another index: {json.dumps(job)}")
        if good:
            store = expected["documentStore"]
            docs += len(job["docs"])
            postings += found
            lengths += sum(len(fields) for fields in store["docInfo"].values())
            texts += sum(len(fields) for fields in store["docs"].values())
    print(f"replay: {docs} documents in {', '.join(COMPARED)}: {postings} postings, {lengths} lengths and {texts} texts agree")


# Speed


def large_job(docs):
    command = [sys.executable, os.path.join(TOP, "bench/make_job.py"), "--docs", str(docs)]
    return json.loads(subprocess.run(command, stdout=subprocess.PIPE, check=True).stdout)


def speed_jobs():
    """The name of each job, the job, whether the original does it, too, and the jobs of ours that it is compared with, each
    with how many times as many documents this one has."""
    english = large_job(2000)
    yield "English, 2,000 documents", english, True, []
    yield "the same in German, without a stemmer in either", dict(english, lang="German"), True, []
    yield "1,000 documents", large_job(1000), True, []
    large = large_job(16000)
    yield "every sixteenth of the 16,000 documents", dict(large, docs=large["docs"][::16]), False, []
    others = [("1,000 documents", 16), ("every sixteenth of the 16,000 documents", 16)]
    yield "16,000 documents", large, False, others
    others = [("English, 2,000 documents", 1)]
    yield "2,000 documents, each added twice", dict(english, docs=english["docs"] * 2), False, others
    removed = [doc[0] for doc in english["docs"][::2]]
    yield "2,000 documents, 1,000 references removed", dict(english, remove=removed), False, others


def middle(found):
    """The median of some runs, or a run that failed.

    A machine's speed changes from second to second. The least time of some short runs is that of a fast moment, which a long
    run doesn't get, so ratios of jobs of different sizes would be too high.
    """
    return next((run for run in found if run.status != 0), sorted(found, key=lambda run: run.seconds)[len(found) // 2])


def shown(run):
    return f"{run.seconds:.2f} s, {run.megabytes:,} MB" if run.status == 0 else f"failed: {run.status}"


def ratio_to(mine, theirs):
    if mine.status != 0 or theirs.status != 0:
        return "-"
    return f"{mine.seconds / theirs.seconds:.2f} of its time, {mine.megabytes / theirs.megabytes:.2f} of its memory"


def ratio_to_ours(mine, ours, other, times):
    if mine.status != 0 or ours[other].status != 0:
        return "-"
    ratio = mine.seconds / ours[other].seconds / times
    return f"{ratio:.2f} times the time {'per document ' if times > 1 else ''}of `{other}`"


def regex_of(original):
    """The crate whose regular expressions the original's stemmer is, and its version."""
    folder = original.split("/program/", maxsplit=1)[0]
    found = glob.glob(os.path.join(folder, "registry", "regex-[0-9]*"))
    return " ".join(os.path.basename(path).replace("-", " ") for path in found) or "no known regex"


def speed(original, runs, results):
    """Prints the table."""
    jobs = list(speed_jobs())
    found = {}
    with tempfile.TemporaryDirectory() as folder:
        files = {}
        for number, (name, job, _, _) in enumerate(jobs):
            files[name] = write(os.path.join(folder, f"job{number}.json"), json.dumps(job, ensure_ascii=False))
        for _ in range(runs):  # each runs all jobs, so that all meet a machine of the same speed
            for name, _, is_for_both, _ in jobs:
                for command in [PROGRAM] + [original] * is_for_both:
                    found.setdefault((name, command), []).append(measured([command], files[name], PIPED))
    ours = {}
    print("\n| Job | Here | The original | Ratio |\n|---|---|---|---|")
    for name, _, is_for_both, others in jobs:
        mine = ours[name] = middle(found[name, PROGRAM])
        theirs = middle(found[name, original]) if is_for_both else None
        ratio = ratio_to(mine, theirs) if theirs else ", ".join(ratio_to_ours(mine, ours, *one) for one in others) or "-"
        row = [name, shown(mine), shown(theirs) if theirs else "-", ratio]
        print("| " + " | ".join(row) + " |", flush=True)
        results.note(mine.status == 0 and (theirs is None or theirs.status == 0), f"speed: {name}: {row[1:3]}")
    print(
        f"\nThe medians of {runs} runs, with their memory; each run does each job once. The original over {regex_of(original)}, "
        "as `cargo build --release` builds it."
    )


def main():
    parser = argparse.ArgumentParser(description=__doc__, formatter_class=argparse.RawDescriptionHelpFormatter)
    parser.add_argument("--jobs", type=int, default=2000)
    parser.add_argument("--seed", type=int, default=1)
    parser.add_argument("--runs", type=int, default=5)
    parser.add_argument("--only", choices=["replay", "speed"])
    parser.add_argument("original")
    options = parser.parse_args()
    results = Results("compare", most=SHOWN)
    if options.only != "speed":
        replay(options.original, options.jobs, options.seed, results)
    if options.only != "replay":
        speed(options.original, options.runs, results)
    return results.report()


if __name__ == "__main__":
    sys.exit(main())
