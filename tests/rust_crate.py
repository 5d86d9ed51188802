#!/usr/bin/env python3
"""Builds the crate for Rust over the library for C, and tests it, with and without its feature `as-original`.

usage: rust_crate.py [--built]

The library is built first, as `make lib` does it; with --built the one in out/ is taken. The crates below come from Debian's
packages librust-serde-dev, librust-serde-json-dev and librust-regex-dev, or from those that `make compare` downloads: nothing
is fetched. Without cargo or these crates the check is skipped, and says so.

- The tests of the crate pass, and its examples in the documentation.
- The program examples/site.rs prints, of the table of jobs and of random ones, what the definitions say, and of a small site in
  each language what elasticlunr_index prints, where that is built. With `as-original` it prints what elasticlunr-rs 3.0.2
  prints (rust/elasticlunr-rs/tests/original.jsonl: the original without its Snowball stemmers). With `rust-stemmers` it prints
  of a small site in each language that has a stemmer what the definitions say of its stems (tests/stems_model.py).
- Out of memory ends a program as it does everywhere in Rust.
- The lists of stop words and the tables of stemmers are those of the repository.
- A feature of elasticlunr-rs that is missing stops the build with a message.
"""
import glob
import json
import os
import random
import re
import resource
import shutil
import subprocess
import sys

sys.path.insert(0, os.path.join(os.path.dirname(__file__), ".."))

from tests import model, random_jobs
from tests.browser_sentences import PAGES
from tests.report import Results
from tests.model_tokens import LANGUAGES, stages
from tests.stems_model import Stemmer
from tests.tables import jobs
from tools import library, rust_tables
from tools.repository import TOP, lines_of, printed, program, read, run

CRATE = os.path.join(TOP, "rust/elasticlunr-rs")
ORIGINAL = os.path.join(CRATE, "tests/original.jsonl")
BELOW = ("serde", "serde_derive", "serde_json", "regex")  # the crates that must be there
TABLES = os.path.join(TOP, "crates/elasticlunr_vectors/data")
REGISTRIES = ["/usr/share/cargo/registry", os.path.join(TOP, "out/compare/*/registry")]
MODES = {"plain": [], "as-original": ["--features", "as-original"], "stems": ["--features", "rust-stemmers hu"]}
MISSING = ("bin", "ja", "zh")
STOP_WORDS = ("crates/elasticlunr_vectors/data/stopwords", "rust/elasticlunr-rs/src/lang/stop_words")
FIXED = ("remove", "compact")  # keys of a job for which the crate has no call
SECONDS = 900
RANDOM = 300
LIMITS = [size << 10 for size in range(5500, 14500, 300)]  # of memory, in bytes
SEED = 5
LEAST_TESTS = 54
TEST = re.compile(r"^test (.*) \.\.\. (ok|FAILED)$", re.MULTILINE)


def registry():
    """The folder of the crates below, or None."""
    folders = [folder for pattern in REGISTRIES for folder in sorted(glob.glob(pattern))]
    return next((it for it in folders if all(glob.glob(f"{it}/{name}-[0-9]*") for name in BELOW)), None)


class Cargo:
    """Runs cargo on a copy of the crate in out/, where its lock file may stand, offline, over a library."""

    def __init__(self, crates, lib):
        self.source = ["--config", 'source.crates-io.replace-with="debian"', "--config", f'source.debian.directory="{crates}"']
        self.target = os.path.join(TOP, "out/rust")
        own = {"CARGO_TARGET_DIR": self.target, "ELASTICLUNR_LIB_DIR": os.path.abspath(lib), "ELASTICLUNR_TABLES": TABLES, "RUST_BACKTRACE": "0"}
        self.environment = {**os.environ, **own}
        self.copy = os.path.join(self.target, "crate")
        shutil.rmtree(self.copy, ignore_errors=True)
        shutil.copytree(CRATE, self.copy, ignore=shutil.ignore_patterns("Cargo.lock", "target"))

    def __call__(self, *words):
        command = ["cargo", *words, "--offline", *self.source]
        ended = run(command, seconds=SECONDS, cwd=self.copy, env=self.environment)
        return ended.status, (ended.out + ended.err).decode(errors="replace")

    def site(self, mode):
        """The path of examples/site.rs, built in this mode."""
        status, said = self("build", "--release", "--example", "site", *MODES[mode])
        if status != 0:
            raise OSError(f"cargo build: status {status}, {said[-600:]}")
        made = os.path.join(self.target, "site-" + mode)
        shutil.copy(os.path.join(self.target, "release/examples/site"), made)
        return made


def check_tests(cargo, mode, results):
    status, said = cargo("test", "--no-fail-fast", *MODES[mode])
    found = TEST.findall(said)
    for name, word in found:
        results.note(word == "ok", f"rust, {mode}, {name}")
    results.note(status == 0 and len(found) >= LEAST_TESTS, f"rust, {mode}: status {status}, {len(found)} tests, {said[-600:]}")
    results.note("warning: unused" not in said, f"rust, {mode}: cargo warns: {said[:600]}")
    print(f"rust, {mode}: {len(found)} tests", flush=True)


def check_site(name, site, rows, results):
    """Whether the program prints the texts of the rows, which are jobs with their texts."""
    given = "".join(json.dumps(job) + "\n" for job, _ in rows)
    ended = run([site], given.encode(), seconds=SECONDS)
    found = ended.out.decode(errors="replace").split("\n")[:-1]
    results.note(ended.status == 0 and len(found) == len(rows), f"rust, {name}: status {ended.status}, {len(found)} texts, {ended.err[-300:]}")
    for number, ((job, text), line) in enumerate(zip(rows, found), 1):
        line = json.loads(line) if job.get("pretty") else line
        results.note(line == text, f"rust, {name}, job {number}: another text of {json.dumps(job)[:300]}")
    print(f"rust, {name}: {len(found)} jobs", flush=True)


def without_fixed(job):
    return {key: job[key] for key in job if key not in FIXED}


def table_rows():
    """The jobs of the table that print an index, without those whose removals or compaction change it."""
    for row in jobs():
        if row.status == 0:
            job = json.loads(row.given)
            if not any(job.get(key) for key in FIXED):
                yield without_fixed(job), row.out.decode()[:-1]


def random_rows():
    rng = random.Random(SEED)
    for job in [without_fixed(random_jobs.job(rng)) for _ in range(RANDOM)]:
        yield job, model.printed(model.Job(**job))


def site_rows():
    """A small site in each language, and what elasticlunr_index prints of it."""
    for lang, pages in PAGES.items():
        job = {"lang": lang, "fields": ["title", "body"], "docs": [list(page) for page in pages]}
        yield job, printed(job)[:-1]


def with_stems(command, tokens, stem):
    """An addition whose tokens are the stems of these."""
    return command._replace(tokens={field: [*filter(None, map(stem, found))] for field, found in tokens.items()})


def stemmed_rows():
    """The small site in each language that has a stemmer, and what the definitions say of its stems. The words are lowered as
    Rust lowers them, since the crate makes them."""
    tables = rust_tables.texts()
    for lang, pages in PAGES.items():
        code = LANGUAGES[lang].code
        if code in tables:
            job = {"lang": lang, "fields": ["title", "body"], "docs": [list(page) for page in pages]}
            asked = model.Job(**job)
            lowered = asked._replace(docs=[[ref, *map(str.lower, values)] for ref, *values in asked.docs])
            both = zip(model.commands_of(asked), model.commands_of(lowered))
            commands = [with_stems(command, lower.tokens, Stemmer(tables[code]).stem) for command, lower in both]
            value = model.value(asked, commands, [*stages(LANGUAGES[lang]), f"stemmer-{code}"])
            yield job, json.dumps(value, ensure_ascii=False, sort_keys=True, separators=(",", ":"))


def original_rows():
    for line in lines_of(ORIGINAL):
        row = json.loads(line)
        job, text = row["job"], row["out"]
        yield job, json.loads(text) if job.get("pretty") else text


def check_sites(cargo, results):
    plain = cargo.site("plain")
    check_site("the table of jobs", plain, list(table_rows()), results)
    check_site("random jobs", plain, list(random_rows()), results)
    if os.path.exists(program("elasticlunr_index")):
        check_site("a site in each language", plain, list(site_rows()), results)
    else:
        results.skip("rust, a site in each language", ["elasticlunr_index"], len(PAGES))
    check_memory(plain, results)
    check_site("stems in each language", cargo.site("stems"), list(stemmed_rows()), results)
    check_site("the original's texts", cargo.site("as-original"), list(original_rows()), results)


def check_memory(site, results):
    """Whether out of memory ends the program as it does in Rust: with little memory it prints the whole text, or says so."""
    rng = random.Random(SEED)
    docs = [[str(number), " ".join(f"w{rng.randrange(3000):x}" for _ in range(200))] for number in range(300)]
    given = json.dumps({"fields": ["x"], "docs": docs}).encode()
    whole = run([site], given).out
    short = 0
    for size in LIMITS:
        ended = run([site], given, preexec_fn=lambda: resource.setrlimit(resource.RLIMIT_AS, (size, size)))
        is_short = ended.status == "killed by signal 6" and b"memory allocation of" in ended.err
        short += is_short
        good = is_short or ended.status == 0 and ended.out == whole
        results.note(good, f"rust, {size} bytes of memory: status {ended.status}, {ended.err[-300:]}")
    results.note(0 < short < len(LIMITS), f"rust: {short} of {len(LIMITS)} limits are too little memory")
    print(f"rust, memory: {short} of {len(LIMITS)} limits are too little", flush=True)


def check_stop_words(results):
    """Whether the crate's lists of stop words are those of the repository."""
    theirs, own = (set(os.listdir(os.path.join(TOP, folder))) for folder in STOP_WORDS)
    results.note(own == theirs, "rust: other lists of stop words than the repository's")
    for name in theirs & own:
        results.note(len({read(os.path.join(folder, name)) for folder in STOP_WORDS}) == 1, f"rust: another list of stop words: {name}")


def check_tables(results):
    """Whether the crate's tables of stemmers are those of the repository."""
    tables = rust_tables.texts()
    results.note({f"{code}.txt" for code in tables} == set(os.listdir(rust_tables.FOLDER)), "rust: other tables of stemmers")
    for code, text in tables.items():
        results.note(read(os.path.join(rust_tables.FOLDER, f"{code}.txt")) == text, f"rust: another table of the stemmer {code}")


def check_missing(cargo, results):
    for feature in MISSING:
        status, said = cargo("check", "--features", feature)
        results.note(status not in (0, None) and "error: " in said and "src/lib.rs" in said, f"rust, feature {feature}: status {status}, {said[-300:]}")


def main():
    results = Results("rust", most=20)
    crates = registry()
    there = {"cargo": shutil.which("cargo"), f"Debian's packages of {', '.join(BELOW)}": crates}
    lacking = [name for name, is_there in there.items() if not is_there]
    if lacking:
        results.skip("rust", lacking)
        return results.report()
    try:
        if "--built" not in sys.argv:
            library.build(os.path.join(TOP, "out"))
        cargo = Cargo(crates, os.path.join(TOP, "out/lib"))
        for mode in MODES:
            check_tests(cargo, mode, results)
        check_sites(cargo, results)
        check_stop_words(results)
        check_tables(results)
        check_missing(cargo, results)
    except (OSError, ValueError, subprocess.SubprocessError) as error:
        results.note(False, f"rust: {error!r}")
    return results.report()


if __name__ == "__main__":
    sys.exit(main())
