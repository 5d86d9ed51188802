#!/usr/bin/env python3
"""Compares the stems of the built program with those of a model in Python, on made-up words and on the tables of words.

usage: stems.py [--all] [CODE ..]

The tables are the texts in crates/elasticlunr_stem_tables; the model (stems_model.py) was written from docs/DEFINITIONS.md.
A made-up word has the beginning of a listed word or letters of such words, suffixes of the table, and odd letters.

With --all the vocabularies of Debian's `snowball-data` are compared with the stems that stand there, and made-up words with
those of `stemwords`, of `libstemmer-tools`; words on which Snowball 2.2 is known to differ are counted apart. Codes choose
languages.
"""
import os
import random
import re
import subprocess
import sys

sys.path.insert(0, os.path.join(os.path.dirname(__file__), ".."))

from tests.report import Results
from tests.stems_model import Stemmer, rows_of
from tools.repository import program, read, run

PROGRAM = program("elasticlunr_vectors")
TABLES = "crates/elasticlunr_stem_tables/src/tables"
WORDS = "crates/elasticlunr_vectors/data/snowball"
NAMES = {"da": "danish", "de": "german", "du": "dutch", "es": "spanish", "fi": "finnish", "fr": "french", "hu": "hungarian",
         "it": "italian", "no": "norwegian", "pt": "portuguese", "ro": "romanian", "ru": "russian", "sv": "swedish",
         "tr": "turkish"}
VERSIONS = {"current": "TABLE", "older": "OLDER"}
VOCABULARIES = "/usr/share/snowball/data"
MADE_UP = 1000  # words of a language and a version
MANY = 100_000  # with --all
ODD = "019'.-ñßøéüœxq"
SEED = 11
SHOWN = 10  # failures that are printed of each comparison
SECONDS = 120  # for a run of the program


def table(code, version):
    """The text of a table, as the crate has it."""
    source = read(f"{TABLES}/{code}.rt")
    found = re.search(rf'pub const {VERSIONS[version]}: &str = "(.*?)";', source, re.DOTALL)
    return re.sub(r"\\\n *", "", found[1]).replace("\\n", "\n") if found else None


def listed(code, version):
    """The words of a table of words, with their stems."""
    path = f"{WORDS}/{version}/{code}.tsv"
    return [tuple(line.split("\t")) for line in read(path).splitlines()]


def suffixes(stemmer):
    """The suffixes of the cuts of a stemmer. A capital letter is a mark that a step makes, and no word has one."""
    rows = [row for head, *words in stemmer.steps if head[0] == "-" for row in rows_of(words[1:])]
    return sorted({suffix for suffix, _ in rows if suffix and suffix.islower()})


def made_up(words, ends, count, chance):
    """So many words that nobody wrote."""
    letters = sorted({letter for word in words for letter in word})
    for _ in range(count):
        kind, word = chance.random(), chance.choice(words)
        if kind < 0.6:
            yield word[: chance.randint(0, len(word))] + "".join(chance.choices(ends, k=chance.randint(1, 4)))
        elif kind < 0.8:
            yield "".join(chance.choices(letters, k=chance.randint(0, 9)))
        else:
            at = chance.randint(0, len(word))
            yield word[:at] + chance.choice(ODD) + word[at:]


def stems(code, version, words):
    """The stems that the program prints."""
    given = "".join(word + "\n" for word in words).encode()
    ended = run([PROGRAM, code, version], given, seconds=SECONDS)
    found = ended.out.decode(errors="replace").split("\n")[:-1]
    return found if ended.status == 0 and len(found) == len(words) else [None] * len(words)


def compare(name, words, expected, found, results):
    """Counts each word, and prints the first that differ."""
    wrong = 0
    for word, one, other in zip(words, expected, found):
        wrong += one != other
        good = one == other
        if good or wrong <= SHOWN:
            results.note(good, f"stems, {name}: {word!r}: {other!r} instead of {one!r}")
        else:
            results.failed += 1


def check_language(code, version, results):
    """The listed words, and made-up ones, against the model."""
    text = table(code, version)
    if text is None:
        return
    stemmer, rows = Stemmer(text), listed(code, version)
    words, expected = [word for word, _ in rows], [stem for _, stem in rows]
    compare(f"model, {code}, {version}", words, expected, [stemmer.stem(word) for word in words], results)
    chance = random.Random(f"{SEED} {code} {version}")
    words = list(made_up(words, suffixes(stemmer), MADE_UP, chance))
    compare(f"made up, {code}, {version}", words, [stemmer.stem(word) for word in words], stems(code, version, words), results)


def stemwords(name, words):
    """The stems that Snowball's own program prints."""
    given = "".join(word + "\n" for word in words)
    return subprocess.run(["stemwords", "-l", name], input=given, capture_output=True, text=True, check=True).stdout.split("\n")[:-1]


def check_vocabulary(code, results):
    """All words of Snowball, and made-up words against its own program."""
    name = NAMES[code]
    words, expected = (read(f"{VOCABULARIES}/{name}/{part}.txt").split("\n")[:-1] for part in ("voc", "output"))
    compare(f"vocabulary, {code}", words, expected, stems(code, "current", words), results)
    chance = random.Random(f"{SEED} {code}")
    made = list(made_up(words, suffixes(Stemmer(table(code, "current"))), MANY, chance))
    made = [word for word in made if word == word.strip()]
    theirs, ours = stemwords(name, made), stems(code, "current", made)
    known = [code == "du" and one != other and re.search(r"[^\x00-\x7f]", word) is not None
             for word, one, other in zip(made, theirs, ours)]
    print(f"stems, {code}: {len(words)} words, {len(made)} made-up ones, {sum(known)} known to differ", flush=True)
    for word, one, other in (it for it, is_known in zip(zip(made, theirs, ours), known) if is_known):
        print(f"stems, {code}: {word!r}: {other!r}, and {one!r} by bytes", flush=True)
    rest = [it for it, is_known in zip(zip(made, theirs, ours), known) if not is_known]
    compare(f"stemwords, {code}", *zip(*rest), results)


def main():
    results = Results("stems")
    codes = [word for word in sys.argv[1:] if word != "--all"] or list(NAMES)
    for code in codes:
        try:
            if "--all" in sys.argv:
                check_vocabulary(code, results)
            else:
                for version in VERSIONS:
                    check_language(code, version, results)
        except (OSError, ValueError, LookupError, subprocess.SubprocessError) as error:
            results.note(False, f"stems, {code}: {error!r}")
    return results.report()


if __name__ == "__main__":
    sys.exit(main())
