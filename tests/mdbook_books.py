#!/usr/bin/env python3
"""Has three variants of mdBook build books, and compares what they build and the seconds that they take.

usage: mdbook_books.py ROOT

ROOT is the folder that tests/mdbook.sh has unpacked. In its folder `build` are the three variants: mdBook with elasticlunr-rs,
with the crate of this repository, and with its feature `as-original`.

- The tests of mdBook that pass with elasticlunr-rs pass with `as-original`. Which of them need this feature is printed.
- With `as-original` each file of four books is the same, byte for byte. Without it only the index is another one.
- The seconds of the index are those of a book with a search less those without one, in turn by each variant.
"""
import filecmp
import glob
import os
import re
import shutil
import subprocess
import sys
import time

sys.path.insert(0, os.path.join(os.path.dirname(__file__), ".."))

from bench import make_job
from tests.browser_book import book
from tests.browser_sentences import PAGES
from tests.report import Results
from tools.repository import TOP, read, write

ORIGINAL, PLAIN, AS_ORIGINAL = VARIANTS = ("original", "plain", "as-original")
INDEX = {"searchindex.js", "searchindex.json"}
ROUNDS = 5
LEAST_TESTS = 100
TEST = re.compile(r"^test (.*) \.\.\. (ok|FAILED)$", re.MULTILINE)
SPECIAL = re.compile(r"([\\`*_{}\[\]<>()#+\-.!|~$&:\"'])")
SETTINGS = '[book]\ntitle = "A book"\nauthors = []\n[output.html.print]\nenable = false\n[output.html.search]\nenable = {}\n'


def escaped(text):
    """The text in Markdown."""
    return SPECIAL.sub(r"\\\1", " ".join(text.split()))


def pages_of(sections, each):
    """Pages of sections, which are titles with texts."""
    for at in range(0, len(sections), each):
        yield "".join(f"{'##'[: 1 + (number > 0)]} {escaped(title)}\n\n{escaped(text)}\n\n" for number, (title, text) in enumerate(sections[at : at + each]))


def long_sections():
    words = make_job.words([os.path.join(TOP, "docs"), *make_job.USUAL], 200_000)
    return [(" ".join(words[at : at + 5]), " ".join(words[at + 5 : at + 300])) for at in range(0, 200_000, 300)]


def books():
    """The name of each book, and its pages."""
    yield "docs", [read(path) for path in sorted(glob.glob(os.path.join(TOP, "docs", "*.md")))]
    yield "short", list(pages_of([(title, text) for _, title, text in book()], 8))
    yield "languages", list(pages_of([(title, text) for pages in PAGES.values() for _, title, text in pages], 4))
    yield "long", list(pages_of(long_sections(), 5))


def write_book(folder, pages, has_search):
    shutil.rmtree(folder, ignore_errors=True)
    write(os.path.join(folder, "book.toml"), SETTINGS.format(str(has_search).lower()))
    for number, page in enumerate(pages):
        write(os.path.join(folder, "src", f"page{number}.md"), page)
    lines = "".join(f"- [Page {number}](page{number}.md)\n" for number in range(len(pages)))
    write(os.path.join(folder, "src", "SUMMARY.md"), "# Summary\n\n" + lines)


class Chroot:
    def __init__(self, root):
        self.root = root

    def path(self, *names):
        return os.path.join(self.root, "build", *names)

    def build(self, variant, name):
        """Builds a book, and gives the seconds."""
        out = f"out-{variant}-{name}"
        shutil.rmtree(self.path("books", out), ignore_errors=True)
        begun = time.monotonic()
        command = ["chroot", self.root, f"/build/mdbook-{variant}/mdbook", "build", f"/build/books/{name}", "-d", f"/build/books/{out}"]
        subprocess.run(command, check=True, capture_output=True, env={"PATH": "/usr/sbin:/usr/bin:/sbin:/bin", "HOME": "/build"})
        return time.monotonic() - begun

    def files(self, variant, name):
        """The files of a built book, by their paths in it."""
        top = self.path("books", f"out-{variant}-{name}")
        found = [os.path.join(here, file) for here, _, files in os.walk(top) for file in files]
        return {os.path.relpath(path, top): path for path in found}


def check_tests(chroot, results):
    found = {variant: dict(TEST.findall(read(chroot.path("tests-" + variant)))) for variant in VARIANTS}
    passed = [name for name, word in found[ORIGINAL].items() if word == "ok"]
    results.note(len(passed) >= LEAST_TESTS, f"mdbook: {len(passed)} of its tests pass with elasticlunr-rs")
    for name in passed:
        results.note(found[AS_ORIGINAL].get(name) == "ok", f"mdbook: its test {name} fails with as-original")
    numbers = sorted(name for name in passed if found[PLAIN].get(name) != "ok")
    print(f"mdbook: {len(passed)} tests pass; without as-original these don't: {', '.join(numbers) or 'none'}", flush=True)


def different(one, other):
    """The paths of files that only one book has, or that are not the same."""
    return sorted(path for path in one.keys() | other.keys() if path not in one or path not in other or not filecmp.cmp(one[path], other[path], shallow=False))


def check_book(chroot, name, results):
    files = {}
    for variant in VARIANTS:
        chroot.build(variant, name)
        files[variant] = chroot.files(variant, name)
    changed = different(files[ORIGINAL], files[AS_ORIGINAL])
    results.note(not changed, f"mdbook, {name}: with as-original other files are {changed[:5]}")
    changed = set(different(files[ORIGINAL], files[PLAIN]))
    results.note(changed <= INDEX, f"mdbook, {name}: other files than the index change: {sorted(changed)[:5]}")
    sizes = [os.path.getsize(files[variant]["searchindex.js"]) for variant in VARIANTS]
    print(f"mdbook, {name}: {len(files[ORIGINAL])} files; bytes of the index: {', '.join(map(str, sizes))}", flush=True)


def middle(seconds):
    return sorted(seconds)[len(seconds) // 2]


def show_seconds(chroot, name):
    """Prints the seconds of the index, by each variant."""
    found = {}
    for _ in range(ROUNDS):
        for variant in VARIANTS:
            for book_name in (name, name + "-without"):
                found.setdefault((variant, book_name), []).append(chroot.build(variant, book_name))
    own = [middle(found[it, name]) - middle(found[it, name + "-without"]) for it in VARIANTS]
    print(f"mdbook, {name}: seconds of the index: " + ", ".join(f"{it} {seconds:.2f}" for it, seconds in zip(VARIANTS, own)), flush=True)


def main():
    results = Results("mdbook")
    chroot = Chroot(sys.argv[1])
    try:
        check_tests(chroot, results)
        for name, pages in books():
            write_book(chroot.path("books", name), pages, True)
            write_book(chroot.path("books", name + "-without"), pages, False)
            check_book(chroot, name, results)
            show_seconds(chroot, name)
    except (OSError, ValueError, subprocess.SubprocessError) as error:
        results.note(False, f"mdbook: {error!r}")
    return results.report()


if __name__ == "__main__":
    sys.exit(main())
