#!/usr/bin/env python3
"""Writes a job of English documents to standard output. Their words are those of text files on the machine.

usage: make_job.py [--docs N] [--words N] [FOLDER ..]

The documents get the words of all text files below the folders, in the order of the files' paths, N words each. After the
last word comes the first one again. Each document has a title of five words and a body of the others. Without folders the
texts are the documentation of perl, vim and git, as far as it is installed.
"""
import argparse
import json
import os
import sys

USUAL = ["/usr/share/perl", "/usr/share/vim", "/usr/share/doc/git", "/usr/share/doc"]
ENDINGS = (".pod", ".txt", ".md", ".rst")


def paths(folders):
    for folder in folders:
        for here, folders_below, files in os.walk(folder):
            folders_below.sort()
            for name in sorted(files):
                if name.endswith(ENDINGS):
                    yield os.path.join(here, name)


def words(folders, wanted):
    found = []
    for path in paths(folders):
        try:
            with open(path, encoding="utf-8", errors="strict") as file:
                found.extend(file.read().split())
        except (OSError, UnicodeDecodeError):
            continue
        if len(found) >= wanted:
            break
    if not found:
        sys.exit("make_job.py: no text files below " + " ".join(folders))
    return found


def main():
    parser = argparse.ArgumentParser(description=__doc__, formatter_class=argparse.RawDescriptionHelpFormatter)
    parser.add_argument("--docs", type=int, default=2000)
    parser.add_argument("--words", type=int, default=317)
    parser.add_argument("folders", nargs="*", default=USUAL)
    options = parser.parse_args()
    supply = words(options.folders, options.docs * options.words)
    docs = []
    at = 0
    for number in range(options.docs):
        cut = [supply[(at + i) % len(supply)] for i in range(options.words)]
        at += options.words
        docs.append([f"page/{number}.html", " ".join(cut[:5]), " ".join(cut[5:])])
    json.dump({"fields": ["title", "body"], "docs": docs}, sys.stdout, ensure_ascii=False)
    sys.stdout.write("\n")


if __name__ == "__main__":
    main()
