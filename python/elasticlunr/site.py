"""Reads a folder of HTML, and writes its pages as JSON Lines, or builds their search index by the command `elasticlunr`.

usage: python3 -m elasticlunr.site DIR [--sections] [--lang LANGUAGE] [-o FILE] [--pieces FOLDER] [--command PATH] [-- OPTION ..]

Each page is a document: its address below DIR is its reference `id`, and its fields are `title` and `body`. With --sections each
heading with an id is a document, and so is the text before the first one. Without -o and --pieces the documents are printed.
Else there is one index for each language of the pages, as `<html lang>` says it; where these are several, each file or folder
has the code of its language in its name. What stands after `--` are options of `elasticlunr build`.

A page that can't be read as a whole is named in a warning, and the others are read.
"""
import argparse
import json
import os
import subprocess
import sys
import tempfile
from concurrent.futures import ProcessPoolExecutor
from functools import partial
from typing import NamedTuple
from urllib.parse import quote

from elasticlunr.pages import Page, page_of

ENDINGS = (".html", ".htm", ".xhtml")
IN_ADDRESSES = "/!$&'()*+,;=@~"  # what stands in an address as it is, with letters, digits and -._
# The languages of an index by their codes in HTML. Dutch has another code in elasticlunr, and Norwegian has three in HTML.
LANGUAGES = {
    "ar": "Arabic", "da": "Danish", "de": "German", "en": "English", "es": "Spanish", "fi": "Finnish", "fr": "French", "it": "Italian",
    "ko": "Korean", "nb": "Norwegian", "nl": "Dutch", "nn": "Norwegian", "no": "Norwegian", "pt": "Portuguese", "ro": "Romanian",
    "ru": "Russian", "sv": "Swedish", "tr": "Turkish",
}
CODES = {"Norwegian": "no"} | {name: code for code, name in LANGUAGES.items() if name != "Norwegian"}
MANY = 64  # so many pages are read by one process
REFUSED = 2  # the status where there is no page, as of the command where it refuses its input


def warn(text):
    print(f"elasticlunr.site: warning: {text}", file=sys.stderr)


class Found(NamedTuple):
    """A document of a page, and the name of its language."""

    language: str
    line: str  # as JSON


def paths_below(folder):
    """The pages below a folder, in the order of their names. Folders and files whose names begin with a dot are none."""
    def cannot_list(error):
        warn(f"{error.filename}: {error.strerror}")

    for above, folders, names in os.walk(folder, onerror=cannot_list):
        folders[:] = sorted(name for name in folders if not name.startswith("."))
        for name in sorted(names):
            if name.lower().endswith(ENDINGS) and not name.startswith("."):
                yield os.path.join(above, name)


def address_of(path, folder):
    """The address of a page, relative to the folder."""
    return quote(os.fsencode(os.path.relpath(path, folder)).replace(os.fsencode(os.sep), b"/"), safe=IN_ADDRESSES)


def shown(path):
    return os.fsencode(path).decode(errors="replace")


class Languages:
    """Which language of an index a page has, and a warning for each that no index has."""

    def __init__(self, default):
        self.default, self.unknown = default, {}

    def of(self, page):
        code = page.language.replace("_", "-").split("-")[0].lower()
        if code and code not in LANGUAGES:
            self.unknown[code] = self.unknown.get(code, 0) + 1
        return LANGUAGES.get(code, self.default)

    def warn(self):
        for code, count in sorted(self.unknown.items()):
            pages = "1 page is" if count == 1 else f"{count} pages are"
            warn(f"no index has the language {code!r}: {pages} read as {self.default}")


def page_at(path, folder, in_sections):
    """The page of a file. One that can't be read has no documents."""
    if not os.path.isfile(path):
        return Page("", [], ["it is no file"])
    try:
        with open(path, "rb") as file:
            data = file.read()
    except OSError as error:
        return Page("", [], [error.strerror])
    return page_of(data, address_of(path, folder), in_sections)


def pages_below(folder, in_sections):
    """The path and the page of each file below a folder."""
    paths, read = list(paths_below(folder)), partial(page_at, folder=folder, in_sections=in_sections)
    if len(paths) <= MANY:
        yield from zip(paths, map(read, paths))
        return
    with ProcessPoolExecutor() as processes:
        yield from zip(paths, processes.map(read, paths, chunksize=8))


def documents_of(folder, in_sections, languages):
    """The documents of all pages below a folder."""
    for path, page in pages_below(folder, in_sections):
        for it in page.warnings:
            warn(f"{shown(path)}: {it}")
        address, language = address_of(path, folder), languages.of(page)
        for it in page.documents:
            reference = f"{address}#{quote(it.anchor, safe=IN_ADDRESSES)}" if it.anchor else address
            members = {"id": reference, "title": it.title, "body": it.body, "lang": language}
            yield Found(language, json.dumps(members, ensure_ascii=False) + "\n")


def named(path, language, languages):
    """The path, with the code of the language in its name where there are several."""
    if path is None or len(languages) == 1:
        return path
    before, ending = os.path.splitext(path)
    return f"{before}.{CODES[language]}{ending}"


def build(asked, language, languages, lines):
    """Builds the index of a language, and gives the status of the command."""
    words = [asked.command, "build", "--format", "lines", "--ref", "id", "--fields", "title,body", "--lang", language, *asked.options]
    for option, path in (("-o", asked.output), ("--pieces", asked.pieces)):
        if path is not None:
            words += [option, named(path, language, languages)]
            if len(languages) > 1:
                print(f"elasticlunr.site: {language}: {words[-1]}", file=sys.stderr)
    try:
        return subprocess.run([*words, lines]).returncode
    except OSError as error:
        print(f"elasticlunr.site: {asked.command}: {error.strerror}", file=sys.stderr)
        return 1


def build_each(asked, documents):
    """Builds the index of each language, and gives the greatest status."""
    with tempfile.TemporaryDirectory() as folder:
        files = {}
        for it in documents:
            if it.language not in files:
                files[it.language] = open(os.path.join(folder, f"{CODES[it.language]}.jsonl"), "w", encoding="utf-8")
            files[it.language].write(it.line)
        for file in files.values():
            file.close()
        return max((build(asked, it, files, files[it].name) for it in sorted(files)), default=None)


def print_each(documents):
    status = None
    for it in documents:
        sys.stdout.buffer.write(it.line.encode())
        status = 0
    sys.stdout.flush()
    return status


def parsed(words):
    """What the words of the command line ask for."""
    parser = argparse.ArgumentParser(prog="python3 -m elasticlunr.site", description="The search index of a folder of HTML.")
    parser.add_argument("folder", metavar="DIR", help="the folder")
    parser.add_argument("--sections", action="store_true", help="a document for each heading that has an id")
    parser.add_argument("--lang", choices=sorted(CODES), metavar="LANGUAGE", default="English",
                        help="the language of pages that name none, or one that no index has (English)")
    parser.add_argument("-o", "--output", metavar="FILE", help="where the index goes")
    parser.add_argument("--pieces", metavar="FOLDER", help="where the index in pieces goes")
    parser.add_argument("--command", metavar="PATH", default="elasticlunr", help="the command (elasticlunr)")
    at = words.index("--") if "--" in words else len(words)
    asked = parser.parse_args(words[:at])
    asked.options = words[at + 1:]
    return asked


def main(words):
    asked = parsed(words)
    if not os.path.isdir(asked.folder):
        print(f"elasticlunr.site: {shown(asked.folder)}: it is no folder", file=sys.stderr)
        return REFUSED
    languages = Languages(asked.lang)
    documents = documents_of(asked.folder, asked.sections, languages)
    is_built = asked.output is not None or asked.pieces is not None
    status = build_each(asked, documents) if is_built else print_each(documents)
    languages.warn()
    if status is None:
        print(f"elasticlunr.site: {shown(asked.folder)}: there is no page", file=sys.stderr)
        return REFUSED
    return status


if __name__ == "__main__":
    sys.exit(main(sys.argv[1:]))
