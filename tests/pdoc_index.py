#!/usr/bin/env python3
"""Builds documentation by pdoc, as it is and by examples/python/pdoc_index.py, and compares what both find.

usage: pdoc_index.py

pdoc 15.0.1 is Debian's package python3-pdoc of trixie. It and what it needs are downloaded from the archive that the machine's
own sources name (tools/apt_beside.sh), and unpacked in a folder of its own; nothing is installed. Needs node, chromium, the network and
out/lib/libelasticlunr.so (`make lib`).

- Each file but search.js is the same, byte for byte, but for addresses in memory. pdoc writes mail addresses by random numbers, which
  begin with one seed here.
- For each query the search of both pages finds the same documents with equal scores, and the best come first.
- In Chromium both pages show the first ten of what they find so, and how many there are.

Several documents of pdoc's may have one name. The last one counts here, and pdoc's own index is made of these as well: elasticlunr.js
would keep the words of the others, which nobody finds then, and count them. Queries that find the word "constructor" are left out:
elasticlunr.js can't count how often it stands in a text.
"""
import json
import os
import re
import subprocess
import sys
import tempfile
import urllib.parse

sys.path.insert(0, os.path.join(os.path.dirname(__file__), ".."))

from tests.command_pieces import files_in
from tests.report import Results
from tools import library
from tools.repository import TOP, read, write

PACKAGES = "python3-pdoc python3-jinja2 python3-markupsafe python3-pygments"
MODULES = "json http email logging unittest asyncio concurrent.futures xml.dom urllib.request argparse".split()
UNPACK = f"""
. "{TOP}/tools/apt_beside.sh"
apt_of "$0/apt" "$(archive)" trixie
cd "$0" && apt-get -qq download {PACKAGES} >&2
for package in *.deb; do dpkg-deb -x "$package" root; done
"""
SEEDED = """
import random, runpy, sys
random.seed(271828)
del sys.argv[0]
runpy.run_path(sys.argv[0], run_name="__main__")
"""
KEPT = """
import json, random, sys
random.seed(271828)
import pdoc.__main__, pdoc.render
made = pdoc.render.precompile_index
def kept(documents, script):
    last = list({document["fullname"]: document for document in documents}.values())
    json.dump([len(documents), len(last)], open(sys.argv[-1] + ".numbers", "w"))
    return made(last, script)
pdoc.render.precompile_index = kept
pdoc.__main__.cli()
"""
SEARCH = """
global.window = {};
console.info = () => {};
const fs = require("fs");
new Function("window", fs.readFileSync(process.argv[2], "utf8"))(window);
const answers = JSON.parse(fs.readFileSync(process.argv[3])).map((query) => pdocSearch(query).map((it) => [it.ref, it.score]));
process.stdout.write(JSON.stringify(answers));
"""
QUERIES, LEAST_FOUND, LEAST_DOCUMENTS = 400, 250, 1_500
CHROMIUM = ["chromium", "--headless=new", "--disable-gpu", "--disable-dev-shm-usage", "--virtual-time-budget=60000", "--dump-dom"]
SHOWN = ["json.dumps", "assertEqual", "event loop", "zero", "xbm", "wrapped", "nowhereinit"]  # what is searched for in Chromium
FIRST = 10  # documents that a page shows
SCALE, EQUAL = 1e6, 1e-6  # frequencies are whole millionths here: so many times the score, and as exact


def built(root, script, folder):
    packages = os.path.join(root, "root", "usr", "lib", "python3", "dist-packages")
    environment = {**os.environ, "PYTHONPATH": f"{packages}:{TOP}/python"}
    library.ran([sys.executable, *script, *MODULES, "-o", folder], env=environment)


def found(folder, queries, name):
    program = write(os.path.join(folder, "search.cjs"), SEARCH.replace("pdocSearch(", "window.pdocSearch("))
    return json.loads(library.ran(["node", program, os.path.join(folder, name, "search.js"), queries]))


def shown(folder, name, query):
    """How many documents a page in Chromium says that it has found, and those that it shows."""
    page = "file://" + os.path.join(folder, name, "json.html?search=" + urllib.parse.quote(query))
    dom = library.ran([*CHROMIUM, *["--no-sandbox"] * (os.geteuid() == 0), page]).split("<script>")[0]
    said = re.search(r"(No|\d+) search results? for", dom)
    names = re.findall(r'<section class="search-result">\s*<a href="([^"$]*)"', dom)
    return said and said[1].replace("No", "0"), [re.sub(r"\.html#?", ".", name.replace("/", ".")).rstrip(".") for name in names]


def check_shown(folder, name, query, answer, results):
    found_so = str(len(answer)), [ref for ref, _ in answer[:FIRST]]
    there = shown(folder, name, query)
    results.note(there == found_so, f"pdoc, {name} in Chromium, {query!r}: {there} instead of {found_so}")


def without_addresses(page):
    """A page without addresses in memory, which differ from run to run."""
    return re.sub(rb"0x[0-9a-f]{6,}", b"", page)


def is_counted(query):
    return not any("constructor".startswith(part) for part in re.split("[^a-z]+", query.lower()) if part)


def check_query(query, theirs, ours, results):
    theirs, scores = {ref: SCALE * score for ref, score in theirs}, [score for _, score in ours]
    results.note(sorted(theirs) == sorted(ref for ref, _ in ours), f"pdoc, {query!r}: {len(ours)} documents instead of {len(theirs)}")
    differ = [ref for ref, score in ours if abs(score - theirs.get(ref, score)) > EQUAL * score]
    results.note(not differ, f"pdoc, {query!r}: other scores of {differ[:3]}")
    results.note(scores == sorted(scores, reverse=True), f"pdoc, {query!r}: the best don't come first")


def main():
    results = Results("pdoc")
    try:
        with tempfile.TemporaryDirectory() as folder:
            subprocess.run(["bash", "-euc", UNPACK, folder], check=True)
            theirs, ours = (os.path.join(folder, name) for name in ("theirs", "ours"))
            built(folder, ["-c", KEPT], theirs)
            built(folder, ["-c", SEEDED, os.path.join(TOP, "examples/python/pdoc_index.py")], ours)
            files, others = files_in(theirs), files_in(ours)
            indexes = [files.pop("search.js"), others.pop("search.js")]
            differ = [name for name in files if name not in others or without_addresses(files[name]) != without_addresses(others[name])]
            results.note(not differ and len(others) == len(files) >= len(MODULES), f"pdoc: other files than search.js differ: {differ}")
            words = sorted(set(re.findall(r"[A-Za-z_]{2,12}", re.sub(r"<[^>]*>", " ", b" ".join(files.values()).decode()))))
            words = list(filter(is_counted, words))
            queries = [*words[:: len(words) // QUERIES], "event loop", "json.dumps", "assertEqual", "read_input", "(fp, *", "-"]
            asked = write(os.path.join(folder, "queries"), json.dumps(queries))
            answers = [found(folder, asked, name) for name in ("theirs", "ours")]
            documents, last = json.loads(read(theirs + ".numbers"))
            for query, *both in zip(queries, *answers):
                check_query(query, *both, results)
            for name in ("theirs", "ours"):
                for query, answer in zip(SHOWN, found(folder, write(os.path.join(folder, "shown"), json.dumps(SHOWN)), name)):
                    check_shown(folder, name, query, answer, results)
            many = sum(map(bool, answers[0]))
            results.note(many >= LEAST_FOUND, f"pdoc: {many} queries find something")
            results.note(last >= LEAST_DOCUMENTS, f"pdoc: {last} documents")
            print(f"pdoc: {last} of {documents} documents, {len(queries)} queries; {len(indexes[0])} bytes by node, {len(indexes[1])} here", flush=True)
    except (OSError, ValueError, subprocess.SubprocessError) as error:
        results.note(False, f"pdoc: {error!r}")
    return results.report()


if __name__ == "__main__":
    sys.exit(main())
