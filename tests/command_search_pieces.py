"""`elasticlunr search` in an index in pieces: it prints what it prints for the whole index, and reads only what it needs.

What is wrong in a head or in a piece is said with the name of the file, and nothing is found then.
"""
import json
import os
import pty
import random
import shutil
import subprocess
import tempfile

from tests import pieces_model, ranked_queries
from tests.memory_shim import Refusing
from tools.repository import program, run

COMMAND = program("elasticlunr_cli")
SIZES = [1, 60, 400, pieces_model.SIZE]  # bytes of a piece, of random indexes
INDEXES = 40  # random indexes
EACH = 6  # queries of a random index
LEAST = 20  # requests for memory that must have been refused
ENGLISH = {
    "fields": ["title", "body"],
    "docs": [
        ["a", "Red fox", "The quick fox runs, and the foxes ran to a red foxglove."],
        ["b", "Lazy dog", "A lazy dog sleeps; dogs and a fox bark."],
        ["\u00fc/c.html", "Both \U0001f600", "Foxes and dogs, \u00e9tude \u00e9tudes \U00010428 z\u00e9ro."],
        ["d", "", "Running runners run. Red."],
    ],
}
NAMES = {  # what every object of JavaScript has
    "fields": ["constructor", "__proto__", "toString"],
    "docs": [["__proto__", "red fox", "lazy dog", "fox"], ["constructor", "fox", "", "red dogs"], ["valueOf", "", "fox fox", "x"]],
}
OTHERS = [  # in other languages
    {**ENGLISH, "lang": "German"},
    {**ENGLISH, "lang": "Turkish"},
    {"fields": ["t"], "lang": "Arabic", "docs": [["1", "\u0643\u062a\u0627\u0628 \u0627\u0644\u0643\u062a\u0628 fox"], ["2", "\u0643\u062a\u0627\u0628"]]},
    {"fields": ["t"], "lang": "Korean", "docs": [["1", "\ud55c\uad6d\uc5b4 \uac80\uc0c9"], ["2", "\uac80\uc0c9"]]},
    {"fields": ["t"], "lang": "Russian", "docs": [["1", "\u0440\u0443\u0441\u0441\u043a\u0438\u0439 \u044f\u0437\u044b\u043a"], ["2", "\u044f\u0437\u044b\u043a"]]},
]
NOTHING = [{"fields": ["t"], "docs": []}, {"fields": [], "docs": [["1"]]}, {"fields": ["t"], "docs": [["1", "the"]]}]
QUERIES = ["red fox", "fox", "f", "dogs bark", "\u00e9tude", "\U00010428", "the", "", "zebra", "z", "a b c d e f r s x", "\u043a\u0438\u0439 \u044f\u0437", "\uac80\uc0c9"]
OPTIONS = [
    [],
    ["--json", "--limit", "0"],
    ["--json", "--expand", "--limit", "0"],
    ["--all"],
    ["--all", "--expand", "--json"],
    ["--bool", "AND", "--json"],
    ["--limit", "1", "--json"],
    ["--limit", "2"],
]
FOLDER = "pieces-0123456789abcdef"
FITTING = [("save", True), ("ref", ""), ("ref", "x"), ("fields", ["b", "a"])]  # of these values, those that a head may have
HOSTILE = [None, True, 0, -1, 1.5, 2**64, "", "x", [], {}, [None], [0], [-1], [1.5], [2**64], [""], ["b", "a"], ["a", "a"], [[]], [[0]], [["a"]]]


class Site:
    """A folder with the text of an index, index.json, and its pieces in the folder `site`."""

    def __init__(self, top):
        self.top, self.site = top, os.path.join(top, "site")

    def build(self, job, size, *words):
        shutil.rmtree(self.site, ignore_errors=True)
        made = {key: value for key, value in job.items() if key != "pretty"}
        words = ["--format", "job", "-o", "index.json", "--pieces", "site", "--piece-size", str(size), *words]
        return run([COMMAND, "build", *words], json.dumps(made).encode(), cwd=self.top)

    def search(self, index, words):
        return run([COMMAND, "search", *words[:-1], "--", index, words[-1]], cwd=self.top)

    def both(self, words):
        """What is printed of the whole index and of its pieces, without the names of both."""
        whole, pieces = self.search("index.json", words), self.search("site", words)
        said = pieces.err.replace(b"site/search.json:", b"INDEX:").replace(b"site:", b"INDEX:")
        return (whole.out, whole.err.replace(b"index.json:", b"INDEX:"), whole.status), (pieces.out, said, pieces.status)

    def path(self, name):
        """Where a file of the site is, by its name in `site` or in the folder of the pieces."""
        folder = [it for it in os.listdir(self.site) if it.startswith("pieces-")][0]
        return os.path.join(self.site, name) if name == pieces_model.HEAD else os.path.join(self.site, folder, name)

    def read(self, name):
        with open(self.path(name), "rb") as file:
            return file.read()

    def write(self, name, content):
        with open(self.path(name), "wb") as file:
            file.write(content)

    def pieces(self, letter):
        names = os.listdir(os.path.dirname(self.path("t0.json")))
        return sorted(it for it in names if it.startswith(letter))


def check_same(site, results):
    """The same bytes, for each option, in several languages, with pieces of several sizes, with texts and without."""
    for number, job in enumerate([ENGLISH, NAMES, *OTHERS, *NOTHING]):
        fields = [["--field", job["fields"][0]], ["--boost", job["fields"][-1] + "=3", "--json"]] if job["fields"] else []
        for size, kept in [(1, []), (60, []), (60, ["--no-save"]), (400, []), (pieces_model.SIZE, [])]:
            ended = site.build(job, size, *kept)
            name = f"search in pieces: index {number}, {size} bytes {kept}"
            results.check(name, ended.status == 0, ended)
            for options in [*OPTIONS, *fields, ["--field", "none"]] if size != 60 else OPTIONS[:4]:
                for query in QUERIES if size != 60 else QUERIES[:4]:
                    whole, pieces = site.both([*options, query])
                    results.check(f"{name}, {options} {query!r}", whole == pieces, (whole, pieces))


def check_random(site, results):
    """The same bytes for random indexes and queries."""
    rng = random.Random(7)
    for number in range(INDEXES):
        job, words = ranked_queries.random_index(rng)
        size = rng.choice(SIZES)
        ended = site.build(job, size)
        results.check(f"search in pieces: random build {number}", ended.status == 0, ended)
        for _ in range(EACH):
            query = ranked_queries.ranked_query(rng, "random", number, job["fields"], words)
            options = query.words("index.json")[1:-3]
            for more in ([], ["--all"]) if query.bool == "OR" else ([],):
                whole, pieces = site.both([*options, *more, query.text])
                results.check(f"search in pieces: random {number}, {size} bytes, {options + more} {query.text!r}", whole == pieces, (whole, pieces))


def check_what_is_read(site, results):
    """Only the pieces that are needed are read: the others are not there."""
    site.build(ENGLISH, 1)
    tokens = sorted(word for word in json.loads(site.read(pieces_model.HEAD))["tries"])
    for name in site.pieces("h"):
        os.remove(site.path(name))
    wanted = site.search("index.json", ["--json", "lazy"])
    for name in site.pieces("t"):
        if name != f"t{tokens.index('lazi')}.json":
            os.remove(site.path(name))
    ended = site.search("site", ["--json", "lazy"])
    results.check("search in pieces: one piece of the tries", ended == wanted and ended.status == 0, ended)
    for name in site.pieces("d"):
        os.remove(site.path(name))
    ended = site.search("site", ["lazy"])
    results.check("search in pieces: no texts for references", (ended.out, ended.status) == (b"b\n", 0), ended)
    ended = site.search("site", ["--json", "lazy"])
    named = os.path.relpath(site.path("d1.json"), site.top).encode()
    results.check("search in pieces: texts that are missing", ended.status == 1 and named in ended.err and ended.out == b"", ended)


def damages(name, content, other):
    """Other bytes of a piece, by a name: what is said of them, after the file's name."""
    size = len(content)
    yield "cut", content[: size // 2], f"expected {size} bytes, found {size // 2}"
    yield "empty", b"", f"expected {size} bytes, found 0"
    yield "longer", content + b" ", f"expected {size} bytes, found {size + 1}"
    yield "another", other, "not the piece that search.json names"
    yield "no JSON", b"x" * size, "not JSON"
    yield "no UTF-8", b"\xff" * size, "not JSON"
    for form in (b"{}", b"[]", b"0", b'""', b"null"):
        yield f"{form} for it", form + b" " * (size - len(form)), "not the piece that search.json names: it has other entries"


def check_pieces_named(site, results):
    """A piece that is missing, cut short or another's is named, and nothing is found."""
    for size in (1, 60, 400):
        site.build(ENGLISH, size)
        words = ["--json", "--expand", "b d f l q r s t z"]
        results.check(f"search in pieces: all pieces, {size} bytes", site.both(words)[0] == site.both(words)[1], site.both(words))
        for letter in "td":
            names = site.pieces(letter)
            for name in names:
                content = site.read(name)
                other = next((site.read(it) for it in names if it != name), b"{}")
                named = os.path.relpath(site.path(name), site.top)
                os.remove(site.path(name))
                ended = site.search("site", words)
                good = ended.status == 1 and f"elasticlunr: {named}: ".encode() in ended.err and ended.out == b""
                results.check(f"search in pieces: {name} of {size} bytes is missing", good, ended)
                for kind, bytes_of_it, said in damages(name, content, other):
                    site.write(name, bytes_of_it)
                    ended = site.search("site", words)
                    good = ended.status == 2 and named.encode() in ended.err and said.encode() in ended.err and ended.out == b""
                    results.check(f"search in pieces: {name} of {size} bytes, {kind}", good, ended)
                site.write(name, content)
        check_entries(site, words, results)


def check_entries(site, words, results):
    """A piece of the size that the head says, with other entries: another first token, and a posting of no document."""
    content = site.read("t0.json")
    first = json.loads(site.read(pieces_model.HEAD))["tries"][0].encode()
    for kind, changed in {
        "first token": content.replace(b'"' + first[:1], b'"~', 1),
        "number of a document": content.replace(b"[0,", b"[9,").replace(b"[1,", b"[9,").replace(b"[2,", b"[9,").replace(b"[3,", b"[9,"),
        "a text for a number": content.replace(b"1000000", b'"00000"'),
        "no pairs": content.replace(b",1000000]", b"        ]", 1),
    }.items():
        site.write("t0.json", changed)
        ended = site.search("site", words)
        good = changed != content and ended.status == 2 and b"t0.json: not the piece that search.json names: it has other entries" in ended.err
        results.check(f"search in pieces: another {kind}", good and ended.out == b"", ended)
    site.write("t0.json", content)


def check_heads(site, results):
    """What is no head is refused, and the file is named: never a panic, and no search."""
    site.build(ENGLISH, 60)
    text = site.read(pieces_model.HEAD)
    head = json.loads(text)

    def refused(name, content, says=b"site/search.json:"):
        site.write(pieces_model.HEAD, content if isinstance(content, bytes) else json.dumps(content).encode())
        ended = site.search("site", ["--json", "red fox"])
        good = ended.status == 2 and ended.out == b"" and ended.err.startswith(b"site/search.json:") and says in ended.err
        results.check(f"search in pieces: head, {name}", good, ended)

    refused("cut short", text[:-5], b"not JSON")
    refused("no JSON", b"x", b"not JSON")
    refused("no UTF-8", b"\xff", b"not JSON")
    for form in (b"{}", b"[]", b"null", b"[" * 1000):
        refused(f"{form[:4]}", form)
    older = {key: value for key, value in head.items() if key not in ("sizes", "titles", "title")}
    refused("of an older version", {**older, "texts": [0, 1, 2, 3]}, b"how many bytes its pieces have")
    refused("another language", {**head, "lang": "German"}, b"pipeline")
    refused("no language", {**head, "lang": "Klingon"}, b"names no language")
    refused("other stages", {**head, "pipeline": ["stemmer"]}, b"pipeline")
    count = len(head["references"])
    wrong = {
        "fields": [["title", "title"], ["title"], ["title", "body", "x"]],
        "folder": ["..", "../..", "pieces-0123456789abcde", "pieces-0123456789ABCDEF", "/etc", "pieces-../../../etc/pass"],
        "references": [head["references"][::-1], head["references"][:-1], head["references"] + ["zz"]],
        "lengths": [head["lengths"][:1], [it[:-1] for it in head["lengths"]], [it + [1] for it in head["lengths"]], [["1"] * count] * 2],
        "save": [False, "true"],
        "sizes": [head["sizes"][:-1], head["sizes"] + [1]],
        "texts": [[0, *head["texts"]], [count + 1], [2**63, 2**63, count], [2**64 - 1, 1, count], head["texts"][:-1]],
        "titles": [[0], [2**63, 2**63], [1]],
        "tries": [head["tries"][::-1], [head["tries"][0]] * len(head["tries"]), head["tries"][:-1], head["tries"] + ["~"]],
    }
    for name in ("fields", "folder", "lang", "lengths", "pipeline", "ref", "references", "save", "texts", "titles", "tries"):
        refused(f"without {name}", {key: value for key, value in head.items() if key != name})
        for value in HOSTILE:
            if (name, value) not in FITTING:
                refused(f"{name} is {value!r}", {**head, name: value})
        for value in wrong.get(name, []):
            refused(f"{name} is {value!r}", {**head, name: value})
    for value in [*HOSTILE, *wrong["sizes"]]:
        refused(f"sizes is {value!r}", {**head, "sizes": value})
    site.write(pieces_model.HEAD, text)
    os.remove(site.path(pieces_model.HEAD))
    ended = site.search("site", ["fox"])
    good = ended.status == 1 and b"elasticlunr: site/search.json: " in ended.err and ended.out == b""
    results.check("search in pieces: no head", good, ended)


def on_a_terminal(top, words):
    """The status of a run of the command on a terminal, and what that gets."""
    reader, writer = pty.openpty()
    with os.fdopen(reader, "rb", buffering=0) as shown, os.fdopen(writer, "wb", buffering=0) as terminal:
        status = subprocess.run([COMMAND, *words], cwd=top, stdout=terminal, stderr=subprocess.PIPE, timeout=20).returncode
        return status, shown.read(10_000)


def check_terminal(site, results):
    """A terminal gets the same lines of both."""
    for job, kept in ((ENGLISH, []), (ENGLISH, ["--no-save"]), (NAMES, [])):
        site.build(job, 60, *kept)
        for words in (["red fox"], ["--expand", "f"], ["--all", "red fox"]):
            whole = on_a_terminal(site.top, ["search", *words[:-1], "index.json", words[-1]])
            pieces = on_a_terminal(site.top, ["search", *words[:-1], "site", words[-1]])
            results.check(f"search in pieces: terminal {kept} {words}", whole == pieces and whole[0] == 0, (whole, pieces))


def check_memory(site, results):
    """With each request for memory refused in turn: status 1 and no output, or what is found."""
    site.build(ENGLISH, 60)
    words = ["search", "--json", "--expand", "--all", site.site, "red fox"]
    wanted = run([COMMAND, *words]).out.decode()
    number = refused = wrong = 0
    with Refusing() as refusing:
        while wrong < 5:
            number += 1
            ended = refusing.run(COMMAND, "", number, words)
            refused += (ended.status, ended.out) == (1, "")
            if (ended.status, ended.out) not in ((1, ""), (0, wanted)):
                wrong += 1
                print(f"command, memory: search in pieces, request {number}: status {ended.status}, {ended.out!r}, {ended.err!r}")
            if ended.requests < number:
                break
    results.check("memory refused in turn, search in pieces", wrong == 0 and refused >= LEAST and wanted, f"{refused} refused, {wrong} wrong")


def check_search_pieces(results):
    """Each of these in a folder of its own."""
    for check in (check_same, check_random, check_what_is_read, check_pieces_named, check_heads, check_terminal, check_memory):
        with tempfile.TemporaryDirectory() as top:
            check(Site(top), results)
