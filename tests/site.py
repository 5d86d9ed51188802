#!/usr/bin/env python3
"""Reads pages and folders of HTML by python/elasticlunr, and compares the documents with those that are listed here.

usage: site.py [WORD ..]

With words, only the cases are tried that have one of them in their names.
"""
import json
import os
import random
import subprocess
import sys
import tempfile
import time
from typing import NamedTuple

sys.path.insert(0, os.path.join(os.path.dirname(__file__), ".."))

from tests.report import Results, is_asked
from tools.repository import TOP, program, read, run

PYTHON = os.path.join(TOP, "python")
sys.path.insert(0, PYTHON)

from elasticlunr.pages import page_of
from elasticlunr.site import CODES

COMMAND = program("elasticlunr_cli")
DAMAGES = 400  # how many damaged pages are read
SECONDS = 60  # for a long page


class Case(NamedTuple):
    name: str
    html: object  # a text, or bytes
    documents: list  # of each: the id of its heading, its title, its text
    in_sections: bool = False
    language: str = ""
    warnings: list = []


TITLE = "<title>T</title>"
PAGES = [
    Case("a whole page", "<!DOCTYPE html><html lang='en'><head><title>Red fox</title></head><body><p>It runs.</p></body></html>",
         [("", "Red fox", "It runs.")], language="en"),
    Case("words that markup divides", f"{TITLE}<p>fol<b>d</b>er<i>s</i>, Donau<wbr>dampf&shy;schiff", [("", "T", "folders, Donaudampfschiff")]),
    Case("words that blocks divide", f"{TITLE}<div>a</div><div>b</div>c<br>d<ul><li>e<li>f</ul><table><tr><td>g<td>h</table>",
         [("", "T", "a b c d e f g h")]),
    Case("white space", f"{TITLE}<pre>a\n\n  b\tc</pre>&nbsp;d", [("", "T", "a b c d")]),
    Case("characters by name and number", f"{TITLE}<p>caf&eacute; &#x1F98A; &amp; a&lt;b &unknown; &#xD800;", [("", "T", "café 🦊 & a<b &unknown; \ufffd")]),
    Case("what is no text", f"{TITLE}<script>if (a < b) '<p>'</script><style>p {{}}</style><!-- c --><template>t</template><noscript>n</noscript><p>word",
         [("", "T", "word")]),
    Case("what stands around the text", f"{TITLE}<header>h</header><nav>n</nav><p>word</p><footer>f</footer>", [("", "T", "word")]),
    Case("the same by their roles", f"{TITLE}<div role=banner>h</div><div role=navigation>n<div>m</div></div><p>word</p><div role=contentinfo>f</div>",
         [("", "T", "word")]),
    Case("what is not to be searched", f"{TITLE}<p data-search=ignore>a<br>b<p>c<div data-search='ignore'>d<div>e</div>f</div><p hidden>g</p>h", [("", "T", "c h")]),
    Case("main alone", f"{TITLE}<p>a<main>b<article>c</article></main>d", [("", "T", "b c")]),
    Case("main by its role", f"{TITLE}<p>a<div role=main>b<div>c</div></div>d", [("", "T", "b c")]),
    Case("articles where there is no main", f"{TITLE}<p>a<article>b</article>c<article>d</article>", [("", "T", "b d")]),
    Case("an empty main is none", f"{TITLE}<p>a<main> </main>", [("", "T", "a")]),
    Case("a title in pieces", "<title>\n The  red\n&quot;fox&quot; </title>a", [("", 'The red "fox"', "a")]),
    Case("the title of a drawing is none", "<svg><title>d</title></svg><h1>Head</h1>a", [("", "Head", "Head a")]),
    Case("the first of two titles", "<title>A</title><title>B</title>c", [("", "A", "c")]),
    Case("no title", "<h2>He<em>ad</em></h2>a<h1>b</h1>", [("", "Head", "Head a b")]),
    Case("no title, and a heading in the header", "<header><h1>Head</h1></header>a", [("", "Head", "a")]),
    Case("no title and no heading", "a", [("", "the/address.html", "a")]),
    Case("an empty file", "", [("", "the/address.html", "")]),
    Case("a head without an end", "<head><title>T</title><link rel=x><p>a", [("", "T", "a")]),
    Case("end tags that close nothing", f"{TITLE}</b></div><p>a</span></p></p>b", [("", "T", "a b")]),
    Case("end tags that are missing", f"{TITLE}<nav><ul><li>n</ul><main><section><p>a<p>b", [("", "T", "")]),
    Case("end tags in another order", f"{TITLE}<p><b>a<i>b</b>c</i>d", [("", "T", "abcd")]),
    Case("a tag that breaks off", f"{TITLE}<p>a<b", [("", "T", "a")]),
    Case("a declaration that is none", f"{TITLE}<p>a<![x[b]]><p>c<![if !supportLists]>d<![endif]>", [("", "T", "a cd")]),
    Case("a language with a country", "<html lang=de-CH>a", [("", "the/address.html", "a")], language="de-CH"),
    Case("a page that search engines leave out", "<meta name=ROBOTS content='NoIndex, nofollow'>a", []),
    Case("a page that leads to another one", "<meta http-equiv=Refresh content='0; URL=b.html'>a", []),
    Case("a page that only loads itself again", f"{TITLE}<meta http-equiv=refresh content=30>a", [("", "T", "a")]),
    Case("windows-1252 by its other name", b"<meta charset=latin1><title>T</title>\x93Stra\xdfe\x94", [("", "T", "\u201cStraße\u201d")]),
    Case("an encoding in the old form", b"<meta http-equiv=Content-Type content='text/html; charset=koi8-r'><title>T</title>\xcc\xc9\xd3\xc1", [("", "T", "лиса")]),
    Case("Shift_JIS", b"<meta charset=Shift_JIS><title>T</title>\x8c\xcf", [("", "T", "狐")]),
    Case("a byte order mark", "<title>T</title>狐".encode("utf-16"), [("", "T", "狐")]),
    Case("no encoding, and not UTF-8", b"<title>T</title>Stra\xdfe", [("", "T", "Straße")], warnings=["windows-1252"]),
    Case("bytes that the encoding does not have", b"<meta charset=utf-8><title>T</title>a\xffb", [("", "T", "a\ufffdb")], warnings=["utf-8"]),
    Case("an encoding that is not known", b"<meta charset=klingon><title>T</title>a", [("", "T", "a")], warnings=["klingon"]),
    Case("an encoding of Python alone", b"<meta charset=unicode_escape><title>T</title>a\\x41", [("", "T", "a\\x41")], warnings=["unicode_escape"]),
    Case("sections", f"{TITLE}<p>before<h1 id=a>A</h1>one<h2>not</h2>two<h2 id=b>B</h2>three",
         [("", "T", "before"), ("a", "T › A", "one not two"), ("b", "T › B", "three")], True),
    Case("nothing before the first section", f"{TITLE}<h1 id=a>A</h1>one", [("a", "T › A", "one")], True),
    Case("a page without sections", f"{TITLE}<h1>A</h1>one", [("", "T", "A one")], True),
    Case("an empty page in sections", TITLE, [("", "T", "")], True),
    Case("a section that is named as the page", f"{TITLE}<h1 id=a>T</h1>one", [("a", "T", "one")], True),
    Case("ids of the elements that begin with a heading", f"{TITLE}<section id=a>\n<h2>A<a class=headerlink href='#a'>¶</a></h2>one</section><div id=b>x<h2>B</h2>two</div>",
         [("a", "T › A", "one x B two")], True),
    Case("ids in the heading", f"{TITLE}<h2><a name=a></a>A</h2>one<h2><span id=b>B</span></h2>two", [("a", "T › A", "one"), ("b", "T › B", "two")], True),
    Case("a script before a heading", f"{TITLE}<section id=a><script>s</script><h2>A</h2>one</section>", [("a", "T › A", "one")], True),
    Case("elements of XML without an end tag", f"<?xml version='1.0'?><html>{TITLE}<body><nav/><p>a</p><div hidden=''/>b</body></html>", [("", "T", "a b")]),
    Case("elements of HTML that only look so", f"{TITLE}<p>a</p><div hidden/>b</div>c", [("", "T", "a c")]),
    Case("a role in capitals", f"{TITLE}<div role=' Navigation '>n</div>a", [("", "T", "a")]),
    Case("the id of main is none", f"{TITLE}<main id=m><h1>A</h1>one</main>", [("", "T", "A one")], True),
    Case("a heading that is not to be searched", f"{TITLE}<h1 id=a>A</h1>one<nav><h2 id=b>B</h2>n</nav>two", [("a", "T › A", "one two")], True),
    Case("an id that comes again", f"{TITLE}<h1 id=a>A</h1>one<h1 id=a>B</h1>two", [("a", "T › A", "one two")], True),
    Case("a heading that does not end", f"{TITLE}<h1 id=a>A<h1 id=b>B</h1>two", [("a", "T › A", ""), ("b", "T › B", "two")], True),
    Case("a heading with signs", f"{TITLE}<h1 id=a>C# <a href='#a'>#</a></h1>one", [("a", "T › C#", "one")], True),
]


def check_pages(results):
    for case in filter(lambda it: is_asked(it.name), PAGES):
        html = case.html if isinstance(case.html, bytes) else case.html.encode()
        page = page_of(html, "the/address.html", case.in_sections)
        said = [len(page.warnings)] + [words in warning for words, warning in zip(case.warnings, page.warnings)]
        found = [tuple(it) for it in page.documents], page.language, said
        wanted = case.documents, case.language, [len(case.warnings)] + [True] * len(case.warnings)
        results.note(found == wanted, f"page, {case.name}: {found} instead of {wanted}")


def check_damage(results):
    """Whether each damaged page is read: no fault stops the reader."""
    rng = random.Random(1)
    whole = "".join(case.html for case in PAGES if isinstance(case.html, str)).encode()
    for number in range(DAMAGES):
        at, end = sorted(rng.randrange(len(whole)) for _ in range(2))
        damaged = bytearray(whole[at:end])
        for _ in range(rng.randrange(20)):
            if damaged:
                damaged[rng.randrange(len(damaged))] = rng.choice(b"<>&;!-[]/\"'= \0\xff")
        try:
            page = page_of(bytes(damaged), "a", number % 2 == 1)
            lines = [json.dumps(it).encode() for it in page.documents]
            results.note(bool(lines) or b"robots" in damaged.lower() or b"refresh" in damaged.lower(), f"page, damage {number}: no document")
        except Exception as error:  # whatever it is, it would stop the reader
            results.note(False, f"page, damage {number}: {error!r}")


def check_long(results):
    """Whether long pages are read in time, and however deep they are."""
    for name, html, words in [
        ("open elements", "<div>" * 100_000 + "word", "word"),
        ("elements in one another", "<b>" * 50_000 + "word" + "</b>" * 50_000, "word"),
        ("end tags that close nothing", "<div>" * 500 + "</i>" * 100_000 + "word", "word"),
        ("hidden elements in one another", "<nav>" * 50_000 + "n" + "</nav>" * 50_000 + "word", None),
        ("a script below open elements", "<div>" * 1_000 + "<script>n</script>word", "word"),
        ("paragraphs", "<p>a" * 100_000, "a " * 99_999 + "a"),
    ]:
        begun = time.process_time()
        body = page_of(html.encode(), "a").documents[0].body
        seconds = time.process_time() - begun
        results.note((words is None or body == words) and seconds < SECONDS, f"page, {name}: {body[:60]!r} in {seconds:.1f} s")


def site(*words):
    """What `python3 -m elasticlunr.site` prints, its messages, and its status."""
    ended = run([sys.executable, "-m", "elasticlunr.site", *words], seconds=SECONDS, env={**os.environ, "PYTHONPATH": PYTHON})
    return ended.out.decode(errors="replace"), ended.err.decode(errors="replace"), ended.status


def put(folder, name, html):
    path = os.path.join(os.fsencode(folder), name)
    os.makedirs(os.path.dirname(path), exist_ok=True)
    with open(path, "wb") as file:
        file.write(html)


def example(folder):
    """A folder with pages of two languages, and with what is no page."""
    put(folder, b"index.html", b"<html lang=en><title>Start</title><p>The quick foxes</p>")
    put(folder, b"guide/a b#c%.html", b"<html lang=en><title>Odd</title><h1 id='x y'>Names</h1><p>word</p>")
    put(folder, b"guide/\xff.htm", b"<title>Bytes</title><p>word</p>")
    put(folder, b"de/start.XHTML", "<html xml:lang='de-AT'><title>Füchse</title><p>die Füchse laufen</p>".encode())
    put(folder, b"ja/a.html", "<html lang=ja><title>狐</title>".encode())
    put(folder, b".git/a.html", b"no page")
    put(folder, b"a.txt", b"no page")
    os.makedirs(os.path.join(folder, "folder.html"))
    os.symlink("nowhere", os.path.join(folder, "link.html"))
    os.mkfifo(os.path.join(folder, "pipe.html"))


LINES = [
    {"id": "index.html", "title": "Start", "body": "The quick foxes", "lang": "English"},
    {"id": "de/start.XHTML", "title": "Füchse", "body": "die Füchse laufen", "lang": "German"},
    {"id": "guide/a%20b%23c%25.html", "title": "Odd", "body": "Names word", "lang": "English"},
    {"id": "guide/%FF.htm", "title": "Bytes", "body": "word", "lang": "English"},
    {"id": "ja/a.html", "title": "狐", "body": "", "lang": "English"},
]
SECTION = {"id": "guide/a%20b%23c%25.html#x%20y", "title": "Odd › Names", "body": "word", "lang": "English"}
WARNINGS = ["link.html: it is no file", "pipe.html: it is no file", "no index has the language 'ja': 1 page is read as English"]


def check_folder(folder, results):
    """The documents of a folder, and what can't be read."""
    for words, wanted in [((), LINES), (("--sections",), [SECTION if it["title"] == "Odd" else it for it in LINES])]:
        out, err, status = site(folder, *words)
        found = [json.loads(line) for line in out.splitlines()]
        results.note((found, status) == (wanted, 0), f"site, {' '.join(words) or 'pages'}: status {status}, {found}")
        for warning in WARNINGS:
            results.note(warning in err, f"site, {' '.join(words) or 'pages'}: no warning {warning!r}: {err[:300]}")
    out, err, status = site(folder, "--lang", "Swedish")
    results.note(out.count('"lang": "Swedish"') == 2, "site: another language of pages that name none")


def check_many(results):
    """Whether pages that several processes read come in their order."""
    with tempfile.TemporaryDirectory() as folder:
        for number in range(200):
            put(folder, f"{number:03}.html".encode(), f"<title>{number}</title>a".encode())
        titles = [json.loads(line)["title"] for line in site(folder)[0].splitlines()]
        results.note(titles == [str(number) for number in range(200)], f"site, many pages: {titles[:20]}")


def found_in(index, *words):
    ended = run([COMMAND, "search", index, *words])
    return ended.out.decode(errors="replace").split()


def check_indexes(folder, results):
    """The index of each language, whole and in pieces, and the statuses."""
    with tempfile.TemporaryDirectory() as made:
        whole, pieces = os.path.join(made, "index.json"), os.path.join(made, "search")
        out, err, status = site(folder, "-o", whole, "--pieces", pieces, "--command", COMMAND, "--", "--piece-size", "4000")
        results.note((out, status) == ("", 0), f"site, indexes: status {status}, {err[:300]}")
        english, german = (os.path.join(made, f"index.{code}.json") for code in ("en", "de"))
        results.note(found_in(english, "fox") == ["index.html"], f"site, the English index: {found_in(english, 'fox')}")
        results.note(found_in(german, "füchse") == ["de/start.XHTML"], f"site, the German index: {found_in(german, 'füchse')}")
        for code, count in (("en", 4), ("de", 1)):
            head = os.path.join(f"{pieces}.{code}", "search.json")
            references = json.loads(read(head))["references"] if os.path.exists(head) else []
            results.note(len(references) == count, f"site, the pieces of {code}: {references}")
        one = os.path.join(made, "one.json")
        _, err, status = site(os.path.join(folder, "de"), "-o", one, "--command", COMMAND)
        results.note(status == 0 and found_in(one, "laufen") == ["de/start.XHTML".split("/")[1]], f"site, one language: status {status}, {err[:300]}")
        for name, words, wanted in [
            ("no page", (os.path.join(folder, ".git", "none"),), 2),
            ("a folder without pages", (made,), 2),
            ("a command that is not there", (folder, "-o", one, "--command", "/no/command"), 1),
            ("an option that the command refuses", (folder, "-o", one, "--command", COMMAND, "--", "--no-option"), 64),
            ("a file that can't be written", (folder, "-o", "/no/folder/index.json", "--command", COMMAND), 1),
        ]:
            out, err, status = site(*words)
            results.note(status == wanted and err and not out, f"site, {name}: status {status} instead of {wanted}, {err[:300]}")


def check_languages(results):
    """Whether the languages are those of the command."""
    ended = run([COMMAND, "languages"])
    names = sorted(line.split()[0] for line in ended.out.decode(errors="replace").splitlines())
    results.note(names == sorted(CODES), f"site, languages: {names} instead of {sorted(CODES)}")


def main():
    results = Results("site")
    try:
        check_pages(results)
        for name, check in [("damage", check_damage), ("long pages", check_long), ("many pages", check_many), ("languages", check_languages)]:
            if is_asked(name):
                check(results)
        with tempfile.TemporaryDirectory() as folder:
            example(folder)
            for name, check in [("a folder", check_folder), ("indexes", check_indexes)]:
                if is_asked(name):
                    check(folder, results)
    except (OSError, ValueError, KeyError, subprocess.SubprocessError) as error:
        results.note(False, f"site: {error!r}")
    return results.report()


if __name__ == "__main__":
    sys.exit(main())
