"""The cases in the browser. Each has a name; it returns figures to be shown, or nothing, and raises why it fails."""
import json
import os
import shutil
import socket
import subprocess
import sys

from tests import browser_book, browser_page, browser_pieces, browser_policy, browser_results, browser_speed, browser_stems
from tests.browser_sentences import PAGES
from tests.browser_tools import ALL, SECONDS, in_node, must, own_script
from tests.model_tokens import OTHERS
from tools import search_page
from tools.repository import TOP, lines_of, program, read, run

BROWSER = ["chromium", "chromedriver", "selenium", "elasticlunr.min.js"]
AROUND = {"Russian": "ж{}я", "Korean": "한{}글", "Arabic": "ب{}ت"}
BLOCK = 0x100
PART = 0x8000
LAST = 0x110000


def refuses(call, part):
    """The call throws, and what it throws says this."""
    try:
        call()
    except RuntimeError as error:
        must(part in str(error), str(error))
        return
    raise AssertionError("nothing was thrown")


# The committed scripts, and the program.

def script_of(given):
    """What elasticlunr_script prints for the names of languages, and its status."""
    ended = run([program("elasticlunr_script")], given.encode())
    return ended.out.decode(), ended.status


def committed(name, given):
    def case(_world):
        must(script_of(given) == (read(f"browser/{name}"), 0), f"browser/{name} is not what elasticlunr_script prints")
    return f"{name} is what the program prints", case


def refused_name(_world):
    for given in ["Klingon\n", "german\n", "German\n\n", "German English\n"]:
        must(script_of(given) == ("refused: unknown language\n", 2), given)


def several(_world):
    text, status = script_of("German\nKorean")
    names = ["trimmer-de", "stopWordFilter-de", "stemmer-de", "trimmer-ko", "stopWordFilter-ko", "stemmer-ko", "trimmer-fr", "stemmer-fr"]
    held = [name in text for name in names]
    must(status == 0 and held == [True] * 6 + [False] * 2, held)


def script_sizes(_world):
    size = lambda name: round(os.path.getsize(os.path.join(TOP, "browser", name)) / 1000)
    own = [size(own_script(language)) for language in [*PAGES, *OTHERS]]
    must(f"all languages in {size(ALL)} kB; the script of one language has {min(own)} to {max(own)} kB." in read("docs/BROWSER.md"), [size(ALL), own])


def scripts():
    made = [committed(ALL, "")] + [committed(own_script(language), language + "\n") for language in [*PAGES, *OTHERS]]
    return made + [("a name that is no language is refused", refused_name), ("a script for two languages", several), ("docs: sizes of the scripts", script_sizes)]


# In node.

def node(names):
    def case(world):
        site(world, "German")
        extend = [f"require('./{name}')(elasticlunr);" for name in names]
        ask = "console.log(elasticlunr.Index.load(require('./German.json')).search('Straße').map((hit) => hit.ref).join())"
        must(in_node(world, extend + [ask]) == "street", "another answer")
        must("Overwriting" not in in_node(world, extend), "a stage was registered over another")
    return f"node: {' and then '.join(names)} by require", case


def nodes():
    return [node([ALL]), node([own_script("German")]), node([ALL, ALL]), node([own_script("Korean"), own_script("German")])]


# The sites of sentences.

def job_of(language, pages=None):
    return {"fields": ["title", "body"], "docs": [list(page) for page in pages or PAGES[language]], "lang": language}


def words_of(language):
    """Each page's words as they are in its texts, between spaces."""
    return [[ref, word] for ref, *texts in PAGES[language] for text in texts for word in text.split()]


def site(world, language):
    if not os.path.exists(os.path.join(world.folder, language + ".json")):
        world.index(language, job_of(language))
        alone = sorted({word for _, word in words_of(language)})
        world.index(language + "-alone", {"fields": ["word"], "docs": [[word, word] for word in alone], "lang": language})


def unloaded(language):
    def case(world):
        site(world, language)
        refuses(lambda: world.call([], "search", language + ".json", [], {}), "Cannot load un-registered function")
    return f"{language}: elasticlunr.js alone refuses the index", case


def same_tokens(world, scripts, name):
    answer = world.call(scripts, "compare", name + ".job.json", name + ".json")
    must(answer["fields"] and answer["postings"] and not answer["differ"], answer)
    return f"{answer['postings']} postings of {answer['fields']} texts"


def tokens(language, names):
    def case(world):
        site(world, language)
        return same_tokens(world, names, language)
    return f"{language}: the tokens of {' and '.join(names)} are the postings", case


def words(language):
    def case(world):
        site(world, language)
        answer = world.call([ALL], "ask", language + ".json", language + "-alone.json", words_of(language))
        must(answer["found"] > 40 and not answer["differ"], answer)
        return f"{answer['found']} found, {answer['dropped']} that the index leaves out"
    return f"{language}: each word of a text finds its page", case


def beginnings(language):
    def case(world):
        site(world, language)
        answer = world.call([ALL], "beginnings", language + ".json")
        must(answer["found"] > 40 and not answer["differ"], answer)
        return f"{answer['found']} found"
    return f"{language}: the beginning of a word finds its page with expand", case


def languages():
    made = []
    for language in PAGES:
        if language != "English":
            made.append(unloaded(language))
        made += [tokens(language, [ALL]), tokens(language, [own_script(language)]), tokens(language, [ALL, own_script(language), ALL])]
        made += [words(language), beginnings(language)]
    return made


# Every character.

def characters(language, alone):
    def case(world):
        postings = 0
        for first in range(0, LAST, PART):
            docs = []
            for block in range(first, min(first + PART, LAST), BLOCK):
                codes = [chr(code) for code in range(block, block + BLOCK) if not 0xD800 <= code < 0xE000]
                if codes:
                    docs.append([f"{block:X}", " ".join(codes if alone else map(AROUND.get(language, "x{}z").format, codes))])
            if docs:
                world.index("characters", {"fields": ["text"], "docs": docs, "lang": language, "save": False})
                answer = world.call([ALL], "compare", "characters.job.json", "characters.json")
                must(not answer["differ"], answer["differ"])
                postings += answer["postings"]
        must(alone or postings > 1111000, f"only {postings} postings")
        return f"{postings} postings"
    return f"{language}: every character {'alone' if alone else 'inside a word'}", case


def is_known(code):
    """Why elasticlunr.js's own tokenizer may make other words of a character than the library: it lowers each capital that
    Unicode has, and takes U+FEFF and not U+0085 for white space."""
    return code in (0x85, 0xFEFF) or chr(code).lower() != chr(code)


def own_tokenizer(world):
    """Without a script, English differs at these characters alone."""
    answer = world.call([own_script("English")], "otherwise", 0, LAST)
    must(answer and 0x85 in answer and 0xFEFF in answer and 0x3A9 in answer, answer)
    must(len(answer) < 2000, len(answer))
    strange = [f"{code:X}" for code in answer if not is_known(code)]
    must(len(strange) < 60, strange)  # capitals that are newer than this Python's Unicode
    return f"{len(answer)} characters"


def every_character():
    made = [characters(language, alone) for language in ["English", "German", "Russian", "Korean", "Arabic"] for alone in [True, False]]
    return made + [("docs: English without its script differs at capitals, U+0085 and U+FEFF alone", own_tokenizer)]


# A book.

def book_job(**more):
    return {"fields": ["title", "body"], "docs": [list(section) for section in browser_book.book()], **more}


def titles(bool_word, least, most):
    def case(world):
        world.index("book", book_job())
        sections = browser_book.book()
        asked = [title for _, title, _ in sections]
        answers = world.call([own_script("English")], "search", "book.json", asked, {"expand": True, "bool": bool_word})
        first = [title for title, refs in zip(asked, answers) if not refs or sections[int(refs[0])][1] != title]
        must(not first, first)
        hits = sum(map(len, answers)) / len(answers)
        must(least <= hits <= most, hits)
        return f"{len(asked)} titles, {hits:.0f} sections found for each"
    return f"book: each title finds its section first, {bool_word}", case


def sizes(world):
    """Short numbers as references, and a list of addresses next to the index."""
    sections = browser_book.book()
    address = lambda number, title: f"book/part-{int(number) // 40 + 1}/{title.lower().replace(' ', '-')}.html"
    world.index("short", book_job(save=False))
    world.index("long", {"fields": ["title", "body"], "docs": [[address(*s[:2]), *s[1:]] for s in sections], "save": False})
    world.write("addresses.json", json.dumps({number: address(number, title) for number, title, _ in sections}))
    size = lambda *names: sum(os.path.getsize(os.path.join(world.folder, name)) for name in names)
    short, long = size("short.json", "addresses.json"), size("long.json")
    must(short * 2 < long, f"{short} and {long} bytes")
    return f"{short} bytes instead of {long}"


def order(world):
    """Frequencies in millionths, rounded down, only change the order of results whose scores are equal to six digits."""
    world.index("book", book_job())
    asked = [title for _, title, _ in browser_book.book()]
    answer = world.call([own_script("English")], "reorder", "book.job.json", "book.json", asked)
    must(answer["queries"] == len(asked) and answer["same"] > 0 and not answer["differ"], answer)
    return f"{answer['same']} neighbours in order"


def books():
    return [titles("OR", 90, 110), titles("AND", 2, 4), ("book: numbers as references halve the index", sizes),
            ("book: scores of roots and of millionths have one order", order)]


# What docs/BROWSER.md says of languages and of references.

def lang_search(world, language, docs, queries, **settings):
    world.index("queried", {"fields": ["body"], "docs": docs, "lang": language})
    return world.call([ALL], "search", "queried.json", queries, settings)


SAMPLES = {"Latin": "Zebra", "Cyrillic": "Москва", "Hangul": "자전거", "Arabic": "مدينة", "Greek": "θάλασσα", "numbers": "1998"}
LETTERS = {"in Latin letters": {"Latin"}, "in all letters": set(SAMPLES) - {"numbers"}, "in Cyrillic letters": {"Cyrillic"},
           "in Hangul and Latin letters": {"Latin", "Hangul"}}


def table_row(language):
    """What the table of docs/BROWSER.md says of a language: what is found and what isn't."""
    def case(world):
        cells = [[cell.strip() for cell in line.split("|")[1:4]] for line in lines_of("docs/BROWSER.md") if line.startswith("| ")]
        rows = [(finds, leaves) for names, finds, leaves in cells if language in names.split(", ")]
        must(len(rows) == 1, rows)
        finds, leaves = rows[0]
        name = own_script(language)
        parts = finds.split(", ")
        expected = LETTERS[parts[0]] | ({"numbers"} if "numbers" in parts else set())
        world.index("queried", {"fields": ["body"], "docs": [["1", " ".join(SAMPLES.values())]], "lang": language})
        answers = world.call([name], "search", "queried.json", list(SAMPLES.values()), {})
        found = {kind for kind, refs in zip(SAMPLES, answers) if refs}
        must(found == expected, sorted(found))
        must(("numbers" in leaves) == ("numbers" not in found) and ("in other letters" in leaves) == (len(expected - {"numbers"}) < 5), leaves)
        stems = lang_search(world, language, [["1", "Searching"]], ["Searches", "Searching"])
        must(("by its stem" in finds) == bool(stems[0]) and ("other forms" in leaves) != ("by its stem" in finds), stems)
    return f"docs: the table's row of {language}", case


def turkish(world):
    docs = [["1", "İstanbul ve IĞDIR"]]
    must(lang_search(world, "Turkish", docs, ["İstanbul", "istanbul", "IĞDIR", "iğdir", "ığdır"]) == [["1"], [], ["1"], ["1"], []], "dots")


def large_sharp_s(world):
    docs = [["1", "GROẞE Straße"]]
    must(lang_search(world, "German", docs, ["GROẞE", "große", "STRASSE", "STRAßE"]) == [["1"], [], [], ["1"]], "sharp s")


def forms(world):
    docs = [["1", "Häuser am Fluss"]]
    must(lang_search(world, "German", docs, ["Haus", "Häuser", "Häus"]) == [[], ["1"], []], "forms")
    must(lang_search(world, "German", docs, ["Häus"], expand=True) == [["1"]], "beginning")
    must(lang_search(world, "English", [["1", "searching and finding"]], ["search", "finds"]) == [["1"], ["1"]], "stems")


def bad_references(world):
    for name in ["constructor", "__proto__"]:
        docs = [["1", "alpha beta"], [name, "beta gamma"], ["3", "alpha gamma"]]
        try:
            answers = lang_search(world, "English", docs, ["alpha beta", "beta", "gamma"], expand=True)
        except RuntimeError:
            continue
        must(any(name not in refs for refs in answers[1:]), f"{name} is found like any other")


def astral(world):
    world.index("queried", {"fields": ["body"], "docs": [["1", "the 𝒳𐐨𝒵 and x𝒴z word"]], "lang": "Arabic"})
    must(world.call([ALL], "search", "queried.json", ["𝒳𐐨𝒵", "x𝒴z"], {}) == [["1"], ["1"]], "with the script")
    world.index("queried", {"fields": ["body"], "docs": [["1", "the x𝒴z word"]]})
    must(world.call([], "search", "queried.json", ["x𝒴z"], {}) == [[]], "without the script")


def one_field(world):
    world.index("queried", {"fields": ["title", "body"], "docs": [["1", "alpha", "beta"], ["2", "alpha beta", "gamma"]]})
    answers = world.call([ALL], "search", "queried.json", ["alpha beta"], {"bool": "AND"})
    must(answers == [["2"]], answers)


def demo(world):
    """`make demo` serves three sites with what is in examples/, and one whose index is in pieces, and each finds its pages."""
    with socket.socket() as chosen:
        chosen.bind(("127.0.0.1", 0))
        port = chosen.getsockname()[1]
    server = subprocess.Popen([sys.executable, os.path.join(TOP, "tools/demo.py"), str(port)], stdout=subprocess.PIPE, stderr=subprocess.DEVNULL)
    try:
        must(server.stdout.readline().decode().startswith(f"http://127.0.0.1:{port}/ "), "not served")
        for site_name, text, title in [("english", "installing", "Installing the search box"), ("german", "öffnet", "Die Suche einrichten"), ("korean", "강가를", "강변 산책")]:
            page = browser_page.Page(world, f"{site_name}/search.html", url=f"http://127.0.0.1:{port}/")
            page.type(text)
            must(page.titles() and page.titles()[0] == title, [site_name, page.titles()])
            page.press(page.keys.ENTER)
            page.until(lambda: page.driver.title == title)
        page = browser_page.Page(world, "2000-pages/search.html", url=f"http://127.0.0.1:{port}/")
        page.type("the file")
        must(len(page.titles()) == 20 and page.status().endswith(" pages") and page.marks(), page.status())
    finally:
        server.terminate()
        server.wait(SECONDS)


def folder_of_html(world):
    """A section of a page is found in the index of a folder of HTML, whole and in pieces, and its result leads to it."""
    for name, words in [("html", ["-o", "search_index.json"]), ("html-in-pieces", ["--pieces", "search"])]:
        folder = os.path.join(world.folder, name)
        shutil.copytree(os.path.join(TOP, "examples", "site"), folder)
        command = [sys.executable, "-m", "elasticlunr.site", "--sections", ".", "--command", program("elasticlunr_cli"), *words]
        ended = run(command, cwd=folder, env={**os.environ, "PYTHONPATH": os.path.join(TOP, "python")})
        must(ended.status == 0, [ended.status, ended.err])
        search_page.copy(folder)
        if "--pieces" in words:
            search_page.take_pieces(os.path.join(folder, "search.html"))
        page = browser_page.Page(world, f"{name}/search.html")
        page.type("archive")
        must(page.titles() == ["Installing › Windows"], page.titles())
        page.press(page.keys.ENTER)
        page.until(lambda: page.driver.current_url.endswith(f"/{name}/guide/install.html#windows"))


def readme():
    return [table_row(language) for language in PAGES] + [
        ("docs: İ and I in Turkish", turkish),
        ("docs: ẞ in German", large_sharp_s),
        ("docs: forms of a word are not joined but in English", forms),
        ("docs: references named as properties of every object break a search", bad_references),
        ("docs: characters above U+FFFF are found with the script alone", astral),
        ("docs: with AND all words have to be in one field", one_field),
    ]


def pages():
    return [case for cases_of in [browser_page, browser_results, browser_policy, browser_speed] for case in cases_of.cases()]


def groups():
    return [([], scripts()), (["node", "elasticlunr.min.js"], nodes() + browser_stems.in_node_cases()), (BROWSER, languages() + readme()),
            (BROWSER, browser_stems.cases()),
            (BROWSER, books()), (BROWSER, pages() + [("demo: four sites", demo), ("site: a folder of HTML", folder_of_html)]), (BROWSER, browser_pieces.cases()),
            (BROWSER, every_character())]
