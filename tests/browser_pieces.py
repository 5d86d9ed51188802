"""The cases of an index in pieces: the searches of its reader, and the search page over it.

The reader has to give what elasticlunr.js gives for the whole index, for the same queries in the same page. The page has to do
over pieces what it does with a whole index: most of its cases are tried once more. The server answers wrongly, late or not at
all, one file at a time.
"""
import html
import json
import os
import random
import shutil

from tests import browser_book, browser_page, browser_policy, browser_results, browser_speed, pieces, pieces_model
from tests.browser_page import ADDRESSES, BODY, SITES, Page, site
from tests.browser_policy import GERMAN, own_words
from tests.browser_sentences import PAGES
from tests.browser_tools import WRONG, must
from tools import search_page
from tools.repository import printed

READER = ["elasticlunr-languages.js", "elasticlunr-pieces.js"]
RANDOM = 24  # indexes, a third of which have odd characters
EACH = 16  # queries of a random index
MISSING = "the server answered 404"


# Whole and in pieces.


def compare(world, name, index, queries, size):
    text, renamed = pieces.renamed(index)
    world.write(f"{name}.json", text)
    pieces_model.write(index, os.path.join(world.folder, name), size)
    world.write(f"{name}.queries.json", json.dumps(queries))  # a file may have half a character
    answer = world.call(READER, "pieces", f"{name}.json", name, f"{name}.queries.json", renamed)
    must(answer["queries"] and not answer["differ"], answer)
    return answer


def words_of(pages):
    return sorted({word for _, *texts in pages for text in texts for word in text.split()})


def beginning(rng, word):
    return word[: rng.randint(1, len(word))]


def of_language(language):
    def case(world):
        rng = random.Random(language)
        words = words_of(PAGES[language])
        queries = [*words, *(beginning(rng, word) for word in words), *(" ".join(rng.sample(words, 3)) for _ in range(20))]
        job = {"fields": ["title", "body"], "docs": [list(page) for page in PAGES[language]], "lang": language}
        answer = compare(world, f"pieces-{language}", printed(job), [[query, None] for query in queries], 300)
        must(answer["found"] > 200, answer)
        return f"{answer['queries']} queries, {answer['found']} found something"
    return f"pieces: {language}, whole and in pieces", case


def of_book(world):
    sections, rng = browser_book.book(), random.Random(20261127)
    asked = [title for _, title, _ in sections[::2]] + [" ".join(beginning(rng, word) for word in title.split()) for _, title, _ in sections[::4]]
    job = {"fields": ["title", "body"], "docs": [list(section) for section in sections]}
    answer = compare(world, "pieces-book", printed(job), [[query, None] for query in asked], 4000)
    must(answer["found"] > 1000, answer)
    return f"{answer['queries']} queries, {answer['found']} found something"


def of_random(world):
    rng, queries, found = random.Random(20261127), 0, 0
    for number in range(RANDOM):
        kind, words = ("characters", pieces.random_characters) if number % 3 == 0 else ("random", pieces.random_words)
        given = pieces.random_index(rng, kind, words)
        index = printed(given.job)
        asked = [[query, options and {key: value for key, value in options.items() if key not in ("minimum", "maxPieces")}]
                 for query, options in pieces.some_queries(rng, given, pieces_model.files(index, given.size), EACH)]
        if asked:
            answer = compare(world, f"pieces-random-{number}", index, asked, given.size)
            queries += answer["queries"]
            found += answer["found"]
    must(queries > RANDOM * EACH and found > queries * 0.35, [queries, found])
    return f"{RANDOM} indexes, {queries} queries, {found} found something"


# The page over pieces.


def in_pieces(case):
    def run(world):
        world.in_pieces = True
        try:
            return case(world)
        finally:
            world.in_pieces = False
    return run


# The cases that say something of a whole index alone: how it is read, and how fast it is searched
OF_WHOLE = ["names of files", "texts that are missing or none", "a missing index", "an index that is not JSON", "a refused index", "a script that is not there",
            "elasticlunr.min.js is not there", "refusals in German", "a key press among"]


def pages_again():
    modules = [browser_page, browser_results, browser_policy, browser_speed]
    named = [case for module in modules for case in module.cases() if case[0].startswith("page: ") or case[0] == "policy: the page under a strict one"]
    return [(f"pieces, {name}", in_pieces(case)) for name, case in named if not any(words in name for words in OF_WHOLE)]


def head_of(world, name):
    with open(os.path.join(world.folder, name, "search", "search.json"), encoding="utf-8") as file:
        return json.load(file)


def path_of(world, name, file):
    """The path of a piece at the server."""
    return f"{name}/search/{head_of(world, name)['folder']}/{file}.json"


def piece_of(world, name, token):
    """The path of the piece that begins with a token."""
    return path_of(world, name, f"t{head_of(world, name)['tries'].index(token)}")


DOCS = [["one.html", "Alpha", "the same words"], ["two.html", "Beta", "the same words again"], ["three.html", "Gamma", "other words"]]


def fresh(world, name, docs=DOCS, **more):
    """A site whose folder has nothing of an earlier one, and whose pieces have one entry each."""
    shutil.rmtree(os.path.join(world.folder, name), ignore_errors=True)
    before, browser_page.SIZE = browser_page.SIZE, 1
    try:
        return site(world, name, docs, **more)
    finally:
        browser_page.SIZE = before


def fault_of_head(wrong):
    def case(world):
        name = "fault-head"
        path = fresh(world, name)
        world.server.wrong[f"{name}/search/search.json"] = wrong
        page = Page(world, path, ready=False)
        fault = "is refused: search.json: " if wrong == "another value" else "could not be loaded: search.json: "
        must(fault in page.status() and not page.query().is_enabled(), page.status())
        page = Page(world, path)
        page.type("same")
        must(page.titles() == ["Alpha", "Beta"], page.titles())
        return page.status()
    return case


def fault_of_trie(wrong):
    def case(world):
        name = "fault-trie"
        page = Page(world, fresh(world, name))
        page.type("other")
        piece = piece_of(world, name, "same")
        world.server.wrong[piece] = wrong
        page.type("same")
        said = page.status()
        must(said.startswith(f"The search failed: {piece.split('/search/')[1]}: ") and "bad" in page.all("#status")[0].get_attribute("class"), said)
        must(not page.all("#results li") and not page.all("#more")[0].is_displayed() and not page.query().get_attribute("disabled"), "old results")
        page.query().send_keys(" ")
        must(page.titles() == ["Alpha", "Beta"] and page.status() == "2 pages", page.titles())
        return said
    return case


def fault_of_text(wrong):
    def case(world):
        name = "fault-text"
        page = Page(world, fresh(world, name))
        piece = path_of(world, name, "d0")  # of one.html, which is the first by its bytes
        world.server.wrong[piece] = wrong
        page.type("same")
        must(page.status() == "2 pages" and page.titles() == ["Alpha", "Beta"] and page.marks() == ["same"], [page.status(), page.titles(), page.marks()])
        notes = [note.text for note in page.all("#results .bad")]
        must(len(notes) == 1 and notes[0].startswith(f"The text could not be loaded: {piece.split('/search/')[1]}: "), notes)
        page.query().send_keys(" ")
        must(page.titles() == ["Alpha", "Beta"] and not page.all("#results .bad") and page.marks() == ["same", "same"], page.titles())
        return notes[0]
    return case


def fault_of_title(wrong):
    """A title that can't be had comes with the text."""
    def case(world):
        name = "fault-title"
        page = Page(world, fresh(world, name))
        title, text = path_of(world, name, "h0"), path_of(world, name, "d0")
        world.server.wrong[title] = wrong
        held = world.hold(text)
        page.query().send_keys("same")
        page.until(lambda: at_first(page) == ["one.html", "Beta"])
        held.set()
        must(page.titles() == ["Alpha", "Beta"] and page.marks() == ["same", "same"] and not page.all("#results .bad"), page.titles())
        world.server.held.pop(text, None)
        page.query().send_keys(" ")
        must(page.titles() == ["Alpha", "Beta"], page.titles())
    return case


def faults():
    kinds = {"the head": fault_of_head, "a piece of the tries": fault_of_trie, "a piece of the texts": fault_of_text, "a piece of the titles": fault_of_title}
    return [(f"pieces: {wrong} for {what}", in_pieces(case(wrong))) for what, case in kinds.items() for wrong in WRONG]


def at_first(page):
    """The results that are there, though the page isn't ready."""
    return page.script("Array.from(document.querySelectorAll('#results a'), (link) => link.textContent)")


def texts_later(world):
    """Titles come first, and each text when it is there."""
    name = "texts-later"
    page = Page(world, fresh(world, name))
    title, first, second = (world.hold(path_of(world, name, piece)) for piece in ["h0", "d0", "d2"])
    page.query().send_keys("same")
    page.until(lambda: path_of(world, name, "h0") in world.server.asked)
    must(at_first(page) == [] and page.script("document.getElementById('results').ariaBusy") == "true", at_first(page))
    title.set()
    page.until(lambda: at_first(page) == ["Alpha", "Beta"])
    must(page.script("document.getElementById('status').textContent") == "2 pages" and page.script("document.getElementById('results').ariaBusy") == "true", "not busy")
    must(page.script("document.querySelectorAll('#results p.excerpt').length") == 0, "an excerpt")
    second.set()
    page.until(lambda: page.script("document.querySelectorAll('#results p.excerpt').length") == 1)
    must(at_first(page) == ["Alpha", "Beta"], at_first(page))
    first.set()
    page.until(lambda: page.script("document.querySelectorAll('#results p.excerpt').length") == 2)
    must(page.marks() == ["same", "same"], page.marks())


def more_later(world):
    """More results while the texts of the first ones aren't there."""
    name = "more-later"
    docs = [[f"{number:02}.html", f"Page {number}", "the same words"] for number in range(45)]
    page = Page(world, fresh(world, name, docs))
    held = world.hold(path_of(world, name, "d7"))
    page.query().send_keys("same")
    excerpts = lambda: page.script("document.querySelectorAll('#results p.excerpt').length")
    page.until(lambda: at_first(page) == [f"Page {number}" for number in range(20)] and excerpts() == 19)
    page.script("document.getElementById('more').click()")
    page.until(lambda: at_first(page) == [f"Page {number}" for number in range(40)] and excerpts() == 39)
    must(page.active().text == "Page 20", page.active().text)
    held.set()
    must(page.titles() == [f"Page {number}" for number in range(40)], page.titles())


ARRIVED = "performance.getEntriesByType('resource').some((one) => one.responseEnd > 0 && one.name.endsWith({}))"


def another_query(world):
    """A query while another one is loading: what came last is shown, and what came late isn't."""
    name = "another-query"
    page = Page(world, fresh(world, name))
    page.type("other")
    piece = piece_of(world, name, "same")
    held = world.hold(piece)
    box = page.query()
    box.clear()
    box.send_keys("same")
    page.until(lambda: page.script("document.getElementById('status').textContent") == "Loading the index …")
    must(page.script("document.getElementById('results').ariaBusy") == "true", "not busy")
    box.clear()
    box.send_keys("gamma")
    page.until(lambda: page.titles() == ["Gamma"] and page.status() == "1 page")
    held.set()
    page.until(lambda: page.script(ARRIVED.format(json.dumps(piece))))
    must(page.titles() == ["Gamma"] and page.status() == "1 page", [page.titles(), page.status()])
    page.type("same")
    must(page.titles() == ["Alpha", "Beta"], page.titles())
    must(world.server.asked.count(piece) == 1, "fetched again")


def keys_while_loading(world):
    """Enter and an arrow key wait for the results of what was typed; Escape doesn't."""
    name = "keys-while-loading"
    for key, holds in [("ARROW_DOWN", lambda page: page.active().text in ("one.html", "Alpha")), ("ENTER", lambda page: page.driver.title == "one"),
                       ("ESCAPE", lambda page: page.query().get_attribute("value") == "" and not page.titles() and page.status() == "")]:
        page = Page(world, fresh(world, name))
        world.write(f"{name}/one.html", "<title>one</title>")
        path = piece_of(world, name, "same")
        world.server.held.pop(path, None)
        held = world.hold(path)
        page.query().send_keys("same")
        page.until(lambda: path in world.server.asked)
        page.press(getattr(page.keys, key))
        must(page.active().get_attribute("id") == "query" and page.script("document.title") == "Search", key)
        held.set()
        page.until(lambda: holds(page))
        world.server.asked.clear()


def published_again(world):
    """A site that is published again while its page is open: the page goes on with the new index."""
    name = "published-again"
    page = Page(world, fresh(world, name))
    page.type("same")
    old = head_of(world, name)["folder"]
    shutil.rmtree(os.path.join(world.folder, name, "search"))
    index = printed({"fields": ["title", "body"], "docs": [["one.html", "Alpha", "other words"], ["four.html", "Delta", "the same news"]]})
    browser_page.write_pieces(os.path.join(world.folder, name, "search"), index)
    must(head_of(world, name)["folder"] != old, "one folder")
    page.type("words")
    must(page.titles() == ["Alpha"] and page.marks() == ["words"], [page.titles(), page.status()])
    must("other words" in page.all("p.excerpt")[0].text, page.all("p.excerpt")[0].text)
    page.type("same")
    must(page.titles() == ["Delta"] and page.status() == "1 page", [page.titles(), page.status()])


def too_many(world):
    """A letter that begins the words of many pieces finds itself alone, and the page says what to do."""
    docs = [[f"{number}.html", f"s{'abcde'[number % 5]}{number}", "w"] for number in range(20)] + [["w.html", "other", "words"]]
    page = Page(world, fresh(world, "too-many", docs, lang="Arabic"))
    world.server.asked.clear()
    page.type("s")
    must(page.status() == "Too many words begin so. Type more of it." and not page.titles(), page.status())
    must(len([path for path in world.server.asked if "/t" in path]) <= 1, world.server.asked)
    page.type("sa")
    must(page.status() == "4 pages", page.status())
    page.type("w")
    must(page.status() == f"{len(docs)} pages", page.status())


def addresses_of_folders(world):
    """The attribute names a folder, whose name may have special characters, or is an address."""
    name = "named-folders"
    fresh(world, name)
    for folder in ["100% #1?", "sub folder/50%25/a&b=ü"]:
        shutil.copytree(os.path.join(world.folder, name, "search"), os.path.join(world.folder, name, folder))
    for folder in ["search/", "100% #1?", "sub folder/50%25/a&b=ü/", world.url + name + "/search", world.url + name + "/search/"]:
        page = shutil.copy(os.path.join(world.folder, name, "search.html"), os.path.join(world.folder, name, "named.html"))
        search_page.edit(page, {'data-pieces="search"': f'data-pieces="{html.escape(folder)}"'})
        opened = Page(world, f"{name}/named.html")
        opened.type("same")
        must(opened.titles() == ["Alpha", "Beta"], [folder, opened.status()])


def says(name, part, leave_out=(), index=None, edits=None, without_reader=False):
    def case(world):
        shutil.rmtree(os.path.join(world.folder, name), ignore_errors=True)
        path = site(world, name, SITES["German"], "German", index=index, leave_out=leave_out, edits=edits)
        if without_reader:
            os.remove(os.path.join(world.folder, name, "elasticlunr-pieces.js"))
        page = Page(world, path, ready=False)
        must(part in page.status() and not page.query().is_enabled(), page.status())
        must("bad" in page.all("#status")[0].get_attribute("class"), "not marked as bad")
        return page.status()
    return in_pieces(case)


def messages():
    german = {"edits": own_words("de", GERMAN)}
    return [
        ("pieces: a missing head", says("no-head", f"could not be loaded: search.json: can't be fetched: {MISSING}", ["search_index.json"])),
        ("pieces: a head that is not JSON", says("garbage-head", "could not be loaded: search.json: is cut short, or no JSON", index="refused: not JSON\n")),
        ("pieces: a head with an unknown stage", says("refused-head", 'is refused: search.json: no script has its stage "stemmer-xx"', index=browser_page.UNKNOWN_STAGE)),
        ("pieces: a script that is not there", says("no-stages", 'is refused: search.json: no script has its stage "trimmer-de"', ["elasticlunr-languages.js"])),
        ("pieces: elasticlunr.min.js is not there", says("no-engine", "is refused: elasticlunr.min.js is not there", ["elasticlunr.min.js"])),
        ("pieces: elasticlunr-pieces.js is not there", says("no-reader", "is refused: elasticlunr-pieces.js is not there", without_reader=True)),
        ("pieces: a missing reader, in German words", says("no-reader-de", "Der Index wird abgelehnt: elasticlunr-pieces.js fehlt", without_reader=True, **german)),
    ]


def hostile_texts(world):
    """Pieces whose tokens, references and texts would run a script or change every object."""
    run = "document.title='run'"
    docs = [[f"javascript:{run}", f"<img src=x onerror={run}>", f"<script>{run}</script> letters __proto__"], ["__proto__", "</p><b> letters", "constructor"]]
    path = fresh(world, "hostile-pieces", docs, edits={BODY: ADDRESSES})
    world.write("hostile-pieces/addresses.json", "{}")
    page = Page(world, path)
    for text in ["__proto__", "constructor", "<script>", "img", "letters"]:
        page.type(text)
    must(sorted(title.text for title in page.all("#results a, #results b")) == sorted(doc[1] for doc in docs), page.titles())
    must(not page.all("#results img, #results script, #results b b") and page.driver.title == "Search", "markup was taken for markup")
    must(page.script("({}).polluted === undefined && Object.keys(Object.prototype).length === 0"), "every object is changed")
    must(not any(link.startswith("javascript:") for link in page.script("Array.from(document.querySelectorAll('#results a'), (link) => link.href)")), "a script as an address")


def cases():
    own = [
        ("pieces: titles first, and each text as it comes", texts_later),
        ("pieces: more results while texts are loading", more_later),
        ("pieces: a query while another one is loading", another_query),
        ("pieces: keys while a query is loading", keys_while_loading),
        ("pieces: a site that is published again", published_again),
        ("pieces: a letter that begins too many words", too_many),
        ("pieces: names of folders with special characters", addresses_of_folders),
        ("pieces: hostile references and texts", hostile_texts),
    ]
    compared = [of_language(language) for language in PAGES]
    compared += [("pieces: a book, whole and in pieces", of_book), ("pieces: random indexes, whole and in pieces", of_random)]
    return compared + [(name, in_pieces(case)) for name, case in own] + faults() + messages() + pages_again()
