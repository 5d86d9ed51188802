"""The cases of what the page finds: with `all words`, the documents that have each word in some field."""
import json
import random

from tests import browser_book, model_tokens
from tests.browser_page import ADDRESSES, BODY, Page, site
from tests.browser_tools import must

SHOWN = 20


def two_fields(world):
    docs = [["1", "Installing", "Copy the folder, on Windows too."], ["2", "Windows", "Opened in summer."], ["3", "Installing windows", "Here."],
            ["4", "Doors", "How to install them"], ["5", "Doors", "Windows are installed first."]]
    page = Page(world, site(world, "two-fields", docs))
    asked = {"installing windows": "135", "windows installing": "135", "inst wind": "135", "the installing of windows": "135", "INSTALLED install windows": "135",
             "install": "1345", "installing summer": "", "doors wind": "5", "doors folder": "", "installing xylophone": ""}
    for shown in page.ask(list(asked)):
        count = len(asked[shown["text"]])
        must(sorted(shown["refs"]) == list(asked[shown["text"]]), shown)
        must(shown["status"] == (f"{count} pages" if count > 1 else "1 page" if count else "No page has all of this."), shown)
    page.all("input[value=OR]")[0].click()
    must([sorted(shown["refs"]) for shown in page.ask(["installing summer", "doors folder"])] == [list("12345"), list("145")], "any word")


def tokens(texts):
    return {token for text in texts for token in model_tokens.tokens(model_tokens.LANGUAGES["English"], text) if token}


def queries(sections, number):
    """Random words of titles with words of texts, of one section or of two, some of them cut short."""
    rng = random.Random(20261126)
    for at in range(number):
        _, title, text = rng.choice(sections)
        _, _, other = rng.choice(sections)
        words = [rng.choice(title.split()), rng.choice(text.split()), rng.choice((text if at % 2 else other).split())]
        yield " ".join(word[: rng.choice([3, 4, 20])] for word in words[: rng.choice([2, 3])])


def in_book(world):
    """What the page finds follows from the model's tokens of each section, and its order is that of elasticlunr.js with OR."""
    sections = browser_book.book()
    held = {ref: tokens(texts) for ref, *texts in sections}
    asked = list(queries(sections, 60))
    world.index("book", {"fields": ["title", "body"], "docs": [list(section) for section in sections]})
    orders = world.call(["elasticlunr-languages.js"], "search", "book.json", asked, {"expand": True})
    page = Page(world, site(world, "book-anywhere", sections))
    several = 0
    for shown, order in zip(page.ask(asked), orders):
        starts = tokens([shown["text"]])
        expected = {ref for ref in held if starts and all(any(token.startswith(start) for token in held[ref]) for start in starts)}
        must(shown["refs"] == [ref for ref in order if ref in expected][:SHOWN], [shown["text"], shown["refs"], sorted(expected)])
        must(not expected or shown["status"].startswith(f"{len(expected)} page"), shown)
        several += len(expected) > 1
    must(several > 20, several)
    return f"{len(asked)} queries, {several} with several pages"


def titles(world):
    sections = browser_book.book()[::5]
    page = Page(world, site(world, "book-titles", browser_book.book()))
    by_ref = {ref: title for ref, title, _ in sections}
    wrong = [shown for shown, ref in zip(page.ask(list(by_ref.values())), by_ref) if shown["refs"][0] != ref]
    must(not wrong, wrong[:3])


NAMES = ["__proto__", "constructor", "toString", "hasOwnProperty", "valueOf", "__defineGetter__"]


def names_of_properties(world):
    """References, and words, that name a property of every object."""
    docs = [[name, f"Notes on {name}", "the same words"] for name in NAMES] + [["plain", "Notes", "the same, constructor"]]
    name = site(world, "names", docs, edits={BODY: ADDRESSES})
    world.write("names/addresses.json", '{"__proto__": "proto.html", "plain": "plain.html"}')
    page = Page(world, name)
    by_title = {title: href.rsplit("/", 1)[1] for title, href in zip(*(page.type("same") or page.titles(), page.script("Array.from(document.querySelectorAll('#results a'), (link) => link.href)")))}
    must(by_title == {f"Notes on {name}": "proto.html" if name == "__proto__" else name for name in NAMES} | {"Notes": "plain.html"}, by_title)
    shown = {shown["text"]: shown for shown in page.ask(["constructor", "same constr", "notes tostring"])}
    must(sorted(shown["constructor"]["refs"]) == ["constructor", "plain.html"] and shown["constructor"]["marks"] == 2, shown)
    must(sorted(shown["same constr"]["refs"]) == ["constructor", "plain.html"] and shown["notes tostring"]["refs"] == ["toString"], shown)


def other_values(world):
    """Texts that are missing, and values that are none."""
    docs = [[str(number), f"Page {number}", "the same words"] for number in range(8)]
    name = site(world, "values", docs)
    with open(f"{world.folder}/values/search_index.json", encoding="utf-8") as file:
        index = json.load(file)
    store = index["documentStore"]["docs"]
    store["0"] = {"title": 1998, "body": None}
    store["1"] = {"title": None, "body": {"length": 3}}
    store["2"] = {"title": ["some", "the same"], "body": 7}
    store["3"] = {"body": "the same"}
    store["4"] = None
    store["5"] = {"title": "  ", "body": True}
    world.write("values/search_index.json", json.dumps(index))
    page = Page(world, name)
    page.type("same")
    must(page.status() == "8 pages", page.status())
    shown = dict(zip([small.text for small in page.all("#results small")], page.titles()))
    must(shown == {"0": "1998", "1": "1", "2": "some the same", "3": "the same", "4": "4", "5": "5", "6": "Page 6", "7": "Page 7"}, shown)


def cases():
    return [
        ("page: all words, each in any field", two_fields),
        ("page: all words, in a book", in_book),
        ("page: a title finds its section first", titles),
        ("page: references that name properties of every object", names_of_properties),
        ("page: texts that are missing or none", other_values),
    ]
