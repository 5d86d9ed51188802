"""The cases of what a site sets for the page: its own words, and a strict Content-Security-Policy."""
import json
import os
import re

from tests import pieces_model
from tests.browser_page import ADDRESSES, BODY, SITES, Page, site
from tests.browser_tools import POLICY, must
from tools.repository import printed, read


def part(path, before, after):
    """What a file has between these two texts."""
    return read(path).split(before, 1)[1].split(after, 1)[0]


STRICT = part("docs/BROWSER.md", "```text\n", "\n```")
GERMAN = json.loads(part("docs/BROWSER.md", 'id="search-words">', "</script>"))


def own_words(language, words):
    """Edits that give the page these words."""
    element = f'{BODY}<script type="application/json" id="search-words">{json.dumps(words, ensure_ascii=False)}</script>'
    return {'<html lang="en">': f'<html lang="{language}">', BODY: element}


def in_german(world):
    names = re.findall(r"^    (\w+): ", part("browser/search.js", "const ENGLISH = {", "  };"), re.MULTILINE)
    must(names == list(GERMAN), ["docs/BROWSER.md has other words", names])
    page = Page(world, site(world, "own-words", SITES["German"], "German", edits=own_words("de", GERMAN)))
    must([label.text for label in page.all("label")] == ["allen Wörtern", "einem der Wörter"], "the choice")
    must(page.all("fieldset")[0].accessible_name == "Seiten finden mit" and page.query().accessible_name == "Suchen", "names")
    must(page.query().get_attribute("placeholder") == "Suchen" and page.script("document.getElementById('more').textContent") == "Mehr", "box and button")
    statuses = {"hefe": "1 Seite", "w": "3 Seiten", "hefe regen": GERMAN["noneHasAll"], "und": GERMAN["nothing"], "": ""}
    must([shown["status"] for shown in page.ask(list(statuses))] == list(statuses.values()), page.ask(list(statuses)))
    page.all("input[value=OR]")[0].click()
    must([shown["status"] for shown in page.ask(["hefe regen", "xylophon"])] == ["2 Seiten", GERMAN["noneHasAny"]], "any word")
    page.script("(elasticlunr.Index.prototype.search = () => { throw new Error('so'); }, 0)")
    must(page.ask(["hefe"])[0]["status"] == "Die Suche ist gescheitert: so", page.status())


def german_refusals(world):
    for index, leave_out, status in [(None, ["search_index.json"], "Der Index konnte nicht geladen werden: search_index.json (404)"),
                                     (None, ["elasticlunr.min.js"], "Der Index wird abgelehnt: elasticlunr.min.js fehlt")]:
        name = site(world, "own-refusals" + leave_out[0], SITES["German"], "German", index=index, leave_out=leave_out, edits=own_words("de", GERMAN))
        page = Page(world, name, ready=False)
        must(page.status() == status, page.status())


RUSSIAN = {"one": "{count} страница", "few": "{count} страницы", "many": "{count} страниц", "other": "{count} страницы"}


def plurals(world):
    """The form of a number is that of the page's language; words that stay English have English forms."""
    docs = [[str(number), f"Page {number}", " ".join(f"upto{most}" for most in [1, 3, 5, 21, 22] if number < most)] for number in range(22)]
    counts = ["upto1", "upto3", "upto5", "upto21", "upto22"]
    for words, expected in [({"pages": RUSSIAN}, ["1 страница", "3 страницы", "5 страниц", "21 страница", "22 страницы"]),
                            ({"pages": {"other": "({count})"}}, ["(1)", "(3)", "(5)", "(21)", "(22)"]),
                            ({"more": "Ещё"}, ["1 page", "3 pages", "5 pages", "21 pages", "22 pages"])]:
        page = Page(world, site(world, "plurals", docs, edits=own_words("ru", words)))
        must([shown["status"] for shown in page.ask(counts)] == expected, page.ask(counts))


WATCH = "addEventListener('securitypolicyviolation', (event) => (window.violations ||= []).push([event.effectiveDirective, event.blockedURI]))"


def violations(world, name):
    """Uses all parts of the page under the policy, and gives what the browser reports."""
    watch = world.browser().execute_cdp_cmd("Page.addScriptToEvaluateOnNewDocument", {"source": WATCH})
    try:
        page = Page(world, name)
        must(page.script("document.getElementById('query').placeholder") == "Suchen", "other words")
        page.type("bread")
        must(page.titles() == ["Baking Rye Bread"] and page.marks() == ["Bread"], page.titles())
        must(page.script("getComputedStyle(document.querySelector('mark')).backgroundColor") == "rgb(255, 229, 138)", "no style")
        must(page.all("#results a")[0].get_attribute("href").endswith("/there/bread.html"), "another address")
        page.all("input[value=OR]")[0].click()
        page.type("water <b onclick=run()>train</b>")
        page.press(page.keys.ARROW_DOWN)
        page.press(page.keys.ESCAPE)
        page.type("w")
        page.all("#more")[0].click()
        must(len(page.all("#results li")) > 20 and page.query().is_displayed(), len(page.all("#results li")))
        page.type("bread")
        world.write(name.replace("search.html", "there/bread.html"), "<title>bread</title>")
        found = page.script("window.violations || []")
        page.press(page.keys.ENTER)
        page.until(lambda: page.driver.title == "bread")
        return found
    finally:
        world.driver.execute_cdp_cmd("Page.removeScriptToEvaluateOnNewDocument", watch)


FORGERIES = {  # what the policy must refuse at the end of the page, and the directive that the browser must report
    "an inline script": ("<script>document.title = 'run'</script>", "script-src-elem"),
    "an inline style": ("<style>body { color: red }</style>", "style-src-elem"),
    "markup by a script": ("<script src='forged.js'></script>", "require-trusted-types-for"),
}


def strict_site(world, name, more=""):
    folder = "policy-" + name.replace(" ", "-").replace("'", "")
    words = {BODY: ADDRESSES + f'<script type="application/json" id="search-words">{json.dumps(GERMAN)}</script>', "</body>": more + "</body>"}
    pages = SITES["English"] + [[str(number), f"Water {number}", "the same"] for number in range(20)]
    page = site(world, folder, pages, edits=words)
    world.write(f"{folder}/addresses.json", '{"bread.html": "there/bread.html"}')
    world.write(f"{folder}/forged.js", "try { document.body.insertAdjacentHTML('beforeend', '<p></p>'); } catch (error) { console.log(error); }")
    world.write(f"{folder}/{POLICY}", STRICT)
    return page


def strict(world):
    found = violations(world, strict_site(world, "strict"))
    must(not found, found)


PIECES = """<!doctype html>
<html lang="en">
<title>An index in pieces</title>
<script src="../elasticlunr.min.js"></script>
<script src="../elasticlunr-languages.js"></script>
<script src="../elasticlunr-pieces.js"></script>
</html>
"""
SEARCH_PIECES = """
(async () => {
  const site = await elasticlunrPieces.open("search"), [hit] = await site.search("bread", { expand: true });
  const refused = await elasticlunrPieces.open("nowhere/").catch((error) => error.message);
  return [hit.ref, await site.doc(hit.ref), refused, window.violations || []];
})().then(arguments[0], (error) => arguments[0](error.message));
"""


def strict_pieces(world):
    """A page of a site's own that searches an index in pieces."""
    docs = [list(doc) for doc in SITES["English"]]
    index = printed({"fields": ["title", "body"], "docs": docs})
    pieces_model.write(index, os.path.join(world.folder, "policy-pieces", "search"), 300)
    world.write("policy-pieces/page.html", PIECES)
    world.write(f"policy-pieces/{POLICY}", STRICT)
    watch = world.browser().execute_cdp_cmd("Page.addScriptToEvaluateOnNewDocument", {"source": WATCH})
    try:
        told = world.open("policy-pieces/page.html").execute_async_script(SEARCH_PIECES)
    finally:
        world.driver.execute_cdp_cmd("Page.removeScriptToEvaluateOnNewDocument", watch)
    bread = json.loads(index)["documentStore"]["docs"]["bread.html"]
    must(told == ["bread.html", bread, "search.json: can't be fetched: the server answered 404", []], told)


def forgery(name, more, directive):
    def case(world):
        found = violations(world, strict_site(world, name, more))
        must(directive in [one for one, _ in found], found)
    return f"policy: {name} is noticed", case


def cases():
    return [
        ("page: in German words", in_german),
        ("page: refusals in German words", german_refusals),
        ("page: plurals of other languages", plurals),
        ("policy: the page under a strict one", strict),
        ("policy: an index in pieces under a strict one", strict_pieces),
    ] + [forgery(name, *forged) for name, forged in FORGERIES.items()]
