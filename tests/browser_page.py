"""The cases of the search page itself: they type, read and look as a reader does."""
import html
import json
import os
import time

from tests import browser_book, pieces_model
from tests.browser_sentences import PAGES
from tests.browser_tools import must
from tools import search_page
from tools.repository import printed, write

WAIT = 10
SITES = {language: [[ref + ".html", *texts] for ref, *texts in pages] for language, pages in PAGES.items()}


BODY = '<body data-index="search_index.json">'
ADDRESSES = '<body data-index="search_index.json" data-addresses="addresses.json">'


SIZE = 600  # bytes of a piece


def write_pieces(folder, index):
    """Writes an index in pieces. Where `index` is the text of none, it is written as the head."""
    try:
        pieces_model.write(index, folder, SIZE)
    except ValueError:
        write(os.path.join(folder, pieces_model.HEAD), index)


def site(world, name, docs, lang="English", index=None, leave_out=(), edits=None, **more):
    """Makes a folder as docs/BROWSER.md says, and edits the page: each text that is a key of `edits` becomes its value. Its index
    is in pieces if the world says so."""
    folder = os.path.join(world.folder, name)
    search_page.copy(folder, leave_out)
    page = os.path.join(folder, "search.html")
    search_page.edit(page, edits or {})
    if world.in_pieces:
        search_page.take_pieces(page)
    if index is None:
        index = printed({"fields": ["title", "body"], "docs": [list(doc) for doc in docs], "lang": lang, **more})
    if "search_index.json" in leave_out:
        pass
    elif world.in_pieces:
        write_pieces(os.path.join(folder, "search"), index)
    else:
        world.write(name + "/search_index.json", index)
    return name + "/search.html"


ASK = """
const [texts, done] = arguments, query = document.getElementById("query"), results = document.getElementById("results");
const choice = document.querySelector("input[name=bool]:checked"), shown = [];
const isBusy = () => results.getAttribute("aria-busy") === "true";
const drawn = () => new Promise((go) => new MutationObserver(() => isBusy() || go()).observe(results, { attributes: true }));
(async () => {
  for (const text of texts) {
    query.value = text;
    const begun = performance.now();
    choice.dispatchEvent(new Event("change", { bubbles: true }));
    if (isBusy()) await drawn();
    results.getBoundingClientRect();
    const milliseconds = performance.now() - begun, status = document.getElementById("status").textContent;
    const refs = Array.from(results.querySelectorAll("small"), (small) => small.textContent);
    shown.push({ text, milliseconds, status, refs, marks: results.querySelectorAll("mark").length });
  }
  done(shown);
})();
"""


class Page:
    """The page, opened and with its index loaded."""

    def __init__(self, world, page, ready=True, url=None):
        from selenium.webdriver.common.by import By
        from selenium.webdriver.common.keys import Keys
        self.keys = Keys
        self.by = By
        self.driver = world.open(page, url)
        self.until(lambda: self.script("document.querySelector('#query:enabled, #status.bad') !== null"))
        if ready:
            must(self.query().is_enabled(), self.status())

    def until(self, holds):
        end = time.monotonic() + WAIT
        while not holds():
            must(time.monotonic() < end, f"not so after {WAIT} seconds: {self.script('document.body.innerText')[:300]}")
            time.sleep(0.02)

    def settle(self):
        """Waits until the page has drawn the results of the last search."""
        self.until(lambda: self.script("document.querySelector('[aria-busy=true]') === null"))

    def all(self, what):
        self.settle()
        return self.driver.find_elements(self.by.CSS_SELECTOR, what)

    def texts(self, what):
        """The texts of the elements, read anew where the page draws them again meanwhile."""
        from selenium.common.exceptions import StaleElementReferenceException
        end = time.monotonic() + WAIT
        while True:
            try:
                return [found.text for found in self.all(what)]
            except StaleElementReferenceException:
                must(time.monotonic() < end, f"drawn again and again for {WAIT} seconds: {what}")

    def status(self):
        return (self.texts("#status") or ["another page"])[0]

    def query(self):
        return self.all("#query")[0]

    def type(self, text):
        self.query().clear()
        self.query().send_keys(text)
        self.settle()

    def press(self, key):
        self.driver.switch_to.active_element.send_keys(key)

    def titles(self):
        return self.texts("#results a")

    def marks(self, where="#results"):
        return self.texts(where + " mark")

    def active(self):
        return self.driver.switch_to.active_element

    def script(self, text):
        return self.driver.execute_script("return " + text)

    def ask(self, texts):
        """Searches for each text, by a change of the choice, which searches at once: what the page shows, and the milliseconds
        that it took."""
        return self.driver.execute_async_script(ASK, texts)


def typing(world):
    page = Page(world, site(world, "german", SITES["German"], "German"))
    must(page.titles() == [] and page.status() == "", "results before anything was typed")
    for letters in ["W", "a", "l", "d"]:
        page.query().send_keys(letters)
    must(page.titles() == ["Spaziergang im Wald"] and page.status() == "1 page", page.titles())
    must("Waldboden" in page.all("p.excerpt")[0].text, "no excerpt")
    must(page.all("#results a")[0].get_attribute("href").endswith("/german/forest.html"), "another address")
    must(page.script("location.search") == "?q=Wald", "the address has no query")
    page.type("Xylophon")
    must(page.titles() == [] and page.status() == "No page has all of this.", page.status())
    page.type("und")
    must(page.status().startswith("Nothing to look for"), page.status())


def each_language(world):
    from selenium.webdriver.common.keys import Keys
    asked = {"German": ("BRÖTCHEN", "Brötchen backen"), "Korean": ("축제", "봄 축제"), "Arabic": ("القارب", "البحر في الصباح"), "Russian": ("самовар", "Чай с вареньем")}
    for language, (text, title) in asked.items():
        page = Page(world, site(world, language.lower(), SITES[language], language))
        page.query().send_keys(text)
        must(page.titles() == [title] and page.marks(), [language, page.titles(), page.marks()])


def marks(world):
    page = Page(world, site(world, "english", SITES["English"]))
    page.type("train")
    must(page.titles() == ["Trains & Timetables"], page.titles())
    must(page.marks("#results a") == ["Trains"] and page.marks("p.excerpt") == ["train"], page.marks())
    page.type("lamp quay")
    must(page.marks("p.excerpt") == ["Lamps", "quay"], page.marks())


def excerpts(world):
    filler = "filler " * 200
    page = Page(world, site(world, "long", [["1", "Long", filler + "the needle stands here. " + filler]]))
    page.type("needle")
    text = page.all("p.excerpt")[0].text
    must(text.startswith("…") and text.endswith("…") and "needle stands here" in text and len(text) < 400, text)


def switch(world):
    page = Page(world, site(world, "english", SITES["English"]))
    page.type("ferry flour")
    must(page.titles() == [], page.titles())
    page.all("input[value=OR]")[0].click()
    must(sorted(page.titles()) == ["Baking Rye Bread", "The Harbour at Night"] and page.status() == "2 pages", page.titles())
    page.all("input[value=AND]")[0].click()
    must(page.titles() == [], page.titles())


def keyboard(world):
    page = Page(world, site(world, "english", SITES["English"]))
    must(page.active() == page.query(), "the box is not chosen")
    page.all("input[value=OR]")[0].click()
    page.type("water train ferry")
    links = page.all("#results a")
    must(len(links) == 4 or len(links) == 3, page.titles())
    page.press(page.keys.ARROW_DOWN)
    must(page.active() == links[0], "not the first result")
    page.press(page.keys.ARROW_DOWN)
    must(page.active() == links[1], "not the second result")
    page.press(page.keys.ARROW_UP)
    page.press(page.keys.ARROW_UP)
    must(page.active() == page.query(), "not the box")
    page.press(page.keys.ESCAPE)
    must(page.query().get_attribute("value") == "" and page.titles() == [] and page.active() == page.query(), "not cleared")
    world.write("english/trains.html", "here")
    page.type("timetables")
    page.press(page.keys.ENTER)
    page.until(lambda: page.driver.current_url.endswith("/english/trains.html"))


def enter_on_result(world):
    page = Page(world, site(world, "english", SITES["English"]))
    world.write("english/bread.html", "here")
    page.type("rye")
    page.press(page.keys.ARROW_DOWN)
    page.press(page.keys.ENTER)
    page.until(lambda: page.driver.current_url.endswith("/english/bread.html"))


def composing(world):
    """While a syllable is being composed, Escape, the arrow keys and Enter go to the input method."""
    page = Page(world, site(world, "korean", SITES["Korean"], "Korean"))
    command = page.driver.execute_cdp_cmd
    world.write("korean/festival.html", "<title>festival</title>")
    page.type("축")
    command("Input.imeSetComposition", {"text": "제", "selectionStart": 1, "selectionEnd": 1})
    page.script("(window.composed = [], addEventListener('keydown', (event) => composed.push([event.key, event.isComposing, event.defaultPrevented])))")
    for name, code in [("Escape", 27), ("ArrowDown", 40), ("ArrowUp", 38), ("Enter", 13)]:
        text = {"text": "\r"} if name == "Enter" else {}
        command("Input.dispatchKeyEvent", {"type": "keyDown", "key": name, "code": name, "windowsVirtualKeyCode": code, **text})
        command("Input.dispatchKeyEvent", {"type": "keyUp", "key": name, "code": name, "windowsVirtualKeyCode": code})
        must(page.titles() == ["봄 축제"] and page.active() == page.query(), [name, page.driver.title, page.titles()])
        must(page.query().get_attribute("value") == "축제", [name, page.query().get_attribute("value")])
    must(page.script("composed") == [["Escape", True, True], ["ArrowDown", True, False], ["ArrowUp", True, False], ["Enter", True, True]], page.script("composed"))
    command("Input.insertText", {"text": "제"})
    # If the composition ends before its last key is pressed, that key has the number 229.
    for name in ["Escape", "Enter"]:
        held = f"document.getElementById('query').dispatchEvent(new KeyboardEvent('keydown', {{ key: '{name}', keyCode: 229, bubbles: true, cancelable: true }}))"
        must(page.script(held) is False and page.titles() == ["봄 축제"], name)
    page.press(page.keys.ENTER)
    page.until(lambda: page.driver.title == "festival")


def rest_of_address(world):
    """The page changes the query in its address and keeps the rest byte for byte."""
    page = Page(world, site(world, "english", SITES["English"]) + "?a=%20&q=ivy&flag&b=x+y&%71=two#part%201")
    where = lambda: page.script("location.search + location.hash")
    must(page.titles() == ["Notes on a Façade Garden"] and where() == "?a=%20&q=ivy&flag&b=x+y#part%201", where())
    page.type("rye & flour")
    must(where() == "?a=%20&q=rye%20%26%20flour&flag&b=x+y#part%201", where())
    page.press(page.keys.ESCAPE)
    must(where() == "?a=%20&flag&b=x+y#part%201", where())
    page.type("ivy")
    must(where() == "?a=%20&flag&b=x+y&q=ivy#part%201", where())
    page = Page(world, site(world, "english", SITES["English"]) + "#part")
    page.type("ivy")
    must(where() == "?q=ivy#part", where())
    page.press(page.keys.ESCAPE)
    must(page.script("location.href").endswith("/english/search.html#part"), page.script("location.href"))


def names_of_files(world):
    """Names of files may have the characters that separate the parts of an address; a name with a scheme is an address."""
    names = [("100% #1?.json", "list #2.json"), ("sub folder/50%25/a&b=ü.json", "../named/+.json"), (world.url + "named/whole.json?v=1#x", world.url + "named/list%20%232.json")]
    index = printed({"fields": ["title", "body"], "docs": [["7", "Seven", "same"]]})
    for file in [names[0][0], names[1][0], "whole.json"]:
        world.write("named/" + file, index)
    for file in [names[0][1], "+.json"]:
        world.write("named/" + file, '{"7": "seven.html"}')
    for data, addresses in names:
        body = f'<body data-index="{html.escape(data)}" data-addresses="{html.escape(addresses)}">'
        page = Page(world, site(world, "named", [], leave_out=["search_index.json"], edits={BODY: body}))
        page.type("same")
        must([small.text for small in page.all("#results small")] == ["seven.html"], [data, page.status()])
    body = '<body data-index="no #1?.json">'
    page = Page(world, site(world, "named", [], leave_out=["search_index.json"], edits={BODY: body}), ready=False)
    must(page.status() == "The search index could not be loaded: no #1?.json (404)", page.status())


def fails_once(world):
    """The page says what a search throws, with no old results below it, and the next key press searches again."""
    page = Page(world, site(world, "many", [[str(number), f"Page {number}", "the same words"] for number in range(45)]))
    page.type("sam")
    page.script("(window.search = elasticlunr.Index.prototype.search, elasticlunr.Index.prototype.search = () => { throw new Error('out of order'); }, 0)")
    page.query().send_keys("e")
    must(page.status() == "The search failed: out of order" and "bad" in page.all("#status")[0].get_attribute("class"), page.status())
    must(not page.all("#results li") and not page.all("#more")[0].is_displayed(), "old results")
    page.script("(elasticlunr.Index.prototype.search = window.search, 0)")
    page.query().send_keys(" ")
    must(page.status() == "45 pages" and len(page.titles()) == 20 and "bad" not in page.all("#status")[0].get_attribute("class"), page.status())


def one_that_fails(world):
    """A document that can't be drawn hides no other."""
    docs = [["1", "One", "the same words"], ["2", "Two", "the same broken words"], ["3", "Broken", "the same words"], ["4", "Four", "the same words"]]
    page = Page(world, site(world, "broken", docs))
    page.script("""(() => {
      const before = elasticlunr.tokenizer;
      elasticlunr.tokenizer = (text) => { if (/broken/i.test(text)) throw new Error('no such word'); return before(text); };
    })()""")
    page.type("same")
    must(page.status() == "4 pages" and sorted(page.titles()) == ["3", "Four", "One", "Two"], page.titles())
    must([len(page.all("p.excerpt")), len(page.all("mark"))] == [2, 2], "another excerpt")
    page.type("four")
    must(page.titles() == ["Four"], page.titles())


def spoken(world):
    """What a screen reader says of the choice, the box and the list."""
    page = Page(world, site(world, "english", SITES["English"]))
    choice, query = page.all("fieldset")[0], page.query()
    must((choice.aria_role, choice.accessible_name) == ("group", "Find pages with"), [choice.aria_role, choice.accessible_name])
    must((query.aria_role, query.accessible_name) == ("searchbox", "Search"), [query.aria_role, query.accessible_name])
    must([radio.accessible_name for radio in page.all("input[type=radio]")] == ["all words", "any word"], "the choices")
    must(page.all("legend")[0].size["width"] <= 1, page.all("legend")[0].size)
    page.type("ivy")
    must(page.script("document.getElementById('results').ariaBusy") == "false", "busy")


def more(world):
    docs = [[str(number), f"Page {number}", "the same words"] for number in range(45)]
    page = Page(world, site(world, "many", docs))
    page.type("same")
    must(len(page.titles()) == 20 and page.status() == "45 pages", page.status())
    page.all("#more")[0].click()
    page.until(lambda: len(page.all("#results a")) == 40)
    must(page.active() == page.all("#results a")[20], "not the first of the new results")
    page.all("#more")[0].click()
    page.until(lambda: len(page.all("#results a")) == 45)
    must(page.active() == page.all("#results a")[40], "not the first of the last results")
    must(len(page.titles()) == 45 and not page.all("#more")[0].is_displayed(), len(page.titles()))


def from_address(world):
    page = Page(world, site(world, "english", SITES["English"]) + "?q=ivy%20roses")
    must(page.titles() == ["Notes on a Façade Garden"] and page.query().get_attribute("value") == "ivy roses", page.titles())


def as_text(world):
    docs = [["javascript:alert(1)", "<b>bold</b> & <img src=x onerror=document.title='run'>", "<script>document.title='run'</script> letters"]]
    page = Page(world, site(world, "markup", docs))
    page.type("letters")
    must([title.text for title in page.all("#results b")] == [docs[0][1]] and page.driver.title == "Search", page.titles())
    must(not page.all("#results img") and not page.all("#results b b"), "markup was taken for markup")
    must(not page.all("#results a"), "a script as an address")


# Addresses that a browser takes for a script, though they are not written as `javascript:`, and others that no link may have.
HOSTILE = [" javascript:", "java\nscript:", "java\tscript:", "java\rscript:", "\u0001javascript:", "javascript\t:", "\n \tJaVaScRiPt:", "JAVASCRIPT:",
           "vbscript:", "data:text/html,", "blob:", "file:///", "view-source:javascript:", "feed:javascript:", "mailto:", "ftp://"]
CONTROLS = [chr(code) for code in [*range(0x20), 0x7F, *range(0x80, 0xA0), 0xA0, 0x2028, 0xFEFF]]


def hostile_references(world):
    run = "document.title='run'"
    hostile = [start + run for start in HOSTILE] + [control + "javascript:" + run for control in CONTROLS] + ["java" + control + "script:" + run for control in CONTROLS]
    friendly = {"//host.invalid/there": "//host.invalid/there", "https://host.invalid/": "https://host.invalid/", "a page.html#part": "a%20page.html#part", "../up.html?x=1": "up.html?x=1"}
    docs = [[ref, f"Page {number}", "the same words"] for number, ref in enumerate(dict.fromkeys([*hostile, *CONTROLS, *friendly]))]
    name = site(world, "hostile", docs)
    page = Page(world, name)
    page.type("same")
    while page.all("#more")[0].is_displayed():
        page.all("#more")[0].click()
    must(len(page.all("#results li")) == len(docs) > 200, len(page.all("#results li")))
    allowed = ["http:", "https:"]
    protocols = page.script("Array.from(document.querySelectorAll('#results a'), (link) => link.protocol)")
    must(len(protocols) >= len(friendly) and set(protocols) <= set(allowed), sorted(set(protocols)))
    links = page.script("Array.from(document.querySelectorAll('#results a'), (link) => link.href)")
    must(all(any(link.endswith(end) for link in links) for end in friendly.values()), links)
    must(not any("script:" in link and "%" not in link for link in links), [link for link in links if "script:" in link])
    must("\u0001javascript:" + run in page.script("Array.from(document.querySelectorAll('#results small'), (small) => small.textContent)"), "not shown as text")
    # Clicks on each title, whether it is a link or not. No link is followed.
    page.script("(addEventListener('click', (event) => event.preventDefault()), document.querySelectorAll('#results b').forEach((title) => title.click()))")
    must(page.driver.title == "Search", "a script was run")


def hostile_addresses(world):
    refs = [str(number) for number in range(len(HOSTILE))]
    name = site(world, "hostile-addresses", [[ref, f"Page {ref}", "the same words"] for ref in refs], edits={BODY: ADDRESSES})
    world.write("hostile-addresses/addresses.json", json.dumps(dict(zip(refs, [start + "alert(1)" for start in HOSTILE]))))
    page = Page(world, name)
    page.type("same")
    must(len(page.all("#results li")) == len(HOSTILE) and not page.all("#results a"), len(page.all("#results a")))


def addresses(world):
    sections = browser_book.book()
    name = site(world, "book", sections, edits={BODY: ADDRESSES})
    world.write("book/addresses.json", json.dumps({number: f"part/{number}.html" for number, _, _ in sections}))
    page = Page(world, name)
    page.type(sections[7][1])
    must(page.titles()[0] == sections[7][1], page.titles()[:3])
    must(page.all("#results a")[0].get_attribute("href").endswith("/book/part/7.html"), "another address")


def not_saved(world):
    page = Page(world, site(world, "unsaved", SITES["English"], save=False))
    page.type("ivy")
    must(page.titles() == ["garden.html"], page.titles())


def says(name, part, index=None, leave_out=()):
    def case(world):
        page = Page(world, site(world, name, SITES["German"], "German", index=index, leave_out=leave_out), ready=False)
        must(part in page.status() and not page.query().is_enabled(), page.status())
        must("bad" in page.all("#status")[0].get_attribute("class"), "not marked as bad")
        return page.status()
    return case


def phone(world):
    page = Page(world, site(world, "english", SITES["English"] + [("w" * 120, "W" * 90, "word " + "w" * 300)]))
    size = {"width": 360, "height": 640, "deviceScaleFactor": 2, "mobile": True}
    page.driver.execute_cdp_cmd("Emulation.setDeviceMetricsOverride", size)
    try:
        page.all("input[value=OR]")[0].click()
        page.type("word train water")
        must(len(page.titles()) > 2, page.titles())
        must(page.script("document.documentElement.scrollWidth") == 360, "wider than the screen")
        must(page.script("innerWidth") == 360, "not laid out for the screen")
        must(page.script("getComputedStyle(document.body).fontSize") == "16px", "small letters")
    finally:
        page.driver.execute_cdp_cmd("Emulation.clearDeviceMetricsOverride", {})


SIDES = """Array.from(document.querySelectorAll('#results li'), (item) => {
  const all = item.getBoundingClientRect();
  return Array.from(item.querySelectorAll('a, p, bdi'), (part) => {
    const range = document.createRange();
    range.selectNodeContents(part);
    const { left, right } = range.getBoundingClientRect();
    return Math.abs(left - all.left) < 2 ? 'left' : Math.abs(right - all.right) < 2 ? 'right' : 'neither';
  });
})"""


def right_to_left(world):
    """Heading, excerpt and address of a result begin on the same side, and the focus ring is as wide as the heading."""
    docs = [["sea.html", "البحر في الصباح", "خرج الصيّادون"], ["guide.html", "Guide to البحر", "A text"], ["port.html", "دليل elasticlunr البحر", "ميناء"]]
    page = Page(world, site(world, "sides", docs, "Arabic"))
    page.type("البحر")
    sides = dict(zip([small.text for small in page.all("#results small")], page.script(SIDES)))
    must(sides == {"sea.html": ["right"] * 3, "port.html": ["right"] * 3, "guide.html": ["left"] * 3}, sides)
    must(all(link.size["width"] < 300 for link in page.all("#results a")), [link.size for link in page.all("#results a")])


def contrast(first, second):
    """The contrast of two colors, as WCAG computes it."""
    def light(color):
        parts = [int(part) / 255 for part in color[color.index("(") + 1:-1].split(",")[:3]]
        linear = [part / 12.92 if part <= 0.04045 else ((part + 0.055) / 1.055) ** 2.4 for part in parts]
        return 0.2126 * linear[0] + 0.7152 * linear[1] + 0.0722 * linear[2]
    high, low = sorted([light(first), light(second)], reverse=True)
    return (high + 0.05) / (low + 0.05)


def dark(world):
    page = Page(world, site(world, "english", SITES["English"]))
    page.type("train")
    backs = []
    for scheme in ["light", "dark"]:
        page.driver.execute_cdp_cmd("Emulation.setEmulatedMedia", {"features": [{"name": "prefers-color-scheme", "value": scheme}]})
        color = lambda what, which: page.script(f"getComputedStyle(document.querySelector('{what}')).{which}")
        back = color("body", "backgroundColor")
        backs.append(back)
        for what in ["body", "#results a", "small", "#status"]:
            must(contrast(color(what, "color"), back) >= 4.5, f"{what} is hard to read in {scheme} mode")
        must(contrast(color("mark", "color"), color("mark", "backgroundColor")) >= 4.5, f"marks are hard to read in {scheme} mode")
    page.driver.execute_cdp_cmd("Emulation.setEmulatedMedia", {"features": []})
    must(backs[0] == "rgb(255, 255, 255)" and contrast("rgb(0,0,0)", backs[1]) < 1.5, backs)


UNKNOWN_STAGE = '{"documentStore":{"docInfo":{},"docs":{},"length":0,"save":true},"fields":[],"index":{},"lang":"x","pipeline":["stemmer-xx"],"ref":"id","version":"0.9.5"}'


def cases():
    return [
        ("page: results come while one types", typing),
        ("page: German, Korean, Arabic and Russian", each_language),
        ("page: found words are marked", marks),
        ("page: an excerpt of a long text", excerpts),
        ("page: all words or any word", switch),
        ("page: arrow keys, Enter and Escape", keyboard),
        ("page: Enter on a result", enter_on_result),
        ("page: keys while a syllable is being composed", composing),
        ("page: more results", more),
        ("page: a query in the address", from_address),
        ("page: the rest of the address", rest_of_address),
        ("page: markup in texts is shown as text", as_text),
        ("page: references that would run a script", hostile_references),
        ("page: addresses that would run a script", hostile_addresses),
        ("page: addresses next to the index", addresses),
        ("page: an index without texts", not_saved),
        ("page: names of files with special characters", names_of_files),
        ("page: a search that fails", fails_once),
        ("page: a document that can't be drawn", one_that_fails),
        ("page: what a screen reader says", spoken),
        ("page: a missing index", says("missing", "could not be loaded: search_index.json (404)", leave_out=["search_index.json"])),
        ("page: an index that is not JSON", says("garbage", "could not be loaded", index="refused: not JSON\n")),
        ("page: a refused index", says("refused", "is refused: Cannot load un-registered function: stemmer-xx", index=UNKNOWN_STAGE)),
        ("page: a script that is not there", says("scriptless", "is refused: Cannot load un-registered function: trimmer-de", leave_out=["elasticlunr-languages.js"])),
        ("page: elasticlunr.min.js is not there", says("bare", "is refused: elasticlunr.min.js is not there", leave_out=["elasticlunr.min.js"])),
        ("page: on a phone", phone),
        ("page: right to left", right_to_left),
        ("page: light and dark", dark),
    ]
