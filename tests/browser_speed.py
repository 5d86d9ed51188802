"""The cases of how fast the page answers a key press.

Each press is timed inside the page by performance.now(): the search, everything that it draws, and the layout, but not the
delay before a search. A change of the choice starts the search, because that searches at once. If the machine is busy, the
time counts instead that the browser's main thread ran, by Chromium's own metrics. The median of several presses counts. A slow
machine gets more time, as much as it needs more for a fixed piece of work.
"""
import json
import os
import random
import statistics

from tests.browser_page import Page, site
from tests.browser_tools import must

BOUND = 50  # milliseconds that a key press may take
WORK = """(() => {
  const words = [];
  for (let at = 0; at < 60000; at++) words.push(String((at * 7919) % 60000));
  return new Map(words.sort().map((word) => [word, word.toLowerCase()])).size;
})()"""
WORK_TIME = 80  # milliseconds that this work usually takes
SYLLABLES = "ba de fi go lu ma ne pi ro su ta ve wi ko za tri sta plo gre".split()


def long_texts(pages, size):
    rng = random.Random(20261126)
    words = ["".join(rng.choice(SYLLABLES) for _ in range(rng.randint(1, 4))) for _ in range(8000)]
    for number in range(pages):
        chosen = [words[int(rng.random() ** 2 * len(words))] + rng.choice(["", "", "", ",", "."]) for _ in range(size)]
        yield [f"{number}.html", f"Words of page {number}", " ".join(chosen + ["zebra"])]


def long_site(world):
    name = "long-texts-in-pieces" if world.in_pieces else "long-texts"
    if os.path.exists(os.path.join(world.folder, name)):
        return name + "/search.html"
    return site(world, name, long_texts(20, 10000))


def thread_time(page):
    metrics = page.driver.execute_cdp_cmd("Performance.getMetrics", {})["metrics"]
    return next(metric["value"] for metric in metrics if metric["name"] == "TaskDuration") * 1000


def timed(page, texts):
    """For each text what the page shows, with the milliseconds by the clock and those of the thread."""
    page.driver.execute_cdp_cmd("Performance.enable", {"timeDomain": "threadTicks"})
    for text in texts:
        before = thread_time(page)
        shown = page.ask([text])[0]
        yield {**shown, "thread": thread_time(page) - before}


def slowness(page):
    """How many times as long as usual the browser's thread works here, and at least 1."""
    before = thread_time(page)
    page.script(WORK)
    return max(1, (thread_time(page) - before) / WORK_TIME)


def in_time(page, texts):
    shown = list(timed(page, texts))
    bound = BOUND * slowness(page)
    clock = statistics.median(press["milliseconds"] for press in shown)
    thread = statistics.median(press["thread"] for press in shown)
    must(min(clock, thread) < bound, [round(bound), [[press["text"], round(press["milliseconds"]), round(press["thread"])] for press in shown]])
    return shown, f"{clock:.0f} ms by the clock, {thread:.0f} ms of the thread (medians of {len(shown)} key presses)"


def of_long_texts(world):
    page = Page(world, long_site(world))
    shown, figures = in_time(page, ["b", "ba", "bad", "bade", "bade f", "bade fi", "w", "wo", "wor", "word", "words p", "words pa", "trista", "trista gre"])
    must([len(press["refs"]) for press in shown] == [20] * len(shown) and all(press["marks"] >= 20 for press in shown), shown)
    return figures


CHOOSE = "(() => {{ query.value = '{}'; document.querySelector('input[value=AND]').dispatchEvent(new Event('change', {{ bubbles: true }})); }})()"
WHILE_DRAWN = f"""(() => {{
  const query = document.getElementById("query"), results = document.getElementById("results");
  {CHOOSE.format("zebra")};
  const drawn = results.children.length, isBusy = results.getAttribute("aria-busy");
  {CHOOSE.format("words")};
  return [drawn, isBusy];
}})()"""


def in_parts(world):
    """The page finds a word at the end of each long text, draws the results in parts, and a new search stops the drawing."""
    page = Page(world, long_site(world))
    drawn, is_busy = page.script(WHILE_DRAWN)
    must(drawn < 20 and is_busy == "true", [drawn, is_busy])
    must(len(page.titles()) == 20 and page.status() == "20 pages" and set(page.marks()) == {"Words"}, page.marks())
    page.type("zebra")
    must(len(page.titles()) == 20 and page.marks() == ["zebra"] * 20, page.marks())


DOTS = "." * 40000


def of_long_words(world):
    """A beginning finds dots between two letters, and one word of a million characters, and the page shows a part of them."""
    docs = [["dots", "Plain", f"a{DOTS}b and x{DOTS}b"], ["word", "Plain", "w" * 1000000], ["title", "T" * 100000, f"-{DOTS} plain"]]
    page = Page(world, site(world, "long-words", docs))
    shown, figures = in_time(page, ["p", "pl", "pla", "plai", "plain", "w", "ww", "www", "x", "x.", "x..", "ttt", "tttt", "ttt plain"])
    found = {press["text"]: press["refs"] for press in shown}
    must(len(found["plain"]) == 3 and found["www"] == ["word"] and found["x.."] == ["dots"] and found["tttt"] == found["ttt plain"] == ["title"], found)
    must(all(press["marks"] for press in shown), shown)
    must(page.script("document.getElementById('results').textContent.length") < 2000, "shown whole")
    return figures


COUNT = """(() => {
  const search = elasticlunr.Index.prototype.search;
  window.searches = [];
  elasticlunr.Index.prototype.search = function (text, options) { searches.push(text); return search.call(this, text, options); };
})()"""
PRESS = "(() => {{ const query = document.getElementById('query'); for (const text of {}) {{ query.value = text; query.dispatchEvent(new Event('input', {{ bubbles: true }})); }} }})()"


def last_key(world):
    docs = [["one.html", "Alpha", "the same words"], ["two.html", "Beta", "the same words"]]
    page = Page(world, site(world, "last-key", docs))
    world.write("last-key/two.html", "<title>two</title>")
    page.script(COUNT)
    page.script(PRESS.format(json.dumps(["a", "al", "alp", "alph"])))
    searches = lambda: page.script("[...new Set(searches)]")  # over pieces each text is searched twice
    must(page.titles() == ["Alpha"] and searches() == ["alph"], searches())
    page.script("(() => { " + PRESS.format('["b"]') + "; document.querySelector('input[value=OR]').click(); })()")
    must(page.titles() == ["Beta"] and searches() == ["alph", "b"], searches())
    page.script(PRESS.format('["xylophone"]'))
    must(page.titles() == [], page.titles())
    page.script("(() => { " + PRESS.format('["bet"]') + "; document.getElementById('form').requestSubmit(); })()")
    page.until(lambda: page.driver.title == "two")


def cases():
    return [
        ("page: a key press among long texts", of_long_texts),
        ("page: a key press among long words", of_long_words),
        ("page: a new search while results are drawn", in_parts),
        ("page: the last key press is searched for", last_key),
    ]
