"""The cases of the stemmers in the printed scripts: in node against listed stems and the model of stems_model.py, and on pages
over indexes that the models print with stems."""
import functools
import json
import random

from tests import model, stems
from tests.browser_page import SITES, Page, site
from tests.browser_pieces import in_pieces
from tests.browser_sentences import PAGES
from tests.browser_tools import ALL, in_node, must, own_script
from tests.stems_index import CODES, IN_SCRIPTS, built, index_of, stemmer
from tools.repository import read

LEAST = 1000  # listed words of each language
MADE_UP = 200  # words of each language, and as many with characters above U+FFFF
WIDE = "𝒳𐐨😀"  # characters above U+FFFF
OTHERS = ["", *WIDE, "𐐨𐐨", "x" * 1000, "u" * 1000, "aeiou" * 200, "constructor", "__proto__", "ß" * 50, "\ufeff", "\uffff"]


# In node.

def wider(word, chance):
    """The word with characters above U+FFFF, once or twice each."""
    at = chance.randint(0, len(word))
    return word[:at] + chance.choice(WIDE) * chance.randint(1, 2) + word[at:] + chance.choice(["", *WIDE])


@functools.lru_cache(None)
def asked(code):
    """Words with their stems: those that are listed, and made-up ones."""
    rows, chance = stems.listed(code, "current"), random.Random(f"{stems.SEED} {code} browser")
    must(len(rows) >= LEAST, f"{len(rows)} words are listed, and {LEAST} are the least")
    words = list(stems.made_up([word for word, _ in rows], stems.suffixes(stemmer(code)), MADE_UP, chance))
    words += [wider(word, chance) for word in words] + OTHERS
    return rows + [(word, stemmer(code).stem(word)) for word in words]


def same_stems(language, script):
    """The stage of the script makes each word its stem, and drops a word whose stem is empty."""
    def case(world):
        code = IN_SCRIPTS[language]
        rows = asked(code)
        world.write("words.json", json.dumps([word for word, _ in rows]))
        lines = [f"require('./{script}')(elasticlunr);", f"const stage = elasticlunr.Pipeline.registeredFunctions['stemmer-{code}'];",
                 "console.log(JSON.stringify(require('./words.json').map((word) => { const stem = stage(word); return stem === undefined ? null : stem; })));"]
        found = json.loads(in_node(world, lines))
        differ = [[word, one, other] for (word, one), other in zip(rows, found, strict=True) if (one or None) != other]
        must(not differ, [len(differ), differ[:8]])
        return f"{len(rows)} words"
    return f"stems: {language}, by {script}", case


def without_stem(world):
    """A word with an empty stem leaves the pipeline, and the stages of other languages are not there."""
    lines = [f"require('./{own_script('Turkish')}')(elasticlunr);", "const pipeline = new elasticlunr.Pipeline();",
             "pipeline.add(elasticlunr.Pipeline.registeredFunctions['stemmer-tr']);", "console.log(JSON.stringify(pipeline.run(['sunuz', 'kitaplar', 'ev'])));",
             "console.log(Object.keys(elasticlunr.Pipeline.registeredFunctions).filter((name) => name.startsWith('stemmer-')).join());"]
    must(stemmer("tr").stem("sunuz") == "", "the model keeps it")
    must(in_node(world, lines) == '["kitap","ev"]\nstemmer-tr', in_node(world, lines))


def long_words(world):
    """Words of many letters have stems in each language, in time that grows with their length."""
    lines = [f"require('./{ALL}')(elasticlunr);", f"for (const letters of {json.dumps(['x', 'u', 'ß', 'aeiouy', 'ëïäü', 'qu', WIDE])})",
             f"for (const code of {json.dumps(list(IN_SCRIPTS.values()))})",
             "console.log(typeof elasticlunr.Pipeline.registeredFunctions['stemmer-' + code](letters.repeat(50000 / letters.length)));"]
    must(set(in_node(world, lines).split()) <= {"string", "undefined"}, "another answer")


DAMAGES = [  # of a table: a text of it, and what it is replaced by
    ("13 70 19 3 23 0", "13 70 19 3 23"), ("13 70 19 3 23 0", "13"), ("13 70", "13 x0"), ("13 70", "13 70000"), ("\\n+-a ss", "\\n+-a"), ("\\n+-a ss", "\\n+-a s s"),
    ("\\n+-a ss", "\\n%-a ss"), ("\\n+-a ss", "\\n+xa ss"), ("\\n+-a ss", "\\n+-as ss"), ("\\n!s- 3\\n", "\\n!s- \\n"), ("\\n=-- 3 10", "\\n=-- 3"), ("\\n&-- 5 6", "\\n&-- 5 6 7"),
    ("\\n+-a ss", "\\n+sa ss"), ("\\n!s- 3\\n", "\\n!sa 3\\n"), ("\\n!s- 3\\n", "\\n!s- 0\\n"), ("\\n~-a uy 11", "\\n~-a uy"),
    ("\\n--- 0 25 niss", "\\n--- 0 25"), ("\\n--- 0 25 niss", "\\n--- 0 x niss"), ("\\n@s- 1", "\\n\\n@s- 1"), ("\\n@s- 1", "\\n@s- -1"),
]


def damaged(world):
    """A script with a text that is no table, or not a safe one, throws as it is loaded."""
    script = read("browser/" + own_script("German"))
    for number, (old, new) in enumerate(DAMAGES):
        must(old in script, old)
        world.write(f"damaged-{number}.js", script.replace(old, new, 1))
    lines = [f"for (let number = 0; number < {len(DAMAGES)}; number++) try {{ require(`./damaged-${{number}}.js`)(elasticlunr); console.log(number); }}",
             "catch (error) { console.log(error.message); }"]
    must(in_node(world, lines).split("\n") == ["the table of stemmer-de is damaged"] * len(DAMAGES), in_node(world, lines))


def in_node_cases():
    made = [same_stems(language, script) for language in IN_SCRIPTS for script in (own_script(language), ALL)]
    return made + [("stems: a word without a stem", without_stem), ("stems: long words", long_words), ("stems: damaged tables", damaged)]


# On pages.

HUNGARIAN = [
    ["piac", "A vasárnapi piac", "Az almákat és a körtéket reggel hozzák a falvakból. A gyerekek cseresznyét esznek a padokon, és a vásárlókat nézik."],
    ["folyó", "Hajók a folyón", "Esténként lassú hajók úsznak a hidak alatt. A házak ablakaiban lámpák égnek, a kertekben kutyák ugatnak."],
    ["erdő", "Ősz az erdőben", "A lombok sárgák és vörösek; a szarvasok a patakokhoz mennek inni, a madarak délre indulnak, a gombákat kosarakba szedik."],
    ["könyv", "Régi könyvek", "A könyvtárban régi könyveket, térképeket és leveleket őriznek. ŐRÜLT-ÍRÓK jegyzetei is vannak köztük: 1848-ból!"],
]


def same_postings(language, pages):
    """The browser makes the same tokens of the texts as the models."""
    def case(world):
        name = f"{language}-stems"
        job, index = index_of(language, pages)
        world.write(name + ".job.json", json.dumps(job, ensure_ascii=False))
        world.write(name + ".json", index)
        answer = world.call([own_script(language)], "compare", name + ".job.json", name + ".json")
        must(answer["postings"] > 50 and not answer["differ"], answer)
        return f"{answer['postings']} postings"
    return f"stems: {language}, the tokens of an index with stems", case


FORMS = {  # what is typed, the title of the page that is found, and the words that are marked in its texts
    "French": ("cerise achetés", "Le marché du dimanche", ["achetions", "cerises"]),
    "German": ("Licht Straßen", "Die große Straße", ["Straße", "Lichter"]),
    "Russian": ("мостами цветов", "Прогулка по Петербургу", ["Мосты", "Цветы"]),
    "Turkish": ("vapurlar", "Boğaz'da Bir Akşam", ["Vapur"]),
}


def other_forms(language):
    """A page finds and marks another form of a word by an index that the command builds with stems, and doesn't by one without."""
    def find(world):
        text, title, marked = FORMS[language]
        index = built(language, SITES[language])
        page = Page(world, site(world, f"{language}-with-stems", SITES[language], index=index))
        page.type(text)
        must(page.titles() == [title] and page.marks("p.excerpt") == marked, [page.titles(), page.marks("p.excerpt")])
        plain = model.printed(model.Job(["title", "body"], [list(doc) for doc in SITES[language]], lang=language))
        page = Page(world, site(world, f"{language}-without-stems", SITES[language], index=plain))
        page.type(text)
        must(page.titles() == [], page.titles())
    return find


def cases():
    whole = [(f"stems: {language}, a page finds another form of a word", other_forms(language)) for language in FORMS]
    apart = [(f"stems: {language}, a page over pieces finds another form of a word", in_pieces(other_forms(language))) for language in FORMS]
    same = [same_postings(language, PAGES[language]) for language in CODES] + [same_postings("Hungarian", HUNGARIAN)]
    return same + whole + apart
