"""Inputs in the flat form: made ones, refused ones, those of the table of jobs, and damaged ones."""
import random

from tests import flat_model, model, random_jobs
from tests.flat_model import AS_GIVEN, FROM_TEXT, INTO_PIPELINE, Document, Input, Value, flat
from tests.browser_sentences import PAGES
from tests.model_tokens import LANGUAGES
from tests.tables import Row, jobs

SEED = 7
OF_EACH_LANGUAGE = 12
WITH_STEMS = 4  # of each language
OF_OWN = 24
OWN_STAGES = [(), ("trimmer",), ("stemmer-xx", "stemmer-xx"), ("", "é\n\0", "stopWordFilter")]
RARE = ["", "a", "-", "two words", "Red!", "YELLOWED", "yelling", "the", "é\n\"\\\0", "\u2028", "😀", "\U0010ffff", "x" * 27, "x" * 28]
# Four bytes each: characters at the ends of their ranges in UTF-8, and what is none
UTF_8 = [b"\x7f@@@", b"\xc2\x80@@", b"\xdf\xbf@@", b"\xe0\xa0\x80@", b"\xed\x9f\xbf@", b"\xee\x80\x80@", b"\xf0\x90\x80\x80", b"\xf4\x8f\xbf\xbf"]
NO_UTF_8 = [b"\x80@@@", b"\xc0\x80@@", b"\xc1\xbf@@", b"\xe0\x9f\xbf@", b"\xed\xa0\x80@", b"\xed\xbf\xbf@", b"\xf0\x8f\xbf\xbf",
            b"\xf4\x90\x80\x80", b"\xf5\x80\x80\x80", b"\xfe@@@", b"@@@\xc2", b"@@\xe0\xa0", b"@\xf0\x90\x80"]
LONG = 1_000  # characters of a long token
MANY = 2_100  # tokens of a field; from 2,049 on they are counted in another way


# Made inputs


def value(rng, vocabulary):
    text = random_jobs.text(rng, vocabulary)
    source = rng.choice([FROM_TEXT, INTO_PIPELINE, AS_GIVEN])
    tokens = tuple(rng.choice([*vocabulary, *RARE]) for _ in range(rng.randint(0, 6)))
    return Value(text, source, tokens if source else ())


def random_input(rng, lang, names=None):
    """An input of a language, or of a custom one whose stages have these names."""
    code = LANGUAGES[lang].code if names is None else rng.choice(["en", "ko", "fr"])
    vocabulary = [random_jobs.word(rng, code) for _ in range(12)]
    fields = tuple(rng.sample(["id", "title", "body", "", "Ü", "df"], rng.randint(0, 4)))
    references = rng.sample(["1", "2", "10", "a/b.html", "", 'é"\n', "id"], rng.randint(1, 4))
    docs = tuple(
        Document(rng.choice(references), tuple(value(rng, vocabulary) for _ in range(rng.randint(0, len(fields)))))
        for _ in range(rng.randint(0, 7))
    )
    return Input(fields, docs, lang, names, rng.choice(["id", "id", "key", "title", ""]), rng.random() < 0.7)


def random_inputs():
    rng = random.Random(SEED)
    for lang in LANGUAGES:
        yield from (random_input(rng, lang) for _ in range(OF_EACH_LANGUAGE))
        yield from (random_input(rng, lang)._replace(stems=True) for _ in range(WITH_STEMS))
    for number in range(OF_OWN):
        name = rng.choice(["English", "Klingon", "", "日本語"])
        yield random_input(rng, name, OWN_STAGES[number % len(OWN_STAGES)])


def one(*values, **settings):
    """An input of one document, with a field for each value."""
    return Input(("body", "title", "tags")[: len(values)], (Document("1", values),), **settings)


def chosen_inputs():
    """Inputs for the edges of the form and of the index."""
    page, again = Value("Red pages", FROM_TEXT), Value("Blue", AS_GIVEN, ("Red", "Red"))
    for source in (INTO_PIPELINE, AS_GIVEN):
        yield one(Value("no tokens", source))
        yield one(Value("rare", source, tuple(RARE)))
        yield one(Value("", source, ("", "")))
        yield one(Value("long", source, ("ab" * (LONG // 2), "ab" * (LONG // 2) + "c")))
        yield one(Value("many", source, tuple(f"w{place % 700}" for place in range(MANY))))
        yield one(Value("own", source, ("pages", "", "the", "Red!", "")), lang="own", stages=("stage",))
        yield Input(("id", "body"), (Document("1", (Value("7", source, ("go",)), page)),))  # the reference field has tokens
    yield from (Input((), ()), Input(("body",), ()), Input((), (Document("1", ()), Document("1", ()))))
    yield Input(("body", "title"), (Document("1", (page,)), Document("2", ())))  # fewer values than fields
    for save in (True, False):
        yield Input(("body",), (Document("1", (page,)), Document("2", (again,)), Document("1", (again,))), save=save)
        yield Input(("body", "id"), (Document("1", (again, page)), Document("1", (page, again))), ref="body", save=save)
    for lang, pages in PAGES.items():
        texts = [Value(text) for _, *values in pages for text in values]
        yield Input(("body",), tuple(Document(str(number), (text,)) for number, text in enumerate(texts)), lang, stems=True)
        given = tuple(" ".join(text.text for text in texts).lower().split())
        yield one(Value("", INTO_PIPELINE, given), Value("", AS_GIVEN, given), lang=lang, stems=True)
    yield one(page, lang="own", stages=())
    yield one(Value(" ".join(f"w{place}" for place in range(MANY))))
    yield Input(tuple(f"field {number}" for number in range(300)), (Document("1", (again,) * 300),))
    yield Input(("body",), tuple(Document(str(number), (again,)) for number in range(300)))


def refused_inputs():
    """Inputs that fail one check, or several."""
    page, twice, many = Value("go"), ("a", "a"), (Document("1", ()), Document("2", (Value("go", AS_GIVEN, ("go",)),) * 3))
    for lang in ("english", "en", "", "English ", "Klingon", "\0"):
        yield one(page, lang=lang)
        yield one(page, lang=lang, stems=True)
    yield Input(twice, many, lang="none")
    yield Input(("a", "b"), many, lang="none", stems=True)
    yield from (Input(twice, many), Input(twice, ()), Input(("", "b", ""), ()), Input(twice, (), "own", ()))
    yield from (Input(("a", "b"), many), Input((), many), Input(("a", "b"), many + (Document("2", ()),), "own", ("stage",)))


def answered(given):
    return Row(given, *flat_model.answer(given))


def rows_of_made():
    """Made inputs with the answers of the model."""
    return [answered(flat(it)) for it in (*random_inputs(), *chosen_inputs(), *refused_inputs())]


# Jobs


def input_of(job):
    """The input that asks for what a job asks for, or None where the flat form can't say it."""
    if job.remove or job.compact or job.pretty:
        return None
    docs = tuple(Document(ref, tuple(map(Value, values))) for ref, *values in job.docs)
    return Input(tuple(job.fields), docs, job.lang, None, job.ref, job.save)


def rows_of_table():
    """The jobs of the table as inputs, with the answers of the table. Of an index no line feed follows."""
    for row in jobs():
        try:
            job = model.read(row.given)
        except (ValueError, RecursionError):
            continue
        it = None if model.refusal(job) == "not a job" else input_of(model.Job(**job))
        if it:
            yield Row(flat(it), row.out.removesuffix(b"\n") if row.status == flat_model.DONE else row.out, row.status)


# Damage


def short_inputs():
    """Inputs that have each part of the form."""
    page, given = Value("go on"), Value("é", AS_GIVEN, ("go",))
    yield Input((), ())
    yield one(page)
    yield one(given)
    yield one(Value("a", INTO_PIPELINE, ("the", "pages")))
    yield one(Value("", AS_GIVEN), lang="Korean", save=False)
    yield one(given, lang="x", stages=("s", ""))
    yield one(Value("Häuser"), lang="German", stems=True)
    yield Input(("id", "é"), (Document("1", (given, page)), Document("", ())))
    yield Input(("a",), (Document("1", (page,)), Document("1", (given,))), ref="a", save=False)
    yield Input(("a", "a"), (), "x", ())
    yield Input(("a",), (Document("1", (page, page)),), lang="none")
    yield one(Value("😀 б", INTO_PIPELINE, ("😀б", "")), lang="Russian")


def changed(given):
    """The bytes with each one changed, left out or followed by another one, cut off at each, and with more at the end."""
    for at, byte in enumerate(given):
        others = {0, 1, 2, 3, 0x40, 0x80, 0xC3, 0xFF, (byte + 1) % 256, (byte - 1) % 256} - {byte}
        yield from (given[:at] + bytes([other]) + given[at + 1 :] for other in sorted(others))
        yield given[:at] + given[at + 1 :]
        yield given[: at + 1] + b"\0" + given[at + 1 :]
        yield given[:at]
    yield from (given + more for more in (b"\0", b"a", b"\0\0\0\0", given))


def with_other_texts():
    """The bytes of inputs that have a text in each place, with other bytes instead of one of the texts."""
    texts = Value("a@@@", AS_GIVEN, ("b@@@",)), Value("c@@@", INTO_PIPELINE, ("d@@@",))
    it = Input(("e@@@", "f@@@"), (Document("g@@@", texts),), "h@@@", ("i@@@",), "j@@@")
    for given in (flat(it), flat(it._replace(stages=None))):
        for name in b"abcdefghij":
            old = bytes([name]) + b"@@@"
            yield from (given.replace(old, new) for new in (*UTF_8, *NO_UTF_8) if old in given)


def rows_of_damaged():
    """Damaged inputs with the answers of the model."""
    changes = {damaged for it in short_inputs() for damaged in changed(flat(it))}
    return [answered(it) for it in sorted(changes | set(with_other_texts()))]


def wrongly_decoded():
    """The inputs that the decoder doesn't read back."""
    made = (*random_inputs(), *chosen_inputs(), *refused_inputs(), *short_inputs())
    return [it for it in made if flat_model.Decoder(flat(it)).input() != it]
