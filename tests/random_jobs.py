"""Makes random jobs, in all languages: texts, documents, settings, and damage to a job."""
import json

from tests.model_tokens import LANGUAGES, LOWER, STEP_2, STEP_3, STEP_4, WHITE_SPACE, script_ranges, stop_words

NAMES = list(LANGUAGES)
LETTERS = {
    "en": "abcdeghilmnorstuy",
    "ar": "\u0627\u0628\u062a\u0633\u0644\u0645\u0646\u0622\u0623\u0625\u0671\u0649\u0640\u064b\u0651\u065b",
    "ko": "\uac00\ub098\ub2e4\ub77c\ub9c8\uc0ac\uc544\ud55c\uae00\ub78c",
    "ru": "\u0430\u0431\u0432\u0435\u0438\u043a\u043b\u043e\u0441\u0442\u044f\u0401\u0416\u0419",
}
LATIN = "aeiounrst\u00e5\u00e6\u00f8\u00e9\u00e8\u00fc\u00df\u00f1\u00e7\u015f\u011f\u0131\u0130\u0178\u017d"
MARKS = "!'\"\\/.,;:()_0189\u2010\u0000\n\u007f\u200b\ufeff\u180e\u001c"
ENDINGS = list(STEP_2) + list(STEP_3) + STEP_4 + "s ss sses ies ed ing eed y e ll sion tion ated bling izing".split()
PARTS = "a e i o y b t r s x w tr str ay oy yt ll tt zz at bl iz".split()
SPACES = sorted(WHITE_SPACE) + ["-", " - ", "  "]


def edges():
    """The characters on both sides of each end of the ranges of scripts and of the table of lower case."""
    ends = [(first, last) for _, first, last in script_ranges()] + [(first, last) for first, last, _, _ in LOWER]
    codes = {code for first, last in ends for code in (first - 1, first, last, last + 1)} - {0xD7FF + 1}
    return [chr(code) for code in sorted(codes)]


EDGES = edges()


def english_word(rng):
    word = "".join(rng.choice(PARTS) for _ in range(rng.randint(0, 4)))
    word += "".join(rng.choice(ENDINGS) for _ in range(rng.randint(0, 2)))
    return word.capitalize() if rng.random() < 0.1 else word


def word(rng, code):
    """A word of a language, or what looks like one: with punctuation at its ends, a stop word, rare characters."""
    kind = rng.random()
    if kind < 0.2 and code != "ar":
        made = rng.choice(sorted(stop_words(code)))
    elif code == "en" and kind < 0.9:
        made = english_word(rng)
    elif kind < 0.9:
        made = "".join(rng.choice(LETTERS.get(code, LATIN)) for _ in range(rng.randint(1, 5)))
    else:
        made = "".join(rng.choice(EDGES) for _ in range(rng.randint(1, 3)))
    if rng.random() < 0.2:
        made = rng.choice(MARKS) + made
    if rng.random() < 0.2:
        made += rng.choice(MARKS + "s")
    if rng.random() < 0.05:
        made = made.upper()
    return made


def text(rng, words):
    gaps = [" ", " ", " ", rng.choice(SPACES)]
    return "".join(rng.choice(words) + rng.choice(gaps) for _ in range(rng.randint(0, 12)))


def job(rng):
    """A job for which the program prints an index."""
    lang = rng.choice(NAMES)
    words = [word(rng, LANGUAGES[lang].code) for _ in range(20)]
    fields = rng.sample(["id", "title", "body", "tags", "", "\u00dc", "df"], rng.randint(0, 4))
    references = rng.sample(["1", "2", "10", "a/b.html", "", '\u00e9"\n', "id"], rng.randint(1, 5))
    docs = [
        [rng.choice(references)] + [text(rng, words) for _ in range(rng.randint(0, len(fields)))]
        for _ in range(rng.randint(0, 9))
    ]
    made = {"fields": fields, "docs": docs}
    if lang != "English" or rng.random() < 0.5:
        made["lang"] = lang
    for key, values in [("save", [True, False]), ("ref", ["id", "key", "title", ""]), ("pretty", [True, False])]:
        if rng.random() < 0.3:
            made[key] = rng.choice(values)
    if rng.random() < 0.5:
        made["remove"] = [rng.choice(references + ["?"]) for _ in range(rng.randint(0, 3))]
    if rng.random() < 0.4:
        made["compact"] = rng.choice([True, True, False])
    return made


def written(rng, made):
    """The bytes of a job, in one of the layouts of JSON."""
    members = list(made.items())
    rng.shuffle(members)
    return json.dumps(
        dict(members), ensure_ascii=rng.random() < 0.5, indent=rng.choice([None, None, 1, "\t"])
    ).encode()


# Damage. Each function changes one thing of a job; two of them together try the order of the refusals.

OTHER_KINDS = [None, 0, -1.5, "x", [], {}, True, [1], [[1]], [[]], [None], [["1"], []], {"a": []}]


def of_another_kind(rng, made):
    made[rng.choice(list(made))] = rng.choice(OTHER_KINDS)


def an_unknown_key(rng, made):
    made[rng.choice(["x", "doc", "Lang", ""])] = rng.choice(OTHER_KINDS)


def a_missing_key(rng, made):
    made.pop(rng.choice(["fields", "docs"]), None)


def an_unknown_language(rng, made):
    made["lang"] = rng.choice(["english", "en", "", "English ", "Klingon", "Japanese", "Hungarian"])


def a_field_twice(rng, made):
    if made.get("fields") and isinstance(made["fields"], list):
        made["fields"] = made["fields"] + [rng.choice(made["fields"])]


def a_value_too_many(rng, made):
    if isinstance(made.get("docs"), list) and isinstance(made.get("fields"), list):
        place = rng.randint(0, len(made["docs"]))
        made["docs"] = made["docs"][:place] + [["1"] + ["x"] * (len(made["fields"]) + 1)] + made["docs"][place:]


def cut_off(rng, given):
    return given[: rng.randint(0, len(given) - 1)]


def a_byte_changed(rng, given):
    place = rng.randint(0, len(given) - 1)
    return given[:place] + bytes([rng.choice(list(b'{}[],:"\\0 e\n\x00') + [0xFF, 0xC0, 0x80])]) + given[place + 1 :]


def a_byte_more(rng, given):
    place = rng.randint(0, len(given))
    return given[:place] + rng.choice([b",", b"]", b"}", b'"', b"0", b" ", b"\\ud800", b"\xed\xa0\x80"]) + given[place:]


def a_key_twice(rng, given):
    return given.replace(b"{", rng.choice([b'{"fields":[],', b'{"lang":"x",', b'{"docs":"\\ud800",']), 1)


def deep(rng, given):
    depth = rng.choice([100, 124, 125, 126, 127, 128, 200, 100_000])
    return given.replace(b"{", b'{"docs":' + b"[" * depth + b"]" * depth + b",", 1)


IN_THE_JOB = [of_another_kind, an_unknown_key, a_missing_key, an_unknown_language, a_field_twice, a_value_too_many]
IN_THE_BYTES = [cut_off, a_byte_changed, a_byte_more, a_key_twice, deep]


def damaged(rng, made):
    """The bytes of a damaged job. Some damage changes nothing: then the program prints an index."""
    made = dict(made)
    for _ in range(rng.choice([0, 1, 1, 2, 2, 3])):
        rng.choice(IN_THE_JOB)(rng, made)
    given = written(rng, made)
    if rng.random() < 0.3:
        given = rng.choice(IN_THE_BYTES)(rng, given)
    return given
