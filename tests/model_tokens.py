"""The tokens of a text in each language, computed from the definitions (docs/DEFINITIONS.md).

A stem is searched among all splits of a word, and a text is trimmed by looking for its two ends: the program does neither.
The stop words are data (crates/elasticlunr_vectors/data/stopwords), and so are the ranges of the three scripts of the
character classes (unicode_scripts.tsv, from Unicode's Scripts.txt).
"""
import functools
import json
from typing import NamedTuple

from tools.repository import lines_of, read

STOP_WORDS = "crates/elasticlunr_vectors/data/stopwords"

# Words and their ends

# the characters that Unicode calls white space
WHITE_SPACE = set("\t\n\v\f\r \x85\xa0\u1680\u2028\u2029\u202f\u205f\u3000") | {chr(c) for c in range(0x2000, 0x200B)}


def is_even(number):
    return number % 2 == 0


def is_odd(number):
    return number % 2 == 1


def every(_):
    return True


# ranges of capitals, the property that a capital of the range has, and the distance to its small letter
LOWER = [
    (0x41, 0x5A, every, 32),
    (0xC0, 0xDE, lambda c: c != 0xD7, 32),
    (0x100, 0x12F, is_even, 1),
    (0x132, 0x137, is_even, 1),
    (0x139, 0x148, is_odd, 1),
    (0x14A, 0x177, is_even, 1),
    (0x178, 0x178, every, 0xFF - 0x178),
    (0x179, 0x17D, is_odd, 1),
    (0x218, 0x21A, is_even, 1),
    (0x400, 0x40F, every, 80),
    (0x410, 0x42F, every, 32),
]


@functools.lru_cache(None)
def lower(character):
    """The one or two characters of the table of lower case."""
    if character == "\u0130":
        return "i\u0307"
    code = ord(character)
    for first, last, has_property, offset in LOWER:
        if first <= code <= last and has_property(code):
            return chr(code + offset)
    return character


def words(text):
    """The longest runs of characters that are neither white space nor a hyphen, in lower case."""
    apart = "".join(" " if character in WHITE_SPACE or character == "-" else character for character in text)
    return ["".join(map(lower, run)) for run in apart.split(" ") if run]


def trimmed(in_class, text):
    """The text from its first to its last character of a class."""
    places = [place for place, character in enumerate(text) if in_class(character)]
    return text[places[0] : places[-1] + 1] if places else ""


def without_first(text, characters, new):
    """The text with something new instead of the first of these characters."""
    places = [place for place, character in enumerate(text) if character in characters]
    return text[: places[0]] + new + text[places[0] + 1 :] if places else text


DIACRITICS = "\u0640" + "".join(map(chr, range(0x64B, 0x65C)))
MARKED_ALEFS = "\u0622\u0623\u0625\u0671\u0649"


def arabic_stem(token):
    return without_first(without_first(token, DIACRITICS, ""), MARKED_ALEFS, "\u0627")


# The English stem


def is_consonant_block(text):
    return text != "" and text[0] not in "aeiou" and all(letter not in "aeiouy" for letter in text[1:])


def is_vowel_block(text):
    return text != "" and text[0] in "aeiouy" and all(letter in "aeiou" for letter in text[1:])


def may_be_consonant_block(text):
    return text == "" or is_consonant_block(text)


def is_letter_of(letters):
    return lambda text: len(text) == 1 and text in letters


def is_letter_outside(letters):
    return lambda text: len(text) == 1 and text not in letters


def has_split(text, parts):
    """Whether some split of the text has parts of these kinds, in order."""
    if not parts:
        return text == ""
    if parts == [every]:
        return True
    return any(parts[0](text[:cut]) and has_split(text[cut:], parts[1:]) for cut in range(len(text) + 1))


def m_above_0(text):
    return has_split(text, [may_be_consonant_block, is_vowel_block, is_consonant_block, every])


def m_above_1(text):
    pair = [is_vowel_block, is_consonant_block]
    return has_split(text, [may_be_consonant_block] + pair + pair + [every])


def m_is_1(text):
    one = [may_be_consonant_block, is_vowel_block, is_consonant_block]
    return has_split(text, one) or has_split(text, one + [is_vowel_block])


def has_vowel(text):
    return has_split(text, [may_be_consonant_block, is_letter_of("aeiouy"), every])


def is_short(text):
    return has_split(text, [is_consonant_block, is_letter_of("aeiouy"), is_letter_outside("aeiouwxy")])


def is_stem(text):
    return text != "" and "\n" not in text


def stem_before(word, *endings):
    """The stem of a word that is a stem and one of these endings, or None."""
    for ending in endings:
        if word.endswith(ending) and is_stem(word[: len(word) - len(ending)]):
            return word[: len(word) - len(ending)]
    return None


def cut(word, suffixes):
    """The shortest stem whose rest is one of the suffixes, and this rest; or None."""
    for place in range(1, len(word)):
        if word[place:] in suffixes and is_stem(word[:place]):
            return word[:place], word[place:]
    return None


STEP_2 = dict(
    pair.split(":")
    for pair in (
        "ational:ate tional:tion enci:ence anci:ance izer:ize bli:ble alli:al entli:ent eli:e ousli:ous ization:ize"
        " ation:ate ator:ate alism:al iveness:ive fulness:ful ousness:ous aliti:al iviti:ive biliti:ble logi:log"
    ).split()
)
STEP_3 = dict(pair.split(":") for pair in "icate:ic ative: alize:al iciti:ic ical:ic ful: ness:".split())
STEP_4 = "al ance ence er ic able ible ant ement ment ent ou ism ate iti ous ive ize".split()


def step_1a(word):
    if stem_before(word, "sses", "ies"):
        word = word[:-2]
    if word.endswith("s") and word[-2:-1] != "s" and is_stem(word[:-2]):
        word = word[:-1]
    return word


def step_1b(word):
    if stem_before(word, "eed"):
        return word[:-1] if m_above_0(stem_before(word, "eed")) else word
    stem = stem_before(word, "ed", "ing")
    if stem is None or not has_vowel(stem):
        return word
    if stem.endswith(("at", "bl", "iz")):
        return stem + "e"
    if stem[-2:-1] == stem[-1] and stem[-1] not in "aeiouylsz":
        return stem[:-1]
    return stem + "e" if is_short(stem) else stem


def step_1c(word):
    if word.endswith("y") and word[-2:-1] not in list("aeiou") and is_stem(word[:-2]):
        return word[:-1] + "i"
    return word


def by_table(word, table):
    found = cut(word, table)
    return found[0] + table[found[1]] if found and m_above_0(found[0]) else word


def step_4(word):
    found = cut(word, STEP_4)
    if found:
        return found[0] if m_above_1(found[0]) else word
    if stem_before(word, "sion", "tion") and m_above_1(word[:-3]):
        return word[:-3]
    return word


def step_5(word):
    stem = stem_before(word, "e")
    if stem and (m_above_1(stem) or (m_is_1(stem) and not is_short(stem))):
        word = stem
    return word[:-1] if word.endswith("ll") and m_above_1(word) else word


@functools.lru_cache(None)
def english_stem(token):
    if len(token.encode()) < 3:
        return token
    word = "Y" + token[1:] if token[0] == "y" else token
    word = step_1c(step_1b(step_1a(word)))
    word = step_5(step_4(by_table(by_table(word, STEP_2), STEP_3)))
    return "y" + word[1:] if token[0] == "y" else word


# Languages


class Language(NamedTuple):
    code: str
    scripts: tuple  # of the characters that its trimmer keeps


LANGUAGES = {
    "English": Language("en", ()),
    "Arabic": Language("ar", ()),
    "Korean": Language("ko", ("Latin", "Hangul")),
    "Russian": Language("ru", ("Cyrillic",)),
}
for name_and_code in (
    "Danish:da Dutch:du Finnish:fi French:fr German:de Italian:it Norwegian:no Portuguese:pt Romanian:ro Spanish:es"
    " Swedish:sv Turkish:tr"
).split():
    name, code = name_and_code.split(":")
    LANGUAGES[name] = Language(code, ("Latin",))
OTHERS = {"Hungarian": Language("hu", ("Latin",))}  # that the library has, and no input


def language_of(name):
    return LANGUAGES.get(name) or OTHERS[name]


@functools.lru_cache(None)
def script_ranges():
    rows = [line.split() for line in lines_of("tests/unicode_scripts.tsv")]
    return [(name, int(first, 16), int(last, 16)) for name, first, last in rows]


@functools.lru_cache(None)
def is_of_scripts(character, scripts):
    return any(name in scripts and first <= ord(character) <= last for name, first, last in script_ranges())


@functools.lru_cache(None)
def stop_words(code):
    return frozenset(json.loads(read(f"{STOP_WORDS}/{code}.txt")))


def is_english_letter(character):
    return character.isascii() and (character.isalnum() or character == "_")


def stages(language):
    """The names of a language's stages."""
    code = language.code
    if code == "en":
        return ["trimmer", "stopWordFilter", "stemmer"]
    if code == "ar":
        return ["stemmer-ar"]
    return [f"trimmer-{code}", f"stopWordFilter-{code}"] + (["stemmer-ko"] if code == "ko" else [])


def left(language, token):
    """What the stages of a language output for a token: a text, or None."""
    if language.code == "ar":
        return arabic_stem(token) or None
    if language.code == "en":
        text = trimmed(is_english_letter, token)
        return None if text in stop_words("en") else english_stem(text)
    text = trimmed(lambda character: is_of_scripts(character, language.scripts), token)
    return None if text == "" or text in stop_words(language.code) else text


def tokens(language, value):
    return [text for text in (left(language, word) for word in words(value)) if text is not None]
