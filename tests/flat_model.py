"""What the library must answer to documents in the flat form (docs/C.md), computed from the definitions (docs/DEFINITIONS.md).

`flat` makes the bytes of an input, `flat_search` those of a search, and `Decoder` reads bytes; neither uses the other. The index is that of model.py,
for documents whose tokens may come with them.
"""
import json
import struct
from typing import NamedTuple, Optional

from tests import model, pieces_model
from tests.model_tokens import LANGUAGES, left, stages, words
from tests.stems_index import CODES, stemmer

FROM_TEXT, INTO_PIPELINE, AS_GIVEN = 0, 1, 2  # where the tokens of a value come from
BUILT_IN, OWN, STEMMED = 0, 1, 2  # whose language it is, and whether it stems
ONE, EACH_IN_ONE_FIELD, EACH = 0, 1, 2  # which words of a query are needed
DONE, REFUSED, MALFORMED = 0, 2, 3  # statuses


class Value(NamedTuple):
    text: str
    source: int = FROM_TEXT
    tokens: tuple = ()  # that come with the text


class Document(NamedTuple):
    ref: str
    values: tuple


class Input(NamedTuple):
    fields: tuple
    docs: tuple
    lang: str = "English"
    stages: Optional[tuple] = None  # the names of the stages of a custom language
    ref: str = "id"
    save: bool = True
    stems: bool = False  # whether the stemmer of the language comes after its stages


class Cutting(NamedTuple):
    """Documents whose index is cut into pieces."""

    title: str  # the field of the titles
    size: int  # bytes that a piece may have
    input: Input


class Search(NamedTuple):
    query: str
    needed: int = ONE
    expand: bool = False
    fields: tuple = ()  # none is all
    boosts: tuple = ()  # fields with their boosts
    limit: int = 0  # 0 is no limit


# The bytes of an input and of a search


def flat_number(number):
    return struct.pack("<I", number)


def flat_text(text):
    return flat_number(len(text.encode())) + text.encode()


def flat_list(flat_item, items):
    return flat_number(len(items)) + b"".join(map(flat_item, items))


def flat_language(it):
    if it.stages is None:
        return flat_number(STEMMED if it.stems else BUILT_IN) + flat_text(it.lang)
    return flat_number(OWN) + flat_text(it.lang) + flat_list(flat_text, it.stages)


def flat_value(value):
    given = b"" if value.source == FROM_TEXT else flat_list(flat_text, value.tokens)
    return flat_text(value.text) + flat_number(value.source) + given


def flat_document(doc):
    return flat_text(doc.ref) + flat_list(flat_value, doc.values)


def flat(it):
    settings = flat_language(it) + flat_text(it.ref) + flat_number(it.save)
    return settings + flat_list(flat_text, it.fields) + flat_list(flat_document, it.docs)


def flat_cutting(it):
    return flat_text(it.title) + flat_number(it.size) + flat(it.input)


def flat_boost(boost):
    return flat_text(boost[0]) + flat_number(boost[1])


def flat_search(it):
    words = flat_text(it.query) + flat_number(it.needed) + flat_number(it.expand) + flat_list(flat_text, it.fields)
    return words + flat_list(flat_boost, it.boosts) + flat_number(it.limit)


# The input and the search of bytes


class Decoder:
    """Reads bytes from the first on. Raises a ValueError where they are not in the flat form."""

    def __init__(self, given):
        self.given, self.at = given, 0

    def part(self, length):
        begun, self.at = self.at, self.at + length
        if self.at > len(self.given):
            raise ValueError("the bytes end early")
        return self.given[begun : self.at]

    def number(self, end=1 << 32):
        number = sum(byte << 8 * place for place, byte in enumerate(self.part(4)))
        if number >= end:
            raise ValueError("no such number here")
        return number

    def text(self):
        return self.part(self.number()).decode("utf-8")

    def items(self, item):
        return tuple(item() for _ in range(self.number()))

    def value(self):
        text, source = self.text(), self.number(3)
        return Value(text, source, self.items(self.text) if source else ())

    def document(self):
        return Document(self.text(), self.items(self.value))

    def input(self):
        kind = self.number(3)
        lang = self.text()
        names = self.items(self.text) if kind == OWN else None
        ref, save = self.text(), bool(self.number(2))
        return self.whole(Input(self.items(self.text), self.items(self.document), lang, names, ref, save, kind == STEMMED))

    def cutting(self):
        return Cutting(self.text(), self.number(), self.input())

    def boost(self):
        return self.text(), self.number(256)

    def search(self):
        words = self.text(), self.number(3), bool(self.number(2)), self.items(self.text)
        return self.whole(Search(*words, self.items(self.boost), self.number()))

    def whole(self, found):
        if self.at < len(self.given):
            raise ValueError("something follows")
        return found


# The answer


def tokens_of(it, value):
    """The tokens of a value. A custom language keeps each token as it is."""
    if value.source == AS_GIVEN:
        return list(value.tokens)
    found = words(value.text) if value.source == FROM_TEXT else list(value.tokens)
    if it.stages is None:
        found = [left(LANGUAGES[it.lang], token) for token in found]
    found = [token for token in found if token is not None]
    if it.stems and it.lang in CODES:
        found = [stem for stem in map(stemmer(CODES[it.lang]).stem, found) if stem]
    return found


def commands_of(it):
    indexed = [(place, field) for place, field in enumerate(it.fields) if field != it.ref]
    for doc in it.docs:
        found = {field: tokens_of(it, doc.values[place]) for place, field in indexed if place < len(doc.values)}
        yield model.Add(doc.ref, tuple(value.text for value in doc.values), found)


def refusal(it):
    """The first check that fails, in their order."""
    if it.stages is None and it.lang not in LANGUAGES:
        return "unknown language"
    if len(set(it.fields)) < len(it.fields):
        return "duplicate field"
    return "too many values" if any(len(doc.values) > len(it.fields) for doc in it.docs) else None


def index(it):
    """The text of the index that an input asks for."""
    names = [*(stages(LANGUAGES[it.lang]) if it.stages is None else it.stages)]
    if it.stems and it.lang in CODES:
        names.append(f"stemmer-{CODES[it.lang]}")
    return json.dumps(model.value(it, list(commands_of(it)), names), ensure_ascii=False, sort_keys=True, separators=(",", ":"))


def folder(cutting):
    """The flat form of the head and the pieces that are asked for."""
    files = pieces_model.files(index(cutting.input), cutting.size, cutting.title)
    head = files.pop(pieces_model.HEAD)
    pieces = [(path.split("/")[1], text) for path, text in files.items()]
    return flat_text(json.loads(head)["folder"]) + flat_text(head) + flat_list(lambda file: flat_text(file[0]) + flat_text(file[1]), pieces)


def answered(read, made, given):
    """What answers bytes, and the status. `read` reads them, and gives what is asked for and its input."""
    try:
        asked, it = read(Decoder(given))
    except ValueError:
        return b"", MALFORMED
    why = refusal(it)
    return (f"refused: {why}\n".encode(), REFUSED) if why else (made(asked), DONE)


def answer(given):
    """What answers the bytes of an input, and the status."""
    return answered(lambda decoder: (decoder.input(),) * 2, lambda it: index(it).encode(), given)


def pieces_answer(given):
    """What answers the bytes of documents whose index is cut into pieces, and the status."""

    def read(decoder):
        cutting = decoder.cutting()
        return cutting, cutting.input

    return answered(read, folder, given)
