"""What the program must answer to an input, computed from the definitions (docs/DEFINITIONS.md).

An index follows from the whole list of commands, by sets and maps, with no trie and no earlier state. The model is slow and
short, to be read next to the definitions; model_tokens.py has the tokens.
"""
import json
import math
from typing import NamedTuple, Optional

from tests.model_tokens import LANGUAGES, language_of, stages, tokens

VERSION = "0.9.5"

# Indexes


class Add(NamedTuple):
    ref: str
    values: tuple  # of its fields, in order
    tokens: dict  # of each field that has a value and isn't the reference field


class Remove(NamedTuple):
    ref: str


class Compact(NamedTuple):
    pass


def current(commands):
    """The current document of each reference: the last that was added for it, unless a removal came after that."""
    last = {command.ref: command for command in commands if not isinstance(command, Compact)}
    return {ref: command for ref, command in last.items() if isinstance(command, Add)}


def known(commands, field):
    """The beginnings of the tokens of documents that were current at the last compaction, or added since."""
    places = [place for place, command in enumerate(commands) if isinstance(command, Compact)]
    before, since = (commands[: places[-1]], commands[places[-1] :]) if places else ([], commands)
    docs = list(current(before).values()) + [command for command in since if isinstance(command, Add)]
    return {token[:end] for doc in docs for token in doc.tokens.get(field, []) for end in range(len(token) + 1)} | {""}


def root(count):
    return math.isqrt(count * 10**12)


def postings(commands, field):
    """For each token and reference the square root of how often the reference's current document has the token."""
    found = {}
    for ref, doc in current(commands).items():
        for token in set(doc.tokens.get(field, [])) - {""}:
            found.setdefault(token, {})[ref] = root(doc.tokens[field].count(token))
    return found


def tree(texts, posted, text=""):
    """The node of a known text: its references, their number, and a child for each character that may follow."""
    docs = {ref: {"tf": frequency} for ref, frequency in posted.get(text, {}).items()}
    below = {longer[-1]: tree(texts, posted, longer) for longer in texts.get(text, [])}
    return {"docs": docs, "df": len(docs), **below}


def trie(commands, field):
    texts = {}
    for text in known(commands, field) - {""}:
        texts.setdefault(text[:-1], []).append(text)
    return {"root": tree(texts, postings(commands, field))}


def store(job, commands):
    docs = {}
    lengths = {}
    for ref, doc in current(commands).items():
        docs[ref] = {job.ref: ref, **dict(zip(job.fields, doc.values))} if job.save else {}
        if doc.tokens:
            lengths[ref] = {field: len(found) for field, found in doc.tokens.items()}
    return {"save": job.save, "docs": docs, "docInfo": lengths, "length": len(docs)}


def value(job, commands, pipeline):
    """The value of an index, whose stages have the names in `pipeline`."""
    return {
        "fields": job.fields,
        "pipeline": pipeline,
        "ref": job.ref,
        "version": VERSION,
        "index": {field: trie(commands, field) for field in job.fields},
        "documentStore": store(job, commands),
        "lang": job.lang,
    }


# The program


class Job(NamedTuple):
    fields: list
    docs: list
    ref: str = "id"
    save: bool = True
    lang: str = "English"
    pretty: bool = False
    remove: list = []
    compact: bool = False


def are_texts(item):
    return isinstance(item, list) and all(isinstance(text, str) for text in item)


KINDS = {
    "fields": are_texts,
    "docs": lambda item: isinstance(item, list) and all(are_texts(doc) and doc for doc in item),
    "ref": lambda item: isinstance(item, str),
    "save": lambda item: isinstance(item, bool),
    "lang": lambda item: isinstance(item, str),
    "pretty": lambda item: isinstance(item, bool),
    "remove": are_texts,
    "compact": lambda item: isinstance(item, bool),
}


def commands_of(job):
    indexed = [(place, field) for place, field in enumerate(job.fields) if field != job.ref]
    commands = []
    for ref, *values in job.docs:
        found = {field: tokens(language_of(job.lang), values[place]) for place, field in indexed if place < len(values)}
        commands.append(Add(ref, tuple(values), found))
    return commands + [Remove(ref) for ref in job.remove] + ([Compact()] if job.compact else [])


def printed(job):
    layout = {"indent": 2} if job.pretty else {"separators": (",", ":")}
    whole = value(job, commands_of(job), stages(LANGUAGES[job.lang]))
    return json.dumps(whole, ensure_ascii=False, sort_keys=True, **layout)


def refusal(item) -> Optional[str]:
    """The first check that fails, in their order."""
    kinds = isinstance(item, dict) and all(key in KINDS and KINDS[key](held) for key, held in item.items())
    if not kinds or "fields" not in item or "docs" not in item:
        return "not a job"
    if item.get("lang", "English") not in LANGUAGES:
        return "unknown language"
    if len(set(item["fields"])) < len(item["fields"]):
        return "duplicate field"
    if any(len(doc) - 1 > len(item["fields"]) for doc in item["docs"]):
        return "too many values"
    return None


def answer(given):
    """What the program must write for the bytes of an input, and its status."""
    try:
        item = read(given)
    except (ValueError, RecursionError):
        return "refused: not JSON\n", 2
    why = refusal(item)
    return (f"refused: {why}\n", 2) if why else (printed(Job(**item)) + "\n", 0)


# The reader of JSON. Python's accepts more than the kit's

DEEPEST = 127


class Object(list):
    """The members of an object, with those whose key is there twice."""


def refuse(text):
    raise ValueError(text)


def read(given):
    return plain(json.loads(given.decode("utf-8"), parse_constant=refuse, object_pairs_hook=Object), 1)


def plain(item, depth):
    if isinstance(item, str):
        item.encode()  # one half of a pair of \\u escapes is no character
        return item
    if not isinstance(item, list):
        return item
    if depth > DEEPEST:
        raise ValueError("too deep")
    if isinstance(item, Object):
        return {plain(key, depth): plain(held, depth + 1) for key, held in item}
    return [plain(held, depth + 1) for held in item]
