"""Searches in the flat form, each with the text of an index, and what answers them: what the command prints for the same words."""
import functools
import json
import os
import struct
import tempfile

from tests import flat_model
from tests.flat_inputs import changed
from tests.flat_model import EACH, EACH_IN_ONE_FIELD, ONE, Search, flat_search
from tests.tables import Row
from tools.repository import printed, program, run, write

PAGES = [["guide/a.html", "Red fox", "The quick fox jumps over a lazy dog"], ["guide/b.html", "Blue", "fox foxes foxglove"],
         ["3", "", "dog"], ["é\n\"", "red", "Dogs and 7 foxes"], ["4", "Red dog", ""]]
JOBS = {
    "pages": {"fields": ["title", "body"], "docs": PAGES},
    "without texts": {"fields": ["title", "body"], "docs": PAGES, "save": False},
    "pretty": {"fields": ["body"], "docs": [["1", "go"]], "pretty": True},
    "German": {"fields": ["df", "Ü"], "docs": [["1", "Häuser", "Wald und See"], ["2", "See", "Häuser am See"]], "lang": "German"},
    "Russian": {"fields": ["a"], "docs": [["1", "красный лис"], ["2", "лис лис"]], "lang": "Russian"},
    "removed": {"fields": ["title", "body"], "docs": PAGES, "remove": ["3", "guide/b.html"], "compact": True},
    "empty": {"fields": ["title"], "docs": []},
}
QUERIES = {
    "pages": ["fox", "red fox", "dogs the", "the", "", "fo re", "7", "-fox", "nothing"],
    "without texts": ["fox dog"],
    "pretty": ["going"],
    "German": ["Häuser See", "und", "hä"],
    "Russian": ["лис", "крас"],
    "removed": ["fox dog red"],
    "empty": ["red"],
}
HAS_OPTION = {ONE: [], EACH_IN_ONE_FIELD: ["--bool=AND"], EACH: ["--all"]}
LINE = "refused: {}\n"
MOST = 10**9  # hits that the command can be asked for
DEEP = 300  # levels


def folder():
    """A folder that stays until the process ends."""
    return _folder().name


@functools.cache
def _folder():
    return tempfile.TemporaryDirectory()


@functools.cache
def index(name):
    """The text of an index, and the path of a file that has it."""
    text = printed(JOBS[name])
    return text, write(os.path.join(folder(), name), text)


@functools.cache
def lines(name, search):
    """What the command prints for a search, or None where it can't be asked that. It refuses the boost of a field that isn't
    searched; the library has no use for it."""
    fields = search.fields or JOBS[name]["fields"]
    if any("\0" in it for it in (search.query, *fields)) or "" in fields:
        return None
    words = [*HAS_OPTION[search.needed], *(["--expand"] if search.expand else []), *(f"--field={it}" for it in search.fields)]
    words += [f"--boost={field}={boost}" for field, boost in search.boosts if field in fields]
    ended = run([program("elasticlunr_cli"), "search", "--json", f"--limit={min(search.limit, MOST)}", *words, "--", index(name)[1], search.query])
    if ended.status:
        raise ValueError(f"the command ends with status {ended.status}: {ended.err[:200]!r}")
    return ended.out


def given(text, flat):
    """An input of tests/c_calls.c: the length of the index, the index and the search."""
    text = text.encode() if isinstance(text, str) else text
    return struct.pack("<Q", len(text)) + text + flat


def answered(name, flat):
    """The row of a search in the flat form, or None where the command can't be asked."""
    try:
        search = flat_model.Decoder(flat).search()
    except ValueError:
        return Row(given(index(name)[0], flat), b"", flat_model.MALFORMED)
    if not set(search.fields) <= set(JOBS[name]["fields"]):
        return Row(given(index(name)[0], flat), LINE.format("no such field").encode(), flat_model.REFUSED)
    out = lines(name, search)
    return None if out is None else Row(given(index(name)[0], flat), out, flat_model.DONE)


def searches(name):
    fields = JOBS[name]["fields"]
    boosts = [(), ((fields[0], 3),), ((fields[-1], 0), ("nowhere", 255)), ((fields[0], 2), (fields[0], 200))]
    for number, query in enumerate(QUERIES[name]):
        for needed in HAS_OPTION:
            for expand in (False, True):
                yield Search(query, needed, expand)
                yield Search(query, needed, expand, (fields[-1],), boosts[number % 4], 1)
        for place, some in enumerate(boosts):
            yield Search(query, ONE, place % 2 == 0, tuple(fields), some, (0, 2, 10, 2**32 - 1)[place])
        yield Search(query, fields=(fields[0], "none"))
        yield Search(query, fields=("",))


def rows_of_searches():
    """Searches of each index, and some of whose fields the index has none."""
    return [row for name in JOBS for search in searches(name) if (row := answered(name, flat_search(search)))]


def rows_of_damaged():
    """Damaged searches."""
    short = [Search(""), Search("fox", EACH, True, ("title",), (("title", 2), ("body", 255)), 3), Search("é", EACH_IN_ONE_FIELD)]
    damaged = sorted({it for search in short for it in changed(flat_search(search))})
    return [row for it in damaged if (row := answered("pages", it))]


def other_texts():
    """Texts that are no index, and why."""
    whole = json.loads(index("pages")[0])
    lacks = [("fields", "no fields"), ("index", "no trie of a field"), ("documentStore", "no document store"), ("lang", "unknown language"),
             ("pipeline", "other stages than its language has")]
    for key, why in lacks:
        yield json.dumps({name: value for name, value in whole.items() if name != key}), why
    yield json.dumps({**whole, "lang": "Klingon"}), "unknown language"
    yield json.dumps({**whole, "pipeline": ["stemmer"]}), "other stages than its language has"
    yield json.dumps({**whole, "fields": ["title", "none"]}), "no trie of a field"
    yield index("pages")[0].rstrip()[:-1] + ',"z":' + "[" * DEEP + "]" * DEEP + "}", "nested deeper than 127 levels"
    for text in ("", "{", "fox", b"\xff", index("pages")[0].encode()[:-9], index("pages")[0].encode().replace(b"guide", b"gu\xffde", 1)):
        yield text, "not JSON"


def rows_of_other_texts():
    search = flat_search(Search("fox"))
    return [Row(given(text, search), LINE.format(why).encode(), flat_model.REFUSED) for text, why in other_texts()]


def wrongly_decoded():
    """The searches that the decoder doesn't read back."""
    return [it for name in JOBS for it in searches(name) if flat_model.Decoder(flat_search(it)).search() != it]
