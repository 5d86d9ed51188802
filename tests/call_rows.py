"""The rows of calls of the library, and what each call promises about memory.

A row of TABLES is a line that names what its calls are made on, and a line for each call: `CALL -> ANSWER`. An empty line ends
it.
"""
import json
from typing import NamedTuple

from tools.repository import read

TABLES = [f"crates/elasticlunr_tests/src/{name}_rows.rt" for name in ("content", "stage", "index")]
BEGINS, ENDS = 'r##"', '"##'  # the text of the rows in such a file
# how many rows and calls the table has
ROWS = 153
CALLS = 1442

MEMORY = "refused: out of memory"  # IndexError::Memory
ALLOC_ERROR = "no memory"  # AllocError
FAILED = "refused: the index has failed"


class Row(NamedTuple):
    subject: str  # what the calls are made on, and after `: ` what the row shows
    calls: list  # the line of each call, up to ` -> `
    answers: list

    def kind(self):
        return self.subject.split(": ")[0]


def rows_of(text):
    rows = []
    for part in text.split("\n\n"):
        lines = part.strip("\n").split("\n")
        if lines != [""]:
            split = [line.split(" -> ", 1) for line in lines[1:]]
            rows.append(Row(lines[0], [call for call, _ in split], [answer for _, answer in split]))
    return rows


def table():
    return [row for path in TABLES for row in rows_of(read(path).split(BEGINS, 1)[1].rsplit(ENDS, 1)[0])]


# Lines of a row that prepare calls or show what they made, and are no calls of the library.
PREPARING = {"swap", "give", "script", "kept", "EnglishTrimmer", "EnglishStemmer", "ArabicStemmer", "Keep"}

# What a call answers when memory is refused. None: the call does not allocate.
TRIE = {"new": None, "from_value": MEMORY, "compacted": MEMORY, "eq": None, "add_token": MEMORY, "add_tokens": MEMORY,
        "remove_token": None, "remove_doc": None, "has_token": None, "get_docs": MEMORY, "get_doc_frequency": None, "get_term_frequency": None,
        "has_posting": None, "references": MEMORY, "put_references": MEMORY, "copied": ALLOC_ERROR, "tokens": ALLOC_ERROR,
        "postings": ALLOC_ERROR, "to_value": MEMORY, "write": ALLOC_ERROR}
STORE = {"new": None, "from_value": MEMORY, "clone": MEMORY, "eq": None, "add_doc": MEMORY, "add_field_length": MEMORY,
         "remove_doc": None, "forget_doc": None, "is_empty": None, "is_stored": None, "has_doc": None, "get_doc": MEMORY,
         "to_value": MEMORY, "write": ALLOC_ERROR, "len": None, "length": None, "docs": None, "doc_info": None,
         "get_field_length": None}
OPTIONS = {"new": None, "from_value": MEMORY, "clone": MEMORY, "eq": None, "to_value": MEMORY}
FUNCTIONS = {"tokenize_whitespace": ALLOC_ERROR, "lower_char": None, "languages": None, "from_code": None,
             "from_name": None, "root": None, "m_above_0": None, "m_above_1": None, "m_is_1": None, "has_vowel": None,
             "is_short": None}
STAGES = {"StopWordFilter::new": MEMORY, "RegexTrimmer::new": MEMORY, "RegexTrimmer::of_scripts": MEMORY, "stem": None,
          "stop_words": None, "contains": None,
          "name": ALLOC_ERROR, "Stage::name": ALLOC_ERROR, "names": ALLOC_ERROR, "run": ALLOC_ERROR,
          "run_on": ALLOC_ERROR, "run_on_words": ALLOC_ERROR}
LANGUAGE = {"name": ALLOC_ERROR, "code": ALLOC_ERROR, "tokenize": ALLOC_ERROR, "make_pipeline": ALLOC_ERROR,
            "names": ALLOC_ERROR, "run": ALLOC_ERROR, "run_on_words": ALLOC_ERROR}
BUILDER = {"IndexBuilder::new": MEMORY, "IndexBuilder::with_language": MEMORY, "Index::new": MEMORY,
           "Index::with_language": MEMORY, "add_field": MEMORY, "add_fields": MEMORY, "set_ref": MEMORY,
           "add_field_with_tokenizer": MEMORY, "save_docs": None, "with_pipeline": None, "build": MEMORY}
INDEX = {"add_doc": MEMORY, "add_doc_with_tokens": MEMORY, "remove_doc": None, "compact": MEMORY, "get_fields": None,
         "to_value": MEMORY, "to_json": MEMORY, "to_json_pretty": MEMORY, "document_store": None, "inverted_index": None, "get_docs": MEMORY,
         "has_token": None, "get_term_frequency": None}

# What a row begins with: the promises of its calls, and the call that shows the state.
SUBJECTS = {"InvertedIndex": (TRIE, '["to_value"]'), "DocumentStore": (STORE, '["to_value"]'),
            "SearchOptions": (OPTIONS, '["to_value"]'), "functions": (FUNCTIONS, None),
            "Pipeline": (STAGES, '["names"]'), "Index": ({**BUILDER, **INDEX}, '["to_json"]')}

# Calls that show another state than that of their subject.
STATES = {"run_on": '["kept"]'}

# Calls that may go on without a request that is refused, and then give their whole answer. Where a trie can't remember a
# token, it is walked the next time as well. A text that can't have room for all of it begins with less. The others collect
# the characters of a class or a list of stop words, and `collect` of the kit goes on when its first request is refused.
GOES_ON = {"InvertedIndex add_tokens", "Index add_doc", "Index add_doc_with_tokens", "Index Index::new",
           "Index Index::with_language", "Index build", "Index to_json", "Pipeline RegexTrimmer::new", "language make_pipeline"}

# What the filter and the clone of the last stage answer when memory is refused.
FILTERS = {"EnglishTrimmer": None, "EnglishStemmer": None, "ArabicStemmer": None, "Keep": None,
           "StopWordFilter::new": None, "RegexTrimmer::new": None, "RegexTrimmer::of_scripts": None}
CLONES = {"StopWordFilter::new": MEMORY, "RegexTrimmer::new": MEMORY, "RegexTrimmer::of_scripts": MEMORY}


def name_of(call):
    return json.loads(call)[0]


def texts_of(call):
    return [text for text in json.loads(call)[1:] if isinstance(text, str)]


def promise(row, number):
    """The name of a call of a row, with what it is made on, and what it answers when memory is refused."""
    call = name_of(row.calls[number])
    kind = row.kind().split(" ")[0]
    if call in ("filter", "Stage::filter", "clone") and kind == "Pipeline":
        last = next((name for name in map(name_of, row.calls[number - 1 :: -1] if number else []) if name in FILTERS), "handed in")
        return f"{last} {call}", (CLONES if call == "clone" else FILTERS).get(last, ALLOC_ERROR)
    promises, _ = SUBJECTS.get(kind, (LANGUAGE, None))
    if (kind, call) == ("InvertedIndex", "add_token") and texts_of(row.calls[number])[1] == "":
        return f"{kind} {call} of the empty token", None
    # each language has its own type
    return f"{row.kind() if promises is LANGUAGE else kind} {call}", promises[call]


def goes_on(row, number):
    """The name of a call of a row in GOES_ON, or None."""
    kind = row.kind().split(" ")[0]
    name = f"{kind if kind in SUBJECTS else 'language'} {name_of(row.calls[number])}"
    return name if name in GOES_ON else None


def fields_of(row, number):
    """The fields of the index that the calls before this one built."""
    fields = []
    for call in row.calls[:number]:
        if name_of(call) in ("Index::new", "Index::with_language", "add_field", "add_fields", "add_field_with_tokenizer"):
            fields += texts_of(call)
    return fields
