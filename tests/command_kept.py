"""What `elasticlunr build` makes with --store, --max-token and --index-ref, in each form of an input, against flat_model.py."""
import json
import os
import re
import tempfile

from tests import flat_model
from tests.flat_model import AS_GIVEN, INTO_PIPELINE, Document, Input, Value
from tests.model_tokens import words
from tools.repository import program, run, write

COMMAND = program("elasticlunr_cli")
DOCS = [
    {"id": "1", "a": "Running x\u00fc-\u00c4\u00c4\u00c4 the runner", "b": "go there", "kind": "Going there"},
    {"id": "2", "a": "", "b": "\U0001f600\U0001f600\U0001f600 (go)", "kind": "go"},
    {"id": "3", "a": "characteristically \u0130\u0130", "b": "no", "kind": ""},
    {"id": "1", "a": "to run", "b": "", "kind": "run"},
]
FIELDS = ("a", "b", "kind")
CASES = [  # a name, the fields that are named, those that are only stored, the characters that a word may have, and the name that
    # the index has for the references: another one than "id" with --index-ref
    ("stored", None, ("kind",), None, "id"),
    ("stored, and no field", ("a",), ("kind", "b"), None, "id"),
    ("stored, and fields", ("a", "kind"), ("kind",), None, "id"),
    ("the reference is stored", ("a", "b"), ("id", "kind"), None, "id"),
    ("all are stored", None, FIELDS, None, "id"),
    ("short", None, (), 3, "id"),
    ("one character", None, (), 1, "id"),
    ("long", None, (), 18, "id"),
    ("short and stored", ("b", "a"), ("kind",), 2, "id"),
    ("the reference is indexed", None, (), None, "id2"),
    ("the reference is a named field", ("id", "a"), (), None, "id2"),
    ("the reference is the last field before those stored", ("b",), ("kind",), None, "id2"),
    ("the reference is a stored field", ("a",), ("id", "kind"), None, "id2"),
    ("the reference is indexed, and its second name taken", ("id2", "a", "id"), ("id3",), None, "id4"),
]
LANGUAGES = ["English", "German", "Arabic"]
LAST = re.compile(r"elasticlunr: \d+ documents, \d+ tokens, \d+ bytes, \d+\.\d s\n\Z")
LEAST = 126


def value_of(field, text, stored, longest):
    if field in stored:
        return Value(text, AS_GIVEN)
    if longest is None:
        return Value(text)
    return Value(text, INTO_PIPELINE, tuple(word for word in words(text) if len(word) <= longest))


def model(fields, stored, longest, lang, ref):
    """The index, and how many words are left out."""
    docs = [Document(doc["id"], tuple(value_of(field, doc.get(field, ""), stored, longest) for field in fields)) for doc in DOCS]
    text, _ = flat_model.answer(flat_model.flat(Input(tuple(fields), tuple(docs), lang, ref=ref)))
    indexed = [doc.get(field, "") for doc in DOCS for field in fields if field not in stored]
    return text, sum(longest is not None and len(word) > longest for text in indexed for word in words(text))


def inputs(fields):
    """The documents in each form, by its name; a job has the values of these fields."""
    job = {"fields": fields, "docs": [[doc["id"], *(doc.get(field, "") for field in fields)] for doc in DOCS]}
    lines = "".join(json.dumps(doc, ensure_ascii=False) + "\n" for doc in DOCS)
    return {"job": json.dumps(job), "objects": json.dumps(DOCS), "lines": lines}


def check_case(top, case, lang, results):
    name, named, stored, longest, ref = case
    own = list(named or FIELDS)
    own += ["id"] if ref != "id" and "id" not in own else []
    fields = own + [field for field in stored if field not in own and field != "id"]
    text, left_out = model(fields, stored, longest, lang, ref)
    options = ["--lang", lang, *(["--store", ",".join(stored)] if stored else []), *(["--max-token", str(longest)] if longest else [])]
    options += ["--index-ref"] if ref != "id" else []
    for form, given in inputs(fields).items():
        path = write(os.path.join(top, "docs"), given)
        names = ["--fields", ",".join(named)] if named and form != "job" else []
        ended = run([COMMAND, "build", "--format", form, *options, *names, path])
        said = ended.err.decode(errors="replace")
        results.note(ended.out == text + b"\n" and ended.status == 0, f"command, kept, {name}, {form}, {lang}: {ended.out[:300]!r}, {said[:200]}")
        words_said = "1 word" if left_out == 1 else f"{left_out} words"
        wanted = f"{words_said} of more than {longest} character{'s' if longest != 1 else ''}: no search finds such a word"
        results.note((wanted in said) == (left_out > 0) and LAST.search(said), f"command, kept, {name}, {form}, {lang}: {said[:300]}")


def check_kept(results):
    tried = 0
    with tempfile.TemporaryDirectory() as top:
        for case in CASES:
            for lang in LANGUAGES:
                check_case(top, case, lang, results)
                tried += 3
    results.note(tried >= LEAST, f"command, kept: {tried} builds, and {LEAST} are the least")
