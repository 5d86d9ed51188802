"""pdoc with one function replaced: the search index is built by libelasticlunr.so instead of node.

usage: pdoc_index.py MODULE .. -o DIR, with the folder `python` of elasticlunr on PYTHONPATH

It is tried with pdoc 15.0.1. pdoc's page takes the index as it is: it reads only the fields, the stages and the texts of the
documents from it.
"""
import json
import re

import elasticlunr
import pdoc.__main__
import pdoc.render

FIELDS = ["qualname", "fullname", "annotation", "default_value", "signature", "bases", "doc"]  # as in pdoc's build-search-index.js
SHOWN = ["kind", "modulename", "funcdef"]  # what the page shows of a document, and does not search
LONGEST = 1000  # characters of a token: elasticlunr.js goes down one level for each
# What JavaScript calls white space, and pdoc's separator
SPACES = "\t\n\v\f\r \u00a0\u1680\u2000-\u200a\u2028\u2029\u202f\u205f\u3000\ufeff"
AROUND = re.compile(f"^[{SPACES}]+|[{SPACES}]+$")
SEPARATOR = re.compile(rf"[{SPACES}\-.;&_'\"=,()]+|<[^>]*>")
NO_LETTERS = re.compile("^[^A-Za-z0-9_]+|[^A-Za-z0-9_]+$")


def tokens(_field, text):
    """What pdoc's page makes of a text: parts between separators, in lower case, without other characters at their ends."""
    if not text:
        return []
    parts = SEPARATOR.split(AROUND.sub("", text).lower())
    return [token for token in (NO_LETTERS.sub("", part) for part in parts) if len(token) <= LONGEST]


def precompile_index(documents, _compile_js):
    """The index of pdoc's documents. The reference `fullname` is searched as well."""
    settings = {"lang": "pdoc", "ref": "fullname", "index_ref": True, "stages": ["trimmer"], "store": SHOWN}
    index = elasticlunr.build_index(documents, FIELDS, tokens=tokens, **settings)
    return json.dumps({**json.loads(index), "_isPrebuiltIndex": True})


pdoc.render.precompile_index = precompile_index

if __name__ == "__main__":
    pdoc.__main__.cli()
