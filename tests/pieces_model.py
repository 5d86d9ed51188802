"""The head and the pieces of a whole index, computed from its JSON text.

A folder holds the head, search.json, and next to it one folder of pieces. All are compact JSON texts, with the keys of objects
in the order of their bytes. Python compares texts by their characters, which gives the order of their bytes in UTF-8.

The head has the settings of the index; `references`, in order; `lengths`, for each field a list with the length of each
reference's field or null; the name of the `folder`; `tries`, the first token of each piece of the tries; `texts` and `titles`,
how many references each piece of the texts and of the titles has; `title`, the field of the titles; and `sizes`,
the bytes of each piece, those of the tries first and those of the titles last. A piece of the tries is an object of tokens, each
with a list for each field: the number of a reference and its frequency in turn. A piece of the texts is a list of stored
documents, and one of the titles a list of their texts in the field of the titles, empty where a document has none. There are
pieces of titles where there are texts, and the index has such a field. The folder is called after the SHA-256 of the texts of
all its pieces, one after another in this order.
"""
import hashlib
import json
import os

from tools import repository

HEAD = "search.json"
SIZE = 8192  # bytes that a piece of the tries may have; one of the texts may have an eighth of it, and one of the titles a 32nd
TITLE = "title"  # the field of the titles
NO_TOKENS = ("docs", "df")  # the members of a node that aren't its children


def compact(value):
    return json.dumps(value, ensure_ascii=False, sort_keys=True, separators=(",", ":"))


def nodes(root):
    """The node of each token of a trie that has postings."""
    found = {}
    below = [("", root)]
    while below:
        token, node = below.pop()
        if node["docs"]:
            found[token] = node
        below += [(token + key, child) for key, child in node.items() if key not in NO_TOKENS]
    return found


def postings(node, numbers):
    """The number of each reference and its frequency in turn, in the order of the numbers."""
    frequencies = {numbers[reference]: posting["tf"] for reference, posting in node["docs"].items()}
    return [item for number in sorted(frequencies) for item in (number, frequencies[number])]


def entries_of_tries(index, references):
    """Each token, and its member in a piece: its postings in each field."""
    numbers = {reference: number for number, reference in enumerate(references)}
    tries = [nodes(index["index"][field]["root"]) for field in index["fields"]]
    for token in sorted(set().union(*tries)):
        lists = [postings(trie[token], numbers) if token in trie else [] for trie in tries]
        yield token, f"{compact(token)}:{compact(lists)}"


def entries_of_texts(store, references):
    """The number of each reference, and the text of its stored document."""
    if store["save"]:
        for number, reference in enumerate(references):
            yield number, compact(store["docs"][reference])


def entries_of_titles(index, references, field):
    """The number of each reference, and the text of its document's title."""
    store = index["documentStore"]
    if store["save"] and field in index["fields"]:
        for number, reference in enumerate(references):
            yield number, compact(store["docs"][reference].get(field, ""))


def joined(entries, brackets):
    return brackets[0] + ",".join(text for _, text in entries) + brackets[1]


def cut(entries, size, brackets):
    """The entries of each piece. It closes before an entry with which its text, brackets and commas included, would have more
    bytes than the size."""
    pieces = []
    for entry in entries:
        if pieces and len(joined(pieces[-1] + [entry], brackets).encode()) <= size:
            pieces[-1].append(entry)
        else:
            pieces.append([entry])
    return pieces


def lengths(store, fields, references):
    return [[store["docInfo"].get(reference, {}).get(field) for reference in references] for field in fields]


def files(text, size=SIZE, title=TITLE):
    """The text of each file by its name, for the text of a whole index."""
    index = json.loads(text)
    store = index["documentStore"]
    references = sorted(store["docs"])
    tries = cut(entries_of_tries(index, references), size, "{}")
    texts = cut(entries_of_texts(store, references), size // 8, "[]")
    titles = cut(entries_of_titles(index, references, title), size // 32, "[]")
    pieces = {f"t{number}.json": joined(piece, "{}") for number, piece in enumerate(tries)}
    pieces.update({f"d{number}.json": joined(piece, "[]") for number, piece in enumerate(texts)})
    pieces.update({f"h{number}.json": joined(piece, "[]") for number, piece in enumerate(titles)})
    folder = "pieces-" + hashlib.sha256("".join(pieces.values()).encode()).hexdigest()[:16]
    head = {key: index[key] for key in ("version", "lang", "fields", "ref", "pipeline")}
    head.update(save=store["save"], references=references, lengths=lengths(store, index["fields"], references), folder=folder)
    head.update(tries=[piece[0][0] for piece in tries], texts=[len(piece) for piece in texts], titles=[len(piece) for piece in titles])
    head.update(title=title, sizes=[len(piece.encode()) for piece in pieces.values()])
    return {HEAD: compact(head), **{f"{folder}/{name}": piece for name, piece in pieces.items()}}


def write(text, folder, size=SIZE):
    """Writes the files for the text of a whole index into a folder."""
    for name, content in files(text, size).items():
        repository.write(os.path.join(folder, name), content)
