"""Search indexes for elasticlunr.js: `build_index` makes one of documents, `search` finds documents in it, and
`python3 -m elasticlunr.site` makes one of a folder of HTML.

The index is made and searched by libelasticlunr.so, which `make lib` builds. It is looked for under the name that the environment variable
ELASTICLUNR_LIBRARY has, in the folder `out/lib` of the repository or `lib` of the release that this package is a part of, and
where the system keeps libraries.
"""
import ctypes
import ctypes.util
import functools
import itertools
import json
import os
from typing import Callable, Iterable, Iterator, List, Mapping, NamedTuple, Optional, Sequence, Tuple, Union

from elasticlunr.publish import publish

__all__ = ["Hit", "RefusedError", "build_index", "search", "version"]

NAME = "libelasticlunr.so"
PLACES = ("out/lib", "lib")  # of the repository, and of a release
DONE, MEMORY, MALFORMED = 0, 1, 3  # statuses of a call
PIECE_SIZE = 8192  # bytes that a piece may have where no others are asked for
MOST = 1 << 32  # numbers of the flat form are below
BUILT_IN, OWN, STEMMED = 0, 1, 2  # whose language it is, in the flat form that elasticlunr.h describes
FROM_TEXT, AS_GIVEN = 0, 2  # where the tokens of a value come from
NEEDED = {"one": 0, "each in one field": 1, "each": 2}  # which words of a query are needed, in the flat form
Member = Union[str, int]
Tokens = Callable[[str, str], Optional[Iterable[str]]]


class RefusedError(ValueError):
    """What was asked for is refused; the text says why."""


class Hit(NamedTuple):
    """A document that a search found."""

    ref: str
    score: Optional[float]  # None where it is too large for a number of JSON
    doc: Optional[Mapping[str, str]]  # its stored texts by the names of their fields; None without a document of this reference


@functools.lru_cache(maxsize=None)
def _library() -> ctypes.CDLL:
    top = os.path.join(os.path.dirname(os.path.abspath(__file__)), "..", "..")
    near = filter(os.path.isfile, (os.path.join(top, place, NAME) for place in PLACES))
    named = os.environ.get("ELASTICLUNR_LIBRARY")
    library = ctypes.CDLL(named or next(near, None) or ctypes.util.find_library("elasticlunr") or NAME)
    pointer = ctypes.POINTER(ctypes.c_ubyte)
    given, text = [ctypes.c_char_p, ctypes.c_size_t], [ctypes.POINTER(pointer), ctypes.POINTER(ctypes.c_size_t)]
    makers = (library.elasticlunr_answer, library.elasticlunr_index_documents, library.elasticlunr_index_pieces)
    for call in makers:
        call.argtypes = given + text
    library.elasticlunr_search.argtypes = given + given + text
    for call in (*makers, library.elasticlunr_search):
        call.restype = ctypes.c_uint32
    library.elasticlunr_free.argtypes = [pointer]
    library.elasticlunr_free.restype = None
    library.elasticlunr_version.restype = ctypes.c_char_p
    return library


def version() -> str:
    """The version of the library, as "0.1.0"."""
    return _library().elasticlunr_version().decode()


def _answered(call: str, *given: bytes) -> bytes:
    """What a call of the library makes of these bytes."""
    library = _library()
    text, length = ctypes.POINTER(ctypes.c_ubyte)(), ctypes.c_size_t()
    status = getattr(library, call)(*(it for each in given for it in (each, len(each))), ctypes.byref(text), ctypes.byref(length))
    if status == MEMORY:
        raise MemoryError("out of memory")
    if status == MALFORMED:
        raise RefusedError("refused: not Unicode")  # all else of the form is right
    try:
        answer = ctypes.string_at(text, length.value)
    finally:
        library.elasticlunr_free(text)
    if status != DONE:
        raise RefusedError(answer.decode().removesuffix("\n"))
    return answer


def _answer(call: str, *given: bytes) -> str:
    """The text that a call of the library makes of these bytes."""
    return _answered(call, *given).decode().removesuffix("\n")


def _reference(document: Mapping[str, Member], ref: str, number: int) -> str:
    reference = document.get(ref)
    if isinstance(reference, str):
        return reference
    if isinstance(reference, int) and not isinstance(reference, bool) and reference >= 0:
        return str(reference)
    raise TypeError(f"document {number}: its {ref!r} is not a text or a whole number from 0")


def _values(document: Mapping[str, Member], reference: Mapping[str, str], fields: Sequence[str], number: int) -> list:
    """The texts of the fields; `reference` has that of the reference where it is a field."""
    values = [reference.get(field, document.get(field, "")) for field in fields]
    for field, value in zip(fields, values):
        if not isinstance(value, str):
            raise TypeError(f"document {number}: its {field!r} is not a text")
    return values


def _flat_number(number: int) -> bytes:
    return number.to_bytes(4, "little")


def _flat_text(text: str) -> bytes:
    """The text in the flat form. The library refuses a lone surrogate."""
    data = text.encode("utf-8", "surrogatepass")
    return _flat_number(len(data)) + data


def _flat_list(items: Sequence[bytes]) -> bytes:
    return _flat_number(len(items)) + b"".join(items)


def _flat_value(field: str, text: str, tokens: Optional[Tokens], number: int) -> bytes:
    """A value in the flat form, with the tokens that the caller makes of it, if any."""
    found = tokens(field, text) if tokens is not None else None
    if found is None:
        return _flat_text(text) + _flat_number(FROM_TEXT)
    listed = list(found)
    if isinstance(found, str) or not all(isinstance(token, str) for token in listed):
        raise TypeError(f"document {number}: the tokens of its {field!r} are not a list of texts")
    return _flat_text(text) + _flat_number(AS_GIVEN) + _flat_list([_flat_text(token) for token in listed])


def _no_tokens(_field: str, _text: str) -> List[str]:
    return []


def _flat_document(document: Sequence[str], fields: Sequence[str], tokens: Mapping[str, Optional[Tokens]], number: int) -> bytes:
    """A document, its reference and its values, in the flat form; `tokens` has what makes the tokens of each field."""
    reference, *values = document
    return _flat_text(reference) + _flat_list([_flat_value(field, text, tokens[field], number) for field, text in zip(fields, values)])


def _flat_language(lang: str, stages: Optional[Sequence[str]], stems: bool) -> bytes:
    """A built-in language, with its stemmer or without, or one of the caller's with these stages, in the flat form."""
    if stages is None:
        return _flat_number(STEMMED if stems else BUILT_IN) + _flat_text(lang)
    return _flat_number(OWN) + _flat_text(lang) + _flat_list([_flat_text(stage) for stage in stages])


class _Parts:
    """Numbers and texts in the flat form, one after the other."""

    def __init__(self, flat: bytes) -> None:
        self.flat, self.at = flat, 0

    def part(self, length: int) -> bytes:
        self.at += length
        return self.flat[self.at - length : self.at]

    def number(self) -> int:
        return int.from_bytes(self.part(4), "little")

    def text(self) -> bytes:
        return self.part(self.number())

    def files(self) -> Iterator[Tuple[str, bytes]]:
        """A list of files, the name and the text of each."""
        return ((self.text().decode(), self.text()) for _ in range(self.number()))


def _default_fields(listed: Sequence[Mapping[str, Member]], ref: str) -> Sequence[str]:
    first = listed[0] if listed else {}
    return sorted((name for name, value in first.items() if isinstance(value, str) and name != ref), key=lambda it: it.encode())


def _free_name(fields: Sequence[str]) -> str:
    """The first of "id", "id2", "id3" and so on that is no field."""
    return next(name for name in itertools.chain(["id"], (f"id{number}" for number in itertools.count(2))) if name not in fields)


def _document(document: Mapping[str, Member], ref: str, index_ref: bool, fields: Sequence[str], number: int) -> List[str]:
    """The reference of a document, and its values."""
    reference = _reference(document, ref, number)
    return [reference, *_values(document, {ref: reference} if index_ref else {}, fields, number)]


def build_index(
    documents: Iterable[Mapping[str, Member]],
    fields: Optional[Sequence[str]] = None,
    lang: str = "English",
    ref: str = "id",
    save: bool = True,
    pretty: bool = False,
    tokens: Optional[Tokens] = None,
    stages: Optional[Sequence[str]] = None,
    store: Sequence[str] = (),
    pieces: Union[str, "os.PathLike[str]", None] = None,
    title: str = "title",
    piece_size: int = PIECE_SIZE,
    keep: int = 1,
    index_ref: bool = False,
    stems: bool = False,
) -> str:
    """The text of the index of these documents, which elasticlunr.js loads.

    Each document is a mapping. Its member `ref` is its reference: a text, or a whole number from 0. A document whose reference
    came before replaces it. The member of each field is a text, or is not there, which counts as an empty one.
    Without `fields` these are the members of the first document that are texts, in the order of their bytes.

    `lang` is the name of a language, as "German". With `stems` its stemmer comes after its stages, so that a search finds other forms
    of a word; English and Arabic stem without it, and for Korean there is none. Without `save` the index has no texts. `pretty` puts each of its members on a
    line.

    The field `ref` is stored and not indexed. With `index_ref` it is a field like the others, the last one where `fields` does not
    have it, and the index has the references under another name, "id" or the first of "id2", "id3" and so on that is no field.

    `tokens` is called with the name of the field and the text, for each text of each field that isn't the reference's. The tokens
    that it returns are indexed as they are; for None the language makes them of the text. The text is always stored.

    With `stages` the language is one of the caller's: `lang` is its name, and these are the names of its stages, which ran before.
    It makes words of a text where `tokens` makes nothing of it. `store` has the names of members that are stored and not indexed:
    those that are no fields come after these.

    With `pieces` the index is written in pieces to this folder, as `elasticlunr build --pieces` does it, and the text of its head is
    returned, which stands there as `search.json`. A piece of the tries may have `piece_size` bytes, one of the texts an eighth of
    them, and one of the titles, which are the texts in the field `title`, a 32nd. The folders of the last `keep` heads stay. A killed
    process leaves the earlier index or this one.

    Raises a TypeError for a member or a token that is not a text, a RefusedError for an unknown language, a field that is listed twice,
    or texts that are no Unicode, a ValueError for `pretty` with `tokens`, `stages`, `store`, `pieces` or `stems`, for `stages`
    with `stems`, and for numbers that are none, and an OSError for `pieces` that can't be written: the earlier ones stay.
    """
    flat_ones = {"tokens": tokens is not None, "stages": stages is not None, "store": bool(store), "pieces": pieces is not None}
    flat_ones["stems"] = bool(stems)
    is_flat = any(flat_ones.values())
    if pretty and is_flat:
        raise ValueError(f"{next(filter(flat_ones.get, flat_ones))} and pretty can't be used together")
    if stems and stages is not None:
        raise ValueError("stages and stems can't be used together: the caller's stages stem, or don't")
    if not 1 <= piece_size < MOST or keep < 1:
        raise ValueError(f"piece_size is {piece_size!r} and keep is {keep!r} instead of whole numbers from 1, and piece_size below 2^32")
    listed = list(documents)
    fields = list(_default_fields(listed, ref) if fields is None else fields)
    fields += [ref] if index_ref and ref not in fields else []
    fields += [name for name in store if name not in (ref, *fields)]
    key = _free_name(fields) if index_ref else ref
    docs = [_document(it, ref, index_ref, fields, number) for number, it in enumerate(listed, 1)]
    if not is_flat:
        job = {"fields": fields, "docs": docs, "lang": lang, "ref": key, "save": bool(save), "pretty": bool(pretty)}
        return _answer("elasticlunr_answer", json.dumps(job).encode())
    settings = _flat_language(lang, stages, stems) + _flat_text(key) + _flat_number(bool(save))
    makers = {field: None if field == key else _no_tokens if field in store else tokens for field in fields}
    flat = [_flat_document(it, fields, makers, number) for number, it in enumerate(docs, 1)]
    given = settings + _flat_list([_flat_text(it) for it in fields]) + _flat_list(flat)
    if pieces is None:
        return _answer("elasticlunr_index_documents", given)
    parts = _Parts(_answered("elasticlunr_index_pieces", _flat_text(title) + _flat_number(piece_size) + given))
    name, head = parts.text().decode(), parts.text()
    publish(os.fspath(pieces), name, head, parts.files(), keep)
    return head.decode()


def _flat_boost(field: str, boost: int) -> bytes:
    if not 0 <= boost <= 255:
        raise ValueError(f"the boost of {field!r} is not a whole number from 0 to 255")
    return _flat_text(field) + _flat_number(boost)


def search(
    index: str,
    query: str,
    fields: Optional[Sequence[str]] = None,
    boosts: Optional[Mapping[str, int]] = None,
    needed: str = "one",
    expand: bool = False,
    limit: int = 10,
) -> List[Hit]:
    """What a query finds in the text of an index, the best first, as `elasticlunr search --json` prints it.

    `fields` are the names of the fields that are searched, without it all. `boosts` has whole numbers from 0 to 255; the boost of
    a field is 1 unless it says another one. `needed` says which words of the query a document must have: "one" of them, "each" of
    them, or "each in one field". With `expand` a token of the index counts that begins with one of the query. At most `limit`
    documents come; 0 is no limit.

    Raises a RefusedError for a text that is not an index, or that has no field of one of these names, and a ValueError for other
    arguments than these.
    """
    if needed not in NEEDED:
        raise ValueError(f"needed is {needed!r} instead of " + ", ".join(map(repr, NEEDED)))
    if not 0 <= limit < MOST:
        raise ValueError(f"limit is {limit!r} instead of a whole number from 0 to 2^32 - 1")
    words = _flat_text(query) + _flat_number(NEEDED[needed]) + _flat_number(bool(expand))
    names = _flat_list([_flat_text(field) for field in fields or ()])
    numbers = _flat_list([_flat_boost(field, boost) for field, boost in (boosts or {}).items()])
    found = _answer("elasticlunr_search", index.encode("utf-8", "surrogatepass"), words + names + numbers + _flat_number(limit))
    return [Hit(**json.loads(line)) for line in found.split("\n") if line]
