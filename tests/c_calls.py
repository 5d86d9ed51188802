#!/usr/bin/env python3
"""Builds the library for C by both compilers of the kit, links programs to it, and makes calls.

usage: c_calls.py [WORD ..]

Each job of the table is answered as the table says, in a block of malloc and in the caller's bytes, by the archives and by
the shared library; with each request for memory refused in turn; by four threads at the same time; and under valgrind, where
it is installed. So are documents in the flat form: those of the table as the table says, and made, refused and damaged ones as
the model says (flat_model.py); documents whose index is cut into pieces, as it says, too (cutting_inputs.py); and searches of indexes, as the built command answers them (search_inputs.py). The example of
examples/c is built as its first line says. With words, only the cases are tried that have one of them in their names, such as
`LLVM` or `index_documents`.

A call takes about as many instructions as the program for the same job, as valgrind counts them, and `build_index` of Python at
most one and a half times the seconds of the call.

If FORGED_LIBRARY is set, it is the folder of the one library that is tried, and none is built (tests/forgeries.py).
"""
import functools
import json
import os
import shutil
import struct
import subprocess
import sys
import tempfile
from typing import NamedTuple

sys.path.insert(0, os.path.join(os.path.dirname(__file__), ".."))

from bench import make_job
from tests import cutting_inputs, flat_inputs, flat_model, python_pieces, search_inputs
from tests.flat_model import AS_GIVEN, Document, Input, Value
from tests.growth import COUNTING, Runs
from tests.report import Results, is_asked
from tests.stems_index import CODES
from tests.tables import jobs, row_of
from tools import library
from tools.repository import TOP, program, run, write

FEW = 40  # of the shortest jobs, whose requests are refused and which valgrind watches
FEW_MADE = 120  # of the shortest made inputs, and of these each second one
EACH = 20  # and of the damaged ones each of this number
LEAST_MADE, LEAST_OF_TABLE, LEAST_DAMAGED = 250, 50, 7_600  # inputs
LEAST_OF_STATUS = {flat_model.DONE: 700, flat_model.REFUSED: 600, flat_model.MALFORMED: 6_000}  # of the damaged ones
SECONDS = 600
SHOWN = 40  # failures that are printed
DEEP = 20_000  # levels of Python; the tree of a long token has one for each character
VALGRIND = ["valgrind", "--quiet", "--error-exitcode=9", "--leak-check=full", "--errors-for-leak-kinds=definite"]
LEAST_SEARCHES, LEAST_DAMAGED_SEARCHES, LEAST_NO_INDEX = 250, 600, 15  # inputs
LEAST_CUT, LEAST_DAMAGED_CUT = 250, 2_400  # inputs
LEAST_REFUSED = {"answer": 2_000, "index_documents": 15_000, "index_pieces": 8_000, "search": 5_000}  # requests of each call
PARTS = ("answer", "index_documents", "index_pieces", "search", "symbols", "Python", "pieces of Python", "the example", "speed")
DOCUMENTS, WORDS = 3_000, 100  # of the job whose speed is measured, and of each of them
DEARER, DEARER_FROM_PYTHON = 1.03, 1.5  # times what the program takes, and what the call takes
SPEED = """
import json, sys, time
import elasticlunr
documents = json.load(open(sys.argv[1]))
job = json.dumps({"fields": ["title", "body"], "docs": [[it["id"], it["title"], it["body"]] for it in documents]}).encode()
def seconds(call):
    begun = time.process_time()
    call()
    return time.process_time() - begun
rounds = [(seconds(lambda: elasticlunr._answer("elasticlunr_answer", job)),
           seconds(lambda: elasticlunr.build_index(documents, ["title", "body"]))) for _ in range(7)]
print(*map(min, zip(*rounds)))
"""
EXAMPLE = {"fields": ["body"], "docs": [["1", "go"]]}  # a job of the table
PAGE = "[{'id': 1, 'tags': 'the-pages', 'body': 'Red pages'}], fields=['tags', 'body']"
PARTS_OF_TAGS = "tokens=lambda field, text: text.split('-') if field == 'tags' else None"
ONE_BY_ONE = "tokens=lambda field, text: iter(['the', 'pages']) if field == 'tags' else None"
FROM_LANGUAGE = "tokens=lambda *_: None"
FOXES = "elasticlunr.build_index([{'id': 1, 'title': 'Page', 'body': ''}, {'id': 'a', 'body': 'fox fox'}], ['title', 'body'])"
SPLIT = Document("1", (Value("the-pages", AS_GIVEN, ("the", "pages")), Value("Red pages")))


class Call(NamedTuple):
    """A call of the library, and inputs with their answers."""

    name: str  # as tests/c_calls.c has it
    rows: list
    few: list  # those whose requests are refused and which valgrind watches


# Calls of the module of Python: what each is about, the row of the table, the input or the line that it prints, and the call
PYTHON = [
    ("a document", EXAMPLE, "build_index([{'id': '1', 'body': 'go'}])"),
    ("a number as reference", EXAMPLE, "build_index([{'id': 1, 'body': 'go', 'tags': ['a']}])"),
    ("another reference", "TypeError document 1: its 'id' is not a text or a whole number from 0", "build_index([{'id': None}])"),
    ("a value that is not a text", "TypeError document 2: its 'body' is not a text", "build_index([{'id': 1, 'body': 'go'}, {'id': 2, 'body': 7}])"),
    ("an unknown language", "RefusedError refused: unknown language", "build_index([], lang='german')"),
    ("a field that is listed twice", "RefusedError refused: duplicate field", "build_index([], fields=['a', 'a'])"),
    ("half a character", "RefusedError refused: not JSON", "build_index([{'id': 1, 'body': chr(0xd800)}])"),
    ("no documents", {"fields": [], "docs": []}, "build_index([])"),
    ("the version", library.version(), "version()"),
    ("tokens of a field", Input(("tags", "body"), (SPLIT,)), f"build_index({PAGE}, {PARTS_OF_TAGS})"),
    ("tokens one by one", Input(("tags", "body"), (SPLIT,)), f"build_index({PAGE}, {ONE_BY_ONE})"),
    ("no tokens at all", Input(("a",), (Document("1", (Value("the", AS_GIVEN),)),)), "build_index([{'id': 1, 'a': 'the'}], tokens=lambda *_: [])"),
    ("tokens of no member", Input(("a",), (Document("1", (Value("", AS_GIVEN, ("a", "")),)),)), "build_index([{'id': 1}], ['a'], tokens=lambda *it: it)"),
    ("tokens that the language makes", Input(("a",), (Document("1", (Value("Häuser der"),)),), "German", save=False),
     f"build_index([{{'id': 1, 'a': 'Häuser der'}}], lang='German', save=False, {FROM_LANGUAGE})"),
    ("the reference has no tokens", Input(("key", "a"), (Document("7", (Value("7"), Value("go", AS_GIVEN, ("a", "go")))),), ref="key"),
     "build_index([{'key': '7', 'a': 'go'}], ['key', 'a'], ref='key', tokens=lambda field, text: {'a': [field, text]}[field])"),
    ("a reference that comes again", Input(("a",), tuple(Document("1", (Value(it, AS_GIVEN, (it,)),)) for it in ("go", "b"))),
     "build_index([{'id': 1, 'a': 'go'}, {'id': 1, 'a': 'b'}], tokens=lambda _, text: [text])"),
    ("no documents, and tokens", Input((), ()), f"build_index([], {FROM_LANGUAGE})"),
    ("a token that is not a text", "TypeError document 1: the tokens of its 'tags' are not a list of texts", f"build_index({PAGE}, tokens=lambda *_: ['a', 7])"),
    ("a text for tokens", "TypeError document 1: the tokens of its 'tags' are not a list of texts", f"build_index({PAGE}, tokens=lambda *_: 'ab')"),
    ("a lone surrogate in a token", "RefusedError refused: not Unicode", f"build_index({PAGE}, tokens=lambda *_: [chr(0xd800)])"),
    ("a lone surrogate, and tokens", "RefusedError refused: not Unicode", f"build_index([{{'id': 1, 'a': chr(0xdfff)}}], {FROM_LANGUAGE})"),
    ("an unknown language, and tokens", "RefusedError refused: unknown language", f"build_index([], lang='german', {FROM_LANGUAGE})"),
    ("a field that is listed twice, and tokens", "RefusedError refused: duplicate field", f"build_index([], fields=['a', 'a'], {FROM_LANGUAGE})"),
    ("an error of the caller's function", "ZeroDivisionError division by zero", f"build_index({PAGE}, tokens=lambda *_: 1 / 0)"),
    ("a hit", "('a', {'body': 'fox fox', 'id': 'a', 'title': ''})", f"search({FOXES}, 'fox', limit=1)[0][::2]"),
    ("the best hit by boosts", "1", f"search({FOXES}, 'fox page', boosts={{'body': 0, 'title': 9}})[0].ref"),
    ("hits with each word", "[]", f"search({FOXES}, 'fox page', needed='each')"),
    ("a hit of a beginning", "1", f"search({FOXES}, 'pa', ['title'], expand=True)[0].ref"),
    ("a hit without texts", "{}", "search(elasticlunr.build_index([{'id': 1, 'a': 'go'}], save=False), 'go')[0].doc"),
    ("hits in no such field", "RefusedError refused: no such field", f"search({FOXES}, 'fox', fields=['none'])"),
    ("hits in no index", "RefusedError refused: not JSON", "search('', 'fox')"),
    ("a query that is not Unicode", "RefusedError refused: not Unicode", f"search({FOXES}, chr(0xd800))"),
    ("an index that is not Unicode", "RefusedError refused: not JSON", "search(chr(0xd800), 'fox')"),
    ("an unknown need", "ValueError needed is 'all' instead of 'one', 'each in one field', 'each'", f"search({FOXES}, 'fox', needed='all')"),
    ("a boost past 255", "ValueError the boost of 'body' is not a whole number from 0 to 255", f"search({FOXES}, 'fox', boosts={{'body': 256}})"),
    ("a limit below 0", "ValueError limit is -1 instead of a whole number from 0 to 2^32 - 1", f"search({FOXES}, 'fox', limit=-1)"),
    ("a member that is stored", Input(("a", "kind"), (Document("1", (Value("go"), Value("going", AS_GIVEN))),)),
     "build_index([{'id': 1, 'a': 'go', 'kind': 'going'}], ['a'], store=['kind', 'id'])"),
    ("a field that is stored", Input(("a", "b"), (Document("1", (Value("go", AS_GIVEN), Value("on"))),)), "build_index([{'id': 1, 'a': 'go', 'b': 'on'}], store=('a',))"),
    ("stages of the caller", Input(("a",), (Document("1", (Value("Go on", AS_GIVEN, ("Go",)),)),), "own", ("trimmer",)),
     "build_index([{'id': 1, 'a': 'Go on'}], lang='own', stages=['trimmer'], tokens=lambda _, text: text.split()[:1])"),
    ("stages, and no tokens", Input(("a",), (Document("1", (Value("Go on"),)),), "own", ()), "build_index([{'id': 1, 'a': 'Go on'}], lang='own', stages=[])"),
    ("words that are stemmed", Input(("a",), (Document("1", (Value("die Häuser der Städte"),)),), "German", stems=True),
     "build_index([{'id': 1, 'a': 'die Häuser der Städte'}], lang='German', stems=True)"),
    ("tokens beside words that are stemmed", Input(("a", "b"), (Document("1", (Value("Häuser"), Value("x", AS_GIVEN, ("häuser",)))),), "German", stems=True),
     "build_index([{'id': 1, 'a': 'Häuser', 'b': 'x'}], lang='German', stems=True, tokens=lambda field, _: ['häuser'] if field == 'b' else None)"),
    ("stems of a language without a table", Input(("a",), (Document("1", (Value("going"),)),), "English", stems=True), "build_index([{'id': 1, 'a': 'going'}], stems=True)"),
    ("stems in an unknown language", "RefusedError refused: unknown language", "build_index([], lang='german', stems=True)"),
    ("a hit of another form of a word", "1", "search(elasticlunr.build_index([{'id': 1, 'a': 'Häuser'}], lang='German', stems=True), 'Haus')[0].ref"),
    ("no hit of another form without stems", "[]", "search(elasticlunr.build_index([{'id': 1, 'a': 'Häuser'}], lang='German'), 'Haus')"),
    ("stems, and a pretty text", "ValueError stems and pretty can't be used together", "build_index([], stems=True, pretty=True)"),
    ("stems, and stages", "ValueError stages and stems can't be used together: the caller's stages stem, or don't", "build_index([], stages=[], stems=True)"),
    ("a stored member, and a pretty text", "ValueError store and pretty can't be used together", "build_index([], store=['a'], pretty=True)"),
    ("the reference is indexed", Input(("title", "key"), (Document("7", (Value("go"), Value("7"))), Document("red", (Value(""), Value("red"))))),
     "build_index([{'key': 7, 'title': 'go'}, {'key': 'red'}], ['title'], ref='key', index_ref=True)"),
    ("the reference is indexed, and its name is taken", Input(("id", "id2"), (Document("1", (Value("1", AS_GIVEN, ("id", "1")), Value("b", AS_GIVEN, ("id2", "b")))),), ref="id3"),
     "build_index([{'id': '1', 'id2': 'b'}], ['id', 'id2'], index_ref=True, tokens=lambda *it: it)"),
    ("the reference is only stored", Input(("a", "id"), (Document("1", (Value("go"), Value("1", AS_GIVEN))),), ref="id2"),
     "build_index([{'id': '1', 'a': 'go'}], ['a'], index_ref=True, store=['id'])"),
    ("a number as reference that is a field", "TypeError document 1: its 'id' is not a text", "build_index([{'id': 1}], ['id'])"),
    ("tokens, and a pretty text", "ValueError tokens and pretty can't be used together", f"build_index({PAGE}, {FROM_LANGUAGE}, pretty=True)"),
]


def listed(rows):
    return b"".join(struct.pack("<Q", len(row.given)) + row.given for row in rows)


def answers_in(out):
    """The status and the text of each answer that the program printed."""
    at, found = 0, []
    while at + 9 <= len(out):
        status, length = struct.unpack_from("<BQ", out, at)
        found.append((status, out[at + 9 : at + 9 + length]))
        at += 9 + length
    return found


def linked(folder, made, name, *flags):
    """A program of tests/c_calls.c over the library in the folder `made`."""
    path = os.path.join(folder, name)
    command = ["cc", "-O2", "-Wall", "-Wextra", "-Werror", "-pthread", "-I", os.path.join(made, "include"), "-o", path]
    library.ran([*command, os.path.join(TOP, "tests", "c_calls.c"), *flags])
    return path


def check_answers(name, command, call, rows, results):
    """Whether each input has its answer, and there is no other answer."""
    ended = run([*command, "answers", call], listed(rows), seconds=SECONDS)
    found = answers_in(ended.out)
    results.note(ended.status == 0 and len(found) == len(rows), f"c, {name}: status {ended.status}, {len(found)} answers, {ended.err[-300:]}")
    for number, (row, answer) in enumerate(zip(rows, found), 1):
        results.note(answer == (row.status, row.out), f"c, {name}, input {number}: status {answer[0]} instead of {row.status}, or another text")


def check_said(name, command, rows, least, results):
    """Whether the program finds no fault, and tried as many as `least`."""
    ended = run(command, listed(rows), seconds=SECONDS)
    said = ended.out.decode(errors="replace").strip()
    tried = int(said.split()[0]) if said[:1].isdigit() else 0
    results.note(ended.status == 0 and tried >= least, f"c, {name}: status {ended.status}, {said}, {ended.err[-300:]}")
    print(f"c, {name}: {said}", flush=True)


def check_call(compiler, call, programs, results):
    """A call, in each of the ways that its inputs are tried."""
    name = f"{compiler}, {call.name}"
    check_answers(f"{name}, archive", [programs["archive"]], call.name, call.rows, results)
    check_answers(f"{name}, shared library", [programs["shared"]], call.name, call.rows, results)
    check_said(f"{name}, refused requests", [programs["counted"], "refused", call.name], call.few, LEAST_REFUSED[call.name], results)
    check_said(f"{name}, threads", [programs["archive"], "threads", call.name], call.rows, len(call.rows), results)
    if shutil.which(VALGRIND[0]):
        check_answers(f"{name}, valgrind", [*VALGRIND, programs["archive"]], call.name, call.few, results)


def check_example(made, folder, results):
    """The example, built by what pkg-config says, over the archive and over the shared library."""
    row = row_of(EXAMPLE)
    environment = {**os.environ, "PKG_CONFIG_PATH": os.path.join(made, "lib", "pkgconfig"), "LD_LIBRARY_PATH": os.path.join(made, "lib")}
    flags = library.ran(["pkg-config", "--cflags", "--libs", "elasticlunr"], env=environment).split()
    for name, more in [("the example", []), ("the example over the archive", ["-static"])]:
        path = os.path.join(folder, "index")
        library.ran(["cc", "-Wall", "-Werror", "-o", path, os.path.join(TOP, "examples/c/index.c"), *more, *flags])
        ended = run([path], row.given, env=environment)
        results.note((ended.out, ended.status) == (row.out, row.status), f"c, {name}: status {ended.status}, {ended.out[:60]!r}")
        ended = run([path], b"no job", env=environment)
        results.note((ended.err, ended.status) == (b"refused: not JSON\n", 2), f"c, {name}, a refusal: status {ended.status}, {ended.err[:60]!r}")


def printed(row):
    """What is printed for a job of the table, for an input, or for a line."""
    if isinstance(row, dict):
        return row_of(row).out.decode()
    return (row if isinstance(row, str) else flat_model.answer(flat_model.flat(row))[0].decode()) + "\n"


def check_python(made, results):
    """Calls of the module of Python over the shared library, in a process of its own."""
    environment = {**os.environ, "PYTHONPATH": os.path.join(TOP, "python"), "ELASTICLUNR_LIBRARY": os.path.join(made, "lib", "libelasticlunr.so")}
    for name, row, words in PYTHON:
        script = f"import elasticlunr\ntry: print(elasticlunr.{words})\nexcept Exception as error: print(type(error).__name__, error)"
        ended = run([sys.executable, "-c", script], env=environment)
        results.note(ended.out.decode(errors="replace") == printed(row), f"c, Python, {name}: {ended.out[:100]!r}, {ended.err[-300:]!r}")


class OneRun(Runs):
    """Runs whose answer is compared elsewhere."""

    def wrong(self, status):
        return status != 0 and f"status {status}"


def documents_of_words():
    """Documents of the words of the machine's texts."""
    words = make_job.words([os.path.join(TOP, "docs"), *make_job.USUAL], DOCUMENTS * WORDS)
    parts = [words[at : at + WORDS] for at in range(0, len(words), WORDS)]
    return [{"id": str(number), "title": " ".join(part[:5]), "body": " ".join(part[5:])} for number, part in enumerate(parts)]


def check_speed(compiler, made, programs, folder, results):
    """What a call takes next to the program, and `build_index` next to a call."""
    documents = documents_of_words()
    job = json.dumps({"fields": ["title", "body"], "docs": [list(it.values()) for it in documents]})
    whole, asked = write(os.path.join(folder, "job"), job), os.path.join(folder, "asked")
    with open(asked, "wb") as file:
        file.write(struct.pack("<Q", len(job)) + job.encode())
    if compiler == "LLVM" and shutil.which(COUNTING[0]):
        alone, called = (OneRun(command, given, os.devnull).instructions() for command, given in [
            ([program("elasticlunr_index")], whole), ([programs["archive"], "once", "answer"], asked)])
        results.note(0 < called <= DEARER * alone, f"c, speed: {called} instructions of a call, and {alone} of the program")
        print(f"c, {compiler}, speed: {called / 1e6:.0f} million instructions of a call, and {alone / 1e6:.0f} of the program", flush=True)
    listed_in = write(os.path.join(folder, "documents"), json.dumps(documents))
    environment = {**os.environ, "PYTHONPATH": os.path.join(TOP, "python"), "ELASTICLUNR_LIBRARY": os.path.join(made, "lib", "libelasticlunr.so")}
    said = library.ran([sys.executable, "-c", SPEED, listed_in], env=environment)
    call, python = map(float, said.split())
    results.note(python <= DEARER_FROM_PYTHON * call, f"c, speed: {python:.3f} s of build_index, and {call:.3f} s of a call")
    print(f"c, {compiler}, speed: {python:.3f} s of build_index in Python, and {call:.3f} s of a call", flush=True)


def check_symbols(made, results):
    """Whether the shared library shows the functions of the header, and no other."""
    shared = os.path.join(made, "lib", "libelasticlunr.so")
    shown = [line.split()[-1] for line in library.ran(["nm", "-D", "--defined-only", shared]).splitlines()]
    results.note(sorted(shown) == sorted(library.functions()), f"c, symbols: {shown}")


def shortest(rows, number):
    return sorted(rows, key=lambda row: len(row.given) + len(row.out))[:number]


def without_tables(rows):
    """Those whose answer takes no table of stems, which takes thousands of requests for memory."""
    return [row for row in rows if not any(f"stemmer-{code}".encode() in row.out for code in CODES.values())]


@functools.cache
def jobs_asked():
    """The jobs of the table."""
    rows = list(jobs())
    return Call("answer", rows, shortest(rows, FEW))


@functools.cache
def documents_asked(results):
    """Documents in the flat form. Counts whether they are enough."""
    made, of_table, damaged = flat_inputs.rows_of_made(), list(flat_inputs.rows_of_table()), flat_inputs.rows_of_damaged()
    floors = [(made, LEAST_MADE), (of_table, LEAST_OF_TABLE), (damaged, LEAST_DAMAGED)]
    floors += [([row for row in damaged if row.status == status], least) for status, least in LEAST_OF_STATUS.items()]
    for rows, least in floors:
        results.note(len(rows) >= least, f"c, index_documents: {len(rows)} inputs, and {least} are the least")
    wrong = flat_inputs.wrongly_decoded()
    results.note(not wrong, f"c, index_documents: {len(wrong)} inputs are not read back from their bytes: {wrong[:1]}")
    few = [*shortest(without_tables(made), FEW_MADE)[::2], *without_tables(damaged)[::EACH]]
    return Call("index_documents", [*made, *of_table, *damaged], few)


@functools.cache
def cuttings_asked(results):
    """Documents whose index is cut into pieces. Counts whether they are enough."""
    made, damaged = cutting_inputs.rows_of_made(), cutting_inputs.rows_of_damaged()
    for rows, least in [(made, LEAST_CUT), (damaged, LEAST_DAMAGED_CUT)]:
        results.note(len(rows) >= least, f"c, index_pieces: {len(rows)} inputs, and {least} are the least")
    wrong = cutting_inputs.wrongly_decoded()
    results.note(not wrong, f"c, index_pieces: {len(wrong)} inputs are not read back from their bytes: {wrong[:1]}")
    few = [*shortest(without_tables(made), FEW_MADE)[::2], *without_tables(damaged)[::EACH]]
    return Call("index_pieces", [*made, *damaged], few)


@functools.cache
def searches_asked(results):
    """Searches in the flat form. Counts whether they are enough."""
    made, damaged, other = search_inputs.rows_of_searches(), search_inputs.rows_of_damaged(), search_inputs.rows_of_other_texts()
    for rows, least in [(made, LEAST_SEARCHES), (damaged, LEAST_DAMAGED_SEARCHES), (other, LEAST_NO_INDEX)]:
        results.note(len(rows) >= least, f"c, search: {len(rows)} inputs, and {least} are the least")
    found = [row for row in made if row.status == flat_model.DONE and row.out]
    results.note(len(found) >= LEAST_SEARCHES // 2, f"c, search: {len(found)} searches find something")
    wrong = search_inputs.wrongly_decoded()
    results.note(not wrong, f"c, search: {len(wrong)} searches are not read back from their bytes: {wrong[:1]}")
    few = [*shortest(made, FEW), *damaged[::EACH], *shortest(other, 8)]
    return Call("search", [*made, *damaged, *other], few)


def check_library(compiler, made, folder, results):
    """The library that a compiler made, in each part that is asked for."""
    shared, archive = (os.path.join(made, "lib", name) for name in ("libelasticlunr.so", "libelasticlunr.a"))
    programs = {
        "archive": linked(folder, made, "program", archive),
        "shared": linked(folder, made, "shared", shared, f"-Wl,-rpath,{os.path.dirname(shared)}"),
        "counted": linked(folder, made, "counted", archive, "-DCOUNTING", "-Wl,--wrap=malloc,--wrap=realloc,--wrap=free"),
    }
    checks = [
        lambda: check_call(compiler, jobs_asked(), programs, results),
        lambda: check_call(compiler, documents_asked(results), programs, results),
        lambda: check_call(compiler, cuttings_asked(results), programs, results),
        lambda: check_call(compiler, searches_asked(results), programs, results),
        lambda: check_symbols(made, results),
        lambda: check_python(made, results),
        lambda: python_pieces.check_all(made, results),
        lambda: check_example(made, folder, results),
        lambda: check_speed(compiler, made, programs, folder, results),
    ]
    for part, check in zip(PARTS, checks):
        if is_asked(f"{compiler}, {part}"):
            check()


def libraries(folder):
    """The name of each compiler that is asked for, and the folder of the library that it made."""
    if "FORGED_LIBRARY" in os.environ:
        yield "LLVM", os.environ["FORGED_LIBRARY"]
        return
    for compiler, backend, made in [("LLVM", (), os.path.join(TOP, "out")), ("Rattle", ("--backend", "rattle"), folder)]:
        if is_asked(f"{compiler}, {', '.join(PARTS)}"):
            library.build(made, backend)
            yield compiler, made


def main():
    results = Results("c", most=SHOWN)
    sys.setrecursionlimit(DEEP)
    try:
        with tempfile.TemporaryDirectory() as folder:
            for compiler, made in libraries(folder):
                check_library(compiler, made, folder, results)
    except (OSError, ValueError, subprocess.SubprocessError) as error:
        results.note(False, f"c: {error!r}")
    return results.report()


if __name__ == "__main__":
    sys.exit(main())
