"""What `elasticlunr build` makes with --stems, in each form of an input, against the models; and what `search` finds in it."""
import json
import os
import re
import tempfile

from tests.browser_sentences import PAGES
from tests.command_pieces import files_in
from tests.stems_index import CODES, job_of, value_of
from tools.repository import program, run, write

COMMAND = program("elasticlunr_cli")
LAST = re.compile(r"elasticlunr: \d+ documents, \d+ tokens, \d+ bytes, \d+\.\d s\n\Z")
WITHOUT_TABLE = ["English", "Arabic", "Korean"]
FOUND = {  # a query, and the words of a text that it has to find
    "French": ("cerise", "cerises"), "German": ("lichter", "Licht"), "Russian": ("мостами", "мосты"), "Turkish": ("vapurlar", "vapur"),
    "Spanish": ("casas", "casa"), "Italian": ("libro", "libri"), "Swedish": ("flickorna", "flickor"), "Portuguese": ("livro", "livros"),
}


def build(folder, form, given, args):
    path = write(os.path.join(folder, f"{form}.in"), given)
    return run([COMMAND, "build", path, *args])


def inputs(job):
    """The documents in each form, by its name."""
    objects = [{"id": ref, "title": title, "body": body} for ref, title, body in job.docs]
    whole = {"fields": job.fields, "docs": job.docs, "lang": job.lang}
    lines = "".join(json.dumps(it) + "\n" for it in objects)
    named = ["--fields", "title,body", "--lang", job.lang]
    return {"job": (json.dumps(whole), []), "objects": (json.dumps(objects), named), "lines": (lines, named)}


def check_forms(results, folder, language):
    """Each form of an input has the index of the models."""
    job = job_of(language, PAGES[language])
    wanted = value_of(job)
    for form, (given, args) in inputs(job).items():
        ended = build(folder, form, given, ["--stems", *args])
        good = ended.status == 0 and LAST.fullmatch(ended.err.decode()) and json.loads(ended.out) == wanted
        results.check(f"--stems, {language}, {form}", good, f"status {ended.status}, {ended.err[-200:]}")


def check_others(results, folder):
    """A language without a table has the index that it has without the option."""
    for language in WITHOUT_TABLE:
        for form, (given, args) in inputs(job_of(language, [["1", "Searches", "the words"]])).items():
            plain, stemmed = build(folder, form, given, args), build(folder, form, given, ["--stems", *args])
            results.check(f"--stems, {language}, {form}", plain.status == 0 and plain.out == stemmed.out, stemmed.err)


def check_found(results, folder, language):
    """`search` finds another form of a word in an index with stems, in one file and in pieces, and not in one without."""
    query, text = FOUND[language]
    given, args = inputs(job_of(language, [["1", text, ""], ["2", "xyz", ""]]))["lines"]
    for stems, wanted in (["--stems"], b"1\n"), ([], b""):
        index, pieces = os.path.join(folder, "index.json"), os.path.join(folder, "pieces")
        made = [build(folder, "lines", given, [*stems, *args, *out]) for out in (["-o", index], ["--pieces", pieces])]
        found = [run([COMMAND, "search", place, query]) for place in (index, pieces)]
        good = [it.status for it in made + found] == [0] * 4 and [it.out for it in found] == [wanted] * 2
        results.check(f"search, {language}, {stems}", good, [it.err for it in made + found] + [it.out for it in found])
    results.check(f"search, {language}, the pieces", len(files_in(pieces)) > 1, files_in(pieces))


def check_rules(results, folder):
    """The option goes with the others of the words, and `check` takes it."""
    docs = [["1", "Häuser", "Straßen am Hafen"]]
    given, args = inputs(job_of("German", docs))["lines"]
    ended = build(folder, "lines", given, ["--stems", "--store", "title", "--max-token", "6", *args])
    tries = json.loads(ended.out)["index"] if ended.status == 0 else {}
    tokens = {field: sorted(tokens_in(trie["root"])) for field, trie in tries.items()}
    results.check("--stems with --store and --max-token", tokens == {"body": ["haf"], "title": []}, [tokens, ended.err])
    ended = run([COMMAND, "check", "--stems", os.path.join(folder, "lines.in"), *args])
    results.check("check --stems", (ended.status, ended.out) == (0, b""), ended)


def tokens_in(node, text=""):
    """The tokens that have a posting."""
    if node["df"]:
        yield text
    for letter, below in node.items():
        if letter not in ("df", "docs"):
            yield from tokens_in(below, text + letter)


def check_stems(results):
    with tempfile.TemporaryDirectory() as folder:
        for language in CODES:
            check_forms(results, folder, language)
        check_others(results, folder)
        for language in FOUND:
            check_found(results, folder, language)
        check_rules(results, folder)
