#!/usr/bin/env python3
"""Tries the checks of this folder on forgeries: each check must fail, and say what is wrong.

usage: forgeries.py [-v] [CHECK ..]

A forged program replaces the built program of a crate (FORGED_PROGRAM, FORGED_CRATE), and a forged library the one for C
(FORGED_LIBRARY). A forged table or page is given to the check that reads it, and a forged page is in a copy of the folders that
its check needs. None of them touches the repository. Without a name all checks are tried but those of NEEDS: they install or
download what they need, and if that can't be had, their forgeries are skipped; or they need the library for C in out/, which
`make lib` builds. With -v each forgery has a line.
"""
import json
import os
import re
import shutil
import stat
import subprocess
import sys
import tempfile
import time
from typing import NamedTuple

sys.path.insert(0, os.path.join(os.path.dirname(__file__), ".."))

from tests import browser_tools, dist_files, tables
from tests.report import FAILED, Results
from tools import library
from tools.repository import TOP, lines_of, program, read, write

NEEDS = {
    "compare_search": {"node", "elasticlunr.min.js"},
    "pieces": {"node", "elasticlunr.min.js"},
    "browser": {"chromium", "chromedriver", "selenium", "elasticlunr.min.js"},
    "c_calls": set(),
    "dist_files": {"git"},
}
ROW_1 = tables.row_of({"fields": ["body"], "docs": [["1", "go"]]}).out.decode()

# Programs in C, which don't read their input
INCLUDES = "".join(f"#include <{name}.h>\n" for name in ("signal", "stdio", "stdlib", "string", "unistd"))
BODIES = {
    "prints one fixed text": 'const char *text = "{}\\n"; return write(1, text, strlen(text)) < 0;',
    "prints row 1 for everything": f"const char *text = {json.dumps(ROW_1)}; return write(1, text, strlen(text)) < 0;",
    "crashes": "return raise(SIGKILL);",
    "does not end": "return pause();",
}
REQUESTS = "void *volatile at = 0; for (int number = 0; number < 30 && (number == 0 || at); number++) at = malloc(8); "
FINDERS = {
    "finds __proto__ for everything": 'const char *text = "__proto__\\n"; return write(1, text, strlen(text)) < 0;',
    "finds nothing": "return 0;",
    "finds less when out of memory": REQUESTS + 'return write(1, "1\\n2\\n", at ? 4 : 2) < 0;',
    "says something else when out of memory": REQUESTS + 'return at ? write(1, "1\\n2\\n", 4) < 0 : write(2, "no index\\n", 9) == 9;',
    "says nothing when out of memory": REQUESTS + 'return at ? write(1, "1\\n2\\n", 4) < 0 : 1;',
}

# Programs in C that answer the calls of a row, and request so many bytes for a line of this size. MORE may use the size of
# the longest line.
CALLS = """
static char line[99999];
size_t most = 0;
if (!fgets(line, sizeof line, stdin) || write(1, line, strlen(line)) < 0) return 1;
while (fgets(line, sizeof line, stdin) && line[0] != '\\n') {
    size_t size = strlen(line) - 1;
    const char *answer = strstr(line, "to_value") ? "{\\"root\\":{\\"df\\":0,\\"docs\\":{}}}\\n" : "done\\n";
    most = size > most ? size : most;
    void *volatile at = write(1, line, size) < 0 || strstr(line, "new") ? NULL : malloc(BYTES);
    MORE
    if (write(1, " -> ", 4) < 0 || write(1, answer, strlen(answer)) < 0) return 1;
}
return write(1, "\\n\\n\\ntest result: ok\\n", 19) < 0;
"""
SLOTS, NO_SLOTS, GOES_ON = "takes slots for each token of a call", "remembers no token", "goes on when out of memory"
GROWS = "doubles the room of a text as it grows"
DOUBLES = 'for (size_t room = 128; strstr(line, "to_json") && room < most; room *= 2) at = malloc(room);'
CALLED = {
    SLOTS: CALLS.replace("BYTES", "128 * size").replace("MORE", ""),
    NO_SLOTS: CALLS.replace("BYTES", "1").replace("MORE", ""),
    GOES_ON: CALLS.replace("BYTES", "1").replace("MORE", ""),
    GROWS: CALLS.replace("BYTES", "1").replace("MORE", DOUBLES),
}

# Programs in Python that change the input, the words or the answer of a built program. `path` is the program.
BEGINS = f"#!{sys.executable} -SEs\nimport json, os, subprocess, sys\n"
CHANGES_INPUT = """
given = sys.stdin.buffer.read()
try:
    CHANGE
except (ValueError, LookupError, AttributeError, TypeError):
    pass
file = os.memfd_create("input")
os.write(file, given)
os.lseek(file, 0, 0)
os.dup2(file, 0)
os.execv(path, [path])
"""
CHANGES_WORDS = """
words = sys.argv[1:]
CHANGE
os.execv(path, [path, *words])
"""
CHANGES_ANSWER = """
ended = subprocess.run([path, *sys.argv[1:]], stdout=subprocess.PIPE)
out, status = ended.stdout, ended.returncode
CHANGE
sys.stdout.buffer.write(out)
sys.exit(status)
"""
ENDS_EARLY = """
file = os.memfd_create("input")
try:
    while more := os.read(0, 65536):
        os.write(file, more)
except OSError:
    pass
os.lseek(file, 0, 0)
os.dup2(file, 0)
"""
OF_A_JOB = "job = json.loads(given); %s; given = json.dumps(job).encode()"
OF_HITS = 'out = b"".join(json.dumps(%s).encode() + b"\\n" for hit in map(json.loads, out.splitlines()))'
INDEX, FIND, COMMAND = "elasticlunr_index", "elasticlunr_find", "elasticlunr_cli"
STEMS = "elasticlunr_vectors"
JOBS = {  # forged programs that change the job
    "ignores its documents": 'job["docs"] = []',
    "ignores all but its last document": 'job["docs"] = job["docs"][-1:]',
    "forgets to compact": 'job.pop("compact")',
    "keeps what is removed": 'job.pop("remove")',
    "takes each language for English": 'job.pop("lang")',
    "writes to standard error, too": 'os.write(2, b"so")',
}
# Sixteen times as many steps for an input twice as long: more than the square, so that a slow program cannot hide them
STEPS = "for step in range(int((os.fstat(0).st_size / %d) ** 4)): pass"
CHANGES = {  # whose program is run, what is changed of its run, and how
    **{name: (INDEX, CHANGES_INPUT, OF_A_JOB % change) for name, change in JOBS.items()},
    "finds any word for all": (FIND, CHANGES_INPUT, 'given = given.replace(b\'"all"]\', b\'"any"]\', 1)'),
    "finds one reference less": (FIND, CHANGES_ANSWER, 'out = out[: out[:-1].rfind(b"\\n") + 1]'),
    "takes too many steps for the text": (FIND, CHANGES_ANSWER, STEPS % 65_000),
    "takes too many steps for the words": (COMMAND, CHANGES_ANSWER, STEPS % 15_000),
    "takes long for stems": (COMMAND, CHANGES_ANSWER, 'for step in range(20_000_000 * ("--stems" in sys.argv)): pass'),
    "may take more steps": (FIND, CHANGES_INPUT, 'given = given.replace(b\'"fields"\', b" " * 200_000 + b\'"fields"\', 1)'),
    "reads no index at any depth": (FIND, CHANGES_INPUT, 'given = given.replace(b"{", b\'{"x":0,\', 1)'),
    "ranks in the order of references": (COMMAND, CHANGES_ANSWER, 'out = b"".join(sorted(out.splitlines(True)))'),
    "rounds scores": (COMMAND, CHANGES_ANSWER, OF_HITS % 'dict(hit, score=round(hit["score"]))'),
    "ignores boosts": (COMMAND, CHANGES_WORDS, 'words = [word for word in words if not word.startswith("--boost=")]'),
    "ignores beginnings": (COMMAND, CHANGES_WORDS, 'words = [word for word in words if word != "--expand"]'),
    "prints other texts": (COMMAND, CHANGES_ANSWER, OF_HITS % 'dict(hit, doc={"id": hit["ref"]})'),
    "searches any word for all": (COMMAND, CHANGES_WORDS, 'words = [word for word in words if word != "--all"]'),
    "a command that cuts by another size": (
        COMMAND,
        CHANGES_WORDS,
        'words = [str(2 * int(word)) if before == "--piece-size" else word for before, word in zip(["", *words], words)]',
    ),
    "a command that allows a character more": (
        COMMAND,
        CHANGES_WORDS,
        'words = [str(1 + int(word)) if before == "--max-token" else word for before, word in zip(["", *words], words)]',
    ),
    "a command that indexes no reference": (COMMAND, CHANGES_WORDS, 'words = [word for word in words if word != "--index-ref"]'),
    "a command that stems no word": (COMMAND, CHANGES_WORDS, 'words = [word for word in words if word != "--stems"]'),
    "a command that takes a failed input for its end": (COMMAND, CHANGES_WORDS, ENDS_EARLY),
    "always ends well": (COMMAND, CHANGES_ANSWER, "status = 0"),
    "stems after one version": (STEMS, CHANGES_WORDS, 'words[1:] = ["current"]'),
    "stems one word less": (STEMS, CHANGES_ANSWER, 'out = out[: out[:-1].rfind(b"\\n") + 1]'),
    "reads an index the slow way": (
        COMMAND,
        CHANGES_WORDS,
        'text = open(words[1]).read(); words[1] += ".other"; open(words[1], "w").write(text.replace("{", \'{"x":0,\', 1))',
    ),
}


class Forgery(NamedTuple):
    name: str
    check: str
    says: str  # what the check must say of a failure, as a pattern
    program: str = ""  # of BODIES, FINDERS or CHANGES
    arguments: tuple = ()
    crate: str = INDEX  # whose program is forged
    top: str = TOP  # the repository that the check runs in
    library: str = ""  # the folder of the library for C


WRONG_JOB = r"^job \d+: status"
WRONG_RANDOM_JOB = r"^random: seed \d+, job \d+: "
FEW = ("--jobs", "60")
ROWS = 36  # of the table of jobs, from its end: those that were worked out by hand
COMMANDS = 10  # rows of the table of commands
SLOW = "reads an index the slow way"
FIXED = "prints one fixed text"


def forged_programs(few_jobs):
    for name in [*BODIES, *JOBS]:
        yield Forgery(name, "check_jobs", WRONG_JOB, name, (few_jobs,))
        yield Forgery(name, "compare_random", WRONG_RANDOM_JOB, name, FEW)
    yield Forgery(FIXED, "refuse_calls", ": printed another row$", FIXED, crate="elasticlunr_tests")
    for name, case, said in [
        (SLOTS, "slots", r".* where the token is given once$"),
        (NO_SLOTS, "slots", "0 tables of slots were requested"),
        (GROWS, "room", r"10 requests for a text of 50000 characters, and 1 for one of 100$"),
        (GOES_ON, "InvertedIndex: new", r"\[\"to_value\"\]: request 1: \[\"to_value\"\] -> "),
    ]:
        yield Forgery(name, "refuse_calls", f"^calls: {case}: {said}", name, (case,), "elasticlunr_tests")
    yield Forgery(FIXED, "long_inputs", "or another text$", FIXED)
    yield Forgery(SLOW, "long_inputs", r"^long input, a search: .*, and \d+ are the most$", SLOW, ("a search",), COMMAND)


def forged_refusals():
    """Programs that do something else when memory is refused."""
    one, three = "one document", "three fields"
    for name, kind, said in [
        (FIXED, one, "request 1: "),
        ("prints row 1 for everything", three, "request 1: "),
        ("prints row 1 for everything", one, "0 requests were refused"),
        ("crashes", one, "request 1: status killed"),
        ("does not end", one, "request 1: status no answer"),
    ]:
        yield Forgery(name, "refuse_memory", f"^refused memory, {kind}: {said}", name, (kind,))
    for name, kind, crate, said in [
        ("finds nothing", "any word", COMMAND, "request 0: status 0"),
        ("crashes", "any word", COMMAND, "request 0: status killed"),
        ("finds less when out of memory", "any word", COMMAND, "request 1: status 0"),
        ("says nothing when out of memory", "any word", COMMAND, "0 requests were refused"),
        ("says something else when out of memory", "any word", COMMAND, r"request 1: status 1, '', 'no index\\n'"),
        ("finds nothing", "find any", FIND, "request 0: status 0"),
        ("finds less when out of memory", "find any", FIND, "request 1: status 0"),
        ("finds one reference less", "find any", FIND, "request 0: status 0"),
    ]:
        yield Forgery(name, "refuse_memory", f"^refused memory, {kind}: {said}", name, (kind,), crate)


def forged_searches():
    """Programs that search wrongly, and searches that try nothing."""
    few = ("--queries", "60", "--indexes", "30")
    other = r'^search: \{"field": '
    ranks = r'^search: \{"options": .*: '
    for name in ("finds __proto__ for everything", "finds nothing", "finds any word for all", "finds one reference less", "crashes"):
        yield Forgery(name, "compare_search", other, name, few, FIND)
    for name, said in [
        ("finds nothing", r"finds \[\] instead of"),
        ("ranks in the order of references", "has .* where elasticlunr.js has"),
        ("rounds scores", "scores .* with"),
        ("ignores boosts", "scores .* with"),
        ("ignores beginnings", "finds .* instead of"),
        ("prints other texts", "has another text of"),
        ("crashes", "status killed"),
    ]:
        yield Forgery(name, "compare_search", ranks + said, name, few, COMMAND)
    yield Forgery("ignores its documents", "compare_search", r"^search: .*: 0 queries found something", "ignores its documents", few)
    yield Forgery("crashes", "compare_search", "^search: elasticlunr_index prints no index: ", "crashes", few)
    yield Forgery("no queries", "compare_search", "^search: .*: 0 queries, and ", arguments=("--queries", "0"))
    yield Forgery("no indexes", "compare_search", "^search: random indexes: 0 queries, and ", arguments=("--indexes", "0"))
    yield Forgery("no script", "compare_search", "^search: there is no /none.js", arguments=("--script", "/none.js"))


def forged_orders():
    """Programs that search long texts wrongly or too long."""
    keys, unknown = ("keys that fall",), ("docInfo hasn't",)
    bound, deep = ("the bound of steps",), ("deep jobs",)
    for name, arguments, said in [
        ("finds nothing", keys, "keys that fall: .*: status 0, or another answer: ''"),
        ("crashes", keys, "keys that fall: .*: status -9, or another answer: ''"),
        ("takes too many steps for the text", unknown, r"references that docInfo hasn't: .*: 2\.6 times are the most"),
        ("finds one reference less", bound, r"the bound of steps: \d+ documents share 10000 letters: another answer"),
        ("may take more steps", bound, r"the bound of steps: \d+ documents share 30000 letters: another answer"),
        ("finds one reference less", deep, r"deep job \d+, .* instead of "),
        ("reads no index at any depth", deep, r"deep job \d+, .*nested deeper than 127 levels.* instead of "),
    ]:
        yield Forgery(name, "orders", f"^order, {said}", name, arguments, FIND)
    for name, case, said in [
        ("crashes", "an index", "status -9, 0 documents of 16384"),
        ("takes too many steps for the words", "one document", r"million instructions, .*: 2\.6 times are the most"),
    ]:
        yield Forgery(name, "one_hash", f"^one hash, {case}: .*{said}", name, (case,), COMMAND)
    for name, said in [
        ("takes long for stems", r"million instructions, .*: 1\.5 times are the most"),
        ("a command that stems no word", r"1000 pages of 1000, stages \[\]"),
    ]:
        yield Forgery(name, "remembered", f"^remembered, 1000 words: .*{said}", name, (), COMMAND)


def forged_stems(folder):
    """Programs that stem wrongly, and a model that does."""
    made = r"^stems, made up, (da|fr), (current|older): '"
    for name, code in [(FIXED, "da"), ("crashes", "da"), ("stems one word less", "da"), ("stems after one version", "fr")]:
        yield Forgery(name, "stems", made, name, (code,), STEMS)
    model = ("tests/stems_model.py", "key=lambda row: len(row[0])", "key=lambda row: -len(row[0])")
    top = forged_copy(folder, "a model that takes the shortest suffix", ("tests", "tools"), ("crates",), model)
    yield Forgery("a model that takes the shortest suffix", "stems", "^stems, model, da, current: ", arguments=("da",), top=top)


def forged_commands(folder):
    rows = lines_of("tests/command_rows.jsonl")[:COMMANDS]
    few = write_table(os.path.join(folder, "few-commands.jsonl"), rows, COMMANDS)
    cut = write_table(os.path.join(folder, "commands-cut-short.jsonl"), rows[:-1], COMMANDS)
    rest = (few, "check_forms", "check_search", "check_files")
    yield Forgery(FIXED, "command", r"^command, (job|objects|lines) \[", FIXED, rest, COMMAND)
    yield Forgery("does not end", "command", "no answer in 1 seconds", "does not end", rest, COMMAND)
    for name, said in [("searches any word for all", r"search \['fox dog', '--all'\]"), ("always ends well", "refused, the old file stays")]:
        yield Forgery(name, "command", f"^command, {said}: ", name, rest, COMMAND)
    longer = "a command that allows a character more"
    yield Forgery(longer, "command", "^command, kept, short, lines, English: ", longer, (few, "check_kept"), COMMAND)
    hidden = "a command that indexes no reference"
    yield Forgery(hidden, "command", "^command, kept, the reference is indexed, objects, English: ", hidden, (few, "check_kept"), COMMAND)
    plain = "a command that stems no word"
    yield Forgery(plain, "command", "^command, --stems, German, lines: ", plain, (few, "check_stems"), COMMAND)
    early = "a command that takes a failed input for its end"
    yield Forgery(early, "command", r"^command, an input that fails, lines, \['build'\]: ", early, (few, "check_failing_input"), COMMAND)
    yield Forgery("a table of commands cut short", "command", f"^command, table: {COMMANDS - 1} rows instead of {COMMANDS}", arguments=(cut, "none"))


# Pages: a script in the head that changes what the page does, and the case that must fail
PAGES = {
    "a page whose marks are none": (
        'const make = document.createElement; document.createElement = function (name) { return make.call(this, name === "mark" ? "b" : name); };',
        "page: found words are marked",
    ),
    "a page that links to whatever address": (
        'Object.defineProperty(URL.prototype, "protocol", { get: () => "https:" });',
        "page: references that would run a script",
    ),
}


# Scripts: a text of a script, what it is replaced by, and the case that must fail
SCRIPTS = {
    "a reader that counts a document more in the browser": (
        "elasticlunr-pieces.js", "count: list.length / 2", "count: list.length / 2 + 1", "pieces: English, whole and in pieces",
    ),
    "a page that shows what comes late": ("search.js", "if (work !== waiting) return;", "", "pieces: a query while another one is loading"),
    "a page that hides a missing text": (
        "search.js", "if (error) addMissing(result, error);", "if (error) continue;", "pieces: an error of the server for a piece of the texts",
    ),
    "a page that shows no title at first": ("search.js", "if (heading) addTitle(title, heading.trim());", "", "pieces: titles first, and each text as it comes"),
    "a page that forgets a key": ("search.js", "if (isSearching) next = action;", "if (isSearching) return;", "pieces: keys while a query is loading"),
    "a page that takes a text for markup": (
        "search.js", "if (heading) title.replaceChildren(...passage(new Text(heading.text), 0));", "if (heading) title.innerHTML = heading.text;",
        "pieces: hostile references and texts",
    ),
    "a script whose table lost its last row": ("elasticlunr-danish.js", r'\n&-a 12 34"', '"', "stems: Danish, by elasticlunr-danish.js"),
    "a stemmer with a wrong mark": (
        "elasticlunr-german.js", "Math.max(numbers[at + 1], ", "Math.max(0, ", "stems: German, by elasticlunr-german.js",
    ),
    "a stemmer that keeps a token without a stem": ("elasticlunr-turkish.js", "return stem || undefined;", "return stem;", "stems: a word without a stem"),
    "a stemmer that reads what is damaged": (
        "elasticlunr-german.js", "!rows.every(isSafe)", "false", "stems: damaged tables",
    ),
}


def forged_copy(folder, name, parts, links, replaced):
    """A copy of the folders that a check needs, next to links to others, with a file in which a text is replaced."""
    file, old, new = replaced
    top = os.path.join(folder, name.replace(" ", "-"))
    for part in parts:
        shutil.copytree(os.path.join(TOP, part), os.path.join(top, part), ignore=shutil.ignore_patterns("__pycache__", "out"))
    for path in links:
        os.symlink(os.path.join(TOP, path), os.path.join(top, path))
    text = read(file)
    assert text.count(old) == 1, f"{file} hasn't {old} once"
    write(os.path.join(top, file), text.replace(old, new))
    return top


def forged_page(folder, name, case, file, old, new):
    """A page with a file of browser/ in which a text is replaced."""
    links = ("README.md", "browser/out", "crates", "docs")
    top = forged_copy(folder, name, ("tests", "tools", "browser"), links, (f"browser/{file}", old, new))
    return Forgery(name, "browser", f"^{case}: AssertionError: ", arguments=(case,), top=top)


def forged_pages(folder):
    for name, (script, case) in PAGES.items():
        yield forged_page(folder, name, case, "search.html", "<head>", f"<head><script>{script}</script>")
    for name, (file, old, new, case) in SCRIPTS.items():
        yield forged_page(folder, name, case, file, old, new)


# Readers of pieces: a text of the reader, what it is replaced by, and what the check must say
READERS = {
    "a reader that adds scores in the order of bytes": ("code >= 48 && code <= 57 ? code - 58 : code", "code", "pieces, sums in the order of a trie: "),
    "a reader that orders by UTF-16": (".codePointAt(at)", ".charCodeAt(at)", r"pieces, characters: .*Error: "),
    "a reader that counts a document more": ("count: list.length / 2", "count: list.length / 2 + 1", r"pieces, \w+: \{.* hits and not "),
    "a reader that finds nothing": ("(await this.lookUp(query, options)).hits", "[]", r"pieces, \w+: \{.*: 0 hits and not "),
    "a reader that expands each word": ("<= maxPieces", "<= Infinity", r"pieces, \w+: \{.*(fetches \d+ pieces| hits and not )"),
    "a reader that fetches each piece": ("byBytes(first, word) <= 0", "true", r"pieces, \w+: \{.*: fetches \d+ pieces"),
    "a reader that fetches a piece again": ("if (!known) return", "if (true) return", "pieces, calls that overlap: "),
    "a reader that keeps what failed": ("this.files.delete(name);", "", "pieces, a fetch that fails once: "),
    "a reader that gives no cause": ("if (cause) error.cause = cause;", "", "pieces, a fetch that fails once: "),
    "a reader whose words are everywhere": ("hasOwn(this.found.in(at, token).docs, name)", "true", "pieces, the words of a query: "),
    "a reader that believes a piece of another length": ("size !== undefined && size !== bytes", "false", "pieces, a piece that leaves something out: "),
    "a reader that keeps all pieces": ("if (this.bytes <= this.most) return;", "return;", "pieces, pieces past a bound: "),
    "a reader that reads the head at each key": ("Date.now() - this.renewed < AGAIN", "false", "pieces, a failure at each key: "),
    "a reader that gives the title of another document": ("(start += count) - count", "(start += count) - 1", "pieces, titles: "),
    "a reader that takes any piece": ("tokens[0] !== tries[number]", "false", "pieces, a piece of another form: "),
    "a reader that stays with an old head": ("this.pieces = newer;", "this.pieces;", "pieces, a head that is replaced: "),
    "a reader that takes names of every object": ("name in Object.prototype ||", "", r"pieces, \w+: \{.*: "),
}


def forged_readers(folder):
    reader = read("browser/elasticlunr-pieces.js")
    for name, (old, new, says) in READERS.items():
        assert old in reader, f"the reader of pieces has no {old}"
        path = write(os.path.join(folder, name.replace(" ", "-") + ".js"), reader.replace(old, new))
        yield Forgery(name, "pieces", f"^{says}", arguments=("--indexes", "20", "--reader", path))
    yield Forgery("no reader", "pieces", "^pieces: there is no /none.js", arguments=("--reader", "/none.js"))
    size = "a command that cuts by another size"
    yield Forgery(size, "pieces", "the command writes other files than the model$", size, ("--indexes", "20"), COMMAND)
    yield Forgery("a program that crashes", "pieces", "^pieces: elasticlunr_index prints no index: ", "crashes", ("--indexes", "20"))


# Readers of HTML: a file of python/elasticlunr, a text of it, what it is replaced by, the case, and what the check must say
HTML_READERS = {
    "a reader that keeps what stands around a text": ("pages.py", 'HIDDEN = set("nav header', 'HIDDEN = set("aside', "around the text", "page, what stands"),
    "a reader that gives up at a fault": ("pages.py", "return self.parse_bogus_comment(i, report)", "raise KeyError(i)", "damage", r"page, damage \d+: KeyError"),
    "a reader that takes each page for UTF-8": ("pages.py", 'codecs.lookup(label or "utf-8")', 'codecs.lookup("utf-8")', "windows-1252", "page, windows-1252"),
    "a reader that finds no sections": ("pages.py", "if part.is_heading and part.anchor:", "if part.anchor == part:", "sections", "page, sections: "),
    "a site whose addresses are names": ("site.py", "safe=IN_ADDRESSES)}", "safe='#% ')}", "a folder", "site, --sections: "),
    "a site of one language": ("site.py", "LANGUAGES.get(code, self.default)", "self.default", "a folder", "site, pages: "),
}


def forged_sites(folder):
    for name, (file, old, new, case, says) in HTML_READERS.items():
        top = forged_copy(folder, name, ("tests", "tools", "python"), ("crates",), (f"python/elasticlunr/{file}", old, new))
        yield Forgery(name, "site", f"^{says}", arguments=(case,), top=top)


# Libraries for C: the body of one of these calls, where `kept` is the built one, and what the check must say
DOCUMENTS, PIECES = "index_documents", "index_pieces"
LIBRARY = """
#include "elasticlunr.h"
#include <stdlib.h>
#include <unistd.h>
uint32_t kept(const uint8_t *input, size_t size, uint8_t **text, size_t *length);
uint32_t elasticlunr_CALL(const uint8_t *input, size_t size, uint8_t **text, size_t *length)
{
    BODY
}
"""
KEPT = "uint32_t status = kept(input, size, text, length); "
LIBRARIES = {
    "a library that takes a byte too many": (
        KEPT + "return status == 3 && size ? kept(input, size - 1, text, length) : status;", r"input \d+: status [02] instead of 3",
    ),
    "a library that says of all input that it is malformed": ("return 3;", r"input \d+: status 3 instead of 0"),
    "a library that writes where it has no text": ("*length = 0; return kept(input, size, text, length);", "no answer, and a length is written"),
    "a library that answers malformed bytes with a text": (
        KEPT + "if (status == 3) *text = malloc(1); return status;", "a text without an answer, or an answer without a text",
    ),
    "a library that ends each text with a line feed": (
        KEPT + "if (!status) *text = realloc(*text, *length + 1), (*text)[(*length)++] = 10; return status;", "status 0 instead of 0, or another text",
    ),
    "a library that keeps a block": (
        "void *volatile block = malloc(8); return block ? kept(input, size, text, length) : 1;", "a block is not given back",
    ),
    "a library that says malformed where memory is refused": (KEPT + "return status == 1 ? 3 : status;", "another answer after a refused request"),
    "a library that takes room for each number": (
        KEPT + "if (status == 3) { void *volatile block = malloc(99999); free(block); } return status;", "take more memory than they have items",
    ),
    "a library for one thread": ("return getpid() == gettid() ? kept(input, size, text, length) : 3;", "another answer while other threads call"),
}
LIBRARIES_OF_PIECES = {
    "a library whose last piece has another end": (KEPT + "if (!status) (*text)[*length - 1]++; return status;", "status 0 instead of 0, or another text"),
    "a library that loses its last byte": (KEPT + "if (!status) --*length; return status;", "status 0 instead of 0, or another text"),
    "a library that takes a refusal for pieces": (KEPT + "return status == 2 ? 0 : status;", "status 0 instead of 2, or another text"),
    "a library that says of no field that it is malformed": ("return size && !input[0] ? 3 : kept(input, size, text, length);", r"input \d+: status 3 instead of 0"),
}
if shutil.which("valgrind"):
    READS = "volatile uint8_t last = input[size]; return last < 256 ? kept(input, size, text, length) : 9;"
    LIBRARIES["a library that reads a byte too many"] = (READS, "valgrind: status 9")

# Files: a text of a file, what it is replaced by, the part that is tried, and what the check must say
C_CALLS = {
    "a model that accepts a byte too many": (
        "tests/flat_model.py", "if self.at < len(self.given):", "if self.at + 1 < len(self.given):", r"input \d+: status 3 instead of [02]",
    ),
    "a model that runs all tokens through the pipeline": (
        "tests/flat_model.py", "if value.source == AS_GIVEN:", "if value.source == MALFORMED:", "status 0 instead of 0, or another text",
    ),
    "a model that takes all tokens as they are": (
        "tests/flat_model.py", "if value.source == AS_GIVEN:", "if value.source != FROM_TEXT:", "status 0 instead of 0, or another text",
    ),
    "a model that adds the last document first": (
        "tests/flat_model.py", "for doc in it.docs:", "for doc in it.docs[::-1]:", "status 0 instead of 0, or another text",
    ),
    "a model that asks for the language last": (
        "tests/flat_model.py", "if it.stages is None and it.lang not in LANGUAGES:",
        "if it.stages is None and it.lang not in LANGUAGES and len(set(it.fields)) == len(it.fields):",
        "status 2 instead of 2, or another text",
    ),
    "a model that stems no word": (
        "tests/flat_model.py", "found = [stem for stem in map(stemmer(CODES[it.lang]).stem, found) if stem]", "pass", "status 0 instead of 0, or another text",
    ),
    "a decoder that reads another input": ("tests/flat_model.py", "Value(text, source, ", "Value(text, AS_GIVEN, ", "inputs are not read back"),
    "inputs without damage": (
        "tests/flat_inputs.py", "for it in short_inputs() for damaged in", "for it in () for damaged in", r"\d+ inputs, and \d+ are the least",
    ),
    "an answer that is never compared": (
        "tests/c_calls.c", "        print(made);\n        give_back(made);\n    }\n}\n\n/* Each", "        if (number) print(made);\n        give_back(made);\n    }\n}\n\n/* Each",
        r"status 0, \d+ answers",
    ),
    "a module that runs tokens through the pipeline": ("python/elasticlunr/__init__.py", "AS_GIVEN = 0, 2", "AS_GIVEN = 0, 1", "Python, tokens of a field: "),
    "a module that stems no word": ("python/elasticlunr/__init__.py", "STEMMED if stems else BUILT_IN", "BUILT_IN", "Python, words that are stemmed: "),
    "a module that makes tokens of the reference": (
        "python/elasticlunr/__init__.py", "None if field == key else _no_tokens", "_no_tokens", "Python, the reference has no tokens: ",
    ),
}

# The same for pieces, and for those that Python writes
CUT = {
    "a model that numbers pieces from one": (
        "tests/pieces_model.py", 'f"t{number}.json": joined', 'f"t{number + 1}.json": joined', "status 0 instead of 0, or another text",
    ),
    "a model of pieces of twice the size": ("tests/flat_model.py", "cutting.size, cutting.title)", "2 * cutting.size, cutting.title)", "status 0 instead of 0, or another text"),
    "a decoder that reads other titles": ("tests/flat_model.py", "Cutting(self.text(), self.number()", "Cutting(self.text()[:1], self.number()", "inputs are not read back"),
    "pieces without damage": ("tests/cutting_inputs.py", "for it in short_cuttings() for damaged in", "for it in () for damaged in", r"\d+ inputs, and \d+ are the least"),
    "a module that replaces the head first": (
        "python/elasticlunr/publish.py",
        "        is_new = _give_name(pieces, os.path.join(folder, name))\n        _write_file(path, head)\n",
        "        _write_file(path, head)\n        is_new = _give_name(pieces, os.path.join(folder, name))\n",
        "pieces of Python, killed at ",
    ),
    "a module that keeps what is no longer needed": ("python/elasticlunr/publish.py", "for name in plan.removed:", "for name in ():", "pieces of Python, after Python: "),
    "a module that removes all earlier folders": ("python/elasticlunr/publish.py", "kept = heads[-keep:]", "kept = heads[-1:]", "pieces of Python, two are kept: "),
    "a module that waits for nobody": (
        "python/elasticlunr/publish.py", "            fcntl.flock(file, fcntl.LOCK_EX)\n        yield", "            pass\n        yield", "pieces of Python, one at a time: ",
    ),
    "a module that removes what another one writes": (
        "python/elasticlunr/publish.py",
        "        fcntl.flock(file, fcntl.LOCK_EX | fcntl.LOCK_NB)\n        if _is_at(file, path):", "        if _is_at(file, path):", "pieces of Python, one at a time: ",
    ),
    "a module that leaves what was left": ("python/elasticlunr/publish.py", "    _remove_left(path)\n    for number", "    for number", "pieces of Python, what was left is removed"),
    "a module with titles of another field": ("python/elasticlunr/__init__.py", "_flat_text(title) + _flat_number", "_flat_text(ref) + _flat_number", "pieces of Python, "),
}

# The same for searches
SEARCHES = {
    "a search that expands by any number": (
        "tests/flat_model.py", "bool(self.number(2)), self.items(self.text)", "bool(self.number(256)), self.items(self.text)",
        r"input \d+: status 3 instead of 0",
    ),
    "a search that never expands": ("tests/search_inputs.py", '["--expand"]', "[]", "status 0 instead of 0, or another text"),
    "searches that find nothing": (
        "tests/search_inputs.py", "in enumerate(QUERIES[name])", 'in enumerate([""] * len(QUERIES[name]))', r"\d+ searches find something",
    ),
}


def forged_library(folder, name, body, built, call):
    """The folder of a library that is the built one but for a function."""
    made = os.path.join(folder, name.replace(" ", "-"))
    shutil.copytree(built, made)
    archive, own = os.path.join(made, "lib", "libelasticlunr.a"), os.path.join(made, "lib", "forged.o")
    subprocess.run(["objcopy", "--redefine-sym", f"elasticlunr_{call}=kept", archive], check=True)
    text = LIBRARY.replace("BODY", body).replace("CALL", call).encode()
    command = ["cc", "-O2", "-fPIC", "-D_GNU_SOURCE", "-I", os.path.join(made, "include")]
    subprocess.run([*command, "-x", "c", "-c", "-o", own, "-"], input=text, check=True)
    subprocess.run(["ar", "r", archive, own], check=True, capture_output=True)
    library.link_shared(made)
    return made


def forged_libraries(folder):
    built = os.path.join(folder, "library")
    for name in ("lib", "include"):
        shutil.copytree(os.path.join(TOP, "out", name), os.path.join(built, name))
    for call, bodies in [(DOCUMENTS, LIBRARIES), (PIECES, LIBRARIES_OF_PIECES)]:
        for name, (body, says) in bodies.items():
            made = forged_library(folder, name, body, built, call)
            yield Forgery(name, "c_calls", f"^c, .*{says}", arguments=(call,), library=made)
    for part, of_python, replaced in [(DOCUMENTS, "Python", C_CALLS), (PIECES, "pieces of Python", CUT), ("search", "Python", SEARCHES)]:
        for name, (file, old, new, says) in replaced.items():
            top = forged_copy(folder, name, ("tests", "tools", "python", "include"), ("bench", "crates"), (file, old, new))
            words = (part if file.startswith("tests") else of_python,)
            yield Forgery(name, "c_calls", f"^c, .*{says}", arguments=words, top=top, library=built)


# Releases: a file that makes them, a text of it, what it is replaced by, the case, and what the check must say
RELEASES = {
    "a release of this hour": ("dist.py", 'f"--mtime=@{seconds}"', '"--mtime=now"', "members", r"members: .*/bin: \("),
    "a release without a folder": ("dist.py", '("browser", "examples"', '("examples"', "list", "list: browser/search.js is not in a release"),
    "a release with a picture": ("dist.py", '".png", ', "", "list", "list: browser/search.png has no place in a release"),
    "checksums of some files": ("dist.py", "for path in sorted(files))", "for path in sorted(files)[1:])", "checksums", "checksums: LICENSE-APACHE: None instead of "),
    "a package of another folder": ("dist.py", '"${pcfiledir}/../.."', '"/usr/local"', "pkg-config", "pkg-config: --cflags gives "),
    "programs for a newer glibc": ("dist.py", "name: (2, 34) for", "name: (2, 99) for", "refusals", "refusals: bin/elasticlunr, which needs GLIBC_2.35 "),
    "programs with another library": ("dist.py", "if it not in PARTS_OF_GLIBC", "if False", "refusals", "refusals: .*, which needs GLIBC_2.2.5 of libother"),
    "a README with a gap": ("dist.py", '.replace("CHECKSUM", checksum)', "", "texts", "texts: README.md has a place"),
    "a page with a link to no file": ("dist.py", "else link[1]", "else link[0]", "texts", "texts: docs/COMMAND.md: there is no "),
    "a manual without an option": ("manual.py", "*usage.options]", "*usage.options[1:]]", "manual", "manual: build --format: "),
    "a manual without meanings": ("manual.py", "{escaped(meaning)}.", "See the help.", "manual", "manual: build --format: "),
    "a shell that completes less": ("completions.py", "for word in usage.options]\n    return", "for word in usage.options[:3]]\n    return", "completions", "completions: share/fish/"),
    "licenses of some crates": ("licenses.py", "set(named())", "set(named()[1:])", "licenses", "licenses: there is none of clap/"),
    "a help that is read in part": ("usage.py", ' - {"Commands:", "Arguments:", "Options:"}', " - set(below)", "helps", "helps: another section "),
}


def forged_releases(folder):
    """Copies of the scripts, next to links to all other files."""
    copied = ("tests", "tools")
    links = [path for path in os.listdir(TOP) if path not in copied]
    for name, (file, old, new, case, says) in RELEASES.items():
        top = forged_copy(folder, name, copied, links, (f"tools/{file}", old, new))
        yield Forgery(name, "dist_files", f"^dist, {says}", arguments=("--built", case), top=top)
    yield Forgery(FIXED, "dist_files", "^dist: ValueError", FIXED, ("--built", "none"), COMMAND)


def forged_tables(folder):
    rows = lines_of(tables.JOBS)[-ROWS:]
    forged = [
        ("a table cut short", rows[:-1], ROWS, f"{ROWS - 1} rows instead of {ROWS}"),
        ("an empty table", [], ROWS, f"0 rows instead of {ROWS}"),
        ("an empty table that should be empty", [], 0, "0 rows instead of 0"),
        ("a table without its number of rows", rows, None, "its number of rows isn't next to it"),
        ("a table with another answer", [rows[0].replace("0.9.5", "0.9.6")] + rows[1:], ROWS, r"^job 1: status"),
        ("a table with a broken row", ["{}\n"] + rows[1:], ROWS, r"^job 1: status"),
    ]
    for name, kept, number, says in forged:
        path = write_table(os.path.join(folder, name.replace(" ", "-") + ".jsonl"), kept, number)
        yield Forgery(name, "check_jobs", says, arguments=(path,))


def without(kinds, page):
    """A page without its blocks of these kinds."""
    return re.sub(rf"^```({kinds})\n.*?^```\n", "", page, flags=re.DOTALL | re.MULTILINE)


def forged_code():
    """Pages whose blocks of Rust, of proofs or of lines of crates.txt are others, or are gone. They have no shell, which takes
    seconds, and one alone has the crates of its reader, which take longer."""
    readme, library = without("console", read("README.md")), without("rattle", read("docs/LIBRARY.md"))
    own = read("docs/LIBRARY.md").replace("&[title, body])", "&[title, text])", 1)
    part = r"elasticlunr_site: the page shows \[.*\] instead of \["
    find = read("crates/elasticlunr_find/src/main.rt")
    error = read("crates/elasticlunr_error/src/lib.rt")
    yield "another line of Rust", "README.md", readme.replace("    index.compact()?;\n", "", 1), "Rust: no crate has this file"
    yield "one more block of Rust", "README.md", readme + "```rust\npub fn nothing() {}\n```\n", "Rust: no crate has this file"
    yield "a file of a program", "README.md", readme + f"```rust\n{find}```\n", "Rust: no crate has this file"
    yield "one more crate in part", "README.md", readme + f"```rust\n{error}```\n", "elasticlunr_error: the page shows "
    yield "a crate without its proof", "LIBRARY.md", re.sub(r"^```antt\n.*?^```\n", "", library, count=1, flags=re.DOTALL | re.MULTILINE), part
    yield "a crate twice", "README.md", readme + readme[readme.index("```rust") : readme.index("```\n", readme.index("```rust")) + 4], "page shows src/lib.rt twice"
    yield "a line of crates.txt twice", "README.md", readme + "```text\nelasticlunr_site: elasticlunr\n```\n", "page shows its line of crates.txt twice"
    yield "no Rust", "README.md", without("rust|antt", readme), "a whole crate: the page has none"
    yield "no Rust but the lines of crates.txt", "README.md", without("rust|antt", readme), part
    yield "modules of one crate alone", "README.md", without("rust|antt|text", readme) + library[library.index("This module,") :], "a whole crate: the page has none"
    yield "no lines of crates.txt", "README.md", without("text", readme), "lines of crates.txt: the page has none"
    yield "no line of its crate", "README.md", without("text", readme), "elasticlunr_site: the page has no line of crates.txt for it"
    yield "one more line of crates.txt", "README.md", readme + "```text\nelasticlunr_find: elasticlunr_search\n```\n", "elasticlunr_find: the page shows "
    yield "another line of crates.txt", "README.md", readme.replace("site: elasticlunr\n", "site: std\n"), "crates.txt has no line"
    yield "a line of another name", "README.md", readme.replace("elasticlunr_site: elasticlunr\n", "my_site: elasticlunr\n"), "crates.txt has no line"
    proved, calling = read("docs/PROVED.md"), read("crates/elasticlunr/CALLING.md")
    yield "a clause that no call has", "README.md", readme.replace("`errors` and `memory`", "`errors` and `wording`", 1), "clause wording: no call has this clause"
    yield "a clause of another call", "PROVED.md", proved.replace("`added` of `add_doc`", "`added` of `remove_doc`"), "clause added of remove_doc: it has no such clause"
    yield "a quoted clause that is gone", "CALLING.md", calling.replace("  ensures too_many:", "  ensures many:", 1), "clause many of Index::add_doc: it has no such clause"
    yield "a law that is gone", "PROVED.md", proved.replace("law `readers_agree`", "law `readers_differ`", 1), "law readers_differ: no crate has this law"
    yield "a crate of its reader that has a mistake", "LIBRARY.md", own, "crates of the reader: `rt try`: .*cannot find value `text`"
    yield "no crate of its reader", "LIBRARY.md", library, "crates of the reader: the page has none"
    claims, other = read("docs/CLAIMS.md"), "clauses and mutants: tools/claims.py prints another page"
    yield "a mutant less", "CLAIMS.md", re.sub(r"\| ([\w-]+), [\w-]+ \|", r"| \1 |", claims, count=1), other
    yield "fewer clauses without a mutant", "CLAIMS.md", re.sub(r"\d+ of the clauses", "0 of the clauses", claims), other
    by_hand = without("json", theorem := read("docs/THEOREM.md"))
    yield "another count", "THEOREM.md", theorem.replace('`"length":2', '`"length":1'), "an index by hand: its parts are not what"
    yield "no job", "THEOREM.md", by_hand, "an index by hand: its parts are not what"
    yield "another module", "LIBRARY.md", library.replace('from_str(alloc, "xx")', 'from_str(alloc, "yy")', 1), "Rust: no crate has this file"
    yield "another proof", "LIBRARY.md", library.replace("if-is_empty.true", "if-is_empty.false", 1), r"a proof: crates/\S+ is another text"
    yield "another proof of its crate", "LIBRARY.md", library.replace("take l.draft-index", "take l.page-index", 1), r"a proof: crates/\S+ is another text"


def forged_text():
    """Pages whose commands, jobs, links, names or kit are others, or are gone."""
    readme = read("README.md")
    quiet, command = without("console", readme), without("console", read("docs/COMMAND.md"))
    kit = re.compile(r"logic [0-9a-f]{16}")
    documents = without("json", quiet) + '```json\n[{"id": "1", "body": "word"}]\n```\n'
    yield "a command that fails", "README.md", readme + "```console\n$ make no-such-thing\n```\n", "make no-such-thing: status 2"
    yield "a command that doesn't exist", "README.md", readme.replace("$ make test", "$ make tested"), "make tested: status 2"
    yield "another answer", "README.md", readme.replace("\nguide/search.html\n", "\nguide/other.html\n"), "it prints "
    yield "no shell", "README.md", quiet, "shell: the page has none"
    yield "a job that is none", "README.md", quiet.replace('"docs": [[', '"pages": [['), "JSON: it is no job: refused"
    yield "a job that is none", "COMMAND.md", command.replace('"docs": [\n', '"pages": [\n'), 'JSON: .*"pages" is not a key of a job'
    yield "documents instead of a job", "README.md", documents, "JSON: it is no job: refused"
    yield "no job", "README.md", without("json", quiet), "a job: the page has none"
    yield "a link to no file", "README.md", quiet.replace("docs/PERF.md", "docs/SPEED.md"), "docs/SPEED.md.*: there is no such file"
    yield "a link to no heading", "README.md", quiet.replace("#what-is-kept", "#hours"), "there is no such heading"
    yield "a name that no crate has", "README.md", quiet.replace("_are_as_new", "_are_new"), "no crate has this name"
    yield "another kit", "README.md", kit.sub("logic 0123456789abcdef", quiet), "the kit: the kit here has logic"


def forged_docs(folder):
    for what, page, text, says in (*forged_code(), *forged_text()):
        name = f"{page} with {what}"
        path = write(os.path.join(folder, name.replace(" ", "-"), page), text)
        yield Forgery(name, "check_docs", says, arguments=(path,))


def write_programs(folder):
    """Writes the forged programs, and gives their paths by name."""
    paths = {name: os.path.join(folder, re.sub(r"\W+", "-", name)) for name in [*BODIES, *FINDERS, *CALLED, *CHANGES]}
    for name, body in {**BODIES, **FINDERS, **CALLED}.items():
        text = INCLUDES + "int main(void) { " + body + " }\n"
        subprocess.run(["cc", "-x", "c", "-o", paths[name], "-"], input=text.encode(), check=True)
    for name, (crate, way, change) in CHANGES.items():
        write(paths[name], BEGINS + f"path = {program(crate)!r}\n" + way.replace("CHANGE", change))
        os.chmod(paths[name], stat.S_IRWXU)
    return paths


def write_table(path, rows, number):
    if number is not None:
        write(path + ".rows", f"{number}\n")
    return write(path, "".join(rows))


def why_missed(forgery, paths):
    """Why the check passed a forgery, or failed without saying what is wrong. None if it did neither."""
    environment = dict(os.environ, RUN_SECONDS="1" if forgery.program == "does not end" else "20")
    if forgery.program:
        environment.update(FORGED_PROGRAM=paths[forgery.program], FORGED_CRATE=forgery.crate)
    if forgery.library:
        environment.update(FORGED_LIBRARY=forgery.library)
    command = [sys.executable, os.path.join(forgery.top, "tests", forgery.check + ".py"), *forgery.arguments]
    ended = subprocess.run(command, env=environment, stdout=subprocess.PIPE, stderr=subprocess.STDOUT, text=True)
    said = ended.stdout
    if ended.returncode == 0 or not re.search(r"^\w+: \d+ passed, [1-9]\d* failed$", said, re.MULTILINE):
        return f"status {ended.returncode}, or no count of failures: {said[-300:]}"
    failures = [line.removeprefix(FAILED) for line in said.splitlines() if line.startswith(FAILED)]
    return None if any(re.search(forgery.says, line) for line in failures) else f"it says something else: {' | '.join(failures)[:300]}"


def forgeries(folder, names):
    few_jobs = write_table(os.path.join(folder, "few-jobs.jsonl"), lines_of(tables.JOBS)[-ROWS:], ROWS)
    yield from forged_programs(few_jobs)
    yield from forged_refusals()
    yield from forged_orders()
    yield from forged_stems(folder)
    yield from forged_commands(folder)
    yield from forged_tables(folder)
    yield from forged_sites(folder)
    yield from forged_docs(folder)
    yield from forged_searches()
    yield from forged_readers(folder)
    yield from forged_pages(folder)
    if "c_calls" in names:
        yield from forged_libraries(folder)
    yield from forged_releases(folder)


def main():
    names = [word for word in sys.argv[1:] if word != "-v"]
    lacking = browser_tools.prepare() if any(NEEDS.get(name, set()) - {"git"} for name in names) else set()
    if not dist_files.has_history():
        lacking = lacking | {"git"}
    results = Results("forgeries")
    with tempfile.TemporaryDirectory() as folder:
        paths = write_programs(folder)
        for forgery in forgeries(folder, names):
            if forgery.check not in names if names else forgery.check in NEEDS:
                continue
            if lacking & NEEDS.get(forgery.check, set()):
                results.skipped += 1
                continue
            begun = time.monotonic()
            wrong = why_missed(forgery, paths)
            results.note(wrong is None, f"forgery, {forgery.check}: {forgery.name}: {wrong}")
            if "-v" in sys.argv:
                print(f"forgery, {forgery.check}: {forgery.name}: {time.monotonic() - begun:.1f} s", flush=True)
    return results.report()


if __name__ == "__main__":
    sys.exit(main())
