#!/usr/bin/env python3
"""Runs the built command `elasticlunr` on the rows of a table, and on files and devices.

usage: command.py [TABLE [CHECK ..]]

A line of the table is an object: `name`, `args`, `files` (names and texts of the files in the folder that the command runs
in), `stdin`, and what must come of it: `out`, `err` and `status`. Instead of `out` a row may have `job`: then the command must
print the text that elasticlunr_index prints for this job, with `before` before it and `after` after it, or write it to the
file `in`. Then `err` is `notes` and a last line with the numbers of the documents and of the tokens that this text has, its
bytes and the seconds. The number of the table's lines is in TABLE.rows.

After the table each function of CHECKS is run, or those that are named.
"""
import errno
import json
import os
import pty
import re
import resource
import shutil
import socket
import stat
import subprocess
import sys
import tempfile

sys.path.insert(0, os.path.join(os.path.dirname(__file__), ".."))

from bench.measure import measured
from tests.command_kept import check_kept
from tests.command_pieces import check_pieces
from tests.command_publish import check_publishing
from tests.command_search_pieces import check_search_pieces
from tests.command_stems import check_stems
from tests.memory_shim import Refusing
from tests.report import Results
from tests.tables import rows_missing
from tools.repository import TOP, lines_of, printed, program, run, write

COMMAND = program("elasticlunr_cli")
TABLE = os.path.join(TOP, "tests", "command_rows.jsonl")
SECONDS = re.compile(rb"\d+\.\d s\n")
DOCUMENTS = 100_000
MEGABYTES = 340  # of memory that so many documents may take, most of it for their index
OTHERS = 200  # numbers in each line, in a member that is no field
MORE = 4  # megabytes that the numbers of all lines may take
LEAST = 20  # requests for memory that must have been refused
SCRIPTS = ["window.search = ", "var x = {}; x.index = ", "if (a) {} i=", ""]  # texts before an index

JOB = {
    "fields": ["title", "body"],
    "docs": [["1", "Red fox", "The quick fox runs"], ["2", "Dog", "A lazy dog sleeps"], ["3", "Both", ""]],
}
OBJECTS = [
    {"id": "1", "title": "Red fox", "body": "The quick fox runs"},
    {"id": 2, "title": "Dog", "body": "A lazy dog sleeps", "tags": ["none"]},
    {"id": "3", "title": "Both"},
]
FOUND = [
    (["fox"], ["1"]),
    (["foxes dogs"], ["2", "1"]),
    (["fox dog", "--all"], []),
    (["lazy dog", "--all"], ["2"]),
    (["red quick", "--all"], ["1"]),
    (["red quick", "--all", "--field", "title"], []),
    (["red quick", "--all", "--field", "body"], []),
    (["red lazy", "--all"], []),
    (["quick", "--field", "title"], []),
    (["quick", "--field", "body"], ["1"]),
    (["both"], ["3"]),
    (["none"], []),
]


class Checks(Results):
    def check(self, name, good, found):
        self.note(good, f"command, {name}: {found}")


def tokens_of(text):
    """The tokens of all fields of a printed index."""
    found = set()
    left = [(table["root"], "") for table in json.loads(text)["index"].values()]
    while left:
        node, token = left.pop()
        if node["docs"]:
            found.add(token)
        left.extend((node[it], token + it) for it in node if it not in ("df", "docs"))
    return found


def counted(count, name):
    return f"{count} {name}" if count == 1 else f"{count} {name}s"


def ran(folder, args, given=b"", **options):
    return run([COMMAND, *args], given, cwd=folder, **options)


def expected(row):
    """The text and the standard error that a row wants."""
    if "job" not in row:
        return row.get("out", "").encode(), row.get("err", "")
    line = printed(row["job"]).encode()
    text = row.get("before", "").encode() + line.removesuffix(b"\n") + row.get("after", "").encode() + b"\n"
    documents = counted(len(json.loads(line)["documentStore"]["docs"]), "document")
    numbers = f"{documents}, {counted(len(tokens_of(line)), 'token')}, {len(line)} bytes"
    return text, f"{row['notes']}elasticlunr: {numbers}, N.N s\n"


def check_row(row, results):
    with tempfile.TemporaryDirectory() as folder:
        for name, text in row.get("files", {}).items():
            os.makedirs(os.path.dirname(os.path.join(folder, name)), exist_ok=True)
            with open(os.path.join(folder, name), "wb") as file:
                file.write(text.encode("utf-8", "surrogateescape"))
        given = bytes.fromhex(row["stdin_hex"]) if "stdin_hex" in row else row.get("stdin", "").encode()
        ended = ran(folder, row["args"], given)
        out = ended.out
        if "in" in row:
            with open(os.path.join(folder, row["in"]), "rb") as file:
                out = file.read()
        text, err = expected(row)
        found = (out, SECONDS.sub(b"N.N s\n", ended.err), ended.status)
        wanted = (text, err.encode(), row.get("status", 0))
        results.check(row["name"], found == wanted, f"{found} instead of {wanted}")


def check_rows(table, results):
    missing = rows_missing(table)
    if missing:
        results.check("table", False, missing)
    for line in lines_of(table):
        try:
            row = json.loads(line)
        except ValueError:
            row = {"name": "no row"}
        try:
            check_row(row, results)
        except (KeyError, OSError, ValueError) as error:
            results.check(row.get("name"), False, repr(error))


def check_forms(results):
    """The three forms of the same documents give the text that elasticlunr_index prints for the job."""
    wanted = printed(JOB).encode()
    lines = "".join(json.dumps(it) + "\n" for it in OBJECTS)
    forms = {"job": json.dumps(JOB), "objects": json.dumps(OBJECTS, indent=1), "lines": lines}
    for form, text in forms.items():
        for words in ([], ["--format", form]):
            words = [*words, *([] if form == "job" else ["--fields", "title,body"])]
            ended = run([COMMAND, "build", *words], text.encode())
            results.check(f"{form} {words}", (ended.out, ended.status) == (wanted, 0), ended)


def check_search(results):
    """What a search finds in an index of the objects."""
    with tempfile.TemporaryDirectory() as folder:
        given = json.dumps(OBJECTS).encode()
        ran(folder, ["build", "--fields", "title,body", "-o", "index.json"], given)
        for words, wanted in FOUND:
            ended = ran(folder, ["search", "index.json", *words])
            lines = "".join(it + "\n" for it in wanted).encode()
            said = b"" if wanted else b"index.json: nothing was found\n"
            results.check(f"search {words}", ended == (lines, said, 0), ended)
        check_scripts(folder, given, results)
        ended = ran(folder, ["search", "index.json", "fox", "--field", "titel"])
        wanted = (b"", b'index.json: no field "titel"; did you mean "title"?\n', 2)
        results.check("search in no field", ended == wanted, ended)


def check_deep_search(results):
    """A search finds in an index that nests deeper than a JSON value is read."""
    word = "k" * 1000
    with tempfile.TemporaryDirectory() as folder:
        given = json.dumps([{"id": "1", "a": word}, {"id": "2", "a": "fox"}]).encode()
        ran(folder, ["build", "-o", "index.json"], given)
        for query, *wanted in ((word, b"1\n", b""), (word[1:], b"", b"index.json: nothing was found\n"), ("fox", b"2\n", b"")):
            ended = ran(folder, ["search", "index.json", query])
            results.check(f"search of {len(query)} letters in a deep index", ended == (*wanted, 0), ended)
        ended = ran(folder, ["search", "index.json", "fox", "--field", "b"])
        results.check("search in no field of a deep index", ended == (b"", b'index.json: no field "b"; did you mean "a"?\n', 2), ended)


def check_scripts(folder, given, results):
    """A search reads an index in a script that `--js` wrote, and after a byte order mark."""
    for before in SCRIPTS:
        for more in ([], ["--pretty"]):
            ran(folder, ["build", "--fields", "title,body", "--js", before, "-o", "index.js", *more], given)
            ended = ran(folder, ["search", "index.js", "foxes dogs"])
            results.check(f"search in a script, {before!r} {more}", ended == (b"2\n1\n", b"", 0), ended)
    with open(os.path.join(folder, "index.json"), "rb") as file:
        text = file.read()
    files = {
        "marked.json": (b"\xef\xbb\xbf" + text, (b"2\n1\n", b"", 0)),
        "cut.json": (text[:40], (b"", b"cut.json:1:40: not JSON: it ends in the middle of a value\n", 2)),
        "cut.js": (
            b"i = " + text[:40] + b";\n",
            (b"", b"cut.js: not an index: what stands in the script is not JSON\n", 2),
        ),
        "none.js": (b"i = 5;\n", (b"", b"none.js:1:1: not JSON\n", 2)),
    }
    for name, (content, wanted) in files.items():
        with open(os.path.join(folder, name), "wb") as file:
            file.write(content)
        ended = ran(folder, ["search", name, "foxes dogs"])
        results.check(f"search in {name}", ended == wanted, ended)


SHOWN = [
    {
        "id": "a\x1b[31m\x9b\x7f",
        "title": "A fox,\n\x1b[2J red",
        "body": "One two three four five six seven eight (foxes), nine-fox\tten. " + "More words follow here. " * 20,
    },
    {"id": "b", "title": "Fox", "body": ""},
    {"id": "c", "title": "x" * 500 + " fox " + "y" * 500, "body": "No such word. " * 9},
]
ON_A_TERMINAL = [
    "1. [Fox] (b)",
    "2. A [fox], \\u{1b}[2J red (a\\u{1b}[31m\\u{9b}\\u{7f})",
    "   … three four five six seven eight ([foxes]), nine-[fox] ten. More words follow …",
    "3. " + "x" * 40 + "… [fox] " + "y" * 40 + "… (c)",
    "   No such word. No such word. No such word. No such word. No such word. No …",
]


def on_a_terminal(folder, words):
    """The status of a run of the command on a terminal, and what that gets."""
    reader, writer = pty.openpty()
    with os.fdopen(reader, "rb", buffering=0) as shown, os.fdopen(writer, "wb", buffering=0) as terminal:
        status = subprocess.run([COMMAND, *words], cwd=folder, stdout=terminal, stderr=subprocess.PIPE, timeout=20).returncode
        return status, shown.read(10_000).decode()


def check_terminal(results):
    """A terminal gets ranks, titles and lines of texts, and no control character of them; a pipe gets each reference byte
    for byte."""
    with tempfile.TemporaryDirectory() as folder:
        ran(folder, ["build", "-o", "index.json"], json.dumps(SHOWN).encode())
        ended = ran(folder, ["search", "index.json", "fox"])
        wanted = "".join(SHOWN[number]["id"] + "\n" for number in (1, 0, 2)).encode()
        results.check("references in a pipe", ended == (wanted, b"", 0), ended)
        ended = on_a_terminal(folder, ["search", "index.json", "fox"])
        results.check("hits on a terminal", ended == (0, "".join(f"{line}\r\n" for line in ON_A_TERMINAL)), ended)
        status, text = on_a_terminal(folder, ["search", "index.json", "fox", "--json"])
        good = status == 0 and text.count("\r\n") == 3 and not set(text) & {"\x1b", "\x9b", "\x7f"}
        results.check("JSON on a terminal", good, (status, text))
        ran(folder, ["build", "-o", "index.json", "--no-save"], json.dumps(SHOWN).encode())
        ended = on_a_terminal(folder, ["search", "index.json", "fox", "--limit", "1"])
        results.check("hits without texts on a terminal", ended == (0, "1. b\r\n"), ended)


def check_mode(folder, job, results):
    """A file that replaces another one has its mode, and a new file has the mode of any new file."""
    path = os.path.join(folder, "mode.json")
    before = os.umask(0o027)
    try:
        ended = ran(folder, ["build", "-o", "mode.json"], job)
        mode = stat.S_IMODE(os.stat(path).st_mode)
        results.check("the mode of a new file", (ended.status, mode) == (0, 0o640), oct(mode))
        for wanted in (0o600, 0o666, 0o755, 0o444):
            os.chmod(path, wanted)
            ended = ran(folder, ["build", "-o", "mode.json"], job)
            mode = stat.S_IMODE(os.stat(path).st_mode)
            results.check(f"the mode {wanted:o} stays", (ended.status, mode) == (0, wanted), oct(mode))
    finally:
        os.umask(before)
    os.remove(path)


def check_files(results):
    """A file is written whole or not at all, and nothing else stays in its folder."""
    job = json.dumps(JOB).encode()
    wanted = printed(JOB).encode()
    with tempfile.TemporaryDirectory() as folder:
        path = os.path.join(folder, "index.json")

        def left():
            with open(path, "rb") as file:
                return sorted(os.listdir(folder)), file.read()

        ended = ran(folder, ["build", "-o", "index.json"], job)
        results.check("new file", (ended.status, ended.out, left()) == (0, b"", (["index.json"], wanted)), ended)
        with open(path, "wb") as file:
            file.write(b"old")
        ended = ran(folder, ["build", "-o", "index.json"], b"[1")
        results.check("refused, the old file stays", (ended.status, left()) == (2, (["index.json"], b"old")), ended)
        # the write stops in the middle, because a file may have 100 bytes
        limit = lambda: resource.setrlimit(resource.RLIMIT_FSIZE, (100, 100))
        ended = ran(folder, ["build", "-o", "index.json"], job, preexec_fn=limit, restore_signals=False)
        results.check("cut short, the old file stays", ended.status != 0 and left()[1] == b"old", ended)
        for name in os.listdir(folder):
            if name != "index.json":
                os.remove(os.path.join(folder, name))
        ended = ran(folder, ["build", "-o", "index.json"], job)
        results.check("the old file is replaced", (ended.status, left()) == (0, (["index.json"], wanted)), ended)
        os.symlink("index.json", os.path.join(folder, "link.json"))
        ended = ran(folder, ["build", "-o", "link.json"], job)
        results.check("through a link", ended.status == 0 and os.path.islink(os.path.join(folder, "link.json")), ended)
        check_mode(folder, job, results)
        check_no_files(folder, job, results)
        check_rights(folder, job, results)
        check_streams(folder, job, results)


def check_no_files(folder, job, results):
    """Paths that can't be written or read."""
    ended = ran(folder, ["build", "-o", "."], job)
    results.check("a folder instead of a file", ended.status == 1 and ended.err != b"", ended)
    ended = ran(folder, ["build", "-o", "none/index.json"], job)
    results.check("no such folder", ended.status == 1 and ended.err != b"", ended)
    ended = ran(folder, ["build", "none.json"])
    results.check("no such file", ended.status == 1 and b"none.json" in ended.err, ended)
    ended = ran(folder, ["build", "."])
    results.check("a folder to be read", ended.status == 1 and ended.err != b"", ended)
    ended = ran(folder, ["build", "-o", "/dev/full"], job)
    results.check("a full device", ended.status == 1 and b"/dev/full" in ended.err, ended)


def check_rights(folder, job, results):
    """A file in a folder that the user may not write to. Root may write to each, so the user nobody runs the command then."""
    locked = os.path.join(folder, "locked")
    os.mkdir(locked, 0o555)
    options = {}
    command = COMMAND
    if os.geteuid() == 0:
        os.chmod(folder, 0o755)
        command = shutil.copy(COMMAND, folder)  # nobody may be unable to read the repository
        options = {"user": 65534, "group": 65534, "extra_groups": []}
    ended = run([command, "build", "-o", "locked/index.json"], job, cwd=folder, **options)
    good = ended.status == 1 and b"locked/index.json" in ended.err and os.listdir(locked) == []
    results.check("no right to write", good, ended)


def check_streams(folder, job, results):
    with open("/dev/full", "wb") as full:
        ended = subprocess.run([COMMAND, "build"], input=job, stdout=full, stderr=subprocess.PIPE, timeout=20)
    results.check("standard output is full", ended.returncode == 1 and ended.stderr != b"", ended)
    reading, writing = os.pipe()
    os.close(reading)
    with os.fdopen(writing, "wb") as broken:
        ended = subprocess.run([COMMAND, "build"], input=job, stdout=broken, stderr=subprocess.PIPE, timeout=20)
    results.check("a broken pipe", ended.returncode == 1, ended)


def check_many(results):
    """So many documents as lines take limited memory."""
    words = "alpha beta gamma delta epsilon zeta eta theta iota kappa lambda mu".split()
    lines = []
    for number in range(DOCUMENTS):
        body = " ".join(words[(number * step) % len(words)] for step in range(1, 9))
        lines.append(json.dumps({"id": number, "title": words[number % len(words)], "body": body}))
    with tempfile.TemporaryDirectory() as folder:
        write(os.path.join(folder, "docs.jsonl"), "\n".join(lines))
        limit = lambda: resource.setrlimit(resource.RLIMIT_AS, (MEGABYTES << 20, MEGABYTES << 20))
        args = ["build", "docs.jsonl", "-o", "index.json"]
        ended = ran(folder, args, preexec_fn=limit, seconds=120)
        good = ended.status == 0 and ended.err.startswith(b"elasticlunr: %d documents, " % DOCUMENTS)
        results.check(f"{DOCUMENTS} lines", good, ended)
        if good:
            with open(os.path.join(folder, "index.json"), encoding="utf-8") as file:
                results.check("their number", json.load(file)["documentStore"]["length"] == DOCUMENTS, "another number")


def check_one_line(results):
    """One line is in memory at a time, with its value: so members that are no fields cost nothing in total."""
    with tempfile.TemporaryDirectory() as folder:
        sizes, peaks, texts = [], [], []
        for others in ({}, {"others": [0] * OTHERS}):
            lines = (json.dumps({"id": number, "title": "fox", **others}) + "\n" for number in range(DOCUMENTS))
            docs, index = write(os.path.join(folder, "docs.jsonl"), "".join(lines)), os.path.join(folder, "index.json")
            ended = measured([COMMAND, "build", "--no-save"], docs, index)
            sizes.append(os.path.getsize(docs) >> 20)
            peaks.append(ended.megabytes if ended.status == 0 else None)
            with open(index, "rb") as file:
                texts.append(file.read())
        is_more = sizes[1] - sizes[0] > 10 * MORE
        good = None not in peaks and is_more and peaks[1] - peaks[0] <= MORE and texts[0] == texts[1]
        results.check("the memory of one line", good, f"{sizes} megabytes of text took {peaks}")


def check_failing_input(results):
    """An input that fails after some bytes is told with the system's reason, and isn't taken for one that ends there."""
    lines = "".join(json.dumps(it) + "\n" for it in OBJECTS)
    said = f"elasticlunr: standard input: {os.strerror(errno.ECONNRESET)} (os error {errno.ECONNRESET})\n".encode()
    with tempfile.TemporaryDirectory() as folder:
        path = write(os.path.join(folder, "index.json"), "old")
        for form, given in (("job", json.dumps(JOB)), ("objects", json.dumps(OBJECTS)), ("lines", lines), ("nothing", "")):
            for args in (["build"], ["check"], ["build", "-o", "index.json"]):
                near, far = socket.socketpair()
                with near, far:
                    far.sendall(given.encode())
                    near.sendall(b"unread")  # what the other end has not read when it is closed fails the next read here
                    far.close()
                    ended = ran(folder, args, None, stdin=near)
                results.check(f"an input that fails, {form}, {args}", ended == (b"", said, 1), ended)
        with open(path, encoding="utf-8") as file:
            results.check("an input that fails, the old file stays", (os.listdir(folder), file.read()) == (["index.json"], "old"), folder)


def check_memory(results):
    """With each request for memory refused in turn: status 1 and nothing written, or the whole answer."""
    wanted = printed(JOB)
    lines = "".join(json.dumps(it) + "\n" for it in OBJECTS)
    for form, given, words in (("job", json.dumps(JOB), []), ("lines", lines, ["--fields", "title,body"])):
        with Refusing() as refusing:
            refused = wrong = number = 0
            while wrong < 5:
                number += 1
                ended = refusing.run(COMMAND, given, number, ["build", *words])
                was_refused = (ended.out, ended.status) == ("", 1)
                refused += was_refused
                if not was_refused and (ended.out, ended.status) != (wanted, 0):
                    wrong += 1
                    print(f"command, memory: {form}, request {number}: status {ended.status}, {len(ended.out)} characters")
                if ended.requests < number:
                    break
        results.check(f"memory refused in turn, {form}", wrong == 0 and refused >= LEAST, f"{refused} refused, {wrong} wrong")


CHECKS = [check_forms, check_search, check_deep_search, check_terminal, check_files, check_many, check_one_line, check_failing_input, check_memory, check_kept, check_stems, check_pieces, check_publishing, check_search_pieces]


def main():
    results = Checks("command")
    table, *names = sys.argv[1:] or [TABLE]
    check_rows(table, results)
    for check in CHECKS:
        if not names or check.__name__ in names:
            try:
                check(results)
            except (OSError, ValueError) as error:  # a file that should be there, a text that should be JSON
                results.check(check.__name__, False, repr(error))
    return results.report()


if __name__ == "__main__":
    sys.exit(main())
