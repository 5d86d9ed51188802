"""What `elasticlunr build --pieces` writes: the files of pieces_model.py, whole or not at all, and nothing else changes."""
import json
import os
import re
import resource
import shutil
import tempfile

from tests import pieces_model
from tests.memory_shim import Refusing
from tools.repository import printed, program, run, write

COMMAND = program("elasticlunr_cli")
SIZES = [1, 60, 400, pieces_model.SIZE, 10**15]  # bytes of a piece
LEAST = 20  # requests for memory that must have been refused
LAST = re.compile(
    rb"elasticlunr: 3 documents, \d+ tokens, (?:(\d+) bytes, )?"
    rb"(\d+) pieces?, (\d+) bytes in the head, (\d+) in the largest piece, \d+\.\d s\n"
)
JOB = {
    "fields": ["title", "body"],
    "docs": [["1", "Red fox", "The quick fox runs"], ["2", "Dog", "A lazy dog sleeps"], ["\u00fc", "Both \U0001f600", ""]],
}
OTHER = {"fields": ["title"], "docs": [["a", "Old words"], ["b", "More old words"]]}
OBJECTS = [{"id": reference, "title": title, "body": body} for reference, title, body in JOB["docs"]]
# Names that are nearly those of folders of pieces
OTHERS = ["pieces-0123456789abcde", "pieces-0123456789abcdef0", "pieces-0123456789ABCDEF", "pieces-0123456789abcdeg", "pieces"]
A_FILE = "pieces-0123456789abcdef"  # a file of such a name is no folder of pieces


def files_in(folder):
    """The text of each file below a folder, by its path there."""
    found = {}
    for above, _, names in os.walk(os.fsencode(folder)):
        for name in names:
            path = os.path.join(above, name)
            with open(path, "rb") as file:
                found[os.fsdecode(os.path.relpath(path, os.fsencode(folder)))] = file.read()
    return found


def model(job, size):
    return {name: text.encode() for name, text in pieces_model.files(printed(job), size).items()}


def wrong_last(said, files, bytes_of_index):
    """What is wrong with the last line of a build, or None."""
    found = LAST.fullmatch(said)
    pieces = [len(text) for name, text in files.items() if name != pieces_model.HEAD]
    wanted = [bytes_of_index, len(pieces), len(files[pieces_model.HEAD]), max(pieces)]
    if not found or [int(it) if it else None for it in found.groups()] != wanted:
        return f"{said} instead of {wanted}"
    return None


class Folder:
    """A folder with a site, and the command that builds it."""

    def __init__(self, top):
        self.top, self.site = top, os.path.join(top, "site")

    def build(self, words=(), given=JOB, **options):
        text = given if isinstance(given, bytes) else json.dumps(given).encode()
        return run([COMMAND, "build", "--pieces", "site", *words], text, cwd=self.top, **options)

    def files(self):
        return files_in(self.site)

    def is_as(self, before):
        """Whether there are these files, the head and one folder."""
        return self.files() == before and len(os.listdir(self.site)) == 2

    def clear(self):
        shutil.rmtree(self.site, ignore_errors=True)

    def old(self):
        """An earlier site, and what is in it."""
        self.clear()
        ended = self.build(["--piece-size", "40"], OTHER)
        if ended.status != 0:
            raise OSError(f"no earlier site: {ended}")
        return self.files()


def check_model(folder, results):
    """The files are those of the model, for each form and size, and an index is printed only where -o asks for it."""
    lines = "".join(json.dumps(it) + "\n" for it in OBJECTS).encode()
    fields = ["--fields", "title,body"]
    forms = {"job": (JOB, []), "objects": (json.dumps(OBJECTS).encode(), fields), "lines": (lines, fields)}
    for form, (given, words) in forms.items():
        for size in SIZES:
            folder.clear()
            wanted = model(JOB, size)
            ended = folder.build([*words, "--piece-size", str(size)], given)
            good = (ended.out, ended.status, folder.files()) == (b"", 0, wanted)
            results.check(f"pieces of {form}, {size} bytes", good, (ended, sorted(folder.files())))
            wrong = wrong_last(ended.err, wanted, None)
            results.check(f"the last line on pieces of {form}, {size} bytes", wrong is None, wrong)
    folder.clear()
    ended = folder.build()
    results.check("pieces of the default size", (ended.status, folder.files()) == (0, model(JOB, pieces_model.SIZE)), ended)
    folder.clear()
    ended = folder.build(["--no-save"])
    wanted = model({**JOB, "save": False}, pieces_model.SIZE)
    results.check("pieces without texts", (ended.status, folder.files()) == (0, wanted), ended)


def check_both(folder, results):
    folder.clear()
    index = os.path.join(folder.top, "index.json")
    text, wanted = printed(JOB).encode(), model(JOB, pieces_model.SIZE)
    ended = folder.build(["-o", "index.json"])
    with open(index, "rb") as file:
        good = (ended.status, ended.out, file.read(), folder.files()) == (0, b"", text, wanted)
    results.check("an index and its pieces", good, ended)
    wrong = wrong_last(ended.err, folder.files(), len(text))
    results.check("the last line on an index and its pieces", wrong is None, wrong)
    ended = folder.build(["-o", "-"])
    results.check("a printed index and its pieces", (ended.status, ended.out, folder.files()) == (0, text, wanted), ended)
    before = folder.old()
    ended = folder.build(["-o", "/dev/full"])
    good = ended.status == 1 and b"/dev/full" in ended.err and folder.files() == before
    results.check("an index on a full device, the old pieces stay", good, ended)


def check_again(folder, results):
    """A build replaces the one before, and leaves what else is in the folder."""
    folder.old()
    others = {os.path.join(name, "t0.json"): b"{}" for name in OTHERS}
    others.update({A_FILE: b"x", "notes.txt": b"mine", "caf\udce9": b"no text", "search.json.bak": b"x"})
    for name, text in others.items():
        path = os.path.join(folder.site, name)
        os.makedirs(os.path.dirname(path), exist_ok=True)
        with open(os.fsencode(path), "wb") as file:
            file.write(text)
    wanted = {**model(JOB, 60), **others}
    for turn in ("second", "third"):
        ended = folder.build(["--piece-size", "60"])
        results.check(f"the {turn} build of pieces", (ended.status, folder.files()) == (0, wanted), (ended, sorted(folder.files())))


def check_faults(folder, results):
    """After a fault the old head and its pieces are whole, and nothing else is there."""
    before = folder.old()

    def limited(most):
        """A write stops in the middle, because a file may have so many bytes."""
        return {"preexec_fn": lambda: resource.setrlimit(resource.RLIMIT_FSIZE, (most, most)), "restore_signals": False}

    cases = {
        "refused input": ([], b"[1", {}, 2, b""),
        "a warning that is a refusal": (["--strict"], {"fields": ["a"], "docs": []}, {}, 2, b"warning"),
        "a piece that is cut short": ([], JOB, limited(60), 1, b".json: "),
        "a head that is cut short": (["--piece-size", "1"], JOB, limited(120), 1, b"site/search.json: "),
    }
    for name, (words, given, options, status, says) in cases.items():
        ended = folder.build(words, given, **options)
        good = ended.status == status and says in ended.err and folder.is_as(before)
        results.check(f"pieces, {name}", good, (ended, sorted(folder.files())))
    file = write(os.path.join(folder.top, "file"), "x")
    ended = run([COMMAND, "build", "--pieces", "file"], json.dumps(JOB).encode(), cwd=folder.top)
    good = ended.status == 1 and b"elasticlunr: file" in ended.err and os.path.isfile(file)
    results.check("pieces, a file instead of a folder", good, ended)


def check_rights(folder, results):
    """A folder that the user may not write to. Root may write to each, so the user nobody runs the command then."""
    before = folder.old()
    options, command = {}, COMMAND
    if os.geteuid() == 0:
        os.chmod(folder.top, 0o755)
        command = shutil.copy(COMMAND, folder.top)
        options = {"user": 65534, "group": 65534, "extra_groups": []}
    os.chmod(folder.site, 0o555)
    ended = run([command, "build", "--pieces", "site"], json.dumps(JOB).encode(), cwd=folder.top, **options)
    os.chmod(folder.site, 0o755)
    good = ended.status == 1 and b"site" in ended.err and folder.is_as(before)
    results.check("pieces, no right to write", good, ended)


def check_memory(folder, results):
    """With each request for memory refused in turn: status 1 and the old files, or the new ones."""
    wanted, words = model(JOB, 60), ["build", "--pieces", folder.site, "--piece-size", "60"]
    before = folder.old()
    number = refused = wrong = 0
    with Refusing() as refusing:
        while wrong < 5:
            number += 1
            folder.clear()
            write_all(folder.site, before)
            ended = refusing.run(COMMAND, json.dumps(JOB), number, words)
            was_refused = (ended.status, ended.out) == (1, "") and folder.is_as(before)
            refused += was_refused
            if not was_refused and (ended.status, ended.out, folder.files()) != (0, "", wanted):
                wrong += 1
                left = sorted(os.listdir(folder.site))
                print(f"command, memory: pieces, request {number}: status {ended.status}, {left}, {ended.err!r}")
            if ended.requests < number:
                break
    results.check("memory refused in turn, pieces", wrong == 0 and refused >= LEAST, f"{refused} refused, {wrong} wrong")


def write_all(folder, files):
    for name, text in files.items():
        path = os.path.join(folder, name)
        os.makedirs(os.path.dirname(path), exist_ok=True)
        with open(path, "wb") as file:
            file.write(text)


def check_pieces(results):
    """Each of these in a folder of its own."""
    for check in (check_model, check_both, check_again, check_faults, check_rights, check_memory):
        with tempfile.TemporaryDirectory() as top:
            check(Folder(top), results)
