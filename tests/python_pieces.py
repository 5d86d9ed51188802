"""What `build_index(.., pieces=..)` of Python writes: the files that the command writes, and a whole site wherever it is killed."""
import contextlib
import fcntl
import json
import os
import subprocess
import sys
import tempfile
import time

from tests.command_pieces import JOB, OBJECTS, Folder, model
from tests.command_publish import folder_named, wrong_site
from tools.repository import TOP, run, write

LEAST_STEPS = 20  # calls for files at which a build is killed
PATIENCE = 0.5  # seconds in which a build that needn't wait ends
SECONDS = 20
SETTINGS = [{}, {"save": False}, {"piece_size": 1}, {"piece_size": 60, "title": "body"}, {"title": "none"}, {"lang": "German", "piece_size": 400}]
OPTIONS = {"save": lambda it: ["--no-save"], "piece_size": lambda it: ["--piece-size", str(it)], "title": lambda it: ["--title", it], "lang": lambda it: ["--lang", it]}

# A build whose documents, fields and settings stand on standard input. It is killed at a call for a file: the number is a word.
BUILD = """
import json, os, signal, sys, warnings
import elasticlunr
asked, kill = json.load(sys.stdin), int(sys.argv[1])
elasticlunr.version()
count = 0
def watch(event, arguments):
    global count
    if event.split(".")[0] in ("os", "shutil", "open") and event != "os.listdir" or event == "fcntl.flock":
        count += 1
        if count == kill:
            os.kill(os.getpid(), signal.SIGKILL)
if kill:
    sys.addaudithook(watch)
try:
    head = elasticlunr.build_index(*asked[0], **asked[1])
    print(head == open(asked[1]["pieces"] + "/search.json", encoding="utf-8").read())
except Exception as error:
    print(type(error).__name__, error)
"""


class Builder:
    """Builds by Python, over the library in the folder `made`."""

    def __init__(self, made):
        shared = os.path.join(made, "lib", "libelasticlunr.so")
        self.environment = {**os.environ, "PYTHONPATH": os.path.join(TOP, "python"), "ELASTICLUNR_LIBRARY": shared}

    def words(self, kill=0):
        return [sys.executable, "-c", BUILD, str(kill)]

    def run(self, site, kill=0, documents=OBJECTS, fields=("title", "body"), **settings):
        given = json.dumps([[documents, list(fields)], {**settings, "pieces": site}]).encode()
        return run(self.words(kill), given, env=self.environment, seconds=SECONDS)


def check_same(builder, folder, results):
    """The files are those that the command writes."""
    for settings in SETTINGS:
        folder.clear()
        ended = builder.run(folder.site, **settings)
        found = folder.files()
        folder.clear()
        options = [word for name, value in settings.items() for word in OPTIONS[name](value)]
        folder.build(["--fields", "title,body", *options], json.dumps(OBJECTS).encode())
        good = (ended.out, ended.err) == (b"True\n", b"") and found == folder.files() and len(found) > 1
        results.note(good, f"c, pieces of Python, {settings}: {ended}, {sorted(found)}")


def check_again(builder, folder, results):
    """An index replaces one of the command, and the command's replaces one of Python; `keep` keeps earlier ones."""
    folder.old()
    others = {"notes.txt": b"mine", "pieces-0123456789abcdef/t0.json": b"{}"}
    for name, text in others.items():
        write(os.path.join(folder.site, name), text.decode())
    wanted = {**model(JOB, 60), **others}
    for name, build in [("Python", lambda: builder.run(folder.site, piece_size=60)), ("the command", lambda: folder.build(["--piece-size", "60"])),
                        ("Python once more", lambda: builder.run(folder.site, piece_size=60))]:
        ended = build()
        results.note(folder.files() == wanted, f"c, pieces of Python, after {name}: {ended}, {sorted(folder.files())}")
    old = folder_named(folder.site)
    builder.run(folder.site, piece_size=50, keep=2)
    there = {name for name in os.listdir(folder.site) if name.startswith("pieces-")}
    good = there == {old, folder_named(folder.site), "pieces-0123456789abcdef"} and len(there) == 3
    results.note(good, f"c, pieces of Python, two are kept: {there}")
    ended = folder.build(["--piece-size", "60"])
    results.note(folder.files() == wanted, f"c, pieces of Python, the command after two that are kept: {ended}, {sorted(folder.files())}")


def check_refused(builder, folder, results):
    """What is refused, or can't be written, changes nothing."""
    before = folder.old()
    for settings, said in [
        ({"lang": "german"}, b"RefusedError refused: unknown language\n"),
        ({"fields": ("a", "a")}, b"RefusedError refused: duplicate field\n"),
        ({"pretty": True}, b"ValueError pieces and pretty can't be used together\n"),
        ({"piece_size": 0}, b"ValueError piece_size is 0 and keep is 1 instead of whole numbers from 1, and piece_size below 2^32\n"),
    ]:
        ended = builder.run(folder.site, **settings)
        results.note(ended.out == said and folder.is_as(before), f"c, pieces of Python, {settings}: {ended}")
    file = write(os.path.join(folder.top, "file"), "x")
    ended = builder.run(file)
    results.note(ended.out.startswith(b"FileExistsError") and os.path.isfile(file), f"c, pieces of Python, a file: {ended}")


def check_killed(builder, folder, results):
    """Killed before each call for a file in turn: the earlier head or the new one has its pieces, and after another build all is as if
    nothing had happened."""
    wanted, wrong, number = model(JOB, 60), [], 0
    while len(wrong) < 3:
        number += 1
        folder.old()
        ended = builder.run(folder.site, kill=number, piece_size=60)
        fault = wrong_site(folder.site)
        again = builder.run(folder.site, piece_size=60) if number % 2 else folder.build(["--piece-size", "60"])
        if fault or folder.files() != wanted:
            wrong.append((number, fault, ended, again, sorted(folder.files())))
        if ended.out:
            break
    results.note(not wrong and number > LEAST_STEPS, f"c, pieces of Python, killed at {number} steps: {wrong}")


def check_locks(builder, folder, results):
    """A build waits for one that publishes, and leaves what another one is writing."""
    folder.old()
    written = os.path.join(folder.site, "pieces.7.new")
    os.mkdir(written)
    held = [os.open(path, os.O_RDONLY) for path in (folder.site, written)]
    for file in held:
        fcntl.flock(file, fcntl.LOCK_EX)
    given = json.dumps([[OBJECTS, ["title", "body"]], {"pieces": folder.site, "piece_size": 60}]).encode()
    with subprocess.Popen(builder.words(), stdin=subprocess.PIPE, stdout=subprocess.PIPE, env=builder.environment) as build:
        build.stdin.write(given)
        build.stdin.close()
        with contextlib.suppress(subprocess.TimeoutExpired):
            build.wait(PATIENCE)
        waits = build.poll() is None
        for file in held:
            time.sleep(0.1)
            is_there = os.path.isdir(written)
            os.close(file)
        build.wait(SECONDS)
    results.note(waits and is_there, f"c, pieces of Python, one at a time: {waits}, {is_there}")
    good = wrong_site(folder.site) is None and {**model(JOB, 60)} == folder.files()
    results.note(good, f"c, pieces of Python, after it waited: {sorted(folder.files())}")
    builder.run(folder.site, piece_size=60)
    results.note(not os.path.exists(written), "c, pieces of Python, what was left is removed")


def check_all(made, results):
    """Each of these in a folder of its own."""
    builder = Builder(made)
    for check in (check_same, check_again, check_refused, check_killed, check_locks):
        with tempfile.TemporaryDirectory() as top:
            check(builder, Folder(top), results)
