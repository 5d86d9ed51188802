"""What `elasticlunr build --pieces` leaves behind when it is killed, when two run at once, and when a call for a file fails."""
import fcntl
import hashlib
import json
import os
import shutil
import subprocess
import tempfile
import time

from tests.command_pieces import COMMAND, JOB, OTHER, Folder, files_in, model
from tests.memory_shim import Shim
from tools.repository import read, run, write

WORDS = ["--piece-size", "60"]
AHEAD = 400  # numbers of processes for which something is left
STEPS = 15  # changes of files that a build must make at least
PATIENCE = 0.3  # seconds in which a build that needn't wait ends
SECONDS = 20
UNNAMED = "pieces-00000000000000aa"  # a folder that no head has named


class Stopping(Shim):
    """Stops a run at one of its changes of files."""

    source = "stop_step.c"

    def environment(self, number, how):
        self.waited = os.path.join(self.folder.name, "waited")
        return dict(os.environ, LD_PRELOAD=self.shim, STOPPED_STEP=str(number), STOPPED_HOW=how, WAITED_FILE=self.waited, COUNTS_FILE=self.counts)

    def steps(self):
        """How many changes the last run made; it wasn't killed."""
        count = int(read(self.counts))
        os.remove(self.counts)
        return count


def folder_named(site):
    """The folder that the head names, or None."""
    try:
        with open(os.path.join(site, "search.json"), encoding="utf-8") as file:
            return json.load(file)["folder"]
    except FileNotFoundError:
        return None


def wrong_site(site):
    """What is wrong with a site: its head names a folder whose pieces have the digest that is its name."""
    named = folder_named(site)
    if named is None:
        return "no head"
    files = files_in(os.path.join(site, named))
    names = sorted(files, key=lambda name: ("tdh".index(name[0]), int(name[1:-5])))
    digest = hashlib.sha256(b"".join(files[name] for name in names)).hexdigest()
    return None if named == "pieces-" + digest[:16] else f"{named} has {names}"


def next_number():
    """The number that the next process gets, or one of the next."""
    return int(subprocess.run(["sh", "-c", "echo $$"], capture_output=True, check=True).stdout)


def check_left(folder, results):
    """What killed builds left is removed, and no name of theirs blocks a build. What a process has a lock on stays."""
    folder.old()
    first = next_number()
    for number in range(first, first + AHEAD):
        write(os.path.join(folder.site, f"pieces.{number}.new", "t0.json"), "{}")
        write(os.path.join(folder.site, f"search.json.{number}.new"), "{}")
        write(os.path.join(folder.top, f"index.json.{number}.new"), "{}")
    others = {f"{name}/t0.json": b"{}" for name in ("pieces.x.new", "pieces.7.new.old", "pieces..new", "pieces.7.newer", UNNAMED)}
    others["pieces.0.new/t0.json"] = b"{}"
    for name, text in others.items():
        write(os.path.join(folder.site, name), text.decode())
    held = os.open(os.path.join(folder.site, "pieces.0.new"), os.O_RDONLY)
    fcntl.flock(held, fcntl.LOCK_EX)
    ended = folder.build([*WORDS, "-o", "index.json"])
    os.close(held)
    good = ended.status == 0 and folder.files() == {**model(JOB, 60), **others}
    results.check("pieces, what was left is removed", good, (ended, sorted(folder.files())[:20]))
    left = sorted(os.listdir(folder.top))
    results.check("an index, what was left is removed", left == ["index.json", "site"], left[:20])
    ended = folder.build(WORDS)
    good = ended.status == 0 and "pieces.0.new" not in os.listdir(folder.site)
    results.check("pieces, what is no longer locked is removed", good, ended)


def check_damaged(folder, results):
    """A folder that lost a piece, or has another one in its place, is put right."""
    wanted = model(JOB, 60)
    folder.clear()
    folder.build(WORDS)
    place = os.path.join(folder.site, folder_named(folder.site))
    damages = {
        "missing": lambda path: os.remove(path),
        "cut short": lambda path: os.truncate(path, 3),
        "of the same length": lambda path: write(path, "x" * os.path.getsize(path)),
        "a folder's": lambda path: (os.remove(path), os.mkdir(path)),
    }
    for name, damage in damages.items():
        damage(os.path.join(place, "t0.json"))
        ended = folder.build(WORDS)
        if name == "a folder's":  # it isn't removed, since it isn't known whose it is
            results.check(f"pieces, a name that is {name}", ended.status == 1 and b"pieces-" in ended.err, ended)
            os.rmdir(os.path.join(place, "t0.json"))
            ended = folder.build(WORDS)
        good = ended.status == 0 and folder.files() == wanted
        results.check(f"pieces, one that is {name}", good, (ended, sorted(folder.files())))


def check_kept(folder, results):
    """`--keep` keeps the folders of the last heads, and no other folder is removed that no head has named."""
    folder.clear()
    named = []

    def build(number, *words):
        ended = folder.build([*WORDS, *words], {"fields": ["title"], "docs": [["1", f"word{number}"]]})
        named.append(folder_named(folder.site))
        there = {name for name in os.listdir(folder.site) if name.startswith("pieces-")}
        return ended.status, there

    wanted = [{1}, {1, 2}, {1, 2, 3}, {2, 3, 4}, {2, 3, 4}, {3, 4, 2}, {2}]
    for turn, (number, words) in enumerate([(1, []), (2, ["--keep", "3"]), (3, ["--keep", "3"]), (4, ["--keep", "3"]), (4, ["--keep", "3"]), (2, ["--keep", "3"]), (2, [])]):
        status, there = build(number, *words)
        kept = {named[at] for at, of in enumerate([1, 2, 3, 4, 4, 2, 2][: turn + 1]) if of in wanted[turn]}
        results.check(f"pieces, kept in turn {turn}", status == 0 and there == kept and wrong_site(folder.site) is None, (there, kept))
    os.mkdir(os.path.join(folder.site, UNNAMED))
    status, there = build(5)
    results.check("pieces, a folder that no head has named", (status, there) == (0, {named[-1], UNNAMED}), there)


def check_stopped(folder, results):
    """Killed at each change of a file in turn, or with that change refused: the old head or the new one has its pieces, and after
    another build all is as if nothing had happened."""
    wanted = model(JOB, 60)
    for how in ("kill", "refuse"):
        before = folder.old()
        wrong, number, warned = [], 0, 0
        with Stopping() as stopping:
            while len(wrong) < 5:
                number += 1
                folder.old()
                ended = folder.build(WORDS, env=stopping.environment(number, how))
                is_over = how == "refuse" and stopping.steps() < number or how == "kill" and ended.status == 0
                fault = wrong_site(folder.site)
                if how == "refuse" and ended.status == 1 and not folder.is_as(before):
                    fault = f"after a fault: {sorted(os.listdir(folder.site))}"
                warned += b": warning: " in ended.err
                again = folder.build(WORDS)
                if fault or again.status != 0 or folder.files() != wanted:
                    wrong.append((number, fault, ended, again, sorted(os.listdir(folder.site))))
                if is_over:
                    break
        results.check(f"pieces, {how} at each step", not wrong and number > STEPS, f"{number} steps: {wrong}")
        results.check(f"pieces, {how}: warnings", (warned > 0) == (how == "refuse"), warned)


def both(folder, stopping, number, given):
    """Runs two builds at once, the one stopped at a change of a file while the other runs. Gives what they say, and their status."""
    env = stopping.environment(number, "wait")
    write(stopping.waited, "")
    words = [COMMAND, "build", "--pieces", "site", *WORDS]
    pipes = {"stdin": subprocess.PIPE, "stdout": subprocess.PIPE, "stderr": subprocess.PIPE, "cwd": folder.top}
    with subprocess.Popen(words, env=env, **pipes) as one, subprocess.Popen(words, **pipes) as other:
        one.stdin.write(json.dumps(JOB).encode())
        one.stdin.close()
        time.sleep(0.02)
        other.stdin.write(json.dumps(given).encode())
        other.stdin.close()
        try:
            other.wait(PATIENCE)
        except subprocess.TimeoutExpired:
            pass  # it waits for the first one
        os.remove(stopping.waited)
        return [(it.wait(SECONDS), it.stderr.read()) for it in (one, other)]


def check_twins(folder, results):
    """Two builds at once, of the same pieces and of others: both end well, and the head has its pieces."""
    for name, given in (("the same", JOB), ("others", OTHER)):
        wrong, number = [], 0
        with Stopping() as stopping:
            while len(wrong) < 3:
                number += 1
                folder.old()
                ended = both(folder, stopping, number, given)
                fault = wrong_site(folder.site)
                if fault or [status for status, _ in ended] != [0, 0] or len(os.listdir(folder.site)) != 2:
                    wrong.append((number, fault, ended, sorted(os.listdir(folder.site))))
                if stopping.steps() < number:
                    break
        results.check(f"two builds at once, {name}", not wrong and number > STEPS, f"{number} steps: {wrong}")


def check_publishing(results):
    """Each of these in a folder of its own."""
    for check in (check_left, check_damaged, check_kept, check_stopped, check_twins):
        with tempfile.TemporaryDirectory() as top:
            check(Folder(top), results)
