#!/usr/bin/env python3
"""Proves and builds a program of the repository, by `rt run` in its folder, and shows the progress.

usage: build.py [--check] NAME

`rt run` proves the crates below the program first, one after another. Each has a line once it is proved, with its seconds; a
crate that is as it was has none. The program runs once, on its stored input. What `rt` says goes to out/build-NAME.log; its
end is shown if a crate isn't proved. If nothing has changed since the last build, nothing is built or printed.

--check builds nothing. Its status is 0 if there is nothing to build.
"""
import hashlib
import os
import re
import shutil
import subprocess
import sys
import time
from typing import NamedTuple

sys.path.insert(0, os.path.join(os.path.dirname(__file__), ".."))

from tools import crates
from tools.repository import TOP, say

NOTES = os.path.join(TOP, "out")  # what was said, and what was built
FIRST = {  # a build from nothing
    "elasticlunr_index": "12 to 30 minutes on four cores, by how fast they are",
    "elasticlunr_cli": "up to two hours on four cores",
}
SHOWN = 40  # lines of the log if a crate isn't proved
CRATE = re.compile(r"crate (\w+): modules loaded=")
PROVED = "logic=proved "  # follows the line of a crate


def files_of_sources(name):
    for crate in crates.below(name) + [name]:
        yield from crates.files(crate)
    yield os.path.join(TOP, "crates.txt")


def sum_of(paths):
    found = hashlib.sha256()
    for path in paths:
        with open(path, "rb") as file:
            found.update(os.path.relpath(path, TOP).encode() + hashlib.sha256(file.read()).digest())
    return found.hexdigest()


class Sources(NamedTuple):
    sum: str  # of the kit and of the sources that a program is built from
    changed: int  # when one of these was last changed, even if it was changed back


def sources_of(name):
    kit = hashlib.sha256(subprocess.run(["rt", "version"], stdout=subprocess.PIPE, check=True).stdout).hexdigest()
    changed = max(os.stat(path).st_ctime_ns for path in files_of_sources(name))
    return Sources(kit + sum_of(files_of_sources(name)), changed)


def built(name):
    return os.path.join(crates.folder(name), "out", name)


def note_of(name):
    return os.path.join(NOTES, f"sources-{name}")


def is_built(name):
    try:
        with open(note_of(name), encoding="ascii") as file:
            return file.read() == sources_of(name).sum + sum_of([built(name)])
    except OSError:
        return False


def note_built(name, sources):
    """Notes that the program was built, and proved, from these sources, which were read before the build. If one has changed
    since then, nobody knows which text the build has read, and nothing is noted."""
    if sources == sources_of(name):
        os.makedirs(NOTES, exist_ok=True)
        with open(note_of(name), "w", encoding="ascii") as file:
            file.write(sources.sum + sum_of([built(name)]))


def said_by_run(name):
    """The lines of `rt run` in a program's folder. The program gets its stored input.

    Its status is not asked for: it is the program's, which may need words or files that it does not get here.
    """
    at = crates.folder(name)
    stored = os.path.join(at, "stdin")
    with open(stored if os.path.exists(stored) else os.devnull, "rb") as given:
        options = {"stdin": given, "stdout": subprocess.PIPE, "stderr": subprocess.STDOUT}
        with subprocess.Popen(["rt", "run"], cwd=at, text=True, errors="replace", **options) as rt:
            yield from rt.stdout


def build(name, log):
    """Proves and builds a program and the crates below it: whether all are proved, and it is built."""
    runs = f"rt: running out/{name};"  # what rt says once all is proved and the program is built
    begun = time.monotonic()
    crate = None
    is_running = False
    with open(log, "w", encoding="utf-8") as file:
        for line in said_by_run(name):
            file.write(line)
            file.flush()
            is_running = is_running or line.startswith(runs)
            if is_running:
                continue
            crate = CRATE.match(line)[1] if CRATE.match(line) else crate
            if crate and line.startswith(PROVED):
                say(f"  {crate}: proved ({time.monotonic() - begun:.0f} s)")
                begun, crate = time.monotonic(), None
    return is_running


def failed(name, log):
    with open(log, encoding="utf-8", errors="replace") as file:
        lines = file.read().splitlines()
    say("\n".join(lines[-SHOWN:]))
    say(f"  {name}: NOT proved and built; all that was said is in {os.path.relpath(log, TOP)}")


def main():
    name = sys.argv[-1]
    if is_built(name):
        return 0
    if "--check" in sys.argv:
        return 1
    if not shutil.which("rt"):
        say("build.py: there is no rt on the path: the Rattle kit has it")
        return 1
    say(f"Proving and building {name} and the crates below it: {' '.join(crates.below(name))}.")
    say(f"The first time this takes {FIRST.get(name, 'minutes')}; later only what changed is proved again.")
    begun = time.monotonic()
    sources = sources_of(name)
    os.makedirs(NOTES, exist_ok=True)
    log = os.path.join(NOTES, f"build-{name}.log")
    if not build(name, log):
        failed(name, log)
        return 1
    note_built(name, sources)
    say(f"All is proved ({time.monotonic() - begun:.0f} s). The program is {os.path.relpath(built(name), TOP)}")
    return 0


if __name__ == "__main__":
    sys.exit(main())
