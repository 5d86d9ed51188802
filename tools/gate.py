#!/usr/bin/env python3
"""Runs `rt ci` and, once it has said that the programs are built that the checks of tests/ run, these checks at the same time, and
shows the progress.

usage: gate.py LOG

A crate has a line once it is proved, with the seconds since the beginning. The kit keeps on the machine what `rt ci` passed:
what an earlier run proved of the very same files is not proved again, and such a mutant is not tried again. A crate of which that
is so has a line that says so. Tests and programs run each time. Kits older than 13f keep nothing: then all is proved and tried.

Everything that `rt ci` says goes to the log. What it says of a crate that is not proved, of a mutant that was not refused
or of a test that failed is shown, too; then the checks are stopped and count for nothing. What the checks say
(tests/checks.py) is shown as it comes, and follows in the log. If `rt ci` doesn't say of each of these programs that it is built,
the checks begin after its end.

The library for C comes last, since `rt lib` proves its crates once more: up to 85 minutes of the processors. It is left out, and a
line says so, if more than PATIENCE minutes have passed by then. Its checks are stopped, and a line says so, if they have not ended
after LIMIT minutes: they count as far as they came. `make lib-test` always tries it to its end.

At the end of `rt ci` a line says how long it took, and how long the processors worked for it.

A mutant that can't be applied, or that is refused only because a proof names what it took away, shows nothing of a
contract. `rt ci` passes it; the gate names it, counts it and fails.

The last lines say what failed.
"""
import os
import re
import resource
import shutil
import signal
import subprocess
import sys
import time
from typing import NamedTuple

sys.path.insert(0, os.path.join(os.path.dirname(__file__), ".."))

from tests.checks import WHAT_FAILED, Failure, what_failed
from tools import build
from tools.crates import crates, folder
from tools.repository import TOP, read

CALLS = "elasticlunr_tests"  # a check runs its test of single calls
UNUSED = ("elasticlunr_bench",)  # a program that no check runs
PATIENCE = 75  # minutes, after which the library for C is not begun
LIMIT = 140  # minutes, after which its checks are stopped
SHOWN = 30  # lines that rt said before a failure
GOOD = re.compile(r"rt: \w+(: its tests( are)?)? (proved|passed)$")
KEPT = re.compile(r"rt: (\w+) is kept: ")
RAN = re.compile(r"rt: (\w+) ran\b.*")
# A program is proved, or kept and then ran; its tests are proved, or kept and then passed. `rt` links them before it says so.
BUILT = re.compile(r"rt: (\w+(?:: its tests)?) (?:(?:are )?proved$|passed$|ran\b)")
TRIED = re.compile(r"rt: \w+: (\d+) of its \d+ must-fail edits were tried by an earlier run")
TRYING = re.compile(r"rt: (\w+): trying its must-fail edits \((\d+)\)$")
REFUSED = re.compile(r"rt: must-fail \S+: refused, as it must be(?! \(only because)")
EMPTY = re.compile(r"rt: .*(: BAD EDIT: |: refused, as it must be \(only because )")  # a mutant that shows nothing of a contract
BAD = re.compile(r"rt: .*(NOT PROVED|NOT REFUSED|NOT TRIED|BAD EDIT|FAILED|had not ended|stopped by signal|is not what|killed|only because)")
CHECK_FAILED = re.compile(r"^  \S.* FAILED\b", re.MULTILINE)
ERROR = re.compile(r".*(: error|\berror\[)")


def names_of_programs():
    return [it for it in crates() if os.path.isfile(os.path.join(folder(it), "src", "main.rt"))]


def programs():
    """What the checks run, by the name that `rt ci` has for it: programs, and the test that makes single calls."""
    paths = {name: build.built(name) for name in names_of_programs() if name not in UNUSED}
    return {**paths, f"{CALLS}: its tests": os.path.join(folder(CALLS), "out", f"{CALLS}_tests")}


def note_programs(sources):
    """Notes which programs were built, and proved, from these sources: then a `make run` has nothing to do."""
    for name in names_of_programs():
        if os.path.isfile(build.built(name)):
            build.note_built(name, sources[name])


class Checks:
    """The checks of tests/. They begin once `rt ci` has said of each program that they run that it is built, or after its end."""

    def __init__(self, log):
        self.log = log
        self.own = os.path.join(os.path.dirname(log), "checks.log")
        os.utime(log)
        self.since = os.path.getmtime(log)  # by the clock of the files
        self.sources = {name: build.sources_of(name) for name in names_of_programs()}
        self.missing = set(programs())
        self.running = None

    def hear(self, line):
        """Takes a line of `rt ci`, and begins if it was the last one that was missing."""
        built = BUILT.match(line)
        if not built:
            return
        self.missing.discard(built[1])
        if not self.missing and not self.running and all(map(self.is_new, programs().values())):
            self.begin()

    def is_new(self, path):
        """Whether this run of `rt ci` left a program there. If it didn't, the checks wait for its end."""
        return os.path.isfile(path) and os.path.getmtime(path) >= self.since

    def begin(self):
        note_programs(self.sources)
        open(self.own, "w", encoding="utf-8").close()
        command = [sys.executable, os.path.join(TOP, "tests", "checks.py"), self.own]
        self.running = subprocess.Popen(command, start_new_session=True)

    def end(self):
        """Waits for their end: their status, and the lines of what failed, unless they are shown only now. What the checks said
        goes to the log."""
        is_shown = self.running is None or self.running.poll() is None
        if self.running is None:
            self.begin()
        status = self.running.wait()
        said = read(self.own)
        append(self.log, said)
        if status and WHAT_FAILED not in said:
            append(self.log, "0 passed, 1 failed\n")
            return status, what_failed([Failure("tests/checks.py broke off", [])])
        return status, said[said.index(WHAT_FAILED) :].splitlines() if status and not is_shown else []

    def drop(self):
        if self.running and self.running.poll() is None:
            os.killpg(self.running.pid, signal.SIGKILL)
            self.running.wait()


def append(path, text):
    with open(path, "a", encoding="utf-8") as file:
        file.write(text)


def show(lines):
    if lines:
        print("\n".join(lines), flush=True)


def main():
    if not shutil.which("rt"):
        print("gate.py: there is no rt on the path: the Rattle kit has it")
        return 1
    log = sys.argv[1]
    begun = time.monotonic()
    append(log, "")
    checks = Checks(log)
    proved = prove(log, checks)
    if proved.status:
        checks.drop()
        show(what_failed(proved.failures))
        return proved.status
    show([proved.last])
    status, failed = checks.end()
    show(failed)
    status = status or try_library(log, (time.monotonic() - begun) / 60)
    empty = [failure for failure in proved.failures if EMPTY.match(failure.title)]
    if not empty:
        return status
    count = f"edits: 0 passed, {len(empty)} failed"
    append(log, count + "\n")
    show([*what_failed(empty), "These mutants show nothing of a contract. Change a value, and keep the calls and the names.", count])
    return 1


def try_library(log, minutes):
    """Runs the checks of the library for C, as far as there is time after so many minutes. Their status: no failure until then."""
    if minutes > PATIENCE:
        show([f"  the library for C is not tried after {minutes:.0f} minutes: `make lib-test` tries it"])
        return 0
    before = len(read(log))
    command = [sys.executable, os.path.join(TOP, "tests", "checks.py"), log, "library"]
    with subprocess.Popen(command, start_new_session=True) as checks:
        try:
            return checks.wait(max(0, LIMIT - minutes) * 60)
        except subprocess.TimeoutExpired:
            os.killpg(checks.pid, signal.SIGKILL)
    show([f"  the library for C is stopped after {LIMIT} minutes: `make lib-test` tries it"])
    return 1 if CHECK_FAILED.search(read(log)[before:]) else 0


class Proved(NamedTuple):
    status: int  # of `rt ci`
    last: str  # its last line
    failures: list  # and the mutants that show nothing of a contract


def prove(log, checks):
    """Runs `rt ci`, and has the checks hear what it says."""
    command = ["nice", "-n", "5", "rt", "ci"]
    begun = time.monotonic()
    refused = earlier = 0
    said = []  # of one crate, until it is known whether the crate is proved
    failures = []
    line = ""
    gate = subprocess.Popen(command, stdout=subprocess.PIPE, stderr=subprocess.STDOUT, text=True, errors="replace")
    for line in gate.stdout:
        append(log, line)
        line = line.rstrip("\n")
        seconds = f"({time.monotonic() - begun:.0f} s)"
        refused += bool(REFUSED.match(line))
        earlier += int(TRIED.match(line)[1]) if TRIED.match(line) else 0
        if BAD.match(line):
            show([*said[-SHOWN:], line])
            failures.append(Failure(line, [it for it in said if ERROR.match(it)]))
            said = []
        elif GOOD.match(line) or RAN.match(line):
            show([f"  {line[4:]} {seconds}"])
            said = []
        elif KEPT.match(line):
            show([f"  {KEPT.match(line)[1]}: proved by an earlier run {seconds}"])
        elif TRYING.match(line):
            show([f"  {line[4:]} {seconds}"])
        elif not REFUSED.match(line):
            said.append(line)
        checks.hear(line)
    if refused:
        show([f"  {refused} mutants refused" + (f", {earlier} of them in an earlier run" if earlier else "")])
    status = gate.wait()
    if status:
        show(said[-SHOWN:])
    used = resource.getrusage(resource.RUSAGE_CHILDREN)
    minutes, of_processors = (time.monotonic() - begun) / 60, (used.ru_utime + used.ru_stime) / 60
    show([f"  rt ci took {minutes:.0f} minutes, and {of_processors:.0f} minutes of the processors"])
    return Proved(status, line, failures)


if __name__ == "__main__":
    sys.exit(main())
