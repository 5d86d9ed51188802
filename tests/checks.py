#!/usr/bin/env python3
"""Runs the checks of this folder on the built programs, several at a time, and says how each ended.

usage: checks.py LOG [library]

As many groups of checks run at a time as there are processors. The checks of one group run one after another, because they
install packages, need what an earlier one installed, or write the same files. What a check prints is shown once it has ended, with its seconds,
and goes to the log; that it installs or downloads something is shown at once. What failed is said once more at the end.

With `library`, the checks run that need the library for C; the first of them builds it.

The last line of a check counts what it tried. A check without such a line fails, and so does one that tried fewer than
LEAST has.
"""
import os
import re
import subprocess
import sys
import threading
import time
from concurrent.futures import ThreadPoolExecutor
from typing import NamedTuple

sys.path.insert(0, os.path.join(os.path.dirname(__file__), ".."))

from tests.report import FAILED
from tools.repository import TOP

# The check that takes longest comes first. Words after a name are its arguments.
GROUPS = [
    ["compare_search", "pieces", "browser", "forgeries compare_search pieces browser"],
    ["compare_random"],
    ["refuse_memory"],
    ["refuse_calls"],
    ["check_docs", "forgeries"],
    ["long_inputs"],
    ["orders"],
    ["one_hash", "remembered"],
    ["stems"],
    ["command"],
    ["site"],
    ["check_jobs"],
    ["check_gate"],
]
LIBRARY = [["c_calls", "rust_crate --built", "dist_files --built", "forgeries c_calls dist_files"]]
# How much each check must try, with what it skips. A check that can try nothing here, and says so, is no failure.
LEAST = {
    "compare_search": 2_900,
    "pieces": 7_400,
    "browser": 310,
    "forgeries compare_search pieces browser": 46,
    "compare_random": 13_000,
    "refuse_memory": 2_000,
    "refuse_calls": 147,
    "forgeries": 109,
    "long_inputs": 9,
    "orders": 200,
    "one_hash": 4,
    "remembered": 1,
    "stems": 34_000,
    "check_docs": 1_250,
    "command": 5_000,
    "site": 460,
    "c_calls": 38_500,
    "rust_crate --built": 560,
    "dist_files --built": 440,
    "forgeries c_calls dist_files": 39,
    "check_jobs": 150,
    "check_gate": 48,
}
COUNT = re.compile(r"^(?:[a-z]+: )?(\d+) passed, (\d+) failed(?:, (\d+) skipped)?$")
AT_ONCE = re.compile(r"^\S+: (installs|downloads) ")
WHAT_FAILED = "What failed:"
MOST = 30  # lines that say what failed
LAST = 3  # lines of a check that broke off
WIDTH = 240  # characters of such a line
shown = threading.Lock()


class Failure(NamedTuple):
    title: str
    reasons: list  # lines that say what is wrong


def what_failed(failures):
    """The lines that say what failed: for each failure its title and its first reasons."""
    each = MOST // len(failures) - 1 if failures else 0
    lines = [line[:WIDTH] for title, reasons in failures for line in (f"  {title}", *(f"    {it}" for it in reasons[: max(each, 0)]))]
    return [WHAT_FAILED, *lines[:MOST]] if failures else []


def show(lines, log):
    with shown:
        print("\n".join(lines), flush=True)
        log.write("\n".join(lines) + "\n")
        log.flush()


def why_failed(words, status, last):
    """The lines that say why a check failed, with a count if it gave none. No lines if it passed."""
    count = COUNT.match(last)
    if not count:
        return ["0 passed, 1 failed", f"  {words} FAILED: it broke off"]
    passed, failed, skipped = (int(it or 0) for it in count.groups())
    tried, least = passed + failed + skipped, LEAST[words]
    if tried < least and (passed or failed or not skipped):
        return ["0 passed, 1 failed", f"  {words} FAILED: it tried {tried}, and {least} are the least"]
    return [f"  {words} FAILED"] if status or failed else []


def check(words, log):
    """Runs a check. Its failure, or None if it passed."""
    begun = time.monotonic()
    name, *arguments = words.split()
    lines = []
    command = [sys.executable, os.path.join(TOP, "tests", name + ".py"), *arguments]
    with subprocess.Popen(command, stdout=subprocess.PIPE, stderr=subprocess.STDOUT, text=True, errors="replace") as running:
        for line in running.stdout:
            if AT_ONCE.match(line):
                show([line.rstrip("\n")], log)
            else:
                lines.append(line.rstrip("\n"))
    wrong = why_failed(words, running.returncode, lines[-1] if lines else "")
    show([*lines, *wrong, f"  {words} ({time.monotonic() - begun:.0f} s)"], log)
    reasons = [line.removeprefix(FAILED) for line in lines if line.startswith(FAILED)] or lines[-LAST:]
    return Failure(wrong[-1].strip(), reasons) if wrong else None


def main():
    asked = LIBRARY if sys.argv[2:] == ["library"] else GROUPS
    with open(sys.argv[1], "a", encoding="utf-8") as log, ThreadPoolExecutor(len(os.sched_getaffinity(0))) as lanes:
        groups = lanes.map(lambda group: [check(words, log) for words in group], asked)
        failures = [it for group in groups for it in group if it]
        if failures:
            show(what_failed(failures), log)
    return 1 if failures else 0


if __name__ == "__main__":
    sys.exit(main())
