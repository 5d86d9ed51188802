#!/usr/bin/env python3
"""Compares what elasticlunr.js does in a real browser with what the built programs print.

usage: browser.py [WORD ..]

Each case has a name, and passes or fails. What the cases need (Chromium, its driver, selenium, node, elasticlunr.min.js) is
installed or downloaded first if that can be done; else the cases that need it are named as skipped. With words, only
the cases run that have one of them in their names.
"""
import os
import signal
import sys
import tempfile

sys.path.insert(0, os.path.join(os.path.dirname(__file__), ".."))

from tests import browser_cases, browser_tools
from tests.report import Results, is_asked

SECONDS = 1800  # the time limit of all cases, which take four minutes on a quiet machine


class OutOfTime(BaseException):
    """Not an Exception, because a failed case ends none of the others."""


def stop(_signal, _frame):
    raise OutOfTime


def run(name, case, world, results):
    try:
        figures = case(world)
        results.note(True, "")
        if figures:
            print(f"{name}: {figures}", flush=True)
    except Exception as error:
        results.note(False, f"{name}: {type(error).__name__}: {str(error)[:1500]}")


def run_all(world, lacking, results):
    for needs, cases in browser_cases.groups():
        missing = [need for need in needs if need in lacking]
        for name, case in cases:
            if not is_asked(name):
                continue
            if missing:
                results.skip(name, missing)
            else:
                run(name, case, world, results)


def main():
    lacking = browser_tools.prepare()
    results = Results("browser")
    signal.signal(signal.SIGALRM, stop)
    signal.alarm(SECONDS)
    try:
        with tempfile.TemporaryDirectory() as folder, browser_tools.World(folder, lacking) as world:
            run_all(world, lacking, results)
    except OutOfTime:
        results.note(False, f"browser: not ended after {SECONDS} seconds")
    return results.report()


if __name__ == "__main__":
    sys.exit(main())
