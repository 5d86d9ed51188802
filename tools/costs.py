#!/usr/bin/env python3
"""Runs `rt check` with one job in a crate's folder, and says how long it took to check each function.

usage: costs.py NAME [COUNT]

With one job, `rt check` prints a line `checked FUNCTION, 1 of 8` as each check ends, and the seconds before that line are those
of its function. The COUNT greatest are shown, 20 when absent. What an earlier check kept is read, and not checked again: change
a function to have its time. Reading the libraries counts for the first function.
"""
import os
import re
import subprocess
import sys
import time

sys.path.insert(0, os.path.join(os.path.dirname(__file__), ".."))

from tools.crates import folder

CHECKED = re.compile(r"checked (\S+), \d+ of \d+$")


def check(name):
    """The lines of the check, each with the seconds since it began. A check that fails ends the script with its lines."""
    begun = time.monotonic()
    said = []
    command = ["rt", "check", "--jobs", "1"]
    options = {"stdout": subprocess.PIPE, "stderr": subprocess.STDOUT, "text": True, "errors": "replace"}
    with subprocess.Popen(command, cwd=folder(name), **options) as rt:
        for line in rt.stdout:
            said.append((time.monotonic() - begun, line.rstrip("\n")))
    if rt.returncode:
        sys.exit("\n".join(line for _, line in said))
    return said


def costs(said):
    """The seconds of each function, and its name."""
    before = 0
    for seconds, line in said:
        checked = CHECKED.match(line)
        if checked:
            yield seconds - before, checked[1]
            before = seconds


def main():
    if len(sys.argv) < 2:
        sys.exit(__doc__)
    said = check(sys.argv[1])
    count = int(sys.argv[2]) if len(sys.argv) > 2 else 20
    print(f"{said[-1][0] if said else 0:7.1f} in total")
    for seconds, name in sorted(costs(said), reverse=True)[:count]:
        print(f"{seconds:7.1f} {name}")


if __name__ == "__main__":
    main()
