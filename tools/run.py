#!/usr/bin/env python3
"""Runs the built program elasticlunr_index on standard input, and ends with its status.

usage: run.py [--try]

If standard input is empty, the program gets the example. If it is a terminal, the program gets a small example and prints its
index in lines.

--try compiles the program by `rt try`, without a proof, and runs it. What `rt` says is shown if that fails.
"""
import os
import shutil
import subprocess
import sys

sys.path.insert(0, os.path.join(os.path.dirname(__file__), ".."))

from tools.repository import TOP, program, say

CRATE = "elasticlunr_index"
EXAMPLE = os.path.join(TOP, "examples", "job.json")
SMALL = os.path.join(TOP, "examples", "small.json")
ANSWERS = (0, 1, 2)  # how the program ends
ENDED = "\nrun=ended "  # what `rt try` says if the program ended by itself


def content(path):
    with open(path, "rb") as file:
        return file.read()


def run_unproved(given):
    """The status of the program without a proof. `rt try` runs it twice: by an interpreter, and compiled with checks."""
    if not shutil.which("rt"):
        say("run.py: there is no rt on the path: the Rattle kit has it")
        return 1
    say("This compiles the program without a proof, which takes up to a minute. `make run` proves it first.")
    ended = subprocess.run(["rt", "try"], cwd=os.path.join(TOP, "crates", CRATE), input=given, stderr=subprocess.PIPE)
    said = ended.stderr.decode(errors="replace")
    if ended.returncode not in ANSWERS or ENDED not in "\n" + said:
        say(said)
    return ended.returncode


def run_proved(given, is_terminal):
    path = program(CRATE)
    status = subprocess.run([path], input=given).returncode
    if is_terminal:
        say(f"This is the index of {os.path.relpath(SMALL)}. The program reads a job from standard input:")
        say(f"    {os.path.relpath(path)} < {os.path.relpath(EXAMPLE)}")
    return status if status >= 0 else 128 - status


def main():
    is_terminal = sys.stdin.isatty()
    given = content(SMALL) if is_terminal else sys.stdin.buffer.read() or content(EXAMPLE)
    return run_unproved(given) if "--try" in sys.argv[1:] else run_proved(given, is_terminal)


if __name__ == "__main__":
    sys.exit(main())
