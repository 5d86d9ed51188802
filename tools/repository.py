"""What the scripts share: the repository's folder, its files, and its built programs and how they are run.

A run that crashes, does not end in time or cannot be started is an answer like any other, with a status that no program
has. So a check counts it as a failure and goes on.

The folders of scripts are packages. So each script puts the repository's folder on the path, and imports `tools.repository`.
"""
import json
import os
import subprocess
import sys
from typing import NamedTuple

TOP = os.path.dirname(os.path.dirname(os.path.abspath(__file__)))
SECONDS = float(os.environ.get("RUN_SECONDS", "20"))  # the time limit of a run, unless the script sets another
PATIENCE = 3  # after so many runs without an answer no other is started
unanswered = []


def read(path):
    """The text of a file, by its path in the repository or its whole path."""
    with open(os.path.join(TOP, path), encoding="utf-8") as file:
        return file.read()


def lines_of(path):
    """The lines of a file, each with its line feed."""
    with open(os.path.join(TOP, path), encoding="utf-8") as file:
        return list(file)


def write(path, text):
    """Writes a file, and the folders above it, and gives its path."""
    os.makedirs(os.path.dirname(path), exist_ok=True)
    with open(path, "w", encoding="utf-8") as file:
        file.write(text)
    return path


def program(crate, name=None):
    """The path of a crate's built program, or of its built tests by their name. If FORGED_PROGRAM is set, it is the path of the
    program that replaces each one, or only that of FORGED_CRATE (tests/forgeries.py)."""
    if "FORGED_PROGRAM" in os.environ and os.environ.get("FORGED_CRATE", crate) == crate:
        return os.environ["FORGED_PROGRAM"]
    return os.path.join(TOP, "crates", crate, "out", name or crate)


class Ended(NamedTuple):
    out: bytes
    err: bytes
    status: object  # a number, or why there is none


def run(command, given=b"", seconds=SECONDS, **options):
    """What a command writes for its input, and its status."""
    if len(unanswered) >= PATIENCE:
        return Ended(b"", b"", f"not started, because {PATIENCE} runs had no answer")
    try:
        ended = subprocess.run(command, input=given, capture_output=True, timeout=seconds, **options)
    except subprocess.TimeoutExpired as error:
        unanswered.append(command)
        return Ended(error.stdout or b"", error.stderr or b"", f"no answer in {seconds:g} seconds")
    except OSError as error:
        return Ended(b"", b"", f"not started: {error.strerror}")
    if ended.returncode < 0:
        return Ended(ended.stdout, ended.stderr, f"killed by signal {-ended.returncode}")
    return Ended(ended.stdout, ended.stderr, ended.returncode)


def printed(job):
    """The text that elasticlunr_index prints for a job, with its line feed. Raises a ValueError if it prints no index."""
    ended = run([program("elasticlunr_index")], json.dumps(job).encode())
    if ended.status != 0 or ended.err:
        raise ValueError(f"elasticlunr_index prints no index: status {ended.status}, {(ended.out + ended.err)[:200]!r}")
    return ended.out.decode()


def say(text):
    print(text, file=sys.stderr, flush=True)
