"""Runs a built program with one of its requests for memory refused."""
import os
import subprocess
import tempfile
from typing import NamedTuple

from tools.repository import TOP, read, run


class Run(NamedTuple):
    out: str
    status: object  # a number, or why there is none
    requests: int  # how many requests for memory it made, with the refused one
    err: str


class Shim:
    """A library that is loaded before the C library, built into a folder of its own. It writes its counts to the file
    `counts` there."""

    source = "refuse_request.c"

    def __enter__(self):
        self.folder = tempfile.TemporaryDirectory()
        self.shim = os.path.join(self.folder.name, "shim.so")
        source = os.path.join(TOP, "tests", self.source)
        subprocess.run(["cc", "-O1", "-shared", "-fPIC", "-o", self.shim, source, "-ldl"], check=True)
        self.counts = os.path.join(self.folder.name, "counts")
        return self

    def __exit__(self, *_):
        self.folder.cleanup()

    def environment(self, number):
        """That of a program whose request of this number is refused, from 1; of none for 0."""
        return dict(os.environ, LD_PRELOAD=self.shim, REFUSED_REQUEST=str(number), COUNTS_FILE=self.counts)


class Refusing(Shim):
    """Refuses one request of a run."""

    def run(self, path, given, number, words=()):
        """Runs a program with these words on an input, and refuses the request of this number."""
        ended = run([path, *words], given.encode(), env=self.environment(number))
        try:
            requests = int(read(self.counts))
            os.remove(self.counts)
        except (FileNotFoundError, ValueError):  # the program was killed
            requests = number
        return Run(ended.out.decode(errors="replace"), ended.status, requests, ended.err.decode(errors="replace"))
