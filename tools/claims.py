#!/usr/bin/env python3
"""Prints docs/CLAIMS.md: the public functions of each crate, their clauses, the mutants that try them, and where docs/PROVED.md
speaks of them.

usage: claims.py > docs/CLAIMS.md

All of it is read from the sources, as text:

- A function is public if it is `pub`, or a method of a trait that is, and its modules are public or a `pub use` of its crate has
  its name or that of its type. It is in the table if it ensures something.
- A mutant is a pair `old` and `new` in a file of must-fail/. It tries a function if it changes the body of this function, or of one
  that this function calls in the same file, by name; or of a function in the same file that these call. It tries a method of a
  trait if it changes the method of that name in an `impl` of the trait, in the same crate.
- A section of PROVED.md speaks of a function if it names the function or one of its clauses.
"""
import collections
import functools
import glob
import os
import re
import sys

sys.path.insert(0, os.path.join(os.path.dirname(__file__), ".."))

from tests import clauses
from tools.crates import crates, folder
from tools.repository import read

PROVED = "docs/PROVED.md"
MODULE = re.compile(r"^(pub )?mod (\w+)[;{ ]", re.MULTILINE)
USE = re.compile(r"^pub use ([^;]*);", re.MULTILINE)
HEADING = re.compile(r"^## (.*)$", re.MULTILINE)
LINKED = re.compile(r"\.\./crates/(\w+)/")
HEAD = """# Clauses and mutants

For a reader who asks of a clause whether a body with a mistake could meet it. `python3 tools/claims.py` prints this page from the sources, and `make test` fails where it is another one. [PROVED.md](PROVED.md) says what the clauses mean, [PROVING.md](PROVING.md#mutants) what a mutant is.

- A row has a public function with the names of what it ensures; a clause without a name is an *unnamed* one.
- Its mutants are the files of `must-fail/` of its crate that change its body, or that of a function of the same file which it calls, directly or through others. `rt ci` refuses each of them. Which clause refuses a mutant, nothing records; that some clause of the crate does is part of the gate.
- A mutant in another file counts for no clause of this one. So a function that only calls others has no mutant here, though theirs try what it returns.
- The last column leads to the section of PROVED.md that names the function.
"""


def is_public(call, files):
    """Whether other crates can call a function: its modules are public, or a `pub use` names it or its type."""
    path = os.path.relpath(call.path, folder(call.crate)).removeprefix("src/").removesuffix(".rt")
    if path == "main" or not call.is_open and not call.trait:
        return False
    modules = [it for it in path.split("/") if it not in ("lib", "mod")]
    return {call.name, call.owner} & files.exported or all(it in files.public for it in modules)


Files = collections.namedtuple("Files", "public exported")


@functools.cache
def files_of(crate):
    """The names of the public modules of a crate, and all names that it passes on."""
    texts = [read(path) for path in glob.glob(os.path.join(folder(crate), "src", "**", "*.rt"), recursive=True)]
    modules = [it for text in texts for it in MODULE.findall(text)]
    private = {name for public, name in modules if not public}
    used = {word for text in texts for use in USE.findall(text) for word in re.findall(r"\w+", use.rpartition("::")[2] or use)}
    return Files({name for public, name in modules if public} - private, used)


def edits(crate):
    """The mutants of a crate: each name, and the file and the old text of each of its pairs."""
    for path in sorted(glob.glob(os.path.join(folder(crate), "must-fail", "*.edit"))):
        pairs = re.findall(r"^file: (.*)\nold: (.*)\n", read(path), re.MULTILINE)
        yield os.path.basename(path).removesuffix(".edit"), pairs


def changed(crate, calls):
    """The names of the mutants that change the body of each function of a crate."""
    found = collections.defaultdict(list)
    for name, pairs in edits(crate):
        for file, old in pairs:
            path = os.path.join(folder(crate), file)
            line = read(path).partition(old)[0].count("\n") + 1
            before = [it for it in calls if it.path == path and it.line <= line]
            if before and name not in found[before[-1]]:
                found[before[-1]].append(name)
    return found


def reached(call, calls):
    """A function, and those of its file that it calls, directly or through others."""
    here = [it for it in calls if it.path == call.path]
    found = [call]
    for it in found:
        code = "\n".join(line for line in it.lines[1:] if not line.lstrip().startswith("//"))
        words = set(re.findall(r"(\w+)(?:::<[^()]*>)?\(", code))
        found += [other for other in here if other.name in words and other not in found]
    return found


def tries(call, calls, by_function):
    """The names of the mutants that try a function."""
    named = reached(call, calls)
    if not call.trait:
        named += [it for it in calls if it.trait == call.owner and it.name == call.name]
    return sorted({name for it in named for name in by_function.get(it, ())})


@functools.cache
def spoken():
    """The sections of PROVED.md, and the paths of functions that each names, each with clauses and the crates that its line names."""
    text = read(PROVED)
    starts = [*HEADING.finditer(text)]
    found = []
    for start, end in zip(starts, [it.start() for it in starts[1:]] + [len(text)]):
        section = text[start.start() : end]
        of_section = set(re.findall(r"`(elasticlunr\w*)`", section[:400]))
        for line in section.splitlines():
            found += [(start[1], path, names, set(LINKED.findall(line)) | of_section) for path, names in paths_in(line)]
    return found


@functools.cache
def names_of_clauses():
    return {name for call in clauses.calls() for name in call.clauses}


def paths_in(line):
    """The functions that a line of PROVED.md names, each with the clauses that it names of it."""
    for claim in clauses.OF.finditer(line):
        names = {it for it in clauses.WORD.findall(claim[1]) if it[0].islower()}
        yield from ((path, names) for path in clauses.WORD.findall(claim[2]))
    for law in clauses.LAW.finditer(line):
        yield from ((path, set()) for path in clauses.WORD.findall(law[1]))
    for cell in line.split("|")[2:3]:
        yield from ((path, set()) for path in clauses.WORD.findall(clauses.OF.sub("", cell)) if path not in names_of_clauses())


def sections(call):
    """The sections of PROVED.md that speak of a function, in order."""
    found = []
    for section, path, names, near in spoken():
        *owners, name = path.split("::")
        if name != call.name or owners and owners[-1] not in (call.owner, call.crate) or not names <= set(call.clauses):
            continue
        others = [it for it in clauses.named(path) if names <= set(it.clauses)]
        if len({it.crate for it in others}) > 1 and near & {it.crate for it in others} and call.crate not in near:
            continue
        found += [] if section in found else [section]
    return found


def anchor(heading):
    return re.sub(r"[^\w\- ]", "", heading.lower()).replace(" ", "-")


class Row:
    """A public function: what it ensures, the mutants that try it, and where PROVED.md speaks of it."""

    def __init__(self, call, calls, by_function):
        self.call = call
        self.ensured = [name or "*unnamed*" for name, is_ensured in call.clauses.items() if is_ensured]
        self.mutants = tries(call, calls, by_function)

    def name(self):
        return f"{self.call.owner}::{self.call.name}" if self.call.owner else self.call.name

    def place(self):
        """The name, and the file where the crate has several functions of this name."""
        same = [it for it in rows(self.call.crate) if it.name() == self.name()]
        return f"`{self.name()}`" + (f" of {os.path.relpath(self.call.path, os.path.join(folder(self.call.crate), 'src'))}" if len(same) > 1 else "")

    def clauses(self):
        return ", ".join(it if it.startswith("*") else f"`{it}`" for it in self.ensured)

    def line(self):
        where = ", ".join(f"[{it}](PROVED.md#{anchor(it)})" for it in sections(self.call))
        return f"| {self.place()} | {self.clauses()} | {', '.join(self.mutants)} | {where} |"


@functools.cache
def rows(crate):
    calls = [it for it in clauses.calls() if it.crate == crate]
    by_function = changed(crate, calls)
    found = [Row(it, calls, by_function) for it in calls if is_public(it, files_of(crate))]
    return [it for it in found if it.ensured]


def bodies(crate):
    return [it for it in rows(crate) if not it.call.is_law()]


def table(crate):
    yield f"\n### `{crate}`"
    if bodies(crate):
        yield "\n| Function | Ensures | Mutants | In PROVED.md |\n|---|---|---|---|"
        yield from (it.line() for it in bodies(crate))
    laws = [it for it in rows(crate) if it.call.is_law()]
    if laws:
        yield "\nLaws, which have no body that a mutant could change: " + ", ".join(f"`{it.name()}`" for it in laws) + "."


def without_mutant():
    for crate in crates():
        bare = [it for it in bodies(crate) if not it.mutants]
        if bare:
            yield f"| `{crate}` | {sum(len(it.ensured) for it in bare)} | " + ", ".join(it.place() for it in bare) + " |"


def page():
    every = [it for crate in crates() for it in bodies(crate)]
    bare = [it for it in every if not it.mutants]
    laws = sum(bool(it.call.is_law()) for crate in crates() for it in rows(crate))
    mutants = sum(len(list(edits(crate))) for crate in crates())
    lines = [HEAD, "## Without a mutant\n"]
    lines.append(
        f"There are {len(every)} public functions with {sum(len(it.ensured) for it in every)} clauses, {laws} laws, and {mutants} mutants. "
        f"{sum(len(it.ensured) for it in bare)} of the clauses are of {len(bare)} functions that no mutant tries:\n"
    )
    lines += ["| Crate | Clauses | Functions |\n|---|---|---|", *without_mutant(), "\n## Crate by crate"]
    lines += [line for crate in crates() if rows(crate) for line in table(crate)]
    return "\n".join(lines) + "\n"


if __name__ == "__main__":
    sys.stdout.write(page())
