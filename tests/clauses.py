"""The clauses of each function of the crates, and those that a page names.

A page names clauses in four ways: CALLING.md quotes them below a line `fn CALL(..)`; a sentence or a table has `NAME` or
several, then `of` and calls, or the functions of a crate so; `clause NAME` alone is one of any call; and a law is named by its
function.
"""
import functools
import glob
import os
import re

from tools.repository import TOP, read

OWNER = re.compile(r"(pub )?(?:trait (\w+)|impl(?:<.*?>)? (?:(\w+).* for )?(\w+))")
FUNCTION = re.compile(r'(    )?(pub )?(?:pub\(\w+\) )?(?:const |unsafe |final |extern "C" )*fn (\w+)')
CLAUSE = re.compile(r"\s+(?:ensures|requires)\*? ?(\w*) ?\{")
BODY = re.compile(r"(?:    )?(?:\{|\{\})$|.*;$")
QUOTED = re.compile(r"^fn ([\w:]+)(?:<.*?>)?\(.*\n((?:  .*\n)*)", re.MULTILINE)
QUOTE = re.compile(r"  ensures (\w+):")
NAMES = r"`\w+`(?:(?:, | and )`\w+`)*"
CALLS = r"`[\w:]+`(?:,? and `[\w:]+`(?! of\b)|, `[\w:]+`(?!(?:(?:, | and )`\w+`)* of\b))*"
OF = re.compile(rf"({NAMES}) of ({CALLS})")
ALONE = re.compile(rf"\bclauses? ({NAMES})(?! of\b)")
LAW = re.compile(rf"\blaws? ({CALLS})")
WORD = re.compile(r"`([\w:]+)`")


class Call:
    """A function: its crate, the type or trait that it belongs to, its name, its file, the number of its first line, and its lines.
    `clauses` has the names of its clauses in their order, and whether each is ensured. `trait` is the trait of its `impl`. `is_open`
    says whether it is `pub`, or a method of a trait that is."""

    def __init__(self, crate, owner, name, path, line=0):
        self.crate, self.owner, self.name, self.path, self.line = crate, owner, name, path, line
        self.trait = None
        self.is_open = False
        self.clauses = {}
        self.lines = []

    def is_law(self):
        return re.search(r"_laws/src/|/laws(/|\.rt$)", self.path)


def calls_of(crate, path):
    owner = trait = call = last = None
    is_trait = False
    for number, line in enumerate(read(path).splitlines(), 1):
        found = FUNCTION.match(line)
        if found:
            call = last = Call(crate, owner if found[1] else None, found[3], path, number)
            call.trait = trait if found[1] else None
            call.is_open = bool(found[2]) or bool(found[1]) and is_trait
            yield call
        elif OWNER.match(line):
            named = OWNER.match(line)
            owner, trait, is_trait = named[2] or named[4], named[3], bool(named[1] and named[2])
        elif call and CLAUSE.match(line):
            name = CLAUSE.match(line)[1]
            call.clauses[name] = call.clauses.get(name, False) or line.lstrip().startswith("ensures")
        if last:
            last.lines.append(line)
        if call and not found and BODY.match(line):
            call = None


@functools.cache
def calls():
    paths = sorted(glob.glob(os.path.join(TOP, "crates", "*", "src", "**", "*.rt"), recursive=True))
    return [call for path in paths for call in calls_of(os.path.relpath(path, os.path.join(TOP, "crates")).split(os.sep)[0], path)]


def named(path):
    """The functions that a page may mean by a path, or those of a crate."""
    *owners, name = path.split("::")
    of_crate = [call for call in calls() if call.crate == path]
    return of_crate or [call for call in calls() if call.name == name and (not owners or call.owner in (owners[-1], None))]


def missing(clauses, path):
    """Why no such function has all these clauses, or None."""
    found = named(path)
    if not found:
        return "no crate has this function"
    if found[0].crate == path:
        found = [Call(path, None, "", ""), *found]
        found[0].clauses = dict.fromkeys([call.name for call in found] + [it for call in found for it in call.clauses])
    return None if any(clauses <= set(call.clauses) for call in found) else "it has no such clause"


def failures(text):
    """Each clause and each law that a page names: its line, its name, and why it is not there."""
    for call in QUOTED.finditer(text):
        line = text.count("\n", 0, call.start()) + 1
        for clause in QUOTE.findall(call[2]):
            yield line, f"clause {clause} of {call[1]}", missing({clause}, call[1])
    for claim in OF.finditer(text):
        line = text.count("\n", 0, claim.start()) + 1
        clauses = {it for it in WORD.findall(claim[1]) if it[0].islower()} - {"ensures", "requires"}
        for call in WORD.findall(claim[2]) if clauses else []:
            yield line, f"clause {', '.join(sorted(clauses))} of {call}", missing(clauses, call)
    for claim in ALONE.finditer(text):
        for clause in WORD.findall(claim[1]):
            is_there = any(clause in call.clauses for call in calls())
            yield text.count("\n", 0, claim.start()) + 1, f"clause {clause}", None if is_there else "no call has this clause"
    for law in LAW.finditer(text):
        line = text.count("\n", 0, law.start()) + 1
        for name in WORD.findall(law[1]):
            is_there = any(call.is_law() for call in named(name))
            yield line, f"law {name}", None if is_there else "no crate has this law"
