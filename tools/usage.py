"""The command line of `elasticlunr`, read from its help. A line of the help that has another form is a ValueError, so no
line is left out."""
import re
import subprocess
from typing import NamedTuple

OPTION = re.compile(r"  (?:(-\w), |    )(--[\w-]+)(?: <([^>]+)>)?  +(\S.*)")
ARGUMENT = re.compile(r"  ()()[<\[](\w+)[>\]]  +(\S.*)")  # without the names that an option has
COMMAND = re.compile(r"  (\w+)  +(\S.*)")
CHOICES = re.compile(r" \[possible values: ([^\]]+)\]")


class Word(NamedTuple):
    """An option, or an argument without a name."""

    short: str  # as "-o", or ""
    long: str  # as "--output", or ""
    value: str  # as "FILE", or "" of an option without a value
    meaning: str
    choices: tuple  # the values that it takes, or none if it takes others


class Usage(NamedTuple):
    name: str  # of the sub-command, or "" for the command itself
    about: str
    line: str  # how it is called
    arguments: list
    options: list
    commands: list  # the names of its sub-commands


def sections(text):
    """The paragraphs of a help: what stands before the usage, the usage, and the lines below each heading."""
    about, usage, *rest = text.strip("\n").split("\n\n")
    below = {}
    for part in rest:
        heading, _, lines = part.partition("\n")
        below[heading] = lines.splitlines()
    if not usage.startswith("Usage: ") or set(below) - {"Commands:", "Arguments:", "Options:"}:
        raise ValueError(f"the help has other parts: {text!r}")
    return about, usage.removeprefix("Usage: "), below


def matched(pattern, line):
    found = pattern.fullmatch(line)
    if not found:
        raise ValueError(f"the help has a line of another form: {line!r}")
    return found


def word_of(pattern, line):
    short, long, value, meaning = (it or "" for it in matched(pattern, line).groups())
    choices = CHOICES.search(meaning)
    return Word(short, long, value, CHOICES.sub("", meaning), tuple(choices[1].split(", ")) if choices else ())


def usage_of(name, text):
    about, line, below = sections(text)
    arguments = [word_of(ARGUMENT, it) for it in below.get("Arguments:", [])]
    options = [word_of(OPTION, it) for it in below.get("Options:", [])]
    return Usage(name, about, line, arguments, options, [matched(COMMAND, it)[1] for it in below.get("Commands:", [])])


def printed_by(program, *words):
    return subprocess.run([program, *words], stdin=subprocess.DEVNULL, stdout=subprocess.PIPE, text=True, timeout=20, check=True).stdout


def usages(program):
    """The usage of the command, and that of each of its sub-commands."""
    whole = usage_of("", printed_by(program, "--help"))
    return [whole, *(usage_of(name, printed_by(program, name, "--help")) for name in whole.commands)]


def languages(program):
    """The names that `--lang` takes."""
    return [line.split()[0] for line in printed_by(program, "languages").splitlines()]
