"""The manual page of `elasticlunr`, made from its help and from the table of statuses in docs/COMMAND.md."""
import re

from tools.repository import read

HEAD = """.\\" Made from the help of elasticlunr by tools/manual.py.
.TH ELASTICLUNR 1 {date} "elasticlunr {version}" "User Commands"
.SH NAME
elasticlunr \\- {purpose}
.SH SYNOPSIS
{synopsis}
.SH DESCRIPTION
{about}.
.PP
An input is JSON Lines, an array of objects, or a job, which is one object.
The page docs/COMMAND.md of the release describes them, and all messages.
"""
STATUS = re.compile(r"^\| (\d+) \| (.+) \|$", re.MULTILINE)


def escaped(text):
    """A text for roff: what is special there as it is, and what stands in backquotes in bold."""
    plain = text.replace("\\", "\\e").replace("-", "\\-").replace("^", "\\(ha")
    return re.sub(r"^([.'])", r"\\&\1", re.sub(r"`([^`]+)`", r"\\fB\1\\fR", plain))


def called(usage):
    """How a command is called: its name in bold."""
    name = f"elasticlunr {usage.name}".strip()
    return f".B {name}\n{escaped(usage.line.removeprefix(name).strip())}".rstrip()


def described(word):
    names = ", ".join(f"\\fB{escaped(it)}\\fR" for it in (word.short, word.long) if it)
    head = " ".join(it for it in (names, f"\\fI{escaped(word.value)}\\fR" if word.value else "") if it)
    choices = f" {word.value} is one of {', '.join(word.choices)}." if word.choices else ""
    meaning = re.sub(r" \[default: (.+)\]$", r". The default is \1", word.meaning)
    return f".TP\n{head}\n{escaped(meaning)}.{escaped(choices)}\n"


def command_section(usage):
    words = "".join(map(described, [*usage.arguments, *usage.options]))
    return f".SS elasticlunr {usage.name}\n{escaped(usage.about)}.\n{words}"


def statuses():
    """What each status means, from the page of the command."""
    section = read("docs/COMMAND.md").partition("\n## Status\n")[2].partition("\n## ")[0]
    found = STATUS.findall(section)
    if not found:
        raise ValueError("docs/COMMAND.md has no table of statuses")
    return "".join(f".TP\n.B {number}\n{escaped(meaning[:1].upper() + meaning[1:])}.\n" for number, meaning in found)


def manual(usages, version, date):
    """The text of the page. The date is that of the release."""
    whole, *commands = usages
    purpose = whole.about[:1].lower() + whole.about[1:]
    synopsis = "\n.br\n".join(map(called, usages))
    head = HEAD.format(date=date, version=version, purpose=escaped(purpose), synopsis=synopsis, about=escaped(whole.about))
    parts = [".SH COMMANDS\n", *map(command_section, commands), ".SH OPTIONS\n", *map(described, whole.options)]
    return head + "".join(parts) + ".SH EXIT STATUS\n" + statuses()
