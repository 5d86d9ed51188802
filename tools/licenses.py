"""The licenses of the kit's crates whose code is in the programs and in the library."""
import glob
import os
import re

from tools import crates, library

BUILT = ("elasticlunr_cli", "elasticlunr_index", library.CRATE)
MENTION = re.compile(r"\b([a-z]\w*)::")
HEAD = "The programs and the library hold code of crates of the Rattle kit. These are the terms of each of them that states its own.\n"


def folder():
    """Where the kit has its crates."""
    return os.path.join(os.path.dirname(library.ran(["rt", "doc"]).split()[0]), "rattle")


def content(path):
    with open(path, encoding="utf-8") as file:
        return file.read()


def named():
    """The crates of the kit that crates.txt names for what is built."""
    each = {it for name in BUILT for it in [*crates.below(name), name]}
    return sorted({it for name in each for it in crates.libraries()[name]} - set(crates.libraries()))


def mentioned(kit, crate):
    """The crates of the kit that the code of another one mentions."""
    paths = glob.glob(os.path.join(kit, crate, "src", "**", "*.rt"), recursive=True)
    words = {word for path in paths for word in MENTION.findall(re.sub("//.*", "", content(path)))}
    return {word for word in words if os.path.isdir(os.path.join(kit, word, "src"))}


def below(kit):
    """The crates of the kit that what is built stands on, and perhaps more: a crate that another one mentions is counted."""
    found, left = set(), set(named())
    while left:
        crate = left.pop()
        found.add(crate)
        left |= mentioned(kit, crate) - found
    return sorted(found)


def licenses():
    """One text with each license once, and above it the crates that have it."""
    kit = folder()
    holders = {}
    for crate in below(kit):
        for path in sorted(glob.glob(os.path.join(kit, crate, "LICENSE*"))):
            holders.setdefault(content(path).strip("\n"), []).append(f"{crate}/{os.path.basename(path)}")
    parts = [f"\n{'=' * 80}\n{', '.join(names)}\n{'=' * 80}\n\n{text}\n" for text, names in holders.items()]
    return HEAD + "".join(parts)
