"""The crates of crates.txt, and their files."""
import os

from tools.repository import TOP, lines_of

PARTS = ("src", "specs", "proofs")  # the folders of a crate that a proof reads


def libraries():
    """The crates of crates.txt, each with all libraries that it names: crates of the repository and of the kit."""
    lines = [line.partition("#")[0].partition(":") for line in lines_of("crates.txt")]
    return {name.split()[0]: libraries.split() for name, _, libraries in lines if name.strip()}


def crates():
    """The crates of crates.txt, each with those of them that it names."""
    named = libraries()
    return {name: [library for library in those if library in named] for name, those in named.items()}


def below(name):
    """The crates that a crate depends on, each after its own dependencies."""
    named = crates()
    found = []
    for library in named[name]:
        found += [it for it in below(library) + [library] if it not in found]
    return found


def folder(crate, top=TOP):
    return os.path.join(top, "crates", crate)


def files(crate, top=TOP):
    """The paths of the files that a crate's proof reads, in order."""
    for part in PARTS:
        for at, folders, names in os.walk(os.path.join(folder(crate, top), part)):
            folders.sort()
            yield from (os.path.join(at, name) for name in sorted(names))
