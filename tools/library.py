#!/usr/bin/env python3
"""Builds the library for C: libelasticlunr.a, libelasticlunr.so, the header and the pkg-config file, in a folder.

usage: library.py FOLDER [--backend rattle]

`rt lib` proves and builds the archive of elasticlunr_c. To it come what the kit needs of the C library, and c/elasticlunr.c,
so that a program links one file. Of the shared library only the functions of the header are seen.
"""
import os
import re
import shutil
import subprocess
import sys

sys.path.insert(0, os.path.join(os.path.dirname(__file__), ".."))

from tools.repository import TOP, read, say, write

CRATE = "elasticlunr_c"
HEADER = "include/elasticlunr.h"
PACKAGE = """prefix={prefix}
Name: elasticlunr
Description: builds the search index that elasticlunr.js loads
Version: {version}
Cflags: -I${{prefix}}/include
Libs: -L${{prefix}}/lib -lelasticlunr
"""


def version():
    """The version of this port, which the command prints."""
    return re.search(r'VERSION: &str = "(\d+\.\d+\.\d+)', read("crates/elasticlunr_cli_words/src/words.rt"))[1]


def functions():
    """The functions that the header declares."""
    return re.findall(r"^[a-z].*?\b\*?(elasticlunr_\w+)\(", read(HEADER), re.MULTILINE)


def ran(command, **options):
    """Runs a command, which has to end well."""
    ended = subprocess.run(command, capture_output=True, text=True, **options)
    if ended.returncode:
        raise OSError(f"{' '.join(command[:3])}: status {ended.returncode}, {(ended.stdout + ended.stderr)[-600:]}")
    return ended.stdout


def link_shared(folder):
    """Makes the shared library of the archive in the folder."""
    static, shared = (os.path.join(folder, "lib", name) for name in ("libelasticlunr.a", "libelasticlunr.so"))
    seen = write(os.path.join(folder, "lib", "seen"), f"{{ global: {'; '.join(functions())}; local: *; }};\n")
    ran(["cc", "-shared", "-o", shared, "-Wl,--whole-archive", static, "-Wl,--no-whole-archive", f"-Wl,--version-script={seen}",
         "-Wl,-z,defs", "-Wl,-z,text", "-Wl,-soname,libelasticlunr.so"])
    os.remove(seen)


def build(folder, backend=()):
    """Builds all of it in the folder."""
    ran(["rt", "lib", *backend], cwd=os.path.join(TOP, "crates", CRATE))
    archive = os.path.join(TOP, "crates", CRATE, "out", f"lib{CRATE}.a")
    of_kit = os.path.join(os.path.dirname(ran(["rt", "doc"]).split()[0]), "c", "liblibc_c.a")
    lib, include = os.path.join(folder, "lib"), os.path.join(folder, "include")
    shutil.rmtree(lib, ignore_errors=True)
    os.makedirs(os.path.join(lib, "pkgconfig"))
    os.makedirs(include, exist_ok=True)
    shutil.copy(os.path.join(TOP, HEADER), include)
    own = os.path.join(lib, "elasticlunr.o")
    ran(["cc", "-O2", "-fPIC", f'-DELASTICLUNR_VERSION="{version()}"', "-I", include, "-c", "-o", own, os.path.join(TOP, "c/elasticlunr.c")])
    static = os.path.join(lib, "libelasticlunr.a")
    ran(["ar", "-M"], input=f"create {static}\naddlib {archive}\naddlib {of_kit}\naddmod {own}\nsave\nend\n")
    os.remove(own)
    link_shared(folder)
    write(os.path.join(lib, "pkgconfig", "elasticlunr.pc"), PACKAGE.format(prefix=os.path.abspath(folder), version=version()))


def main():
    folder, *backend = sys.argv[1:]
    try:
        build(folder, backend)
    except (KeyError, OSError) as error:
        say(f"library.py: {error}")
        return 1
    say(f"library.py: {folder}/lib has libelasticlunr.a and libelasticlunr.so")
    return 0


if __name__ == "__main__":
    sys.exit(main())
