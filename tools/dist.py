#!/usr/bin/env python3
"""Makes the archive of a release: the programs, the library for C, the search page, the packages for Python and Rust, the manual
page, and what completes the command in shells.

usage: dist.py [FOLDER]

The archive is elasticlunr-VERSION-x86_64-linux.tar.gz, in FOLDER or in out/dist. The programs are those that `make build` and
`make command` left, the library is that of `make lib`, and the other files are those of the repository, unchanged.
The same files give the same bytes: each file has the time of the last commit.

A program or a library that needs a newer glibc than NEWEST has, or another library, is refused.
"""
import hashlib
import os
import re
import shutil
import subprocess
import sys
import tempfile
import time

sys.path.insert(0, os.path.join(os.path.dirname(__file__), ".."))

from tools import completions, library, licenses, usage
from tools.manual import manual
from tools.repository import TOP, program, read, say

PROGRAMS = {"bin/elasticlunr": "elasticlunr_cli", "bin/elasticlunr_index": "elasticlunr_index"}
SHARED = "lib/libelasticlunr.so"
LIBRARY = ("lib/libelasticlunr.a", SHARED, library.HEADER)  # in out/
PACKAGE = "lib/pkgconfig/elasticlunr.pc"
FOLDERS = ("browser", "examples", "python", "rust/elasticlunr-rs")
TEXTS = ("LICENSE-APACHE", "LICENSE-MIT", "NOTICE")
PAGES = ("docs/BROWSER.md", "docs/C.md", "docs/COMMAND.md", "docs/PYTHON.md", "docs/RUST.md")
LEFT_OUT = (".png", ".gitignore")  # ends of names
MANUAL = "share/man/man1/elasticlunr.1"
COMPLETIONS = {
    "share/bash-completion/completions/elasticlunr": completions.bash,
    "share/fish/vendor_completions.d/elasticlunr.fish": completions.fish,
    "share/zsh/site-functions/_elasticlunr": completions.zsh,
}
README, SUMS, OTHERS = "README.md", "SHA256SUMS", "LICENSES-OF-CRATES"

NEWEST = {**{name: (2, 34) for name in PROGRAMS}, SHARED: (2, 14)}  # versions of glibc
PARTS_OF_GLIBC = {"ld-linux-x86-64.so.2", "libc.so.6", "libm.so.6"}
NEEDED = re.compile(r"^ +NEEDED +(\S+)$", re.MULTILINE)
VERSION = re.compile(r"^ +0x\w+ 0x\w+ \d+ (\S+)$", re.MULTILINE)
OF_GLIBC = re.compile(r"GLIBC_(\d+)\.(\d+)(\.\d+)?")

FOR_RUST = re.compile(r"^## From Rust\n.*?(?=^## |\Z)", re.DOTALL | re.MULTILINE)  # a section of the README
LINK = re.compile(r"(?<!!)\[([^\]]*)\]\((?![a-z]+:)([^)\s#]+)(#[^)\s]*)?\)")
TAR = ["tar", "--create", "--format=ustar", "--sort=name", "--owner=0", "--group=0", "--numeric-owner", "--mode=u=rwX,go=rX"]


def release_name():
    """The name of the folder in the archive."""
    return f"elasticlunr-{library.version()}"


def git(*words):
    return library.ran(["git", *words], cwd=TOP)


def committed(*paths):
    """The files below these paths that the repository has, without those that a release leaves out."""
    return [it for it in git("ls-files", "-z", "--", *paths).split("\0") if it and not it.endswith(LEFT_OUT)]


def time_of_commit():
    """When the last commit was made, in seconds."""
    return int(git("log", "-1", "--format=%ct"))


def content(path):
    """The bytes of a file, by its path in the repository or its whole path."""
    with open(os.path.join(TOP, path), "rb") as file:
        return file.read()


def refuse_newer(name, path):
    """Refuses a program or a library that would not run on each system that the README names."""
    said = library.ran(["objdump", "-p", path])
    versions = VERSION.findall(said)
    others = [it for it in NEEDED.findall(said) if it not in PARTS_OF_GLIBC]
    others += [it for it in versions if not OF_GLIBC.fullmatch(it)]
    others += [it for it in versions if OF_GLIBC.fullmatch(it) and tuple(map(int, OF_GLIBC.match(it).groups()[:2])) > NEWEST[name]]
    if others:
        raise ValueError(f"{name} needs {', '.join(others)}, which a release may not")


def built():
    """The programs and the library."""
    paths = {**{name: program(crate) for name, crate in PROGRAMS.items()}, **{name: os.path.join(TOP, "out", name) for name in LIBRARY}}
    for name in NEWEST:
        refuse_newer(name, paths[name])
    package = library.PACKAGE.format(prefix="${pcfiledir}/../..", version=library.version())
    return {**{name: content(path) for name, path in paths.items()}, PACKAGE: package.encode()}


def made_from_help(seconds):
    """The manual page, and what completes the command in shells."""
    command = program(PROGRAMS["bin/elasticlunr"])
    usages, languages = usage.usages(command), usage.languages(command)
    texts = {path: make(usages, languages) for path, make in COMPLETIONS.items()}
    texts[MANUAL] = manual(usages, library.version(), time.strftime("%Y-%m-%d", time.gmtime(seconds)))
    return {path: text.encode() for path, text in texts.items()}


def readme(has_rust):
    """The README of the release."""
    text = read("release/README.md") if has_rust else FOR_RUST.sub("", read("release/README.md"))
    checksum = re.search(r"^sum=(\w+)$", read("tools/fetch_elasticlunr.sh"), re.MULTILINE)[1]
    return text.replace("VERSION", library.version()).replace("CHECKSUM", checksum).encode()


def page(path, files):
    """A page of the repository, where a link to a file that the release hasn't is its text."""
    def kept(link):
        target = os.path.normpath(os.path.join(os.path.dirname(path), link[2]))
        return link[0] if any(it == target or it.startswith(target + "/") for it in files) else link[1]

    return LINK.sub(kept, read(path)).encode()


def contents(seconds):
    """The bytes of each file of the release, by its path there."""
    listed = committed(*FOLDERS, *TEXTS, *PAGES)
    files = {**built(), **made_from_help(seconds), **{path: content(path) for path in listed}}
    files[README] = readme(any(path.startswith("rust/") for path in files))
    files[OTHERS] = licenses.licenses().encode()
    return {**files, **{path: page(path, files) for path in listed if path.endswith(".md")}}


def checksums(files):
    return "".join(f"{hashlib.sha256(files[path]).hexdigest()}  {path}\n" for path in sorted(files)).encode()


def unpacked(folder, files):
    """Writes the files below a folder."""
    for path, written in files.items():
        at = os.path.join(folder, path)
        os.makedirs(os.path.dirname(at), exist_ok=True)
        with open(at, "wb") as file:
            file.write(written)
        os.chmod(at, 0o755 if path in PROGRAMS else 0o644)


def make(folder):
    """Makes the archive in a folder, and gives its path."""
    seconds = time_of_commit()
    files = contents(seconds)
    with tempfile.TemporaryDirectory() as work:
        unpacked(os.path.join(work, release_name()), {**files, SUMS: checksums(files)})
        archive = os.path.join(work, f"{release_name()}-x86_64-linux.tar")
        library.ran([*TAR, f"--mtime=@{seconds}", "--file", archive, "--directory", work, release_name()])
        library.ran(["gzip", "-9", "--no-name", archive])
        os.makedirs(folder, exist_ok=True)
        return shutil.copy(archive + ".gz", folder)


def main():
    folder = sys.argv[1] if len(sys.argv) > 1 else os.path.join(TOP, "out", "dist")
    try:
        archive = make(folder)
        if git("status", "--porcelain"):
            say("dist.py: the files of this checkout are not those of its last commit, whose time the archive has")
    except (OSError, ValueError, subprocess.SubprocessError) as error:
        say(f"dist.py: {error}")
        return 1
    say(f"dist.py: {os.path.relpath(archive)}, SHA-256 {hashlib.sha256(content(archive)).hexdigest()}")
    return 0


if __name__ == "__main__":
    sys.exit(main())
