#!/usr/bin/env python3
"""Unpacks the archive of a release in a bare Debian, and tries there what its README says.

usage: dist.py [ARCHIVE]

Needs root, debootstrap, unshare and the network. debootstrap makes a Debian of the release that RELEASE names, or of this
machine's, in a folder of its own under /tmp, from the archive that apt_beside.sh finds; it holds neither the kit nor a compiler.
A copy of it gets the packages of PACKAGES. Both see a /proc of their own, which is gone with the last command.

- In the bare one each command of the README runs that needs no package, and must print what the README shows. In the other one
  all of them run, the example of Python is run, and that of Rust is built and run, if the release has it.
- SHA256SUMS fits the files, and fits none that has one more byte.
- What was installed completes the command in bash, fish and zsh, and mandoc finds nothing wrong in the manual page.
- Forged READMEs must fail: one with another answer, one with an unknown command, and one without examples.
"""
import json
import os
import re
import shutil
import subprocess
import sys
import tempfile

sys.path.insert(0, os.path.join(os.path.dirname(__file__), ".."))

from tests import model
from tests.check_docs import SECONDS, blocks, commands
from tests.report import Results
from tools import dist, library
from tools.repository import TOP, read, run, say, write

PACKAGES = {  # what a section of the README needs
    "From C": ["gcc", "libc6-dev", "pkg-config"],
    "From Python": ["python3"],
    "From Rust": ["cargo", "librust-regex+default-dev", "librust-serde+derive-dev", "librust-serde-json+default-dev"],
}
SHELLS = ["bash-completion", "fish", "zsh", "mandoc"]
HOME = "/root"
PATH = "/usr/local/sbin:/usr/local/bin:/usr/sbin:/usr/bin:/sbin:/bin"
ENTER = ["unshare", "--mount", "sh", "-c", 'mount -t proc proc "$0/proc" && exec chroot "$0" "$@"']
MINUTES = 20  # the time limit of a command
LEAST = 50  # cases
JOB = {"fields": ["title", "body"], "docs": [["guide/install.html", "Installing", "Copy the folder into your site."]]}
CARGO = """[package]
name = "site"
version = "0.1.0"
edition = "2021"

[dependencies]
elasticlunr-rs = "3.0.2"

"""
SOURCES = """[source.crates-io]
replace-with = "debian"

[source.debian]
directory = "/usr/share/cargo/registry"
"""
FISH = "/usr/local/share/fish/vendor_completions.d/elasticlunr.fish"
COMPLETED = {  # what is installed completes, and what a shell then prints
    "bash": ('. /usr/share/bash-completion/bash_completion; _completion_loader elasticlunr; complete -p elasticlunr', "-F _elasticlunr elasticlunr"),
    "fish": (f"cp {FISH} /etc/fish/completions; complete -C 'elasticlunr build --piece-'", "--piece-size"),
    "zsh": ("autoload -Uz compinit; compinit -u; print $_comps[elasticlunr]", "_elasticlunr"),
}


class Debian:
    """A Debian in a folder. Commands run in the folder of the release, as in a new shell of root."""

    def __init__(self, folder):
        self.folder = folder
        self.release = os.path.join(HOME, dist.release_name())

    def path(self, *names):
        return self.folder + os.path.join(*names)

    def run(self, *command):
        environment = {"PATH": PATH, "HOME": HOME, "LC_ALL": "C.UTF-8", "DEBIAN_FRONTEND": "noninteractive"}
        return run([*ENTER, self.folder, *command], seconds=60 * MINUTES, env=environment)

    def shell(self, text):
        return self.run("sh", "-c", f"cd {self.release} && {{ {text}\n}}")

    def unpack(self, archive):
        shutil.copy(archive, self.path(HOME))
        self.run("tar", "--extract", "--file", os.path.join(HOME, os.path.basename(archive)), "--directory", HOME)

    def install(self, packages):
        ended = self.run("apt-get", "install", "--yes", "--no-install-recommends", *packages)
        if ended.status:
            raise OSError(f"apt-get install: status {ended.status}, {ended.err[-300:]!r}")


def bare(folder):
    """A new Debian, with the packages alone that each has."""
    release = os.environ.get("RELEASE") or re.search(r"^VERSION_CODENAME=(\w+)", read("/etc/os-release"), re.MULTILINE)[1]
    archive = library.ran(["bash", "-c", ". tools/apt_beside.sh; archive"], cwd=TOP).strip()
    say(f"dist: downloads a bare Debian, {release} from {archive}, and then more packages of it")
    library.ran(["debootstrap", "--variant=minbase", release, folder, archive])
    return Debian(folder)


def sections(text):
    """The text below each heading of a page."""
    return dict(re.findall(r"^## ([^\n]*)\n(.*?)(?=^## |\Z)", text, re.MULTILINE | re.DOTALL))


def answer_failure(ended, lines):
    """Why a command did not end well, or did not print these lines, its seconds apart."""
    if ended.status != 0:
        return f"status {ended.status}: {ended.err.decode(errors='replace')[-300:]}"
    printed = SECONDS.sub("0 s", (ended.err + ended.out).decode(errors="replace")).strip()
    wanted = SECONDS.sub("0 s", "\n".join(lines)).strip()
    return f"it prints {printed[:300]!r}" if lines and printed != wanted else None


def check_section(debian, name, text, results):
    """The commands of a section, each in a shell that has what an earlier one exported: these exports."""
    exports = ""
    for kind, _, block in blocks(text):
        for command, lines in commands(block) if kind == "console" else []:
            wrong = answer_failure(debian.shell(exports + command), lines)
            results.note(wrong is None, f"dist, {name}: {command}: {wrong}")
            exports += command + "\n" if command.startswith("export ") else ""
    return exports


def check_sections(debian, text, left_out, results):
    """The sections of the README in their order, but for those whose packages are not there."""
    tried = 0
    for name, section in sections(text).items():
        if name not in left_out:
            tried += len(list(blocks(section)))
            exports = check_section(debian, name, section, results)
            check_program(debian, name, section, exports, results)
    results.note(tried >= 3, f"dist, the README has {tried} examples")


def check_program(debian, name, section, exports, results):
    """The program of a section, in Python or Rust, prints the index of JOB."""
    texts = {kind: block for kind, _, block in blocks(section)}
    if "python" in texts:
        write(debian.path(debian.release, "example.py"), texts["python"])
        ended = debian.shell(exports + "python3 example.py")
    elif "rust" in texts:
        write(debian.path(HOME, "Cargo.toml"), CARGO + texts["toml"])
        write(debian.path(HOME, ".cargo", "config.toml"), SOURCES)
        write(debian.path(HOME, "src", "main.rs"), texts["rust"])
        ended = debian.shell("cd .. && cargo run --offline --quiet")
    else:
        return
    wanted, _ = model.answer(json.dumps(JOB).encode())
    results.note((ended.out.decode(errors="replace"), ended.status) == (wanted, 0), f"dist, {name}: {ended.status}, {ended.out[:100]!r}, {ended.err[-600:]!r}")


def check_bare(debian, results):
    """Nothing is there that a release may not need."""
    for name in ("rt", "cc", "python3", "cargo", "pkg-config", "make"):
        results.note(debian.shell(f"command -v {name}").status != 0, f"dist, bare: it has {name}")


def check_checksums(debian, results):
    """A file with one more byte has another checksum."""
    command = "sha256sum --check --quiet SHA256SUMS"
    results.note(debian.shell(command).status == 0, "dist, checksums: a file has another one")
    for name in ("bin/elasticlunr", "README.md"):
        changed = f"cp {name} kept && printf x >> {name} && ! {command} && mv kept {name}"
        results.note(debian.shell(changed).status == 0, f"dist, checksums: {name} may have one more byte")
    results.note(debian.shell(command).status == 0, "dist, checksums: a file that was changed back has another one")


def check_installed(debian, results):
    for shell, (command, wanted) in COMPLETED.items():
        ended = debian.run(shell, "-c", command)
        results.note(wanted in ended.out.decode(errors="replace"), f"dist, {shell}: {ended.out!r}, {ended.err[-300:]!r}")
    page = "/usr/local/share/man/man1/elasticlunr.1"
    ended = debian.run("mandoc", "-T", "lint", "-W", "warning", page)
    results.note((ended.status, ended.out) == (0, b""), f"dist, the manual page: {(ended.out + ended.err)[-300:]!r}")
    shown = debian.run("mandoc", "-T", "utf8", "-O", "width=200", page).out.decode(errors="replace")
    results.note("--piece-size" in re.sub(".\b", "", shown), "dist, the manual page doesn't show --piece-size")


def check_forgeries(debian, text, results):
    """READMEs that must fail."""
    console = re.compile(r"^```console\n.*?^```\n", re.MULTILINE | re.DOTALL)
    for name, forged in [
        ("another answer", text.replace("\nguide/search.html\n", "\nguide/other.html\n")),
        ("an unknown command", text.replace("bin/elasticlunr search ", "bin/elasticlunr seek ")),
        ("no examples", console.sub("", text)),
    ]:
        tried = Results("forgery", most=0)
        check_sections(debian, forged, (*PACKAGES, "A search page", "Install"), tried)
        results.note(forged != text and tried.failed, f"dist, forgery: a README with {name} passes")


def check(archive, folder, results):
    """All that the README says, in a bare Debian and in one with packages."""
    debian = bare(os.path.join(folder, "bare"))
    library.ran(["cp", "--archive", debian.folder, os.path.join(folder, "more")])
    debian.unpack(archive)
    text = read(debian.path(debian.release, "README.md"))
    check_bare(debian, results)
    check_checksums(debian, results)
    check_sections(debian, text, PACKAGES, results)
    check_forgeries(debian, text, results)
    more = Debian(os.path.join(folder, "more"))
    more.install(SHELLS + sum((packages for name, packages in PACKAGES.items() if name in sections(text)), []))
    more.unpack(archive)
    check_sections(more, text, (), results)
    check_installed(more, results)


def main():
    results = Results("dist")
    lacking = [it for it in ("debootstrap", "unshare", "chroot") if not shutil.which(it)] + ["root"] * (os.geteuid() != 0)
    if lacking:
        say(f"dist.py: there is no {', '.join(lacking)}")
        return 1
    path = os.path.join(TOP, "out", "dist", f"{dist.release_name()}-x86_64-linux.tar.gz")
    try:
        with tempfile.TemporaryDirectory(prefix="elasticlunr-dist-", dir="/tmp") as folder:
            check(sys.argv[1] if len(sys.argv) > 1 else path, folder, results)
    except (OSError, ValueError, subprocess.SubprocessError) as error:
        results.note(False, f"dist: {error!r}")
    tried = results.passed + results.failed
    results.note(tried >= LEAST, f"dist: {tried} were tried, and {LEAST} are the least")
    return results.report()


if __name__ == "__main__":
    sys.exit(main())
