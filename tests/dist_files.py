#!/usr/bin/env python3
"""Makes the archive of a release twice, and compares what is in it with the repository and with the help of the command.

usage: dist_files.py [--built] [WORD ..]

The library is built first, as `make lib` does it; with --built the one in out/ is taken. Nothing is installed, and no program of
the release runs but its command, for its help. With words, only the cases are tried that have one of them in their names.

Where git doesn't know the folder, the check is skipped, and says so.

- Both archives have the same bytes, though the second is made in another time zone, by a user who lets nobody read files.
- The files are those of EXPECTED, and those that the repository has in the folders of a release.
- Each file has its sum in SHA256SUMS, and an owner, a mode and a time that don't depend on who makes the release.
- The programs and the library need no newer glibc than the README says, and no other library. What needs more is refused.
- The manual page has each command, option and meaning of the help, and what completes the command has each option.
- The license of each crate of the kit that crates.txt names for them is there.
- The links of the pages lead to files of the release, and pkg-config names its folders.
"""
import contextlib
import glob
import hashlib
import os
import re
import shutil
import subprocess
import sys
import tarfile
import tempfile
import time

sys.path.insert(0, os.path.join(os.path.dirname(__file__), ".."))

from tests.report import Results, is_asked
from tools import crates, dist, library, usage
from tools.repository import TOP, read, run, write

EXPECTED = """LICENSE-APACHE LICENSE-MIT LICENSES-OF-CRATES NOTICE README.md SHA256SUMS bin/elasticlunr bin/elasticlunr_index docs/BROWSER.md
docs/C.md docs/COMMAND.md docs/PYTHON.md include/elasticlunr.h lib/libelasticlunr.a lib/libelasticlunr.so lib/pkgconfig/elasticlunr.pc
share/bash-completion/completions/elasticlunr share/fish/vendor_completions.d/elasticlunr.fish share/man/man1/elasticlunr.1
share/zsh/site-functions/_elasticlunr""".split()
FOLDERS = {"browser": 21, "examples": 7, "python": 3, "rust": 40}  # the least files of each, without pictures
FOR_RUST = "docs/RUST.md"  # is there if rust/ is
GLIBC = {"bin/elasticlunr": (2, 34), "bin/elasticlunr_index": (2, 34), "lib/libelasticlunr.so": (2, 14)}
COMMAND, PROGRAMS = "bin/elasticlunr", ("bin/elasticlunr", "bin/elasticlunr_index")
OPTION = re.compile(r"^ +(?:(-\w), )?(--[\w-]+)(?: <(\S+)>)?  +(\S.*?)((?: \[[^\]]*\])*)$", re.MULTILINE)
LEAST = 35  # options of all commands
LICENSES = 14  # of the kit's crates
SHELLS = {  # how an option of a sub-command stands in what completes it
    "share/bash-completion/completions/elasticlunr": r'^ +\*" {0}"\) words="(?:[^"]* )?--{1}[ "]',
    "share/fish/vendor_completions.d/elasticlunr.fish": r"^complete .*_from {0}' -l {1} .*-d '",
    "share/zsh/site-functions/_elasticlunr": r"^ +{0}\) _arguments (?:.*[') ])?--{1}\[",
}
COMPLETED = '. "$0"; COMP_WORDS=(elasticlunr "$@"); COMP_CWORD=$#; _elasticlunr; echo "${COMPREPLY[*]}"'
NEEDS = [  # a library that something of a release needs, a version in it, and whether that is refused
    (COMMAND, "libc.so.6", "GLIBC_2.34", False),
    (COMMAND, "libc.so.6", "GLIBC_2.35", True),
    (COMMAND, "libc.so.6", "GLIBC_3.0", True),
    (COMMAND, "libc.so.6", "GLIBC_ABI_DT_RELR", True),
    (COMMAND, "libc.so.6", "GLIBC_PRIVATE", True),
    (COMMAND, "libother.so.1", "GLIBC_2.2.5", True),
    ("lib/libelasticlunr.so", "libc.so.6", "GLIBC_2.2.5", False),
    ("lib/libelasticlunr.so", "libc.so.6", "GLIBC_2.14", False),
    ("lib/libelasticlunr.so", "libc.so.6", "GLIBC_2.15", True),
]
HELP = "About\n\nUsage: elasticlunr go [OPTIONS]\n\nOptions:\n  -h, --help  Print help\n"
OTHER_HELPS = {  # helps of other forms, which must not be taken for a shorter one
    "another section": HELP + "\nMore:\n  go  Goes\n",
    "an option with two values": HELP + "      --two <A> <B>  Takes two\n",
    "a meaning on a line of its own": HELP + "      --far\n          Goes far\n",
    "no usage": HELP.replace("Usage: ", ""),
}


class Release:
    """An archive, unpacked."""

    def __init__(self, archive, folder):
        self.archive = archive
        with tarfile.open(archive) as packed:
            self.members = packed.getmembers()
            packed.extractall(folder)
        self.name = dist.release_name()
        self.folder = os.path.join(folder, self.name)
        self.files = [it.name.partition("/")[2] for it in self.members if it.isfile()]

    def path(self, name):
        return os.path.join(self.folder, name)

    def bytes(self, name):
        with open(self.path(name), "rb") as file:
            return file.read()

    def text(self, name):
        return self.bytes(name).decode()

    def help(self, *words):
        return run([self.path(COMMAND), *words, "--help"]).out.decode()


@contextlib.contextmanager
def elsewhere():
    """Another time zone, and a user whose new files nobody else may read."""
    old, zone = os.umask(0o077), os.environ.get("TZ")
    os.environ["TZ"] = "Asia/Tokyo"
    time.tzset()
    try:
        yield
    finally:
        os.umask(old)
        os.environ.pop("TZ") if zone is None else os.environ.update(TZ=zone)
        time.tzset()


def check_bytes(release, folder, results):
    with elsewhere():
        again = dist.make(os.path.join(folder, "again"))
    with open(release.archive, "rb") as one, open(again, "rb") as other:
        results.note(one.read() == other.read(), "dist, bytes: a second archive has others")
    wanted = f"elasticlunr-{library.version()}-x86_64-linux.tar.gz"
    results.note(os.path.basename(again) == wanted, f"dist, bytes: the archive is called {os.path.basename(again)}")


def has_history():
    """Whether git knows this folder. Without it nothing says which files a release has, and of what time they are."""
    try:
        library.ran(["git", "rev-parse", "HEAD"], cwd=TOP)
    except OSError:
        return False
    return True


def committed(name):
    listed = library.ran(["git", "ls-files", "--", name], cwd=TOP).splitlines()
    return [it for it in listed if not it.endswith((".png", ".gitignore"))]


def check_list(release, _folder, results):
    wanted = list(EXPECTED)
    for name, least in FOLDERS.items():
        found = committed(name)
        results.note(len(found) >= least, f"dist, list: {len(found)} files of {name}, and {least} are the least")
        wanted += found + [FOR_RUST] * bool(name == "rust" and found)
    for name in sorted(set(wanted) | set(release.files)):
        is_right = release.files.count(name) == 1 and name in wanted
        results.note(is_right, f"dist, list: {name} {'is not' if name in wanted else 'has no place'} in a release")
    scripts = [it for it in release.files if it.endswith("elasticlunr.min.js")]
    results.note(not scripts, f"dist, list: {scripts} is the work of others")


def check_members(release, _folder, results):
    seconds = int(library.ran(["git", "log", "-1", "--format=%ct"], cwd=TOP))
    names = [it.name for it in release.members]
    results.note(names == sorted(names, key=lambda it: it.split("/")), "dist, members: they don't stand in the order of their names")
    for it in release.members:
        name = it.name.partition("/")[2]
        mode = 0o755 if it.isdir() or name in PROGRAMS else 0o644
        found = (it.name.split("/")[0], it.isfile() or it.isdir(), it.uid, it.gid, it.uname, it.gname, it.mtime, oct(it.mode))
        wanted = (release.name, True, 0, 0, "", "", seconds, oct(mode))
        results.note(found == wanted, f"dist, members: {it.name}: {found} instead of {wanted}")


def check_checksums(release, _folder, results):
    lines = [line.split("  ", 1) for line in release.text("SHA256SUMS").splitlines()]
    checksums = {name: value for value, name in lines}
    results.note(list(checksums) == sorted(checksums) and len(checksums) == len(lines), "dist, checksums: they don't stand in the order of names, once each")
    for name in sorted({*release.files, *checksums} - {"SHA256SUMS"}):
        found = hashlib.sha256(release.bytes(name)).hexdigest() if name in release.files else "no file"
        results.note(checksums.get(name) == found, f"dist, checksums: {name}: {checksums.get(name)} instead of {found}")


def check_glibc(release, _folder, results):
    for name, most in GLIBC.items():
        found = re.findall(r"\bGLIBC_(\d+)\.(\d+)", library.ran(["objdump", "-T", release.path(name)]))
        versions = [tuple(map(int, it)) for it in found]
        results.note(versions and max(versions) <= most, f"dist, glibc: {name} needs {max(versions, default='none')}, and {most} is the most")
        said = f"glibc {most[0]}.{most[1]}"
        results.note(said in release.text("README.md"), f"dist, glibc: the README doesn't say that {name} needs {said}")


def made_to_need(folder, wanted, version):
    """A shared library that needs this version of another one."""
    source, versions = (write(os.path.join(folder, name), text) for name, text in
                        [("other.c", "void newer(void) {}\n"), ("versions", f"{version} {{ global: newer; }};\n")])
    other, path = os.path.join(folder, wanted), os.path.join(folder, "needs.so")
    bare = ["cc", "-shared", "-fPIC", "-nostdlib", "-o"]
    library.ran([*bare, other, source, f"-Wl,-soname,{wanted}", f"-Wl,--version-script={versions}"])
    library.ran([*bare, path, write(os.path.join(folder, "needs.c"), "void newer(void); void needs(void) { newer(); }\n"), other])
    return path


def check_refusals(_release, folder, results):
    for name, wanted, version, is_refused in NEEDS:
        try:
            dist.refuse_newer(name, made_to_need(os.path.join(folder, "needs"), wanted, version))
            said = ""
        except ValueError as error:
            said = str(error)
        about = version if wanted == "libc.so.6" else wanted
        results.note((about in said) == is_refused, f"dist, refusals: {name}, which needs {version} of {wanted}: {said!r}")


def check_helps(_release, _folder, results):
    results.note(len(usage.usage_of("go", HELP).options) == 1, "dist, helps: a help has an option less or more")
    for name, text in OTHER_HELPS.items():
        try:
            found = usage.usage_of("go", text)
        except ValueError:
            found = None
        results.note(found is None, f"dist, helps: {name} is taken for {found}")


def commands(release):
    """The sub-commands that the help has, each with its about."""
    listed = release.help().partition("Commands:\n")[2].partition("\n\n")[0]
    return dict(re.findall(r"^ +(\w+) +(\S.*)$", listed, re.MULTILINE))


def plain(roff):
    """The text of a manual page without what marks bold and italics."""
    return re.sub(r"\\f[BIR]|\\&", "", roff).replace("\\-", "-").replace("\\(ha", "^").replace("\\e", "\\")


def paragraph(section, head):
    """What a manual page says of an option, in one line."""
    found = re.search(rf"^\.TP\n{re.escape(head)}\n(.*?)(?=^\.|\Z)", section, re.MULTILINE | re.DOTALL)
    return found[1].replace("\n", " ") if found else ""


def check_manual(release, _folder, results):
    page = plain(release.text("share/man/man1/elasticlunr.1"))
    whole = page.partition("\n.SH OPTIONS\n")[2]
    tried = 0
    for name, about in {"": release.help().partition("\n")[0], **commands(release)}.items():
        section = page.partition(f"\n.SS elasticlunr {name}\n")[2].partition("\n.S")[0] if name else whole
        results.note(about in (section if name else page), f"dist, manual: {name or 'elasticlunr'}: it doesn't say {about!r}")
        for short, long, value, meaning, rest in OPTION.findall(release.help(*filter(None, [name]))):
            said = paragraph(section, ", ".join(filter(None, [short, long])) + (f" {value}" if value else ""))
            words = [meaning.replace("`", ""), *re.findall(r"[\w.]+(?=[,\]])", rest)]
            lacking = [it for it in words if it not in said]
            tried += 1
            results.note(not lacking, f"dist, manual: {name} {long}: {said!r} doesn't say {lacking}")
    results.note(tried >= LEAST, f"dist, manual: {tried} options, and {LEAST} are the least")
    results.note(f'"elasticlunr {library.version()}"' in page, "dist, manual: it has another version")


def check_completions(release, _folder, results):
    tried = 0
    for name in commands(release):
        options = [it[1] for it in OPTION.findall(release.help(name))]
        tried += len(options)
        for path, pattern in SHELLS.items():
            text = release.text(path)
            lacking = [it for it in options if not re.search(pattern.format(name, re.escape(it[2:])), text, re.MULTILINE)]
            results.note(not lacking, f"dist, completions: {path}: {name} lacks {lacking}")
        ended = run(["bash", "-c", COMPLETED, release.path("share/bash-completion/completions/elasticlunr"), name, "--"])
        found = ended.out.decode().split()
        results.note(sorted(found) == sorted(options), f"dist, completions: bash has {found} for {name}, {ended.err!r}")
    results.note(tried >= LEAST - 2, f"dist, completions: {tried} options, and {LEAST - 2} are the least")
    for shell, path in [("zsh", "share/zsh/site-functions/_elasticlunr"), ("fish", "share/fish/vendor_completions.d/elasticlunr.fish")]:
        if shutil.which(shell):
            ended = run([shell, "-n", release.path(path)])
            results.note((ended.status, ended.err) == (0, b""), f"dist, completions: {shell}: {ended.err!r}")


def check_texts(release, _folder, results):
    for name in (it for it in release.files if it.endswith(".md")):
        text = re.sub(r"^```.*?^```$", "", release.text(name), flags=re.MULTILINE | re.DOTALL)
        for link in re.findall(r"\]\(([^)\s#]+)[^)\s]*\)", text):
            target = os.path.normpath(os.path.join(os.path.dirname(name), link))
            is_there = re.match(r"[a-z]+:", link) or os.path.exists(release.path(target))
            results.note(is_there, f"dist, texts: {name}: there is no {link}")
    readme = release.text("README.md")
    results.note(not re.search("VERSION|CHECKSUM", readme), "dist, texts: README.md has a place that is not filled in")
    results.note(("## From Rust" in readme) == any(it.startswith("rust/") for it in release.files), "dist, texts: README.md and Rust")
    said = run([release.path(COMMAND), "--version"]).out.decode()
    results.note(said and said in readme, f"dist, texts: README.md has another version than {said!r}")


def check_licenses(release, _folder, results):
    kit = os.path.join(os.path.dirname(library.ran(["rt", "doc"]).split()[0]), "rattle")
    text, ours = release.text("LICENSES-OF-CRATES"), crates.libraries()
    built = {it for name in ("elasticlunr_cli", "elasticlunr_index", "elasticlunr_c") for it in (name, *crates.below(name))}
    paths = sorted({path for name in built for it in ours[name] for path in glob.glob(os.path.join(kit, it, "LICENSE*"))})
    results.note(len(paths) >= LICENSES, f"dist, licenses: {len(paths)} of them, and {LICENSES} are the least")
    for path in paths:
        is_there = read(path).strip("\n") in text and os.path.relpath(path, kit) in text
        results.note(is_there, f"dist, licenses: there is none of {os.path.relpath(path, kit)}")


def check_package(release, _folder, results):
    environment = {**os.environ, "PKG_CONFIG_PATH": release.path("lib/pkgconfig")}
    for option, start, name in [("--cflags", "-I", "elasticlunr.h"), ("--libs-only-L", "-L", "libelasticlunr.so")]:
        said = library.ran(["pkg-config", option, "elasticlunr"], env=environment).strip()
        path = os.path.join(said.removeprefix(start), name)
        is_there = said.startswith(start) and os.path.isfile(path) and os.path.realpath(path).startswith(os.path.realpath(release.folder))
        results.note(is_there, f"dist, pkg-config: {option} gives {said!r}")
    said = library.ran(["pkg-config", "--modversion", "elasticlunr"], env=environment).strip()
    results.note(said == library.version(), f"dist, pkg-config: version {said}")


CASES = {
    "bytes": check_bytes,
    "list": check_list,
    "members": check_members,
    "checksums": check_checksums,
    "glibc": check_glibc,
    "refusals": check_refusals,
    "helps": check_helps,
    "manual": check_manual,
    "completions": check_completions,
    "texts": check_texts,
    "licenses": check_licenses,
    "pkg-config": check_package,
}


def main():
    is_built = "--built" in sys.argv
    sys.argv = [it for it in sys.argv if it != "--built"]
    results = Results("dist")
    if not has_history():
        results.skip("dist", ["a history of git"])
        return results.report()
    try:
        if not is_built:
            library.build(os.path.join(TOP, "out"))
        with tempfile.TemporaryDirectory() as folder:
            release = Release(dist.make(os.path.join(folder, "made")), os.path.join(folder, "unpacked"))
            for name, check in CASES.items():
                if is_asked(name):
                    check(release, folder, results)
    except (OSError, ValueError, tarfile.TarError, subprocess.SubprocessError) as error:
        results.note(False, f"dist: {error!r}")
    return results.report()


if __name__ == "__main__":
    sys.exit(main())
