#!/usr/bin/env python3
"""Tries what the checks depend on: the gate, its counts, the notes of what is built, how growth is judged, and the scripts that
download.

usage: check_gate.py [WORD ..]

Each case runs these scripts in a small repository of its own, with stubs instead of the real tools and checks. With words,
only the cases run that have one of them in their names.
"""
import os
import re
import shutil
import subprocess
import sys
import tempfile
from typing import NamedTuple

sys.path.insert(0, os.path.join(os.path.dirname(__file__), ".."))

from tests import checks, growth
from tests.report import FAILED, Results, is_asked
from tools import gate
from tools.repository import TOP, read, write

FOLDERS = ("bench", "tests", "tools")
CHANGE = "echo '// more' >>crates/prog/src/main.rt"
CHANGE_AND_BACK = "cp crates/prog/src/main.rt out/old; " + CHANGE + "; cp out/old crates/prog/src/main.rt"
STUB = 'print("stub: 1000000 passed, 0 failed")\n'

TESTS = "elasticlunr_tests"  # the crate whose tests the checks run
RT = rf"""#!/bin/sh
[ "$1" = version ] && {{ echo "a kit"; exit; }}
cd "$TOP" && mkdir -p crates/prog/out crates/{TESTS}/out
echo program >crates/prog/out/prog
echo tests >crates/{TESTS}/out/{TESTS}_tests
eval "$MEANWHILE"
[ -e out/checks.log ] && : >out/early
printf '%s\n' "$SAID"
exit "$STATUS"
"""
APT_GET = r"""#!/bin/sh
case "$*" in
*indextargets*) printf '%s|%s\n' other "http://other.invalid/" any-security "http://security.invalid/" "$OWN" "http://mirror.invalid/" ;;
*update*) [ -z "${APT_CONFIG:-}" ] && echo "apt-get update" >&2 || sed 's/.*] //' "$(dirname "$APT_CONFIG")/sources.list" >>"$TOP/asked" ;;
*download*) : >package.deb ;;
*install*) echo "Inst librust-regex-dev" ;;
esac
echo "apt-get $*" >>"$TOP/done"
"""
DPKG_DEB = r"""#!/bin/sh
[ "$1" = -x ] && mkdir -p "$3/usr/share/cargo/registry" || echo "librust-regex-dev"
"""
CARGO = r"""#!/bin/sh
case "$PWD" in *"/$TOO_NEW/"*) exit 1 ;; esac
mkdir -p target/release && : >target/release/original
"""
STUBS = {"rt": RT, "apt-get": APT_GET, "dpkg-deb": DPKG_DEB, "cargo": CARGO}


class Repository:
    """A repository with one program, the folders of scripts, and stubs instead of the tools and the checks."""

    def __enter__(self):
        self.folder = tempfile.TemporaryDirectory()
        self.path = self.folder.name
        for name in FOLDERS:
            shutil.copytree(os.path.join(TOP, name), os.path.join(self.path, name), ignore=shutil.ignore_patterns("__pycache__"))
        for words in sum(checks.GROUPS + checks.LIBRARY, []):
            self.write(f"tests/{words.split()[0]}.py", STUB)
        self.write("bench/compare/compare.py", "import sys\nprint(sys.argv[-1])\n")
        self.write("crates.txt", "prog:\n")
        self.write("crates/prog/src/main.rt", "fn main() {}\n")
        self.write("out/done", "")
        for name, text in STUBS.items():
            os.chmod(self.write(f"stubs/{name}", text), 0o755)
        return self

    def __exit__(self, *_):
        self.folder.cleanup()

    def write(self, name, text):
        return write(os.path.join(self.path, name), text)

    def read(self, name):
        try:
            return read(os.path.join(self.path, name))
        except FileNotFoundError:
            return ""

    def run(self, *command, said="", status=0, meanwhile="", **more):
        """What a command prints on both streams, and its status."""
        path = os.path.join(self.path, "stubs") + os.pathsep + os.environ["PATH"]
        set_here = {"PATH": path, "TOP": self.path, "SAID": said, "STATUS": str(status), "MEANWHILE": meanwhile, "OWN": release(), "TOO_NEW": "none"}
        kept = {name: value for name, value in os.environ.items() if name not in ("BESIDE", "MIRROR", "APT_CONFIG")}
        ended = subprocess.run(
            command, cwd=self.path, env={**kept, **set_here, **more}, stdout=subprocess.PIPE, stderr=subprocess.STDOUT, text=True, timeout=120
        )
        return ended.stdout, ended.returncode

    def is_noted(self):
        """Whether a build has nothing to do, because the program was built from the present sources."""
        return self.run(sys.executable, "tools/build.py", "--check", "prog")[1] == 0


def release():
    """The system's own release of Debian."""
    return (re.search(r"^VERSION_CODENAME=(\w+)", read("/etc/os-release"), re.MULTILINE) or ["", "none"])[1]


MIRROR = "http://mirror.invalid/"


class Gate(NamedTuple):
    name: str
    said: str  # by `rt ci`
    passes: bool
    shown: tuple = ()  # lines of the output. If the gate fails, they are at its end, below WHAT_FAILED
    status: int = 0
    meanwhile: str = ""  # what happens while `rt ci` runs, once it has built the programs
    is_noted: bool = True
    check: str = STUB  # one of the checks
    is_early: bool = False  # whether the checks begin before `rt ci` ends
    library: str = STUB  # the check that makes calls from C
    crates: tuple = ("prog",)
    patience: int = 75  # minutes, after which the library for C is not tried
    limit: int = 140  # minutes, after which its checks are stopped


PROVED = "rt: prog proved\nrt: prog: trying its must-fail edits (1)\n"
REFUSED = "rt: must-fail prog/a.edit: refused, as it must be: src/main.rt:1:1: error\n"
BY_NAME = "rt: must-fail prog/a.edit: refused, as it must be (only because a proof file names what the edit took away, so this says little)\n"
BAD_EDIT = "rt: must-fail prog/a.edit: BAD EDIT: an 'old:' text is in src/main.rt 0 times, and not once\n"
ERROR = "src/main.rt:1:1: error[type]: another type"
NOT_PROVED = f"fn main: proved\n{ERROR}\nrt: prog NOT PROVED\n0 passed, 1 failed"
FAILURES = "".join(f'print("{FAILED}job {number}: status 1")\n' for number in range(40)) + 'print("jobs: 1000000 passed, 40 failed")\n'
KILLS = "import os, signal\nos.kill(os.getppid(), signal.SIGKILL)\n"
HANGS = "import time\ntime.sleep(300)\n"


def says(*lines):
    """What `rt ci` says while it runs."""
    return "".join(f"echo 'rt: {line}'; " for line in lines)


TESTS_BUILT = f"{TESTS}: its tests are proved"
TESTS_KEPT = f"{TESTS}: its tests passed"
KEPT = "prog is kept: its files are those of an earlier run"
RAN = "prog ran, and wrote what its file stdout has"
WAITS = "for turn in $(seq 100); do [ -e out/checks.log ] && break; sleep 0.1; done; "  # until the checks have begun, ten seconds at most
ALL_BUILT = says("prog proved", TESTS_BUILT) + WAITS
A_WHILE = "sleep 1"  # in which the checks would begin
GATES = [
    Gate("a gate that passes", PROVED + REFUSED + "2 passed, 0 failed", True, ("  1 mutants refused",)),
    Gate("an edit that is refused only for a name", PROVED + BY_NAME + "2 passed, 0 failed", False, (f"  {BY_NAME.strip()}",)),
    Gate("an edit that can't be applied", PROVED + BAD_EDIT + "1 passed, 0 failed", False, (f"  {BAD_EDIT.strip()}", "edits: 0 passed, 1 failed")),
    Gate("a crate that is not proved", NOT_PROVED, False, ("  rt: prog NOT PROVED", f"    {ERROR}"), status=1, is_noted=False),
    Gate("a source that is changed meanwhile", PROVED + "1 passed, 0 failed", True, meanwhile=CHANGE, is_noted=False),
    Gate("a source that is changed and changed back", PROVED + "1 passed, 0 failed", True, meanwhile=CHANGE_AND_BACK, is_noted=False),
    Gate("a check that fails", PROVED + "1 passed, 0 failed", False, ("  check_jobs FAILED", "    job 0: status 1"), check=FAILURES),
    Gate("a check that breaks off", PROVED + "1 passed, 0 failed", False, ("  check_jobs FAILED: it broke off", "    ZeroDivisionError: division by zero"), check="1 / 0\n"),
    Gate("checks that are killed", PROVED + "1 passed, 0 failed", False, ("  tests/checks.py broke off",), check=KILLS),
    Gate("a check that fails before `rt ci` ends", "1 passed, 0 failed", False, ("  check_jobs FAILED", "    job 0: status 1"), check=FAILURES, meanwhile=ALL_BUILT, is_early=True),
    Gate("programs that are proved", "1 passed, 0 failed", True, meanwhile=ALL_BUILT, is_early=True),
    Gate("programs that are kept and run", "1 passed, 0 failed", True, meanwhile=says(KEPT, RAN, TESTS_KEPT) + WAITS, is_early=True),
    Gate("a program that is kept, and not yet run", f"rt: {RAN}\n1 passed, 0 failed", True, meanwhile=says(KEPT, TESTS_BUILT) + A_WHILE),
    Gate("a program that no check runs, and that is not there", "1 passed, 0 failed", True, meanwhile=ALL_BUILT, is_early=True, crates=("prog", gate.UNUSED[0])),
    Gate("tests that are not yet proved", "1 passed, 0 failed", True, meanwhile=says("prog proved") + A_WHILE),
    Gate("a program of an earlier run", "1 passed, 0 failed", True, meanwhile="touch -d yesterday crates/prog/out/prog; " + says("prog proved", TESTS_BUILT) + A_WHILE),
    Gate("a program that is not there yet", "1 passed, 0 failed", True, meanwhile="rm crates/prog/out/prog; " + says("prog proved", TESTS_BUILT) + A_WHILE + "; echo program >crates/prog/out/prog"),
    Gate("a crate that fails after the checks began", NOT_PROVED.replace("prog", "other"), False, ("  rt: other NOT PROVED",), status=1, check=HANGS, meanwhile=ALL_BUILT, is_early=True),
    Gate("a library for C that fails", PROVED + "1 passed, 0 failed", False, ("  c_calls FAILED", "    job 0: status 1"), library=FAILURES),
    Gate("a library for C that is tried", PROVED + "1 passed, 0 failed", True, ("library: 1000000 passed, 0 failed",), library=STUB.replace("stub", "library")),
    Gate("a library for C that there is no time for", PROVED + "1 passed, 0 failed", True, ("  the library for C is not tried after 0 minutes: `make lib-test` tries it",), library=FAILURES, patience=-1),
    Gate("a library for C that does not end", PROVED + "1 passed, 0 failed", True, ("  the library for C is stopped after 0 minutes: `make lib-test` tries it",), library=HANGS, limit=0),
]


def try_gate(case):
    with Repository() as repository:
        repository.write("tests/check_jobs.py", case.check)
        repository.write("tests/c_calls.py", case.library)
        text = repository.read("tools/gate.py")
        text = re.sub(r"(?m)^PATIENCE = \d+", f"PATIENCE = {case.patience}", text)
        repository.write("tools/gate.py", re.sub(r"(?m)^LIMIT = \d+", f"LIMIT = {case.limit}", text))
        repository.write("crates.txt", "".join(f"{name}:\n" for name in case.crates))
        for name in case.crates:
            repository.write(f"crates/{name}/src/main.rt", "fn main() {}\n")
        text, status = repository.run("bash", "tools/test.sh", said=case.said, status=case.status, meanwhile=case.meanwhile)
        lines = text.splitlines()
        counted = re.fullmatch(r"[1-9]\d* passed, 0 failed" if case.passes else r"\d+ passed, [1-9]\d* failed", lines[-1])
        end = lines if case.passes else lines[-3 - checks.MOST : -1]
        is_said = set(case.shown) <= set(end) and (case.passes or checks.WHAT_FAILED in end)
        is_noted = repository.is_noted()
        is_early = os.path.exists(os.path.join(repository.path, "out", "early"))
        good = (status == 0) == case.passes and counted and is_said and is_noted == case.is_noted and is_early == case.is_early
        return None if good else f"status {status}, {'' if is_noted else 'not '}noted, begun {'early' if is_early else 'late'}: {text[-600:]}"


# What a check says at its end, its status, and whether it passes
ENDS = [
    ("a check that passes", "jobs: 1000000 passed, 0 failed", 0, True),
    ("a check that tried nothing", "jobs: 0 passed, 0 failed", 0, False),
    ("a check that dropped most of its work", "jobs: 3 passed, 0 failed", 0, False),
    ("a check that can't be tried here", "jobs: 0 passed, 0 failed, 1 skipped", 0, True),
    ("a check that skips a little and drops the rest", "jobs: 1 passed, 0 failed, 1 skipped", 0, False),
    ("a check that says nothing", "", 0, False),
    ("a check whose status alone is bad", "jobs: 1000000 passed, 0 failed", 1, False),
    ("a check whose count alone is bad", "jobs: 1000000 passed, 1 failed", 0, False),
]


def try_end(last, status, passes):
    wrong = checks.why_failed("check_jobs", status, last)
    return None if passes == (not wrong) else f"said of it: {wrong}"


def try_what_failed():
    """However much fails, what is said of it is short, and names what it can."""
    for count, reasons in ((1, 1000), (3, 1000), (50, 1000), (1, 0)):
        lines = checks.what_failed([checks.Failure(f"{number} FAILED", ["x" * 1000] * reasons) for number in range(count)])
        named = sum(line.endswith("FAILED") for line in lines)
        if len(lines) > checks.MOST + 1 or named < min(count, checks.MOST) or max(map(len, lines)) > 2 * checks.WIDTH:
            return f"{count} failures: {len(lines)} lines, {named} named"
    return None if checks.what_failed([]) == [] else "lines of no failure"


class Fake(growth.Runs):
    """Runs that took so many seconds and instructions."""

    def __init__(self, seconds, counted):
        super().__init__([], "", "")
        self.took, self.counted = seconds, counted

    def run(self):
        self.seconds = min(self.seconds, self.took)
        return ""

    def instructions(self):
        return self.counted


GROWTHS = {  # the seconds and the instructions of both runs, and whether they may pass
    "twice as long": ((3, 6), (0, 0), True),
    "four times as long in a short run": ((0.3, 1.2), (0, 0), False),
    "four times as long, with twice as many instructions": ((3, 12), (5, 10), True),
    "four times as long, with four times as many instructions": ((3, 12), (5, 20), False),
    "four times as long, and no count of the longer run": ((3, 12), (5, 0), False),
    "four times as long, and too long to be counted": ((8, 32), (5, 10), False),
    "two runs that are too long to be counted": ((16, 64), (5, 10), False),
    "no time": ((0.01, 0.02), (5, 10), False),
}


def try_growth(seconds, counted, may_pass):
    """A program that takes too many times as long for an input twice as long is refused, however long it takes."""
    counting, growth.COUNTING = growth.COUNTING, [sys.executable]  # which is there
    wrong, times, of_what = growth.growth(*map(Fake, seconds, counted), 2)
    growth.COUNTING = counting
    return None if (not wrong and times <= growth.TIMES) == may_pass else f"{times:.1f} times, {of_what}, {wrong!r}"


LOW = "crate low: modules loaded=1 checked=2\nlogic=proved functions=1\n"
PROG = "library low: modules loaded=0 checked=0\ncrate prog: modules loaded=1 checked=2\n"
RUNS = "rt: running out/prog; to give it other input, run that file yourself\nthe output"
ALL_PROVED = LOW + PROG + "logic=proved functions=2\n" + RUNS
UNCHANGED = "rt: nothing has changed since the last proved build, so nothing is checked now\n" + RUNS


def try_build(said, status=0, meanwhile="", is_built=True, is_noted=True, shown=()):
    """A build notes the sources that it was made from, or nothing if they changed during the build. It shows the crates in the
    order in which they are proved. The status of the program doesn't matter."""
    with Repository() as repository:
        build = (sys.executable, "tools/build.py", "prog")
        text, ended = repository.run(*build, said=said, status=status, meanwhile=meanwhile)
        proved = re.findall(r"^  (\w+): proved \(\d+ s\)$", text, re.MULTILINE)
        if (ended == 0) != is_built or repository.is_noted() != is_noted or proved != list(shown):
            return f"status {ended}, noted: {repository.is_noted()}: {text[-300:]}"
        repository.run(*build, said=ALL_PROVED)
        return None if repository.is_noted() else "not noted by a second build"


BUILDS = {
    "a build": lambda: try_build(ALL_PROVED, shown=("low", "prog")),
    "a build of a program that ends with another status": lambda: try_build(ALL_PROVED, status=64, shown=("low", "prog")),
    "a build of what has not changed": lambda: try_build(UNCHANGED),
    "a build that is not proved": lambda: try_build(LOW + PROG + "logic=not-proved\n", 1, is_built=False, is_noted=False, shown=("low",)),
    "a build whose linking fails": lambda: try_build(LOW + PROG + "logic=proved functions=2\n", 2, is_built=False, is_noted=False, shown=("low", "prog")),
    "a build of a source that is changed meanwhile": lambda: try_build(ALL_PROVED, meanwhile=CHANGE, is_noted=False, shown=("low", "prog")),
    "a build of a source that is changed and changed back": lambda: try_build(ALL_PROVED, meanwhile=CHANGE_AND_BACK, is_noted=False, shown=("low", "prog")),
}


def try_costs():
    """The seconds before a line are those of its function."""
    with Repository() as repository:
        said = "checked prog::b, 2 of 2\nfn prog::a: proved\nfn prog::b: proved"
        command = (sys.executable, "tools/costs.py", "prog")
        text, status = repository.run(*command, said=said, meanwhile="echo 'checked prog::a, 1 of 2'; sleep 2")
        shown = re.fullmatch(r" +\d+\.\d in total\n +\d+\.\d prog::b\n +\d+\.\d prog::a\n", text)
        return None if status == 0 and shown else f"status {status}: {text[-300:]}"


INSTALLS = """import os, sys, time
sys.path.insert(0, ".")
from tests import browser_tools
os.geteuid = lambda: 0
browser_tools.install(["chromium", "nodejs"])
end = time.monotonic() + 20
while "installs" not in open("out/log").read():
    assert time.monotonic() < end
    time.sleep(0.05)
"""


def try_install():
    """What a check installs is said before it is installed, and shown at once."""
    with Repository() as repository:
        repository.write("tests/browser.py", INSTALLS + STUB)
        text, status = repository.run(sys.executable, "tests/checks.py", "out/log")
        said = re.search(r"^\S+: installs chromium, nodejs by apt-get, to .*$", text, re.MULTILINE)
        done = repository.read("done")
        good = status == 0 and said and "install chromium nodejs" in done
        return None if good else f"status {status}: {text[-400:]}: {done}"


def try_download(command, asked, **more):
    """A script that downloads asks the archive that the system's sources name for these releases, and says so first."""
    with Repository() as repository:
        text, _ = repository.run("bash", *command, **more)
        found = repository.read("asked").split("\n")[:-1]
        is_said = re.search(rf"^\S+: downloads .* from {re.escape(MIRROR)}", text, re.MULTILINE)
        wanted = [f"{MIRROR} {release} main" for release in asked]
        is_built = command[0] != "bench/compare/compare.sh" or f"out/compare/{asked[-1]}/program" in text.splitlines()[-1]
        return None if found == wanted and is_said and is_built else f"asked {found}: {text[-400:]}"


# Names that no real host has
RESERVED = re.compile(r"127\.0\.0\.1|localhost|([\w-]+\.)*example(\.\w+)?|([\w-]+\.)*(invalid|test)")
HOST = re.compile(r"(?:https?|ftp)://([\w.-]+)|\b((?:[\w-]+\.)+debian\.(?:org|net))\b")


def hosts(top):
    """Each line of a file that names a host. Documents may name hosts."""
    for at, folders, names in os.walk(top):
        folders[:] = sorted(it for it in folders if it not in (".git", "out", "__pycache__"))
        for name in sorted(names):
            if name.endswith((".md", ".png")) or name in ("NOTICE", "LICENSE-APACHE", "LICENSE-MIT"):
                continue
            with open(os.path.join(at, name), encoding="utf-8", errors="replace") as file:
                for number, line in enumerate(file, 1):
                    for host in HOST.finditer(line):
                        if not RESERVED.fullmatch(host[1] or host[2]):
                            yield f"{os.path.relpath(os.path.join(at, name), top)}:{number}: {host[0]}"


def try_hosts():
    found = list(hosts(TOP))
    with Repository() as repository:
        repository.write("tools/forged.sh", "mirror=http:" + "//mirror.debian" + ".org/debian\n")
        is_seen = any(it.startswith("tools/forged.sh:1: ") for it in hosts(repository.path))
    return None if is_seen and not found else f"{found}, and a forged one is {'' if is_seen else 'not '}seen"


def try_unused():
    """No check runs a program that the gate does not wait for."""
    folder = os.path.join(TOP, "tests")
    run = [(name, it) for name in gate.UNUSED for it in os.listdir(folder) if it.endswith(".py") and f'program("{name}"' in read(f"tests/{it}")]
    return f"{run}" if run else None


def cases():
    for case in GATES:
        yield case.name, lambda case=case: try_gate(case)
    for name, *end in ENDS:
        yield name, lambda end=end: try_end(*end)
    yield "what failed is said in few lines", try_what_failed
    for name, growing in GROWTHS.items():
        yield f"growth: {name}", lambda growing=growing: try_growth(*growing)
    yield from BUILDS.items()
    yield "the costs of a proof", try_costs
    yield "what is installed", try_install
    compare = ("bench/compare/compare.sh",)
    yield "the newest crates below the original", lambda: try_download(compare, ["trixie", "trixie"])
    yield "older crates below the original", lambda: try_download(compare, ["trixie", "old"], BESIDE="old")
    yield "crates that cargo can't build", lambda: try_download(compare, ["trixie", "trixie", "trixie", release()], TOO_NEW="trixie")
    yield "elasticlunr.js", lambda: try_download(("tools/fetch_elasticlunr.sh", "out/js"), ["trixie"])
    yield "no file names a host", try_hosts
    yield "programs that no check runs", try_unused


def main():
    results = Results("gate")
    for name, case in cases():
        if is_asked(name):
            wrong = case()
            results.note(wrong is None, f"gate, {name}: {wrong}")
    return results.report()


if __name__ == "__main__":
    sys.exit(main())
