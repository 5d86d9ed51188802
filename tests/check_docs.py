#!/usr/bin/env python3
"""Compares the blocks and the links of the documentation with what is proved, or runs them.

usage: check_docs.py [PAGE ..]

Without a page it takes README.md, CONTRIBUTING.md, docs/ and each crate's CALLING.md. Another file is taken for the page of
its name.

- A block of Rust is the root file of a library, or a file of elasticlunr_uses, byte for byte, so `rt ci`, which proves every
  crate, has proved it. A block of proofs after one is the file of that crate whose path the block begins with. A page that
  shows a file of a crate, or its line of crates.txt, shows the whole crate, that line and each file that a proof reads;
  elasticlunr_uses alone is shown in part. README.md may leave out the specs and proofs of a crate that LIBRARY.md shows whole.
  Nothing is shown twice on a page.
- A block of lines of crates.txt has lines that crates.txt has.
- The blocks `rattle` of a page are crates that its reader is to have, each file after the line `// crates/PATH`. With their lines
  of crates.txt, and over a copy of all crates, `rt try` must run the last of them: it gets a page and prints its index. They are
  not proved.
- Each command of a block of shell runs at the top of the repository and must end well. Where lines follow it, it must print
  these, its seconds apart. `make test`, which runs this check, `make compare`, what downloads, and `make try` on a page that
  is not the repository's own are only looked up.
- A block of JSON is a job, which the built program must answer as the definitions say (model.py), or documents, which
  `elasticlunr check` must accept. In README.md it is a job.
- The parts of a text that docs/THEOREM.md works by hand are, one after the other, what the table of jobs has for the job of that page.
- A page has each kind of block that it needs (NEEDED).
- A link leads to a file, and to a heading of it. In README.md and docs/PROVED.md each name of code is in a crate. There and in
  each CALLING.md, a clause that the page names is one of that call, and a law is there (clauses.py).
- docs/CLAIMS.md is what tools/claims.py prints.
- Where a page names the logic of the kit, it is that of the kit here (`rt version`).
"""
import collections
import functools
import glob
import json
import os
import re
import shutil
import sys
import tempfile

sys.path.insert(0, os.path.join(os.path.dirname(__file__), ".."))

from tests import clauses, model, tables
from tests.report import Results
from tools import claims, crates
from tools.repository import TOP, lines_of, program, read, run, write

PAGES = ["README.md", "CONTRIBUTING.md", "docs/*.md", "crates/*/CALLING.md"]
CLAIMS = ("README.md", "PROVED.md", "THEOREM.md")  # pages whose names of code are looked up
USES = "elasticlunr_uses"  # a page may show some files of this crate; any other crate is shown whole
RUST, PROOF, CRATE, LINES, SHELL, JOB, JSON = "Rust", "a proof", "a whole crate", "lines of crates.txt", "shell", "a job", "JSON"
OWN = "crates of the reader"
OWN_PAGE = ("guide/install.html", "Installing", "Copy the folder into your site.")  # what their program gets, with tabs between
NEEDED = {  # what a page has, by its name
    "README.md": (CRATE, LINES, SHELL, JOB),
    "LIBRARY.md": (CRATE, PROOF, LINES, OWN),
    "BROWSER.md": (SHELL,),
    "COMMAND.md": (SHELL, JOB, JSON),
    "SEARCH.md": (SHELL,),
    "SITES.md": (SHELL,),
    "THEOREM.md": (JOB,),
}
LONG = re.compile(r"make (test|compare|demo)\b")
SLOW = re.compile(r"make try\b")  # takes up to a minute
DOWNLOADS = re.compile(r"tools/fetch_")  # tests/browser.py runs it
MINUTES = 15  # the time limit of a command
LOGIC = re.compile(r"logic ([0-9a-f]{16})")
SECONDS = re.compile(r"\b\d+\.\d s\b")
NAME = re.compile(r"`(?:[A-Z]\w*::)?([a-z]+(?:_[a-z0-9]+)+)`")


def pages():
    return [path for pattern in PAGES for path in sorted(glob.glob(os.path.join(TOP, pattern)))]


def blocks(text):
    """The kind, the number of the first line, and the text of each block."""
    for block in re.finditer(r"^```(\S*)\n(.*?)^```$", text, re.DOTALL | re.MULTILINE):
        yield block[1], text.count("\n", 0, block.start()) + 2, block[2]


@functools.cache
def sources():
    """The crate, and the path in it, of each file of Rust that a page may show, by its text."""
    paths = glob.glob(os.path.join(TOP, "crates", "*", "src", "lib.rt"))
    paths += glob.glob(os.path.join(TOP, "crates", USES, "src", "**", "*.rt"), recursive=True)
    places = [os.path.relpath(path, os.path.join(TOP, "crates")).split(os.sep, 1) for path in paths]
    return {read(path): place for path, place in zip(paths, places)}


@functools.cache
def words_of_code():
    paths = glob.glob(os.path.join(TOP, "crates", "*", "src", "**", "*.rt"), recursive=True)
    paths += glob.glob(os.path.join(TOP, "crates", "*", "specs", "**", "*.antt"), recursive=True)
    return {word for path in paths for word in re.findall(r"\w+", read(path))} | set(os.listdir(os.path.join(TOP, "crates")))


def shown(found):
    """Each block of Rust or of a proof: its line, what it is, its crate, its path in the crate, and its text."""
    crate = None
    for kind, line, text in found:
        if kind == "rust":
            crate, path = sources().get(text, (None, ""))
            yield line, RUST, crate, path, text
        elif kind == "antt":
            path, _, rest = text.partition("\n")
            yield line, PROOF, crate, path.removeprefix("-- "), rest


def code_failures(found):
    """Each block of Rust or of a proof, and why it is not one of a crate."""
    for line, name, crate, path, text in shown(found):
        if name == RUST:
            yield line, name, None if crate else "no crate has this file"
        else:
            at = os.path.join(crates.folder(crate or ""), path)
            is_there = os.path.isfile(at) and read(at) == text
            yield line, name, None if is_there else f"{os.path.relpath(at, TOP)} is another text"


def all_lines_of_crates(found):
    for kind, line, text in found:
        if kind == "text" and re.fullmatch(r"(\w+:( \w+)+\n)+", text):
            yield from ((line, it) for it in text.splitlines())


def lines_of_crates(found):
    """The lines of crates.txt that a page has, each with the number of the first line of its block; not those of the reader."""
    return [(line, text) for line, text in all_lines_of_crates(found) if text.partition(":")[0] not in own_crates(found)]


def own_files(found):
    """The files of the crates that a page's reader is to have, by their paths in crates/."""
    texts = [text for kind, _, text in found if kind == "rattle"]
    return {text.partition("\n")[0].removeprefix("// crates/"): text for text in texts}


def own_crates(found):
    return [path.partition("/")[0] for path in own_files(found)]


def own_failures(found):
    """Why the last of the crates that a page's reader is to have is not compiled, or doesn't print the index of a page."""
    own = own_crates(found)
    if not own:
        return
    lines = [text for _, text in all_lines_of_crates(found) if text.partition(":")[0] in own]
    with tempfile.TemporaryDirectory() as folder:
        for crate in crates.crates():
            for part in crates.PARTS:
                if os.path.isdir(os.path.join(crates.folder(crate), part)):
                    shutil.copytree(os.path.join(crates.folder(crate), part), os.path.join(crates.folder(crate, folder), part))
        shutil.copy(os.path.join(TOP, "HANDLES"), folder)
        write(os.path.join(folder, "crates.txt"), read("crates.txt") + "".join(it + "\n" for it in lines))
        for path, text in own_files(found).items():
            write(os.path.join(folder, "crates", path), text)
        ended = run(["rt", "try"], ("\t".join(OWN_PAGE) + "\n").encode(), 60 * MINUTES, cwd=crates.folder(own[-1], folder))
    expected, _ = model.answer(json.dumps({"fields": ["title", "body"], "docs": [OWN_PAGE]}).encode())
    is_right = (ended.status, ended.out.decode(errors="replace")) == (0, expected)
    said = [it for it in ended.err.decode(errors="replace").splitlines() if "error" in it]
    yield 0, OWN, None if is_right else f"`rt try`: status {ended.status}: {' '.join(said)[-300:]}"


def crate_failures(name, found):
    """Each line of crates.txt, and each crate of which a page shows something, and why they don't fit together."""
    known = [it.rstrip("\n") for it in lines_of("crates.txt")]
    for line, text in lines_of_crates(found):
        yield line, LINES, None if text in known else f"crates.txt has no line `{text}`"
    for crate, path in twice(found):
        yield 0, crate, f"the page shows {path} twice"
    listed = {text.partition(":")[0] for _, text in lines_of_crates(found)}
    for crate in sorted((listed | crates_of(found)) - {USES}):
        paths = paths_of(crate, found)
        if name == "README.md" and crate in whole_in_library():
            paths |= {it for it in files_of(crate) if it.startswith(("specs", "proofs"))}
        yield 0, crate, part_failure(crate, paths, crate in listed)


def twice(found):
    """The files and the lines of crates.txt that a page shows again, each with its crate."""
    files = [(crate, path) for _, _, crate, path, _ in shown(found) if crate]
    lines = [(text.partition(":")[0], "its line of crates.txt") for _, text in lines_of_crates(found)]
    return sorted(it for it, count in collections.Counter(files + lines).items() if count > 1)


def paths_of(crate, found):
    """The paths of a crate that a page shows."""
    return {path for _, _, it, path, _ in shown(found) if it == crate}


def files_of(crate):
    """The paths in a crate that its proof reads."""
    return {os.path.relpath(path, crates.folder(crate)) for path in crates.files(crate)}


@functools.cache
def whole_in_library():
    """The crates that LIBRARY.md shows whole."""
    found = list(blocks(read("docs/LIBRARY.md")))
    return {crate for crate in crates_of(found) if paths_of(crate, found) == files_of(crate)}


def crates_of(found):
    return {crate for _, _, crate, _, _ in shown(found) if crate}


def part_failure(crate, paths, is_listed):
    """Why a page doesn't show a whole crate."""
    whole = files_of(crate)
    if paths != whole:
        return f"the page shows {sorted(paths)} instead of {sorted(whole)}"
    return None if is_listed else "the page has no line of crates.txt for it"


def worked_failures(text, found):
    """Whether the parts in the first column of the last table are, one after the other, what the table of jobs has for the job."""
    row = next((tables.row_of(json.loads(block)) for kind, _, block in found if kind == "json"), None)
    parts = re.findall(r"^\| `(.*?)` \| ", text[text.rindex("\n|---|---|\n") :], re.MULTILINE)
    is_right = row and row.out.decode() == "".join(parts) + "\n"
    yield 0, "an index by hand", None if is_right else "its parts are not what the table of jobs has"


def kinds(found):
    """What a page has, of what a page may need."""
    names = {"console": SHELL, "json": JSON}
    there = {names.get(kind) for kind, _, _ in found} | {it for _, it, _, _, _ in shown(found)}
    there |= {JOB for kind, _, text in found if kind == "json" and is_job(text)}
    there |= {CRATE for _ in crates_of(found) - {USES}}
    there |= {OWN for _ in own_files(found)}
    return there | {LINES for _ in lines_of_crates(found)}


def needed_failures(name, found):
    """Each kind of block that a page needs, and whether it has none."""
    for needed in NEEDED.get(name, ()):
        yield 0, needed, None if needed in kinds(found) else "the page has none"


def commands(text):
    """Each command of a block of shell, with the lines that it prints."""
    found = []
    for line in text.splitlines():
        if line.startswith("$ "):
            found.append((line[2:].partition("  #")[0].strip(), []))
        elif found:
            found[-1][1].append(line)
    return found


def command_failure(command, lines, is_page):
    if DOWNLOADS.match(command):
        return None if os.access(os.path.join(TOP, command.split()[0]), os.X_OK) else "there is no such script"
    if LONG.match(command) or SLOW.match(command) and not is_page:
        ended = run(["sh", "-c", command.replace("make", "make -n", 1)], cwd=TOP)
        return None if ended.status == 0 else "make has no such target"
    path = os.path.join(TOP, "out", "usr", "bin") + os.pathsep + os.environ["PATH"]
    ended = run(["sh", "-c", command], seconds=60 * MINUTES, cwd=TOP, env={**os.environ, "PATH": path})
    if ended.status != 0:
        return f"status {ended.status}: {ended.err.decode(errors='replace')[-300:]}"
    expected = "".join(it + "\n" for it in lines)
    printed = (ended.err + ended.out).decode(errors="replace")
    if not lines or printed == expected or SECONDS.sub("0 s", printed).strip() == SECONDS.sub("0 s", expected).strip():
        return None
    return f"it prints {printed[:300]!r}"


def is_job(text):
    try:
        job = json.loads(text)
    except ValueError:
        return False
    return isinstance(job, dict) and "docs" in job


def json_failure(text, has_jobs_alone):
    """Why a block is no job that is answered as the model says, and no documents."""
    if has_jobs_alone or is_job(text):
        expected, status = model.answer(text.encode())
        ended = run([program("elasticlunr_index")], text.encode())
        if status != 0:
            return "it is no job: " + expected.strip()
        return None if (ended.out, ended.status) == (expected.encode(), 0) else f"status {ended.status}, or another text"
    ended = run([program("elasticlunr_cli"), "check", "--strict"], text.encode())
    return None if ended.status == 0 else ended.err.decode(errors="replace")


def anchor(heading):
    return re.sub(r"[^\w\- ]", "", heading.lower().replace("`", "")).replace(" ", "-")


def link_failures(text, folder):
    bare = re.sub(r"^```.*?^```$", lambda it: "\n" * it[0].count("\n"), text, flags=re.DOTALL | re.MULTILINE)
    for link in re.finditer(r"\]\(([^)\s]+)\)", bare):
        if re.match(r"[a-z]+:", link[1]):
            continue
        path, _, at = link[1].partition("#")
        line = bare.count("\n", 0, link.start()) + 1
        target = os.path.normpath(os.path.join(folder, path)) if path else None
        if target and not os.path.exists(target):
            yield line, link[1], "there is no such file"
        elif at and at not in map(anchor, re.findall(r"^#+ (.*)$", read(target) if target else text, re.MULTILINE)):
            yield line, link[1], "there is no such heading"
        else:
            yield line, link[1], None


def name_failures(text):
    for name in re.finditer(NAME, re.sub(r"^```.*?^```$", "", text, flags=re.DOTALL | re.MULTILINE)):
        if name[1] not in words_of_code():
            yield 0, name[0], "no crate has this name"
    yield 0, "names of code", None


def logic_failure(text):
    here = run(["rt", "version"]).out.decode().split()[-1]
    others = set(LOGIC.findall(text)) - {here}
    return f"the kit here has logic {here}" if others else None


def tried(path):
    """Each part of a page: its line, its name, and why it fails."""
    text = read(path)
    found = list(blocks(text))
    is_page = path in pages()
    name = os.path.basename(path)
    page = path if is_page else next((it for it in pages() if os.path.basename(it) == name), path)
    yield 0, "the kit", logic_failure(text)
    yield from code_failures(found)
    yield from crate_failures(name, found)
    yield from own_failures(found)
    yield from needed_failures(name, found)
    yield from link_failures(text, os.path.dirname(page))
    if name == "THEOREM.md":
        yield from worked_failures(text, found)
    if name == "CLAIMS.md":
        yield 0, "clauses and mutants", None if text == claims.page() else "tools/claims.py prints another page: `make claims`"
    if name in CLAIMS:
        yield from name_failures(text)
    if name in (*CLAIMS, "CALLING.md"):
        yield from clauses.failures(text)
    for kind, line, block in found:
        if kind == "console":
            for command, lines in commands(block):
                yield line, command, command_failure(command, lines, is_page)
        if kind == "json":
            yield line, JSON, json_failure(block, name == "README.md")


def main():
    results = Results("docs")
    for path in [os.path.abspath(it) for it in sys.argv[1:]] or pages():
        page = os.path.relpath(path, TOP) if path in pages() else os.path.relpath(path, os.path.dirname(os.path.dirname(path)))
        for line, name, wrong in tried(path):
            results.note(wrong is None, f"{page}, line {line}, {name}: {wrong}")
    return results.report()


if __name__ == "__main__":
    sys.exit(main())
