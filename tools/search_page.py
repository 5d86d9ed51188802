"""The files that a site with the search page needs, and how elasticlunr.min.js is downloaded."""
import os
import shutil
import subprocess

from tools.repository import TOP, read, write

FETCHED = os.path.join(TOP, "browser", "out")
ELASTICLUNR = os.path.join(FETCHED, "elasticlunr.min.js")
FILES = [ELASTICLUNR, *(os.path.join(TOP, "browser", name) for name in ("search.html", "search.css", "search.js", "elasticlunr-languages.js", "elasticlunr-pieces.js"))]
SECONDS = 120  # the time limit of a download
SCRIPT = '<script src="search.js">'
IN_PIECES = {'data-index="search_index.json"': 'data-pieces="search"', SCRIPT: '<script src="elasticlunr-pieces.js"></script>\n' + SCRIPT}


def fetch():
    """Downloads elasticlunr.min.js unless it is there: whether it is there then."""
    try:
        subprocess.run([os.path.join(TOP, "tools", "fetch_elasticlunr.sh"), FETCHED], stdout=subprocess.DEVNULL, timeout=SECONDS, check=True)
    except (subprocess.SubprocessError, OSError):
        return False
    return os.path.exists(ELASTICLUNR)


def copy(folder, leave_out=()):
    """Copies the files into a folder, without those that have these names."""
    os.makedirs(folder, exist_ok=True)
    for path in FILES:
        if os.path.basename(path) not in leave_out:
            shutil.copy(path, folder)


def edit(page, edits):
    """Edits a page: each text that is a key becomes its value."""
    text = read(page)
    for old, new in edits.items():
        if text.count(old) != 1:
            raise ValueError(f"{old} is not in the page once")
        text = text.replace(old, new)
    write(page, text)


def take_pieces(page):
    """Edits search.html so that it searches the pieces in the folder `search`."""
    edit(page, IN_PIECES)
