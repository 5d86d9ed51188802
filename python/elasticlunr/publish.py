"""Writes the head and the pieces of an index to a folder, as `elasticlunr build --pieces` does it.

The pieces are written to a new folder. When all are there, it gets the name that the head has for it, then the head is replaced,
and then the folders of earlier heads are removed. So whoever reads the head finds all of its pieces, at each moment, also where the
process is killed. One process does this at a time. The file `folders.txt` has the folders that may have to be removed.
"""
import contextlib
import errno
import fcntl
import os
import re
import shutil
import stat
import warnings
from typing import Callable, Iterable, Iterator, List, NamedTuple, Optional, Sequence, Tuple

HEAD, RECORD = "search.json", "folders.txt"
FOLDER = re.compile(r"pieces-[0-9a-f]{16}")  # the name of a folder of pieces
NAMED = re.compile(r'"folder":"([^"]*)"')  # where a head has it
TRIES = 1000  # names that are tried
PRIVATE, USUAL = 0o600, 0o666  # modes of a new file
Made = Callable[[str], Optional[int]]


class Plan(NamedTuple):
    """What is recorded before the head is replaced, the folders that are removed then, and what is recorded after that."""

    ahead: List[str]
    removed: List[str]
    after: List[str]


# What is being written has a name of its own, and who writes it has a lock on it, which ends with the process. So what nobody has
# a lock on was left by a process that was killed.


def _is_taken(file: int) -> bool:
    """Whether another one has a lock on it. If none has, this one has it from now on. A file system without locks has none."""
    try:
        fcntl.flock(file, fcntl.LOCK_EX | fcntl.LOCK_NB)
    except OSError as error:
        return error.errno == errno.EWOULDBLOCK
    return False


def _is_at(file: int, path: str) -> bool:
    """Whether it still has this path."""
    try:
        one, other = os.fstat(file), os.lstat(path)
    except OSError:
        return False
    return (one.st_ino, one.st_dev) == (other.st_ino, other.st_dev)


def _remove_unlocked(path: str) -> None:
    """Removes a file or a folder on which nobody has a lock."""
    mode = os.lstat(path).st_mode
    if not stat.S_ISDIR(mode) and not stat.S_ISREG(mode):
        return
    file = os.open(path, os.O_RDONLY)
    try:
        fcntl.flock(file, fcntl.LOCK_EX | fcntl.LOCK_NB)
        if _is_at(file, path):
            (shutil.rmtree if stat.S_ISDIR(mode) else os.remove)(path)
    finally:
        os.close(file)


def _remove_left(path: str) -> None:
    """Removes what was left for a path. What can't be removed stays."""
    folder, base = os.path.split(path)
    is_left = re.compile(re.escape(base) + r"\.[0-9]+\.new")
    with contextlib.suppress(OSError):
        for name in filter(is_left.fullmatch, os.listdir(folder or ".")):
            with contextlib.suppress(OSError):
                _remove_unlocked(os.path.join(folder, name))


def _new_folder(path: str) -> Optional[int]:
    os.mkdir(path)
    try:
        return os.open(path, os.O_RDONLY)
    except FileNotFoundError:
        return None  # another process has removed it before it was locked


def _new_file(path: str, mode: int) -> int:
    return os.open(path, os.O_WRONLY | os.O_CREAT | os.O_EXCL, mode)


@contextlib.contextmanager
def _temporary(path: str, make: Made) -> Iterator[Tuple[str, int]]:
    """What is written for a path, made under the first free name and locked; its name and its file."""
    _remove_left(path)
    for number in range(os.getpid(), os.getpid() + TRIES):
        name = f"{path}.{number}.new"
        try:
            file = make(name)
        except FileExistsError:
            continue
        if file is None:
            continue
        try:
            if not _is_taken(file) and _is_at(file, name):
                yield name, file
                return
        finally:
            os.close(file)
    raise FileExistsError(errno.EEXIST, os.strerror(errno.EEXIST), path)


def _replace(path: str, text: bytes, mode: Optional[int]) -> None:
    """Writes a new file next to this one, and gives it the name of this one. After an error it isn't there."""
    with _temporary(path, lambda name: _new_file(name, USUAL if mode is None else PRIVATE)) as (name, file):
        try:
            if mode is not None:
                os.fchmod(file, mode)
            with open(file, "wb", closefd=False) as out:
                out.write(text)
            os.rename(name, path)
        except BaseException:
            with contextlib.suppress(OSError):
                os.remove(name)
            raise


def _write_file(path: str, text: bytes) -> None:
    """Writes a file, whole or not at all; one that was there before keeps its mode. What is no plain file is written to as it
    stands."""
    try:
        mode = os.stat(path).st_mode
    except FileNotFoundError:
        return _replace(path, text, None)
    if stat.S_ISREG(mode):
        return _replace(os.path.realpath(path), text, stat.S_IMODE(mode))
    with open(path, "wb") as file:
        file.write(text)


def _text_of(path: str) -> Optional[str]:
    """The text of a plain file, where there is one that is text."""
    if not os.path.isfile(path):
        return None
    try:
        with open(path, encoding="utf-8", newline="") as file:
            return file.read()
    except (OSError, UnicodeDecodeError):
        return None


def _plan(record: Optional[str], head: Optional[str], name: str, keep: int) -> Plan:
    """What is removed, by what is recorded, the head that is there and the name of the new folder."""
    lines = [line.removesuffix("\r") for line in (record or "").split("\n")]
    recorded = list(filter(FOLDER.fullmatch, lines))
    found = NAMED.search(head or "")
    current = found[1] if found and FOLDER.fullmatch(found[1]) else None
    heads = list(recorded)
    if current in recorded:
        while heads[-1] != current:
            heads.pop()  # its head never came
    elif current:
        heads.append(current)
    if heads[-1:] != [name]:
        heads.append(name)
    kept = heads[-keep:]
    known = [*recorded, current] if current else recorded
    removed = [it for it in dict.fromkeys(known) if it not in kept]
    return Plan(removed + kept, removed, [] if set(kept) == {name} else kept)


def _lines(names: Sequence[str]) -> bytes:
    return "".join(f"{name}\n" for name in names).encode()


def _is_same(path: str, other: str) -> bool:
    """Whether a file has the bytes of this one."""
    try:
        about = os.stat(other)
    except OSError:
        return False
    if not stat.S_ISREG(about.st_mode) or about.st_size != os.stat(path).st_size:
        return False
    with open(path, "rb") as one, open(other, "rb") as two:
        return one.read() == two.read()


def _is_folder(path: str) -> bool:
    return os.path.isdir(path) and not os.path.islink(path)


def _give_name(pieces: str, path: str) -> bool:
    """Gives the new folder its name. Where there is a folder of this name, its pieces are made those of the new one; then the answer
    is False."""
    if not _is_folder(path):
        os.rename(pieces, path)
        return True
    for name in os.listdir(pieces):
        if not _is_same(os.path.join(pieces, name), os.path.join(path, name)):
            os.rename(os.path.join(pieces, name), os.path.join(path, name))
    shutil.rmtree(pieces, ignore_errors=True)
    return False


def _remove_earlier(folder: str, plan: Plan) -> List[OSError]:
    """Removes the folders of earlier heads. Returns why some could not be removed."""
    faults = []
    record = os.path.join(folder, RECORD)
    for name in plan.removed:
        try:
            if _is_folder(os.path.join(folder, name)):
                shutil.rmtree(os.path.join(folder, name))
        except OSError as error:
            faults.append(error)
    if not faults:
        try:
            _write_file(record, _lines(plan.after)) if plan.after else os.remove(record)
        except OSError as error:
            faults.append(error)
    return faults


def _publish(folder: str, pieces: str, name: str, head: bytes, keep: int) -> List[OSError]:
    """Gives the pieces their name, replaces the head, and removes the folders of earlier heads."""
    path, record = os.path.join(folder, HEAD), os.path.join(folder, RECORD)
    before = _text_of(record)
    plan = _plan(before, _text_of(path), name, keep)
    _write_file(record, _lines(plan.ahead))
    is_new = False
    try:
        is_new = _give_name(pieces, os.path.join(folder, name))
        _write_file(path, head)
    except OSError:
        if is_new:
            shutil.rmtree(os.path.join(folder, name), ignore_errors=True)
        if before is None:
            with contextlib.suppress(OSError):
                os.remove(record)
        raise
    return _remove_earlier(folder, plan)


@contextlib.contextmanager
def _locked(folder: str) -> Iterator[None]:
    """One process at a time does what is done here. A file system without locks has none."""
    file = os.open(folder, os.O_RDONLY)
    try:
        with contextlib.suppress(OSError):
            fcntl.flock(file, fcntl.LOCK_EX)
        yield
    finally:
        os.close(file)


def publish(folder: str, name: str, head: bytes, pieces: Iterable[Tuple[str, bytes]], keep: int = 1) -> None:
    """Writes the head and the pieces, whose folder has this name, to a folder, which is made where it isn't there.

    The folders of the last `keep` heads stay, this one included. A folder that can't be removed is a warning, and the next call
    removes it. After an OSError the earlier head and its pieces are as they were.
    """
    os.makedirs(folder, exist_ok=True)
    with _temporary(os.path.join(folder, "pieces"), _new_folder) as (temporary, _file):
        try:
            for file, text in pieces:
                with open(os.path.join(temporary, file), "wb") as out:
                    out.write(text)
            with _locked(folder):
                faults = _publish(folder, temporary, name, head, keep)
        except BaseException:
            shutil.rmtree(temporary, ignore_errors=True)
            raise
    for fault in faults:
        warnings.warn(f"{fault}; it is left for the next build to remove", stacklevel=3)
