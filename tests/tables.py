"""The table of jobs, and how many rows a table must have."""
import json
import os
from typing import NamedTuple

from tools.repository import TOP, lines_of, read

JOBS = os.path.join(TOP, "crates/elasticlunr_vectors/data/jobs.jsonl")


class Row(NamedTuple):
    given: bytes
    out: bytes
    status: int


def jobs(table=JOBS):
    """The rows of a table of jobs. For a line that is no row, a row that every program fails."""
    for line in lines_of(table):
        try:
            row = json.loads(line)
            given = bytes.fromhex(row["job_hex"]) if "job_hex" in row else row["job"].encode()
            yield Row(given, row["out"].encode(), row["status"])
        except (ValueError, KeyError, TypeError):
            yield Row(line.encode(), b"no row", -1)


def rows_missing(table=JOBS):
    """Why a table isn't whole, or None. The number of its lines is in the file TABLE.rows next to it."""
    try:
        wanted = int(read(table + ".rows"))
    except (OSError, ValueError):
        return "its number of rows isn't next to it"
    found = len(lines_of(table))
    return f"{found} rows instead of {wanted}" if wanted == 0 or found != wanted else None


def row_of(job, table=JOBS):
    """The row of a job, by its value, or None."""
    for row in jobs(table):
        try:
            if json.loads(row.given) == job:
                return row
        except ValueError:
            continue
    return None
