#!/usr/bin/env python3
"""Runs the built program on each job of a table, and compares what it prints and its status.

usage: check_jobs.py [TABLE]

A line of the table is an object: `job`, the text of the input (or `job_hex`, its bytes), `out`, what the program must print,
and `status`, what it must end with. Nothing may be written to standard error. The number of the table's lines is in
TABLE.rows: a table that was cut short is a failure, and so is an empty one.
"""
import os
import sys

sys.path.insert(0, os.path.join(os.path.dirname(__file__), ".."))

from tests.report import Results
from tests.tables import JOBS, jobs, rows_missing
from tools.repository import TOP, program, run

PROGRAM = program("elasticlunr_index")
SHOWN = 10  # failures that are printed


def main():
    table = sys.argv[1] if len(sys.argv) > 1 else JOBS
    results = Results("jobs", most=SHOWN)
    missing = rows_missing(table)
    if missing:
        results.note(False, f"jobs: {os.path.relpath(table, TOP)}: {missing}")
    for number, job in enumerate(jobs(table), 1):
        ended = run([PROGRAM], job.given)
        good = (ended.out, ended.status, ended.err) == (job.out, job.status, b"")
        results.note(good, f"job {number}: status {ended.status} instead of {job.status}, or another text")
    return results.report()


if __name__ == "__main__":
    sys.exit(main())
