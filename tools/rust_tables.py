#!/usr/bin/env python3
"""Writes the tables of the stemmers into the crate for Rust: those of the Snowball before 2.0, as elasticlunr-rs has them.

usage: rust_tables.py

They are the texts in crates/elasticlunr_stem_tables. `tests/rust_crate.py` fails where the crate has other ones.
"""
import os
import sys

sys.path.insert(0, os.path.join(os.path.dirname(__file__), ".."))

from tests.stems import NAMES, table
from tools.repository import TOP, write

FOLDER = os.path.join(TOP, "rust/elasticlunr-rs/src/lang/tables")


def texts():
    """The table of each language, by its code."""
    return {code: table(code, "older") or table(code, "current") for code in NAMES}


def main():
    os.makedirs(FOLDER, exist_ok=True)
    for code, text in texts().items():
        write(os.path.join(FOLDER, f"{code}.txt"), text)


if __name__ == "__main__":
    main()
