#!/usr/bin/env python3
"""Prints the Markdown pages below a folder as JSON Lines for `elasticlunr build`: documents.py DIR."""
import json
import pathlib
import sys

top = pathlib.Path(sys.argv[1])
for path in sorted(top.rglob("*.md")):
    title, _, body = path.read_text(encoding="utf-8").lstrip("# \n").partition("\n")
    address = path.relative_to(top).with_suffix(".html").as_posix()
    print(json.dumps({"id": address, "title": title, "body": body.strip()}, ensure_ascii=False))
