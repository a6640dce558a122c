#!/usr/bin/env python3
"""Gives this repository's own choice another name than the library's `if◌then◌else◌`, which stays unfolded where ours is shut:
`when test then a else b`. Run once at the top of the repository, after respell.py. Comments keep their words."""

import glob
import re

PLACES = ["crates/*/specs/**/*.antt", "crates/*/proofs/**/*.antt", "crates/*/must-fail/*.edit"]
NAME = re.compile(r"if◌then◌else◌|if_then_else_")
WORD = re.compile(r"(?<![\w.'-])if(?![\w'-])")

for path in sorted(path for place in PLACES for path in glob.glob(place, recursive=True) if "/out/" not in path):
    with open(path, encoding="utf-8") as file:
        text = file.read()
    if path.endswith(".edit") and "file: src/" in text:
        continue
    mark = "#" if path.endswith(".edit") else "--"
    lines = []
    for line in text.split("\n"):
        code, sign, comment = line.partition(mark)
        lines.append(WORD.sub("when", NAME.sub("when◌then◌else◌", code)) + sign + comment)
    if "\n".join(lines) != text:
        with open(path, "w", encoding="utf-8") as file:
            file.write("\n".join(lines))
