#!/usr/bin/env python3
"""fuzz/edited.py EDIT FILE: in FILE the one line `old:` of EDIT becomes its line `new:`, as in the crates' must-fail edits."""
import sys

with open(sys.argv[1], encoding="utf-8") as file:
    words = dict(line.rstrip("\n").split(": ", 1) for line in file if not line.startswith("#"))
with open(sys.argv[2], encoding="utf-8") as file:
    text = file.read()
if text.count(words["old"] + "\n") != 1:
    sys.exit(f"{sys.argv[1]}: the old line stands {text.count(words['old'])} times in {sys.argv[2]}")
with open(sys.argv[2], "w", encoding="utf-8") as file:
    file.write(text.replace(words["old"] + "\n", words["new"] + "\n"))
