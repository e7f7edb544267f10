#!/usr/bin/env python3
"""edits.py: says which must-fail edits no longer fit their file: each old text is to stand exactly once."""
import glob
import os
import sys

root = os.path.join(os.path.dirname(os.path.abspath(__file__)), "..")
wrong = 0
for edit in sorted(glob.glob(root + "/crates/*/must-fail/*.edit")):
    text, old = "", None
    for line in open(edit).read().split("\n"):
        if line.startswith("file: "):
            text = open(os.path.join(os.path.dirname(edit), "..", line[6:])).read()
        elif line.startswith("old: "):
            old = line[5:]
            if text.count(old) != 1:
                wrong += 1
                print(f"{os.path.relpath(edit, root)}: stands {text.count(old)} times: {old}")
        elif line.startswith("new: ") and old is not None:
            text = text.replace(old, line[5:])
sys.exit(1 if wrong else 0)
