#!/usr/bin/env python3
"""Says of each must-fail edit whether its old text stands once in its file.

usage: python3 tools/edits_fit.py [CRATE..]      at the top of the repository
"""
import os
import sys

only = set(sys.argv[1:])
bad = n = 0
for crate in sorted(os.listdir("crates")):
    folder = f"crates/{crate}/must-fail"
    if only and crate not in only or not os.path.isdir(folder):
        continue
    for name in sorted(os.listdir(folder)):
        text, path, old, n = None, None, None, n + 1
        with open(f"{folder}/{name}", encoding="utf-8") as f:
            for line in f.read().split("\n"):
                if line.startswith("file: "):
                    path = f"crates/{crate}/{line[6:]}"
                    with open(path, encoding="utf-8") as g:
                        text = g.read()
                elif line.startswith("old: "):
                    old = line[5:]
                    if text.count(old) != 1:
                        print(f"{folder}/{name}: stands {text.count(old)} times: {old}")
                        bad += 1
                elif line.startswith("new:"):
                    text = text.replace(old, line[5:] if line.startswith("new: ") else "")
print(f"{n} edits, {bad} texts that do not stand once")
sys.exit(1 if bad else 0)
