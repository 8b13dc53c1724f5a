#!/usr/bin/env python3
"""Writes the library's `AllByRecursion` by its own name, where the kit's script brought it in under the name `All`, which
is another definition of the library. Run once at the top, after tools/snake.py."""
import glob
import re

for pattern in ("specs/**/*.antt", "proofs/**/*.antt", "src/**/*.rt"):
    for name in glob.glob("crates/*/" + pattern, recursive=True):
        text = open(name, encoding="utf-8").read()
        if "AllByRecursion as All" in text:
            text = text.replace("AllByRecursion as All", "AllByRecursion")
            text = re.sub(r"(?<![\w.'-])All(?![\w'-])", "AllByRecursion", text)
            open(name, "w", encoding="utf-8").write(text)
