#!/usr/bin/env python3
"""Respells the repository's own definitions and lemmas in snake case, by the list beside this script.

usage: python3 tools/respell.py [ROOT]      after port.py, once; ROOT is the repository's root, '.' if left out

A line of respelled.tsv is an old name, a tab and the new one; a third column narrows it to files whose path begins so.
Functions, exported names, strings, inputs and outputs keep their names: they are in snake case already.
"""

import os
import re
import sys

NAME = r"[\w'ℤℕ₀-₉]"


def rows(path):
    with open(path, encoding="utf-8") as lines:
        return [line.rstrip("\n").split("\t") for line in lines if line.strip() and not line.startswith("#")]


def files(root):
    for top in ("crates", "docs", "README.md", "CONTRIBUTING.md"):
        at = os.path.join(root, top)
        if os.path.isfile(at):
            yield at
        for folder, dirs, names in os.walk(at):
            dirs[:] = sorted(d for d in dirs if d not in ("out", "data"))
            for name in sorted(names):
                if name.endswith((".antt", ".rt", ".edit", ".md")):
                    yield os.path.join(folder, name)


def main(root):
    everywhere, narrow = {}, []
    for old, new, *where in rows(os.path.join(os.path.dirname(os.path.abspath(__file__)), "respelled.tsv")):
        if where:
            narrow.append((where[0], old, new))
        else:
            everywhere[old] = new
    pattern = re.compile(r"(?<!" + NAME + r")(?<!" + NAME + r"-)(" + "|".join(sorted(map(re.escape, everywhere), key=len, reverse=True)) + r")(?!" + NAME + r")(?!-" + NAME + ")")
    changed = 0
    for path in files(root):
        with open(path, encoding="utf-8") as it:
            text = it.read()
        new = text
        inside = os.path.relpath(path, root)
        for where, old, to in narrow:
            if inside.startswith(where):
                new = re.sub(r"(?<!" + NAME + r")(?<!" + NAME + r"-)" + re.escape(old) + r"(?!" + NAME + r")(?!-" + NAME + ")", to, new)
        new = pattern.sub(lambda m: everywhere[m.group(1)], new)
        if new != text:
            with open(path, "w", encoding="utf-8") as it:
                it.write(new)
            changed += 1
    print(f"respelled: {changed} files")


main(sys.argv[1] if len(sys.argv) > 1 else ".")
