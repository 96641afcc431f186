#!/usr/bin/env python3
"""Brings this repository's own definitions and lemmas to today's spelling: words in snake case, types in camel case.

    python3 FOLDER/respell.py           at the top of the repository, once

It reads spelling.tsv beside it (old name, new name) and rewrites specs/, proofs/ and the ghost text of src/.
Names of Rust functions, strings, inputs and outputs are not in the table and stay.
"""

import glob
import os
import re
import sys

HERE = os.path.dirname(os.path.realpath(__file__))
WORD = re.compile(r"[A-Za-z_][A-Za-z0-9_'₀-₉-]*")


def table():
    with open(os.path.join(HERE, "spelling.tsv"), encoding="utf-8") as f:
        return dict(line.rstrip("\n").split("\t") for line in f if line.strip())


def respelled(text, names, dashes):
    """text with each whole word of names replaced; words with a dash only where dashes says so."""
    return WORD.sub(lambda m: names.get(m.group(), m.group()) if dashes or "-" not in m.group() else m.group(), text)


def parts(line, mark):
    """A line's code, and its comment."""
    i, quoted = 0, False
    while i < len(line):
        if line[i] == '"' and line[i - 1 : i] not in ("'", "\\"):
            quoted = not quoted
        if not quoted and line.startswith(mark, i):
            if mark == "--" and not (i == 0 or line[i - 1] == " "):
                i += 1
                continue
            return line[:i], line[i:]
        i += 1
    return line, ""


def code(text, names):
    """Code with its strings left alone."""
    out = re.split(r'("(?:[^"\\]|\\.)*")', text)
    return "".join(p if k % 2 else respelled(p, names, True) for k, p in enumerate(out))


def turn(path, mark, names):
    with open(path, encoding="utf-8") as f:
        old = f.read()
    new = ""
    for line in old.splitlines(keepends=True):
        c, comment = parts(line, mark)
        new += code(c, names) + respelled(comment, names, False)
    if new != old:
        with open(path, "w", encoding="utf-8") as f:
            f.write(new)
    return new != old


def main():
    if not os.path.isdir("crates"):
        print("run it at the top of the repository", file=sys.stderr)
        return 2
    names = table()
    turned = 0
    for path in sorted(glob.glob("crates/*/specs/**/*.antt", recursive=True) + glob.glob("crates/*/proofs/**/*.antt", recursive=True)):
        turned += turn(path, "--", names)
    for path in sorted(glob.glob("crates/*/src/**/*.rt", recursive=True)):
        turned += turn(path, "//", names)
    print(f"respelled {turned} files")
    return 0


if __name__ == "__main__":
    raise SystemExit(main())
