#!/usr/bin/env python3
"""Brings the names of definitions and lemmas to the spelling of today's Rattle, by the table beside it.

    tools/respell.py [FOLDER]

It goes by whole names, over the definitions, proofs, sources and must-fail edits of every crate, and over what stands between
backticks in the documents. A definition whose name in snake case is that of a function, a field or another definition has `_lem`
behind it. Run it once, after the toolchain's own script; a second run finds nothing.
"""
import os
import re
import sys

PART = r"A-Za-z0-9_'\-₀-₉⁰-⁹ᵃ-ᵿ"


def names():
    with open(os.path.join(os.path.dirname(os.path.abspath(__file__)), "respell.txt"), encoding="utf-8") as f:
        return dict(line.split() for line in f if not line.startswith("#"))


def respelled(text, table, whole):
    return whole.sub(lambda m: table.get(m.group(0), m.group(0)), text)


def files(top):
    for folder, dirs, found in os.walk(os.path.join(top, "crates")):
        dirs[:] = sorted(d for d in dirs if d not in ("out", "data"))
        for f in sorted(found):
            if f.endswith((".antt", ".rt", ".edit")):
                yield os.path.join(folder, f), False
    for f in ["README.md", "CONTRIBUTING.md"] + ["docs/" + f for f in sorted(os.listdir(os.path.join(top, "docs")))]:
        if f.endswith(".md") and f != "docs/PORT.md":
            yield os.path.join(top, f), True


def main():
    top = sys.argv[1] if len(sys.argv) > 1 else "."
    table = names()
    whole = re.compile("[" + PART + "]+")
    changed = 0
    for path, prose in files(top):
        with open(path, encoding="utf-8") as f:
            text = f.read()
        if prose:
            new = re.sub(r"`[^`\n]+`", lambda m: respelled(m.group(0), table, whole), text)
        else:
            new = respelled(text, table, whole)
        if new != text:
            changed += 1
            with open(path, "w", encoding="utf-8") as f:
                f.write(new)
    print(f"respelled: {changed} files")


if __name__ == "__main__":
    main()
