#!/usr/bin/env python3
"""The index at the head of each file of laws: which laws it holds, in their order.

    tools/law_index.py            says which indexes are not true, and exits with 1 if any is
    tools/law_index.py --write    writes them anew

A file of laws is crates/NAME/proofs/*.antt with at least four public names. Its index stands right below the comment that opens
the file: a line that starts with '-- Holds: ', and lines that go on with '--   '.
"""
import pathlib
import re
import sys

ROOT = pathlib.Path(__file__).resolve().parent.parent
FEWEST = 4
WIDTH = 130
BLOCK = re.compile(r"^(\s*)(?:pub )?(?:record|data) ")
NAME = re.compile(r"^(\s*)(?:unfoldable |abbrev )*pub (?:unfoldable |abbrev )*(?:record |data )?([^\s(){}:;]+)")


def laws_in(lines):
    """The public names of a file, without the fields of its records."""
    names, inside = [], None
    for line in lines:
        indent = len(line) - len(line.lstrip())
        if line.strip() and inside is not None and indent <= inside:
            inside = None
        found = NAME.match(line)
        if found and inside is None and found[2] not in ("mod", "module"):
            names.append(found[2])
        if BLOCK.match(line) and inside is None:
            inside = indent
    return names


def index_of(names):
    """The lines of an index."""
    lines, line = [], "-- Holds:"
    for k, name in enumerate(names):
        word = " " + name + ("," if k + 1 < len(names) else "")
        if len(line) + len(word) > WIDTH:
            lines.append(line)
            line = "--  "
        line += word
    return lines + [line]


def with_index(text):
    """The text of a file of laws with its index, true for what the file holds."""
    lines = text.split("\n")
    head = 0
    while head < len(lines) and lines[head].startswith("--"):
        head += 1
    opening = lines[:head]
    for k, line in enumerate(opening):
        if line.startswith("-- Holds:"):
            opening = opening[:k]
            break
    names = laws_in(lines[head:])
    index = index_of(names) if len(names) >= FEWEST else []
    return "\n".join(opening + index + lines[head:])


def files():
    for path in sorted(ROOT.glob("crates/*/proofs/*.antt")):
        if path.name != "Lib.antt":
            yield path


def main(words):
    untrue = []
    for path in files():
        text = path.read_text(encoding="utf-8")
        wanted = with_index(text)
        if wanted != text:
            untrue.append(path)
            if words == ["--write"]:
                path.write_text(wanted, encoding="utf-8")
    for path in untrue if words != ["--write"] else []:
        print(f"{path.relative_to(ROOT)}: its index is not what it holds")
    return 1 if untrue and words != ["--write"] else 0


if __name__ == "__main__":
    sys.exit(main(sys.argv[1:]))
