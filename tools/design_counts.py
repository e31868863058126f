#!/usr/bin/env python3
"""Counts the places in src/ that docs/DESIGN-PASS.md speaks of, by its points.

    tools/design_counts.py [COMMIT]      the counts of a commit, or of the files as they stand
    tools/design_counts.py -l [COMMIT]   each place too

1  enums; structs that hold a flag or a refusal's number beside values; functions that answer a refusal's number; constants that name kinds
2  functions whose bodies are the same but for types, constants and names; constants of one name and value in several crates
3  loops that count an index by hand, and other `while` loops
4  conversions, comparisons and texts written by hand, by the words of their names
5  groups of three and more parameters that at least three functions share; facts that stand in at least three contracts
6  a list beside a number that says how much of it is used; lists that are filled side by side; searches and sorts by hand
7  flags as parameters that choose a step
8  files of answers and of lemmas, and their lines, in crates with code
"""
import collections
import pathlib
import re
import subprocess
import sys

ROOT = pathlib.Path(__file__).resolve().parent.parent
FLAG = re.compile(r"^(good|whole|found|unsound|second|refused|is_\w+)$")
KINDS = {"LOAD", "STORE", "ADD", "RETIRE", "BUILD"}
TWIN_WORDS = re.compile(r"[A-Za-z_]\w*|\d[\w.]*|[^\s\w]")
CONVERSION = re.compile(r"^(\w+_of|\w+_from|from_\w+|as_\w+)$")
COMPARISON = re.compile(r"^(same_\w+|\w+_is|\w*agree\w*|is_beyond|comes_before|beside|smaller|larger|lesser_of|at_least_one|swap|is_finite|has_pattern|is_nan_pattern|bits_are_nan)$")
TEXT = re.compile(r"^(print_\w+|write_(byte|text|decimal|hex|row|rows|float|floats|numbered|listed|valued|refusal)|digit\w*|fail)$")
COPY = re.compile(r"^(copy_\w+|move_point|write_point|read_bounds|write_bounds|put_zeros|clear\w*|fill\w*|number_rows|settle)$")


def sources(commit):
    """The text of each source file: path to text."""
    if commit is None:
        files = sorted(ROOT.glob("crates/*/src/**/*.rt"))
        return {str(f.relative_to(ROOT)): f.read_text(encoding="utf-8") for f in files}
    git = ["git", "-C", str(ROOT)]
    names = subprocess.run(git + ["ls-tree", "-r", "--name-only", commit, "crates"], check=True, capture_output=True, text=True).stdout.split()
    wanted = [n for n in names if "/src/" in n and n.endswith(".rt")]
    return {n: subprocess.run(git + ["show", f"{commit}:{n}"], check=True, capture_output=True, text=True).stdout for n in wanted}


def proofs(commit):
    """The lines of each proof file of a crate."""
    if commit is None:
        return {str(f.relative_to(ROOT)): len(f.read_text(encoding="utf-8").splitlines()) for f in sorted(ROOT.glob("crates/*/proofs/**/*.antt"))}
    git = ["git", "-C", str(ROOT)]
    names = subprocess.run(git + ["ls-tree", "-r", "--name-only", commit, "crates"], check=True, capture_output=True, text=True).stdout.split()
    wanted = [n for n in names if "/proofs/" in n and n.endswith(".antt")]
    batch = subprocess.run(git + ["cat-file", "--batch"], input="".join(f"{commit}:{n}\n" for n in wanted).encode(), check=True, capture_output=True).stdout
    lines, at = {}, 0
    for n in wanted:
        end = batch.index(b"\n", at)
        size = int(batch[at:end].split()[2])
        lines[n] = batch[end + 1:end + 1 + size].count(b"\n")
        at = end + 1 + size + 1
    return lines


def plain(text):
    """The text without comments and ghost lines."""
    return "\n".join(re.sub(r"//.*", "", line) for line in text.splitlines() if not line.lstrip().startswith("ghost use"))


def balanced(text, at):
    """Where the brace that opens at `at` closes."""
    depth = 0
    for k in range(at, len(text)):
        if text[k] == "{":
            depth += 1
        elif text[k] == "}":
            depth -= 1
            if depth == 0:
                return k + 1
    return len(text)


def functions(files):
    """Each function: where, its name, parameters (name, type), answer, clauses, body."""
    head = re.compile(r"^[ \t]*(?:pub(?:\([a-z]+\))? )?(?:const )?(?:unsafe )?(?:extern \"C\" )?fn (\w+)", re.M)
    for where, text in files.items():
        text = plain(text)
        for m in head.finditer(text):
            at = text.index("(", m.end())
            depth, k = 0, at
            while True:
                depth += text[k] == "("
                depth -= text[k] == ")"
                k += 1
                if depth == 0:
                    break
            inside = re.sub(r"\s+", " ", text[at + 1:k - 1]).strip().rstrip(",")
            parts, level, part = [], 0, ""
            for ch in inside:
                level += ch in "(<["
                level -= ch in ")>]"
                if ch == "," and level == 0:
                    parts.append(part)
                    part = ""
                else:
                    part += ch
            if part.strip():
                parts.append(part)
            names = []
            for p in parts:
                name, _, kind = p.strip().partition(":")
                names.append((name.replace("mut ", "").strip(), kind.strip()))
            rest = text[k:]
            answer = re.match(r"\s*->\s*([^\n{]+)", rest)
            clauses, cursor = [], k
            while True:
                found = re.match(r"(?:(?!\n\{)[^{])*?\b(requires|ensures)\*?(?: [a-z_0-9]+)? \{", text[cursor:], re.S)
                if not found or "\n{" in text[cursor:cursor + found.end()]:
                    break
                opened = cursor + found.end() - 1
                cursor = balanced(text, opened)
                clauses.append((found.group(1), re.sub(r"\s+", " ", text[opened + 1:cursor - 1]).strip()))
            opened = text.find("{", cursor)
            body = text[opened:balanced(text, opened)] if opened >= 0 else ""
            yield {"where": where, "name": m.group(1), "parameters": names, "answer": answer.group(1).strip() if answer else "",
                   "clauses": clauses, "body": body}


def structs(files):
    """Each struct and enum: where, kind, name, body."""
    for where, text in files.items():
        text = plain(text)
        for m in re.finditer(r"^\s*(?:pub )?(struct|enum) (\w+)[^\n{;(]*\{", text, re.M):
            yield where, m.group(1), m.group(2), text[m.end():balanced(text, m.end() - 1) - 1]


def shape(body):
    """A body with its names numbered in the order in which they first stand, and its constants left out."""
    kept = {"let", "mut", "if", "else", "while", "for", "in", "return", "match", "true", "false", "as", "len", "loop", "break"}
    seen, out = {}, []
    for word in TWIN_WORDS.findall(body):
        if word in kept or not re.match(r"\w", word):
            out.append(word)
        elif word[0].isdigit():
            out.append("0")
        else:
            out.append(f"v{seen.setdefault(word, len(seen))}")
    return " ".join(out)


def point1(files, functions_):
    places = []
    for where, kind, name, body in structs(files):
        if kind == "enum":
            places.append(("enums", f"{where} {name}"))
        else:
            fields = re.findall(r"(\w+): ([^,\n]+)", body)
            if any(FLAG.match(f) and t.strip() == "bool" for f, t in fields):
                places.append(("structs with a flag", f"{where} {name}"))
            elif any(f == "number" for f, t in fields) and any(f in ("place", "sizes", "next", "first") for f, t in fields):
                places.append(("structs with a refusal's number", f"{where} {name}"))
    for f in functions_:
        text = " ".join(c for _, c in f["clauses"])
        if f["answer"] in ("usize", "u32", "u8") and re.search(r"numbered_verdict|number_of|row_test_lem|\)\.number|first_bad", text) and "extern" not in f["body"]:
            places.append(("functions that answer a number for a refusal or for none", f"{f['where']} {f['name']}"))
        if re.search(r"cond \(eqb first 0\)", text):
            places.append(("functions that answer a number for a refusal or for none", f"{f['where']} {f['name']}"))
    for where, text in files.items():
        for m in re.finditer(r"^(?:pub )?const (\w+): \w+ = ", text, re.M):
            if m.group(1) in KINDS:
                places.append(("constants for kinds", f"{where} {m.group(1)}"))
    return places


def point2(files, functions_):
    groups = collections.defaultdict(list)
    for f in functions_:
        s = shape(f["body"])
        if len(s.split()) >= 24:
            groups[s].append(f"{f['where']} {f['name']}")
    places = [("functions with a twin", p) for g in groups.values() if len(g) > 1 for p in g]
    constants = collections.defaultdict(list)
    for where, text in files.items():
        for m in re.finditer(r"^(?:pub )?const (\w+): \w+ = ([^;]+);", text, re.M):
            constants[(m.group(1), m.group(2))].append(where)
    for (name, value), at in sorted(constants.items()):
        if len(at) > 1:
            places += [("constants that stand again", f"{w} {name} = {value}") for w in at]
    return places


def point3(files, functions_):
    places = []
    for f in functions_:
        for m in re.finditer(r"\bwhile\b([^{]*)\{", f["body"]):
            opened = m.end() - 1
            inside = f["body"][opened:balanced(f["body"], opened)]
            tested = set(re.findall(r"\b[a-z]\w*\b", m.group(1)))
            counted = [v for v in tested if re.search(rf"\b{v} [+-]= 1;", inside)]
            kind = "loops that count an index" if counted else "other loops by `while`"
            places.append((kind, f"{f['where']} {f['name']} while{m.group(1).rstrip()}"))
    return places


def point4(files, functions_):
    places = []
    for f in functions_:
        for word, kind in ((CONVERSION, "conversions"), (COMPARISON, "comparisons and choices"), (TEXT, "texts"), (COPY, "copies and fills")):
            if word.match(f["name"]):
                places.append((kind, f"{f['where']} {f['name']}"))
                break
    return places


def point5(files, functions_):
    groups = collections.Counter()
    facts = collections.Counter()
    for f in functions_:
        names = tuple(n for n, _ in f["parameters"])
        for size in range(3, len(names) + 1):
            for k in range(len(names) - size + 1):
                groups[names[k:k + size]] += 1
        seen = set()
        for kind, clause in f["clauses"]:
            if kind == "requires":
                depth, part = 0, ""
                for ch in clause + "×":
                    depth += ch in "(["
                    depth -= ch in ")]"
                    if ch == "×" and depth == 0:
                        seen.add(part.strip().strip("()"))
                        part = ""
                    else:
                        part += ch
        facts.update(seen)
    longest = [g for g, n in groups.items() if n >= 3]
    longest = [g for g in longest if not any(g != h and len(h) > len(g) and groups[h] == groups[g] and any(h[k:k + len(g)] == g for k in range(len(h) - len(g) + 1)) for h in longest)]
    places = [("groups of parameters", f"{', '.join(g)} ({groups[g]} functions)") for g in sorted(longest, key=lambda g: (-len(g), g))]
    places += [("facts in three contracts and more", f"{t} ({n} functions)") for t, n in facts.most_common() if n >= 3 and len(t) > 2]
    return places


def point6(files, functions_):
    places = []
    for f in functions_:
        p = f["parameters"]
        lists = [n for n, t in p if "[" in t]
        for k in range(1, len(p)):
            if p[k][1] == "usize" and p[k][0] in ("count", "m", "own", "levels", "slots", "most") and "[" in " ".join(t for _, t in p[max(0, k - 2):k]):
                places.append(("a list and how much of it is used", f"{f['where']} {f['name']}: {p[k][0]}"))
        for pair in (("cuts", "planes"), ("far", "near"), ("flags", "coordinates"), ("floats", "wholes"), ("left", "listed"), ("rows", "counts")):
            if all(x in lists for x in pair):
                places.append(("lists side by side", f"{f['where']} {f['name']}: {', '.join(pair)}"))
    for f in functions_:
        if re.search(r"while (lo < hi|low \+ 1 < high)", f["body"]):
            places.append(("searches by hand", f"{f['where']} {f['name']}"))
        if f["name"] in ("sink", "heap_of", "sort", "argsort", "merge_above", "drop_repeats", "insert"):
            places.append(("sorts by hand", f"{f['where']} {f['name']}"))
    return places


def point7(files, functions_):
    places = []
    for f in functions_:
        for n, t in f["parameters"]:
            if t == "bool":
                places.append(("flags that choose a step", f"{f['where']} {f['name']}: {n}"))
            if t in ("Engine", "Which"):
                places.append(("enums that choose a step", f"{f['where']} {f['name']}: {n}"))
    return places


def point8(lines, files):
    with_code = {p.split("/")[1] for p, t in files.items() if "fn " in t}
    chosen = {p: n for p, n in lines.items() if p.split("/")[1] in with_code}
    places = []
    for p, n in chosen.items():
        kind = "files of answers" if p.endswith("/Answers.antt") else "files of invariants" if p.endswith("/Invariants.antt") else "files of lemmas"
        places.append((kind, f"{p} {n}"))
    return places


def main(words):
    listed = "-l" in words
    words = [w for w in words if w != "-l"]
    commit = words[0] if words else None
    files = sources(commit)
    all_functions = list(functions(files))
    points = [point1, point2, point3, point4, point5, point6, point7]
    for k, point in enumerate(points, 1):
        report(k, point(files, all_functions), listed)
    found = point8(proofs(commit), files)
    report(8, found, False)
    for kind in sorted({k for k, _ in found}):
        print(f"   lines in {kind}: {sum(int(p.split()[1]) for t, p in found if t == kind)}")


def report(k, places, listed):
    counts = collections.Counter(kind for kind, _ in places)
    for kind, n in counts.items():
        print(f"{k}  {kind}: {n}")
        if listed:
            for t, p in places:
                if t == kind:
                    print(f"      {p.replace('crates/', '').replace('src/', '')}")


if __name__ == "__main__":
    main(sys.argv[1:])
