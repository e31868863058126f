"""What the prover does not look at: the layout that CONTRIBUTING.md and docs/ARCHITECTURE.md promise."""
import pathlib
import re
import sys
import unittest

ROOT = pathlib.Path(__file__).resolve().parent.parent.parent
sys.path.insert(0, str(ROOT / "tools"))
import law_index  # noqa: E402

HEADING = re.compile(r"^# ---- (.*)$")


def groups_of_crates():
    """The groups of crates.txt: a heading, and the crates below it, in their order."""
    groups = []
    for line in (ROOT / "crates.txt").read_text(encoding="utf-8").splitlines():
        heading = HEADING.match(line)
        if heading:
            groups.append((heading[1], []))
        elif line and not line.startswith("#"):
            groups[-1][1].append(line.split(":")[0].split()[0])
    return groups


def groups_of_architecture():
    """The same of the table in docs/ARCHITECTURE.md: a row of its group in bold, then a row for each crate."""
    groups = []
    text = (ROOT / "docs/ARCHITECTURE.md").read_text(encoding="utf-8").split("## Crates, by group")[1].split("\n## ")[0]
    for line in text.splitlines():
        group = re.match(r"^\| \*\*(.+?)\*\* \|", line)
        crate = re.match(r"^\| `([a-z0-9_]+)` \|", line)
        if group:
            groups.append((group[1], []))
        elif crate:
            groups[-1][1].append(crate[1])
    return groups


def edits():
    """The edits that must fail: the gate's, and those that tools/try_edits.sh tries."""
    return sorted([*ROOT.glob("crates/*/must-fail/*.edit"), *ROOT.glob("crates/*/must-fail-by-hand/*.edit")])


class Layout(unittest.TestCase):
    def test_crates_and_architecture_have_the_same_groups(self):
        self.assertEqual(groups_of_crates(), groups_of_architecture())

    def test_each_crate_is_listed(self):
        listed = sorted(name for _, names in groups_of_crates() for name in names)
        self.assertEqual(listed, sorted(p.name for p in (ROOT / "crates").iterdir() if p.is_dir()))

    def test_each_edit_says_what_would_go_wrong(self):
        self.assertTrue(edits())
        for path in edits():
            with self.subTest(str(path.relative_to(ROOT))):
                self.assertRegex(path.read_text(encoding="utf-8"), r"(?m)^# \S+ \S+")

    def test_each_edit_fits_its_file(self):
        for path in edits():
            with self.subTest(str(path.relative_to(ROOT))):
                text = ""
                for line in path.read_text(encoding="utf-8").splitlines():
                    word, _, rest = line.partition(": ")
                    if word == "file":
                        text = (path.parent.parent / rest).read_text(encoding="utf-8")
                    elif word == "old":
                        self.assertEqual(text.count(rest), 1, rest)
                        old = rest
                    elif word == "new":
                        text = text.replace(old, rest)

    def test_contracts_cite_definitions_and_no_laws(self):
        for path in [*ROOT.glob("crates/*/src/*.rt"), *ROOT.glob("crates/*/specs/**/*.antt")]:
            with self.subTest(str(path.relative_to(ROOT))):
                self.assertNotRegex(path.read_text(encoding="utf-8"), r"(?m)^\s*(ghost )?use Rattle\.\S*proofs\.")

    def test_files_of_laws_open_with_what_they_hold(self):
        for path in law_index.files():
            with self.subTest(str(path.relative_to(ROOT))):
                text = path.read_text(encoding="utf-8")
                self.assertEqual(text, law_index.with_index(text), "run tools/law_index.py --write")


if __name__ == "__main__":
    unittest.main()
