"""The package's sentences, strides and functions against c/ddm.h and README.md. No library is needed."""
import os
import re
import unittest

import support

from rekvashu import layout, library, refusals, settings, version

# The header's names, and what they are called here.
NAMED = {name: getattr(layout, name) for name in dir(layout) if name.isupper() and not name.endswith("LISTS")}
NAMED.update({f"SIZES_{name.upper()}": i for i, name in enumerate(layout.LISTS)})
NAMED.update({name: getattr(settings, name) for name in ("MOST_POINTS", "MOST_NEIGHBOURS", "POLICY_AUTO", "POLICY_FIXED")})
NAMED["VERSION"] = version.NUMBER


def text_of(*names):
    with open(os.path.join(support.ROOT, *names), encoding="utf-8") as f:
        return f.read()


def header():
    """The header without its comments."""
    return re.sub(r"/\*.*?\*/", "", text_of("c", "ddm.h"), flags=re.S)


class Header(unittest.TestCase):
    def test_functions(self):
        code = re.sub(r"static inline.*?\n}", "", header(), flags=re.S)
        self.assertEqual(set(re.findall(r"\b(ddm_\w+)\s*\(", code)), set(library.FUNCTIONS))

    def test_arguments(self):
        """As many arguments as the header has, floats and pointers where it has them."""
        for name, arguments in library.FUNCTIONS.items():
            words = re.search(rf"\b{name}\s*\(([^)]*)\)", header()).group(1)
            kinds = [] if words == "void" else [re.sub(r"\bconst\b|\w+$|\s", "", word) for word in words.split(",")]
            ours = [{library.SIZE: "size_t", library.UINT32: "uint32_t", library.DOUBLE: "double", library.WHOLES[0]: "size_t*",
                     library.FLOATS[0]: "double*", library.BYTES[0]: "uint8_t*", library.HEAD[0]: "ddm_head*"}[a] for a in arguments]
            self.assertEqual(kinds, ours, name)

    def test_the_head_of_a_table(self):
        fields = re.search(r"typedef struct ddm_head {\s*size_t ([\w, ]+);\s*} ddm_head;", header()).group(1)
        self.assertEqual(library.Head._fields_, [(name, library.SIZE) for name in fields.split(", ")])

    def test_strides_slots_and_limits(self):
        defined = dict(re.findall(r"#define DDM_(\w+) (.+)", header()))
        said = {name: int(eval(value.replace("DDM_", ""), dict(NAMED)))
                for name, value in defined.items() if "(" not in name}
        self.assertEqual(said, NAMED)
        for x in (1, 2, 3):
            for name, ours in (("BOX_FLOATS", layout.box_floats), ("ROW_FLOATS", layout.row_floats), ("ROW_COVER", layout.row_cover),
                               ("RECORD_NODES", layout.record_nodes)):
                argument, words = re.search(rf"#define DDM_{name}\((\w+)\) (.+)", header()).groups()
                self.assertEqual(eval(words, {argument: x, "DDM_BOX_FLOATS": layout.box_floats}), ours(x))

    def test_sentences(self):
        said = {int(number): words for number, words in re.findall(r'case (\d+): return "(.*)";', header())}
        said.pop(0, None)
        self.assertEqual(said, {number: words for number, (words, _) in refusals.REFUSALS.items()})


class Readme(unittest.TestCase):
    def test_who_can_mend_it(self):
        text = text_of("README.md")
        rows = re.findall(r"^\| (who\w+ .*?|the calling program) \| (.*?) \|$", text[text.index("## Refusals"):], flags=re.M)
        said = {mender: sorted(int(re.match(r"\d+", item.strip()).group()) for item in items.split(";")) for mender, items in rows}
        ours = {}
        for number, (_, mender) in refusals.REFUSALS.items():
            ours.setdefault(mender, []).append(number)
        self.assertEqual(said, {mender: sorted(numbers) for mender, numbers in ours.items()})


if __name__ == "__main__":
    unittest.main()
