"""Tests of the pictures: what they show, and that no label covers another."""
import random
import re
import unittest
import xml.etree.ElementTree as xml
from unittest import mock

import support  # noqa: F401

from drawing import labels, leaf_boxes, plane
import model
from drawing.picture import Field, picture
from reading.tree_text import Leaf, Level

# The widths of some characters in the widest font that a viewer may take (DejaVu Sans), as parts of the size.
ADVANCE = {**{c: 0.636 for c in "0123456789"}, "W": 0.989, "B": 0.686, "-": 0.361, "e": 0.615, "+": 0.838, ".": 0.318, "x": 0.592}


def field(rows, d=2, leaf=3, neighbours=2, factor=4, coarse=4, name="W{}".format):
    """A field of wells with the levels that the plain model gives."""
    flat = [float(x) for row in rows for x in row]
    built = model.build(flat, d, leaf, neighbours, factor, 1, coarse)
    levels = [Level(points, [Leaf(*domain) for domain in leaves]) for points, leaves in built]
    return Field(d, flat, levels, name)


def drawn(shown, number=0, links=False):
    return xml.fromstring(picture(shown, number, links))


def of(root, tag, kind=None):
    return [e for e in root.iter() if e.tag.endswith("}" + tag) and (kind is None or e.get("class") == kind)]


def random_field(n, d=2, seed=1, **settings):
    r = random.Random(seed)
    return field([[round(r.uniform(0, 1000), 1) for _ in range(d)] for _ in range(n)], d, **settings)


def label_box(text):
    """The rectangle that a text takes, by the font's own widths."""
    size = float(text.get("font-size", "11"))
    wide = size * sum(ADVANCE.get(c, 0.56) for c in text.text)
    x, y = float(text.get("x")), float(text.get("y"))
    left = {"middle": x - wide / 2, "end": x - wide}.get(text.get("text-anchor"), x)
    return left, y - 0.73 * size, left + wide, y


def overlap(a, b):
    return a[0] < b[2] and b[0] < a[2] and a[1] < b[3] and b[1] < a[3]


class Labels(unittest.TestCase):
    def nothing_covered(self, shown, number=0):
        root = drawn(shown, number, True)
        boxes = [(t.text, label_box(t)) for t in of(root, "text")]
        circles = [(float(c.get("cx")), float(c.get("cy"))) for c in of(root, "circle", "well")]
        for i, (words, box) in enumerate(boxes):
            for other, against in boxes[:i]:
                self.assertFalse(overlap(box, against), f"{words} covers {other}")
        for text in of(root, "text", "well-name") + of(root, "text", "leaf-number"):
            box = label_box(text)
            for x, y in circles:
                self.assertFalse(overlap(box, (x - 4, y - 4, x + 4, y + 4)), f"{text.text} covers a well")
        return root

    def test_widths_are_on_the_safe_side(self):
        for c, wide in ADVANCE.items():
            if c != "+":
                self.assertGreaterEqual(labels.width(c, 1.0), wide, c)

    def test_names_and_numbers(self):
        for d in (1, 2, 3):
            for seed in range(3):
                shown = random_field(32, d, seed)
                root = self.nothing_covered(shown)
                panels = 3 if d == 3 else 1
                names = sorted(t.text for t in of(root, "text", "well-name"))
                self.assertEqual(names, sorted([f"W{i}" for i in range(32)] * panels))
                numbers = sorted(int(t.text) for t in of(root, "text", "leaf-number"))
                self.assertEqual(numbers, sorted(list(range(16)) * panels))

    def test_as_many_as_get_names(self):
        shown = random_field(150, leaf=8, coarse=10, name="B{}".format)
        root = self.nothing_covered(shown)
        self.assertEqual(len(of(root, "text", "well-name")), 150)
        self.assertEqual(len(of(root, "text", "leaf-number")), len(shown.levels[0].leaves))

    def test_as_many_on_a_line_with_long_names(self):
        r = random.Random(5)
        shown = field([[r.choice([3, 3, 3, r.uniform(0, 9)])] for _ in range(150)], 1, 8, 2, 4, 10, name="Pumpwerk Nord, Galerie {}".format)
        root = drawn(shown)
        boxes = [label_box(t) for t in of(root, "text", "well-name") + of(root, "text", "leaf-number")]
        self.assertEqual(len(boxes), 150 + len(shown.levels[0].leaves))
        self.assertFalse(any(overlap(a, b) for i, a in enumerate(boxes) for b in boxes[:i]))

    def test_labels_without_room_are_counted(self):
        shown = random_field(40, leaf=2, name="Pumpwerk Nord, Galerie {}".format)
        with mock.patch.object(Field, "size", lambda self: 200):
            root = drawn(shown)
        placed = len(of(root, "text", "well-name") + of(root, "text", "leaf-number"))
        said = [int(t.text.split()[0]) for t in of(root, "text", "no-room")]
        self.assertEqual(said, [40 + len(shown.levels[0].leaves) - placed])
        self.assertGreater(said[0], 0)

    def test_nested_wells(self):
        shown = field([[x, y] for x, y in ((0, 0), (10, 3), (4, 9), (12, 12)) for _ in range(6)])
        root = self.nothing_covered(shown)
        places = {(c.get("cx"), c.get("cy")) for c in of(root, "circle", "well")}
        self.assertEqual(len(places), 24)
        self.assertEqual(len(of(root, "text", "well-name")), 24)

    def test_all_wells_at_one_place(self):
        root = self.nothing_covered(field([[7, 7]] * 12))
        self.assertEqual(len({(c.get("cx"), c.get("cy")) for c in of(root, "circle", "well")}), 12)
        self.assertEqual(len({tuple(r.get(k) for k in ("x", "y", "width", "height")) for r in of(root, "rect", "leaf")}), 8)

    def test_long_names_keep_their_end(self):
        self.assertEqual(labels.shortened("Pumpwerk Nord-West Galerie 12"), "Pumpwerk…erie 12")
        self.assertEqual(labels.shortened("W1"), "W1")


class Shown(unittest.TestCase):
    def test_wells_sent_up_are_filled(self):
        shown = random_field(32)
        wells = of(drawn(shown), "circle", "well")
        filled = {w[0].text.split()[0] for w in wells if w.get("fill") != "white"}
        self.assertEqual(filled, {f"W{i}" for i in shown.levels[1].points})

    def test_leaves_without_width_are_visible(self):
        shown = field([[0], [1], [3], [7]], 1, 2, 1, 2, 2)
        rects = of(drawn(shown), "rect", "leaf")
        self.assertEqual(shown.levels[0].leaves[3].box, ([7.0], [7.0]))
        self.assertEqual(len(rects), 4)
        for r in rects:
            self.assertGreaterEqual(float(r.get("width")), leaf_boxes.LEAST - 0.1)
            self.assertGreaterEqual(float(r.get("height")), leaf_boxes.LEAST - 0.1)

    def test_links(self):
        for d in (1, 2):
            shown = random_field(20, d)
            borrowed = sum(len(leaf.borrowed) for leaf in shown.levels[0].leaves)
            links = of(drawn(shown, links=True), "path", "link")
            self.assertEqual(len(links), borrowed)
            self.assertTrue(all(link.get("stroke-dasharray") for link in links))
            self.assertEqual(of(drawn(shown), "path", "link"), [])

    def test_legend(self):
        shown = random_field(20)
        words = " ".join(t.text for t in of(drawn(shown, links=True), "text", "legend"))
        for word in ("outline", "filled", "dashed", "leaf and its number"):
            self.assertIn(word, words)
        self.assertNotIn("dashed", " ".join(t.text for t in of(drawn(shown), "text", "legend")))
        self.assertIn("coarse domain", " ".join(t.text for t in of(drawn(shown, len(shown.levels) - 1), "text", "legend")))

    def test_axes(self):
        for d, names in ((1, ["x"]), (2, ["x", "y"]), (3, ["x", "x", "y", "y", "z", "z"])):
            words = [t.text for t in of(drawn(random_field(12, d)), "text", "axis")]
            self.assertEqual(sorted(w.split()[0] for w in words if w[0] in "xyz"), names)
            self.assertGreaterEqual(len([w for w in words if re.fullmatch(r"-?[0-9.]+", w)]), 3 * len(names))

    def test_three_projections(self):
        shown = random_field(10, 3)
        root = drawn(shown)
        self.assertEqual(len(of(root, "circle", "well")), 30)
        self.assertEqual(len(of(root, "rect", "leaf")), 3 * len(shown.levels[0].leaves))

    def test_the_coarse_level(self):
        shown = random_field(20)
        root = drawn(shown, len(shown.levels) - 1)
        self.assertEqual(len(of(root, "circle", "well")), 4)
        self.assertEqual(of(root, "rect", "leaf"), [])
        self.assertTrue(any("domain 0" in t.text for t in of(root, "text")))

    def test_names_that_xml_would_read(self):
        shown = random_field(5, name='<&"{}'.format)
        self.assertIn('<&"3', [t.text for t in of(drawn(shown), "text", "well-name")])

    def test_coordinates_at_the_edges_of_floats(self):
        for rows in ([[1e308, -1e308], [-1e308, 1e308], [0, 0]] * 2, [[5e-324, 0], [0, 1e300], [1e-300, 2]] * 2,
                     [[1e15 + i * 0.25, i % 3] for i in range(6)], [[-0.0, 0.0]] * 6):
            text = picture(field(rows), 0, True)
            self.assertNotIn("nan", text)
            self.assertNotIn("inf", text)
            self.assertEqual(len(of(xml.fromstring(text), "circle", "well")), 6)


class Dots(unittest.TestCase):
    def test_dots_without_names(self):
        shown = random_field(151, leaf=8, coarse=20)
        root = drawn(shown, links=True)
        self.assertEqual(of(root, "text", "well-name"), [])
        dots = sum(p.get("d").count("M") for p in of(root, "path", "dots"))
        self.assertGreater(dots, 145)
        self.assertLessEqual(dots, 151)
        numbers = {t.text for t in of(root, "text", "leaf-number")}
        self.assertEqual(numbers, {str(i) for i in range(len(shown.levels[0].leaves))})
        boxes = [label_box(t) for t in of(root, "text", "leaf-number")]
        self.assertFalse(any(overlap(a, b) for i, a in enumerate(boxes) for b in boxes[:i]))

    def test_nested_wells_have_a_ring(self):
        root = drawn(field([[i % 40, i % 40] for i in range(152)] + [[90, 3]], leaf=8, coarse=20))
        self.assertEqual(len(of(root, "circle", "ring")), 40)


class Marks(unittest.TestCase):
    def test_round_numbers(self):
        self.assertEqual(plane.ticks(plane.Axis("x", [0.0, 1000.0])), [0.0, 200.0, 400.0, 600.0, 800.0, 1000.0])
        self.assertEqual(plane.spelt(plane.ticks(plane.Axis("x", [0.05, 0.42]))), ["0.1", "0.2", "0.3", "0.4"])
        self.assertEqual(plane.ticks(plane.Axis("x", [3.0, 3.0])), [3.0])
        far = plane.ticks(plane.Axis("x", [1e15, 1e15 + 2]))
        self.assertEqual(len(set(plane.spelt(far))), len(far))


if __name__ == "__main__":
    unittest.main()
