"""The cut record of each build against the plain model of the paper (tools/model.py)."""
import random
import struct
import unittest

import support
from support import both, table

import model
import rekvashu
from rekvashu import Node
from test_calls import coordinate, seen

setUpModule = support.need_library

FOUR = dict(leaf=2, neighbours=1, factor=2, coarse=2)


def by_each_build(points, *words, dimension=None, **settings):
    """The trees of these points by both engines, and over the slots of a table that has them in its first ones."""
    rows = [points[i:i + dimension] for i in range(0, len(points), dimension)] if dimension else [[x] for x in points]
    well_table = rekvashu.Table(len(rows) + 1, dimension or 1)
    for row in rows:
        well_table.add(row)
    return [rekvashu.build(table(rows), *words, **settings), rekvashu.build(table(rows), *words, **settings, engine="depth-first"),
            well_table.build(*words, **settings)]


def lent(nodes):
    """Nodes as the library lends them: the whole number, and the bits of the float."""
    return [(node.axis, bits(node.plane)) if node.leaf is None else (model.RECORD_LEAF + node.leaf, bits(0.0)) for node in nodes]


def bits(x):
    return struct.pack(">d", x)


def expected(cs, d, leaf, levels):
    """What `lent` gives for each level, the coarse one included."""
    return [[(whole, bits(plane)) for whole, plane in record] for record in model.records(cs, d, leaf, levels)] + [[]]


class Record(unittest.TestCase):
    @both
    def test_the_papers_example(self):
        for tree in by_each_build([0, 1, 3, 7], **FOUR):
            fine, coarse = tree.levels
            self.assertEqual(fine.cuts, [Node(0, 0, 3.0, None), Node(1, 0, 1.0, None), Node(2, None, None, 0), Node(2, None, None, 1),
                                         Node(1, 0, 7.0, None), Node(2, None, None, 2), Node(2, None, None, 3)])
            self.assertEqual(coarse.cuts, [])
            self.assertEqual({type(x) for node in fine.cuts for x in node}, {int, float, type(None)})

    @both
    def test_numbers_go_by_depth_and_are_not_places_from_the_left(self):
        for tree in by_each_build(range(6), 1, 1, 2, 3):
            cuts = tree.levels[0].cuts
            self.assertEqual([node.leaf for node in cuts if node.leaf is not None], [0, 1, 4, 5, 6, 7, 2, 3, 8, 9, 10, 11])
            self.assertEqual([node.depth for node in cuts], [0, 1, 2, 3, 3, 2, 3, 4, 4, 3, 4, 4, 1, 2, 3, 3, 2, 3, 4, 4, 3, 4, 4])

    @both
    def test_a_plane_keeps_the_sign_of_a_zero(self):
        for first, second in ((-0.0, 0.0), (0.0, -0.0)):
            for tree in by_each_build([first, second], 1, 1, 2, 1):
                planes = [bits(node.plane) for node in tree.levels[0].cuts if node.leaf is None]
                self.assertEqual(planes, [bits(second), bits(first), bits(second)])

    @both
    def test_random_trees(self):
        r = random.Random(23)
        for _ in range(150):
            n, d, kind = r.randint(1, 90), r.randint(1, 3), r.randint(0, 3)
            cs = [coordinate(r, kind) for _ in range(n * d)]
            leaf, neighbours, factor, coarse = r.randint(1, 12), r.randint(0, 9), r.randint(5, 9), r.randint(1, 40)
            trees = by_each_build(cs, leaf, neighbours, factor, coarse, dimension=d)
            self.assertEqual([seen(tree) for tree in trees[1:]], [seen(trees[0])] * 2)
            for level in trees[0].levels[:-1]:
                self.assertEqual({node.leaf: node.depth for node in level.cuts if node.leaf is not None},
                                 {leaf.number: leaf.depth for leaf in level.leaves})
            due = expected(cs, d, leaf, model.build(cs, d, leaf, neighbours, factor, 1, coarse))
            self.assertEqual([[lent(level.cuts) for level in tree.levels] for tree in trees], [due] * 3)

    @both
    def test_a_loaded_tree_has_none(self):
        trees = by_each_build([0, 1, 3, 7], **FOUR)
        self.assertEqual([tree.to_bytes() for tree in trees[1:]], [trees[0].to_bytes()] * 2)
        loaded = rekvashu.load([0, 1, 3, 7], trees[0].to_bytes(), **FOUR)
        self.assertEqual([level.cuts for level in loaded.levels], [None, None])
        # a coarse level alone
        self.assertEqual([[level.cuts for level in tree.levels] for tree in by_each_build([0, 1])], [[[]]] * 3)

    @both
    def test_said(self):
        for tree in by_each_build([0, 1, 3, 7], **FOUR):
            self.assertEqual(repr(tree), "<Tree: <Level 0: 4 rows in 4 leaves, 7 nodes>, <Level 1: 2 rows in 1 leaf>>")
        loaded = rekvashu.load([0, 1, 3, 7], tree.to_bytes(), **FOUR)
        self.assertEqual(repr(loaded), "<Tree: <Level 0: 4 rows in 4 leaves>, <Level 1: 2 rows in 1 leaf>>")


if __name__ == "__main__":
    unittest.main()
