"""A tree as the bytes of a file, and loaded again."""
import math
import random
import struct
import unittest

import support

import make_stored_calls
import rekvashu
import stored_model
from rekvashu import calls, layout
from rekvashu.coordinates import coordinates
from rekvashu.tree import Packed

setUpModule = support.need_library

FOUR = dict(leaf=2, neighbours=1, factor=2, coarse=2)


def settings_of(dimension, leaf, neighbours, factor, coarse):
    return (dimension, leaf, neighbours, factor, *((0, 0) if coarse == "auto" else (1, coarse)))


def plain_tree(tree):
    return [(support.plain(level.points),
             [(support.plain(leaf.own), support.plain(leaf.borrowed), None if leaf.box is None else [support.plain(b) for b in leaf.box], leaf.cover,
               leaf.depth) for leaf in level.leaves]) for level in tree.levels]


def refused(*words, **settings):
    try:
        rekvashu.load(*words, **settings)
    except rekvashu.Refusal as refusal:
        return refusal.number
    return 0


class Stored(unittest.TestCase):
    @support.both
    def test_the_papers_example(self):
        tree = rekvashu.build([0, 1, 3, 7], **FOUR)
        data = tree.to_bytes()
        self.assertEqual(len(data), 330)
        self.assertEqual(plain_tree(rekvashu.load([0, 1, 3, 7], data, **FOUR)), plain_tree(tree))
        self.assertEqual(rekvashu.load([0, 1, 3, 7], bytearray(data), **FOUR).to_bytes(), data)

    def test_against_the_model(self):
        rng = random.Random(1)
        for _ in range(200):
            d, n = rng.randint(1, 3), rng.randint(1, 30)
            points = [float(rng.randint(0, 20)) for _ in range(n * d)]
            params = dict(leaf=rng.randint(1, 5), neighbours=rng.randint(0, 4), factor=rng.randint(2, 5), coarse=rng.choice(["auto", max(1, n // 4)]))
            data = rekvashu.build(points, **params, dimension=d).to_bytes()
            settings, bits = settings_of(d, **params), stored_model.bits_of(points)
            self.assertEqual(data, stored_model.file_bytes(settings, bits, stored_model.built(settings, bits)))

    def test_no_record_and_no_room_is_lent(self):
        """Loader and writer take the five lists of a tree at the lengths that build_sizes says, and no others."""
        points, data = [0, 1, 3, 7], rekvashu.build([0, 1, 3, 7], **FOUR).to_bytes()
        given, params = coordinates(points), calls.params_of(2, 1, 2, 2)
        for name in layout.TREE_LISTS:
            lengths = rekvashu.build_sizes(4, 1, 1)
            lengths[name] -= 1
            self.assertEqual(calls.load_into(data)(given, params, calls.lists_of(lengths, layout.TREE_LISTS))[0], calls.NO_ROOM, name)
        lists = calls.lists_of(rekvashu.build_sizes(4, 1, 1), layout.TREE_LISTS)
        number, slot = calls.load_into(data)(given, params, lists)
        self.assertEqual((number, calls.stored(given, params, Packed(1, lists, slot))), (0, data))

    @support.both
    def test_covers(self):
        points, data = [0, 1, 3, 7], rekvashu.build([0, 1, 3, 7], **FOUR).to_bytes()
        self.assertEqual([leaf.cover for leaf in rekvashu.load(points, data, **FOUR).levels[0].leaves], [0.0, 0.0, math.inf, math.inf])
        # the coarse cover stands before the depth that ends the file: any value but a NaN is kept
        for cover in (-0.0, 1.0, math.inf, -math.inf):
            other = data[:-12] + struct.pack("<d", cover) + data[-4:]
            tree = rekvashu.load(points, other, **FOUR)
            self.assertEqual(struct.pack("<d", tree.levels[1].leaves[0].cover), other[-12:-4])
            self.assertEqual(tree.to_bytes(), other)
        for bits in (0x7FF0000000000001, 0x7FF8000000000000, 2 ** 64 - 1):
            self.assertEqual(refused(points, data[:-12] + struct.pack("<Q", bits) + data[-4:], **FOUR), 20)
        self.assertEqual(refused(points, data[:-12] + data[-4:], **FOUR), 20)

    @support.both
    def test_depths(self):
        points, tree = [0, 1, 3, 7], rekvashu.build([0, 1, 3, 7], **FOUR)
        settings, bits = settings_of(1, **FOUR), stored_model.bits_of([0.0, 1.0, 3.0, 7.0])
        model = stored_model.built(settings, bits)
        self.assertEqual([leaf.depth for leaf in rekvashu.load(points, tree.to_bytes(), **FOUR).levels[0].leaves], [2, 2, 2, 2])
        # the last leaf may lie deeper, and none else; the coarse domain's depth is 0
        for level, leaf, depth, number in ((0, 3, 3, 0), (0, 3, 21, 0), (0, 3, 22, 20), (0, 3, 1, 20), (0, 3, 2 ** 32 - 1, 20), (0, 0, 3, 20),
                                           (1, 0, 1, 20), (1, 0, 2 ** 32 - 1, 20)):
            data = stored_model.file_bytes(settings, bits, make_stored_calls.with_depth(model, level, leaf, depth))
            self.assertEqual(refused(points, data, **FOUR), number, (level, leaf, depth))
            if number == 0:
                loaded = rekvashu.load(points, data, **FOUR)
                self.assertEqual(loaded.levels[level].leaves[leaf].depth, depth)
                self.assertEqual(loaded.to_bytes(), data)
        self.assertEqual(refused(points, tree.to_bytes()[:-4], **FOUR), 20)

    def test_the_forms_before(self):
        for name in make_stored_calls.FORMS_BEFORE:
            files = list(make_stored_calls.form_before(name))
            self.assertGreater(len(files), 11)
            for call in files:
                d, leaf, neighbours, factor, policy, number = call.settings
                self.assertEqual(refused(stored_model.floats_of(call.points), call.data, leaf, neighbours, factor, number if policy else "auto",
                                         dimension=d), 20)

    def test_refusals(self):
        points, data = [0, 1, 3, 7], rekvashu.build([0, 1, 3, 7], **FOUR).to_bytes()
        self.assertEqual(refused(points, data, **{**FOUR, "leaf": 3}), 18)
        self.assertEqual(refused([0, 1, 3, 8], data, **FOUR), 19)
        self.assertEqual(refused([-0.0, 1, 3, 7], data, **FOUR), 19)
        self.assertEqual(refused([0, 1, 3, 8], data[:-1], **{**FOUR, "leaf": 3}), 20)
        self.assertEqual(refused(points, b"", **FOUR), 20)
        self.assertEqual(refused(points, b"", **{**FOUR, "leaf": 0}), 2)
        with self.assertRaises(TypeError):
            rekvashu.load(points, "a path", **FOUR)

    def test_a_refusals_sentence(self):
        with self.assertRaises(rekvashu.Refusal) as caught:
            rekvashu.load([0, 1, 3, 7], b"", **FOUR)
        self.assertIn("whoever keeps the file can mend it", caught.exception.text)


if __name__ == "__main__":
    unittest.main()
