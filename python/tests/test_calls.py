"""The calls against the plain model of the paper (tools/model.py)."""
import math
import random
import struct
import threading
import unittest

import support
from support import both, plain, table

import model
import rekvashu

setUpModule = support.need_library


def bits(numbers):
    return [struct.pack(">d", x) for x in numbers]


def seen(tree):
    """A tree as plain lists, with the bits of each bound and cover, and the depths."""
    return [(plain(level.points), [(plain(leaf.own), plain(leaf.borrowed), leaf.box and bits(plain(leaf.box[0]) + plain(leaf.box[1])),
                                    bits([leaf.cover]), leaf.depth) for leaf in level.leaves]) for level in tree.levels]


def expected(cs, d, leaf, neighbours, factor, policy, number):
    return as_seen(model.build(cs, d, leaf, neighbours, factor, policy, number))


def as_seen(levels):
    """The model's levels as `seen` gives a tree."""
    return [(points, [(own, borrowed, box and bits(box[0] + box[1]), bits([cover]), depth) for own, borrowed, box, cover, depth in leaves])
            for points, leaves in levels]


def coordinate(r, kind):
    return [lambda: r.uniform(-1000.0, 1000.0), lambda: float(r.randint(0, 6)), lambda: r.choice([0.0, -0.0, 5e-324, 1e308, -1e308]),
            lambda: round(r.uniform(0, 20), 1)][kind]()


class Build(unittest.TestCase):
    @both
    def test_the_papers_example(self):
        tree = rekvashu.build([[0], [1], [3], [7]], leaf=2, neighbours=1, factor=2, coarse=2)
        self.assertEqual([len(level.leaves) for level in tree.levels], [4, 1])
        self.assertEqual([plain(leaf.own) for leaf in tree.levels[0].leaves], [[0], [1], [2], [3]])
        self.assertEqual([plain(leaf.borrowed) for leaf in tree.levels[0].leaves], [[1], [0, 2], [1, 3], [2]])
        self.assertEqual([plain(b) for b in tree.levels[0].leaves[1].box], [[1.0], [3.0]])
        self.assertEqual(plain(tree.levels[1].points), [0, 1])
        self.assertIsNone(tree.levels[1].leaves[0].box)
        self.assertEqual([[leaf.cover for leaf in level.leaves] for level in tree.levels], [[0.0, 0.0, math.inf, math.inf], [0.0]])
        self.assertEqual({type(leaf.cover) for level in tree.levels for leaf in level.leaves}, {float})
        self.assertEqual([[leaf.depth for leaf in level.leaves] for level in tree.levels], [[2, 2, 2, 2], [0]])
        self.assertEqual({type(leaf.depth) for level in tree.levels for leaf in level.leaves}, {int})
        self.assertEqual([level.is_coarse for level in tree.levels], [False, True])

    @both
    def test_a_row_comes_first_in_its_own_neighbourhood(self):
        for points, neighbours, wanted in (([5, 5, 5], 1, [(0, [1, 2]), (1, [0]), (2, [0])]), ([5, 5], 0, [(0, []), (1, [])])):
            leaves = rekvashu.build(points, 1, neighbours, 2, len(points) - 1).levels[0].leaves
            self.assertEqual(sorted((plain(leaf.own)[0], plain(leaf.borrowed)) for leaf in leaves if len(leaf.own)), wanted)

    @both
    def test_covers(self):
        # two leaves that send one row each: to the nearest row of the leaf, whatever it borrows; with an axis more; and by a square that
        # overflows or underflows
        for points, due in (([0, 1, 2, 10], [1.0, 8.0]), ([[0, 0], [3, 4], [9, 0], [9, 1]], [5.0, 1.0]), ([5, 5, 5, 5], [0.0, 0.0]),
                            ([0, 1e200, 2e200, 2e200], [math.inf, 0.0]), ([0, 1e-170, 1, 1], [0.0, 0.0])):
            for engine in ("queue", "depth-first"):
                leaves = rekvashu.build(points, 4, 3, 2, 2, engine=engine).levels[0].leaves
                self.assertEqual(bits([leaf.cover for leaf in leaves]), bits(due), points)
        # empty leaves, leaves that send their row, and leaves that send none
        leaves = rekvashu.build([0, 1, 2, 10], 1, 1, 2, 2).levels[0].leaves
        self.assertEqual([leaf.cover for leaf in leaves], [0.0, 0.0, 0.0, 0.0, 0.0, math.inf, 0.0, math.inf])

    @both
    def test_depths(self):
        # one depth; less than twice the threshold; two depths; each level anew; and the coarse level alone
        for n, leaf, factor, coarse, due in ((4, 2, 2, 2, [[2] * 4, [0]]), (2, 9, 2, 1, [[1, 1], [0]]), (7, 2, 7, 1, [[2, 2, 3, 3, 3, 3], [0]]),
                                             (8, 1, 2, 1, [[4] * 16, [3] * 8, [2] * 4, [0]]), (5, 1, 2, 5, [[0]])):
            for engine in ("queue", "depth-first"):
                tree = rekvashu.build(list(range(n)), leaf, 1, factor, coarse, engine=engine)
                self.assertEqual([[leaf.depth for leaf in level.leaves] for level in tree.levels], due, n)

    @both
    def test_random_trees(self):
        r = random.Random(7)
        for _ in range(150):
            n, d, kind = r.randint(1, 90), r.randint(1, 3), r.randint(0, 3)
            cs = [coordinate(r, kind) for _ in range(n * d)]
            leaf, neighbours, factor = r.randint(1, 12), r.randint(0, 9), r.randint(5, 9)
            coarse = r.choice(["auto", r.randint(1, 40)])
            tree = rekvashu.build(table([cs[i:i + d] for i in range(0, n * d, d)]), leaf, neighbours, factor, coarse)
            policy = (0, 0) if coarse == "auto" else (1, coarse)
            self.assertEqual(seen(tree), expected(cs, d, leaf, neighbours, factor, *policy))

    @both
    def test_defaults(self):
        r = random.Random(3)
        cs = [r.random() for _ in range(2 * 700)]
        self.assertEqual(seen(rekvashu.build(cs, dimension=2)), expected(cs, 2, 256, 16, 128, 0, 0))

    @both
    def test_any_number_of_calls_at_once(self):
        r = random.Random(5)
        fields = [[[r.random(), r.random()] for _ in range(300)] for _ in range(4)]
        alone = [seen(rekvashu.build(f, 8, 4, 8, 20)) for f in fields]
        at_once = [None] * 4

        def work(i):
            at_once[i] = seen(rekvashu.build(fields[i], 8, 4, 8, 20))
        threads = [threading.Thread(target=work, args=(i,)) for i in range(4)]
        for t in threads:
            t.start()
        for t in threads:
            t.join()
        self.assertEqual(at_once, alone)

    @both
    def test_leaves_are_a_sequence(self):
        leaves = rekvashu.build([0, 1, 3, 7], 2, 1, 2, 2).levels[0].leaves
        self.assertEqual([leaf.number for leaf in leaves], [0, 1, 2, 3])
        self.assertEqual(plain(leaves[-1].own), [3])
        self.assertEqual([leaf.number for leaf in leaves[1:3]], [1, 2])
        with self.assertRaises(IndexError):
            leaves[4]


class Others(unittest.TestCase):
    @both
    def test_sample(self):
        rows, cover = rekvashu.sample([0, 1, 3, 7], 3, 1)
        self.assertEqual((plain(rows), cover), ([1, 3, 2], 1.0))
        for points, wanted, due in (([0, 3, 4, 9], 1, 9.0), ([0, 3, 4, 9], 2, 4.0), ([0, 3, 4, 9], 4, 0.0), ([5, 5, 5], 1, 0.0),
                                    ([0, 1e200], 1, math.inf), ([0, 1e-170], 1, 0.0), ([[0, 0], [3, 4]], 1, 5.0)):
            self.assertEqual(bits([rekvashu.sample(points, wanted, 0).cover]), bits([due]), points)
        r = random.Random(11)
        for _ in range(60):
            n, d = r.randint(1, 40), r.randint(1, 3)
            cs = [coordinate(r, r.randint(0, 3)) for _ in range(n * d)]
            wanted, seed = r.randint(1, n), r.randrange(n)
            found, chosen = rekvashu.sample(cs, wanted, seed, dimension=d), model.sample(cs, d, range(n), wanted, seed)
            self.assertEqual(plain(found.rows), chosen)
            self.assertEqual(bits([found.cover]), bits([model.cover(cs, d, range(n), chosen)]))

    def test_level_size(self):
        r = random.Random(13)
        self.assertEqual(rekvashu.level_size(10, 3, 2), 6)
        for _ in range(300):
            a = r.randint(2, 1_048_576)
            c, k = r.randint(1, a - 1), r.randint(1, 3)
            self.assertEqual(rekvashu.level_size(a, c, k), model.level_size(a, c, k))

    @both
    def test_quotas(self):
        self.assertEqual(plain(rekvashu.quotas([5, 3, 0, 2], 4)), [2, 1, 0, 1])
        self.assertEqual(plain(rekvashu.quotas([], 4)), [])
        r = random.Random(17)
        for _ in range(300):
            sizes = [r.choice([0, r.randint(0, 9), r.randint(0, 300)]) for _ in range(r.randint(1, 20))]
            wanted = r.randint(0, sum(sizes) + 3)
            self.assertEqual(plain(rekvashu.quotas(sizes, wanted)), model.quotas(sizes, wanted))

    def test_square_root(self):
        r = random.Random(19)
        for _ in range(2000):
            x = struct.unpack("<d", struct.pack("<Q", r.getrandbits(63)))[0]
            if x >= 0:
                self.assertEqual(bits([rekvashu.square_root(x)]), bits([math.sqrt(x)]))
        self.assertEqual(bits([rekvashu.square_root(-0.0)]), bits([-0.0]))

    def test_sizes(self):
        self.assertEqual(rekvashu.build_sizes(10, 2, 3), {"level_points": 40, "internals": 40, "domains": 305, "boxes": 305,
                                                         "borrowed": 240, "floats": 320, "wholes": 720, "cuts": 120, "planes": 120})


if __name__ == "__main__":
    unittest.main()
