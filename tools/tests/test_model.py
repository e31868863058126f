"""Tests of the plain model: document 01's example and edges, and the requests that it follows."""
import math
import random
import struct
import unittest
from unittest import mock

import support

import compare_oracle
import model

FOUR = """levels 2
level 0 points 0 1 2 3
domain 0 internal 0 overlap 1 box 0000000000000000 3ff0000000000000 cover 0000000000000000 depth 2
domain 1 internal 1 overlap 0 2 box 3ff0000000000000 4008000000000000 cover 0000000000000000 depth 2
domain 2 internal 2 overlap 1 3 box 4008000000000000 401c000000000000 cover 7ff0000000000000 depth 2
domain 3 internal 3 overlap 2 box 401c000000000000 401c000000000000 cover 7ff0000000000000 depth 2
level 1 points 0 1
domain 0 internal 0 1 overlap - box - cover 0000000000000000 depth 0
"""


class Model(unittest.TestCase):
    def test_example(self):
        self.assertEqual(model.printout(support.sample("four_wells.job")), FOUR)

    def test_the_comparison_with_the_rust_leaves_covers_and_depths_out(self):
        with mock.patch.object(compare_oracle, "answer", lambda command, jobs: f"=== 0\n{FOUR}=== 1\nrefused 6 at 0\n"):
            tree, refusal = compare_oracle.trees([], [])
        self.assertEqual(tree.split("\n")[2], "domain 0 internal 0 overlap 1 box 0000000000000000 3ff0000000000000")
        self.assertEqual(tree.split("\n")[7], "domain 0 internal 0 1 overlap - box -")
        self.assertEqual((tree.count("\n"), tree.count("cover"), tree.count("depth"), refusal), (8, 0, 0, "refused 6 at 0\n"))

    def test_levels(self):
        self.assertEqual([model.threshold(0, 0, n) for n in (1, 16384, 16385, 131072, 131073)], [512, 512, 513, 4096, 4096])
        self.assertEqual([model.level_size(3, 2, 2), model.level_size(10, 3, 2)], [2, 6])
        for n, sizes in ((8, [8, 4, 2, 1]), (3, [3, 2, 1])):
            levels = model.build([float(i) for i in range(n)], 1, 1, 1, 2, 1, 1)
            self.assertEqual([len(active) for active, _ in levels], sizes)
        with self.assertRaises(model.Refused) as refused:
            model.build([float(i) for i in range(9)], 1, 1, 1, 2, 1, 1)
        self.assertEqual(refused.exception.number, 9)

    def test_quotas(self):
        self.assertEqual(model.quotas([5, 3, 0, 2], 4), [2, 1, 0, 1])
        self.assertEqual(model.quotas([2, 2], 3), [2, 1])
        self.assertEqual(model.quotas([1, 1, 1, 1], 2), [1, 1, 0, 0])
        self.assertEqual(model.quotas([2, 2], 9), [2, 2])

    def test_sampling(self):
        self.assertEqual(model.sample([0.0, 1.0, 3.0, 7.0], 1, range(4), 3, 1), [1, 3, 2])
        self.assertEqual(model.sample([5.0] * 3, 1, range(3), 3, 2), [2, 0, 1])


def taken(cs, neighbours, i):
    """The rows that row i takes of points on a line."""
    return model.nearest([float(x) for x in cs], 1, neighbours, range(len(cs)), i)


def borrowed(cs, neighbours):
    """What the leaf of each row borrows: points on a line, leaf 1, factor 2, one fine level."""
    (_, leaves), _ = model.build([float(x) for x in cs], 1, 1, neighbours, 2, 1, len(cs) - 1)
    return {own[0]: rows for own, rows, _, _, _ in leaves if own}


class Neighbours(unittest.TestCase):
    def test_a_row_comes_first_in_its_own_neighbourhood(self):
        self.assertEqual([taken([5, 5, 5], 1, i) for i in range(3)], [[0, 1], [1, 0], [2, 0]])
        self.assertEqual([taken([7, 5, 5, 5], 2, i) for i in (0, 3)], [[0, 1, 2], [3, 1, 2]])

    def test_others_by_distance_and_row(self):
        self.assertEqual(taken([0, 1, 2], 1, 1), [1, 0])
        self.assertEqual(taken([0, 9, 2, 3], 2, 2), [2, 3, 0])
        self.assertEqual(taken([0, 1, 2], 9, 2), [2, 1, 0])

    def test_no_neighbours(self):
        self.assertEqual(taken([5, 5], 0, 1), [1])
        self.assertEqual(borrowed([5, 5], 0), {0: [], 1: []})

    def test_distance_zero_is_that_of_the_square(self):
        for step, second in ((5e-324, 0), (1e-170, 0), (1e-161, 1)):
            self.assertEqual(taken([0, step, 2 * step], 1, 2), [2, second])

    def test_leaves_of_three_rows_at_one_place(self):
        self.assertEqual(borrowed([5, 5, 5], 1), {0: [1, 2], 1: [0], 2: [0]})


def covers(cs, leaf, coarse):
    """The covers of each level's leaves: points on a line, one neighbour, factor 2."""
    return [[far for _, _, _, far, _ in leaves] for _, leaves in model.build([float(x) for x in cs], 1, leaf, 1, 2, 1, coarse)]


class Covers(unittest.TestCase):
    def test_of_a_sample(self):
        line = [0.0, 1.0, 3.0, 7.0]
        for chosen, far in (([0], 7.0), ([3], 7.0), ([1], 6.0), ([1, 3], 2.0), ([0, 1, 2, 3], 0.0)):
            self.assertEqual(bits([model.cover(line, 1, range(4), chosen)]), bits([far]))
        self.assertEqual(model.cover([0.0, 0.0, 3.0, 4.0, 3.0, 0.0], 2, range(3), [0]), 5.0)
        # over the rows given alone
        self.assertEqual(model.cover(line, 1, [0, 1, 2], [0]), 3.0)

    def test_overflow_and_underflow(self):
        for step, far in ((1e200, math.inf), (1.3e154, 1.3e154), (1e-170, 0.0), (5e-324, 0.0), (1e-161, 9.940479322862118e-162)):
            self.assertEqual(bits([model.cover([0.0, step], 1, range(2), [0])]), bits([far]))
        self.assertEqual(model.cover([0.0, 0.0, 1.3e154, 1.3e154], 2, range(2), [0]), math.inf)
        self.assertEqual(bits([model.cover([0.0, -0.0], 1, range(2), [0])]), bits([0.0]))

    def test_of_leaves(self):
        # leaves that send a row, and that send none; the coarse domain
        self.assertEqual(covers([0, 1, 3, 7], 2, 2), [[0.0, 0.0, math.inf, math.inf], [0.0]])
        # empty leaves too
        self.assertEqual(covers([0, 1, 3, 7], 1, 2), [[0.0, 0.0, 0.0, 0.0, 0.0, math.inf, 0.0, math.inf], [0.0]])
        # what is sent of two rows, of own rows alone: row 1 is nearer to row 2, which is borrowed
        self.assertEqual(covers([0, 5, 6, 20], 4, 2), [[5.0, 14.0], [0.0]])
        self.assertEqual(covers([5] * 6, 4, 3), [[0.0, 0.0], [0.0]])

    def test_the_last_round_counts(self):
        """The cover is what a further round of sampling would start from."""
        r = random.Random(1)
        for _ in range(200):
            n, d = r.randint(2, 12), r.randint(1, 3)
            cs = [float(r.randint(0, 9)) for _ in range(n * d)]
            wanted = r.randint(1, n - 1)
            rows = model.sample(cs, d, range(n), wanted + 1, 0)
            self.assertEqual(model.cover(cs, d, range(n), rows[:-1]), min(math.sqrt(model.rows_sq(cs, d, rows[-1], i)) for i in rows[:-1]))


def depths(n, leaf, coarse, factor=2):
    """The depths of each level's leaves: n points on a line, no neighbours."""
    return [[depth for _, _, _, _, depth in leaves] for _, leaves in model.build([float(i) for i in range(n)], 1, leaf, 0, factor, 1, coarse)]


class Depths(unittest.TestCase):
    def test_of_leaves(self):
        self.assertEqual(depths(4, 2, 2), [[2] * 4, [0]])
        # a level with less than twice the threshold is cut once, and one with as much is cut twice
        self.assertEqual(depths(2, 9, 1), [[1, 1], [0]])
        self.assertEqual(depths(2, 1, 1), [[2] * 4, [0]])
        # two depths: the halves of 7 rows are 3, which are cut once more, and 4, which are cut twice more
        self.assertEqual(depths(7, 2, 1, 7), [[2, 2, 3, 3, 3, 3], [0]])
        self.assertEqual(depths(3, 1, 1, 3), [[2, 2, 3, 3, 3, 3], [0]])
        # each level begins anew, and the coarse one is not cut
        self.assertEqual(depths(8, 1, 1), [[4] * 16, [3] * 8, [2] * 4, [0]])
        self.assertEqual(depths(5, 1, 5), [[0]])

    def test_what_a_depth_says(self):
        """In row order depths never fall and differ by at most 1, and give each leaf's size; the record of the cuts has the same ones."""
        for n in range(2, 70):
            cs = [float((7 * i * i + 3 * i) % 23) for i in range(2 * n)]
            for leaf in (1, 2, 3, 5):
                leaves = model.leaves_of(cs, 2, leaf, range(n))
                found = [depth for _, _, depth in leaves]
                self.assertEqual(found, sorted(found))
                self.assertLessEqual(found[-1] - found[0], 1)
                self.assertTrue(all(len(rows) - n // 2 ** depth in (0, 1) for rows, _, depth in leaves))
                self.assertEqual(sum(2.0 ** -depth for depth in found), 1.0)
                self.assertEqual(found, sorted(depth for depth, axis, _ in model.nodes(cs, 2, leaf, range(n)) if axis is None))

    def test_the_deepest(self):
        """Depths go by sizes alone: a domain of so many rows is cut, and its halves once more where it has twice the threshold."""
        def deepest(size, leaf):
            return 1 + (deepest((size + 1) // 2, leaf) if size >= 2 * leaf else 0)
        self.assertEqual([deepest(n, leaf) for n, leaf in ((4, 2), (7, 2), (3, 1), (8, 1))], [2, 3, 3, 4])
        self.assertEqual([deepest(n, 1) for n in (model.MOST_POINTS // 2, model.MOST_POINTS - 1, model.MOST_POINTS)], [20, 21, 21])


def bits(numbers):
    return [struct.pack(">d", x).hex() for x in numbers]


def records(cs, leaf, coarse):
    """The records of a tree over points on a line, with one neighbour and factor 2: whole numbers and bits of the planes, by level."""
    found = model.records(cs, 1, leaf, model.build(cs, 1, leaf, 1, 2, 1, coarse))
    return [([whole for whole, _ in level], bits(plane for _, plane in level)) for level in found]


def leaves_from_the_left(cs, d, leaf, rows):
    """The rows of each leaf, by plain recursion."""
    _, _, left, right = model.halves(cs, d, rows)
    if len(rows) < 2 * leaf:
        return [left, right]
    return leaves_from_the_left(cs, d, leaf, left) + leaves_from_the_left(cs, d, leaf, right)


class Record(unittest.TestCase):
    def test_the_papers_example(self):
        self.assertEqual(records([0.0, 1.0, 3.0, 7.0], 2, 2), [([0, 0, 3, 4, 0, 5, 6], bits([3.0, 1.0, 0.0, 0.0, 7.0, 0.0, 0.0]))])

    def test_numbers_go_by_depth_and_are_not_places_from_the_left(self):
        (wholes, _), = records([float(i) for i in range(6)], 1, 3)
        self.assertEqual(wholes, [0, 0, 0, 3, 4, 0, 0, 7, 8, 0, 9, 10, 0, 0, 5, 6, 0, 0, 11, 12, 0, 13, 14])

    def test_a_plane_keeps_the_sign_of_a_zero(self):
        # equal coordinates go by row: the first right row is row 1 at the root, and below it the one row that each half has
        for first, second in ((-0.0, 0.0), (0.0, -0.0)):
            planes = [second, first, 0.0, 0.0, second, 0.0, 0.0]
            self.assertEqual(records([first, second], 1, 1), [([0, 0, 3, 4, 0, 5, 6], bits(planes))])

    def test_the_leaf_that_a_node_names_is_the_domain_of_that_number(self):
        for n in range(2, 40):
            cs = [float((7 * i * i + 3 * i) % 23) for i in range(2 * n)]
            for leaf in (1, 2, 3):
                record = model.record(cs, 2, leaf, range(n))
                domains = [rows for rows, _, _ in model.leaves_of(cs, 2, leaf, range(n))]
                numbers = [whole - model.RECORD_LEAF for whole, _ in record if whole >= model.RECORD_LEAF]
                self.assertEqual([domains[k] for k in numbers], leaves_from_the_left(cs, 2, leaf, list(range(n))))
                self.assertEqual(len(record), 2 * len(domains) - 1)

    def test_each_fine_level_has_one_and_the_coarse_level_none(self):
        self.assertEqual([len(wholes) for wholes, _ in records([float(i) for i in range(8)], 1, 1)], [31, 15, 7])
        self.assertEqual(records([0.0, 1.0], 1, 2), [])


if __name__ == "__main__":
    unittest.main()
