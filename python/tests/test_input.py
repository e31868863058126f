"""What comes in: shapes, types and ranges are tested, and nothing is copied twice. What comes out can't be written."""
import array
import ctypes
import inspect
import os
import subprocess
import sys
import unittest

import support
from support import NUMPY, both, plain

import rekvashu
from rekvashu.coordinates import coordinates
from rekvashu.lent import Lent

setUpModule = support.need_library

TWO = [[0.0, 0.0], [1.0, 1.0]]

# Values outside their C type, and values of another type: what is said, and the call.
WRONG = [
    (ValueError, "leaf is -1", lambda: rekvashu.build(TWO, leaf=-1)),
    (ValueError, "leaf is 4294967296", lambda: rekvashu.build(TWO, leaf=2 ** 32)),
    (ValueError, "neighbours is -1", lambda: rekvashu.build(TWO, neighbours=-1)),
    (ValueError, "neighbours is 4294967296", lambda: rekvashu.build(TWO, neighbours=2 ** 32)),
    (ValueError, "factor is -2", lambda: rekvashu.build(TWO, factor=-2)),
    (ValueError, "factor is 4294967298", lambda: rekvashu.build(TWO, factor=2 ** 32 + 2)),
    (ValueError, "coarse is -1", lambda: rekvashu.build(TWO, coarse=-1)),
    (ValueError, "coarse is 'none'", lambda: rekvashu.build(TWO, coarse="none")),
    (TypeError, "coarse is None", lambda: rekvashu.build(TWO, coarse=None)),
    (TypeError, "leaf is 2.0", lambda: rekvashu.build(TWO, leaf=2.0)),
    (TypeError, "leaf is '2'", lambda: rekvashu.build(TWO, leaf="2")),
    (TypeError, "leaf is True", lambda: rekvashu.build(TWO, leaf=True)),
    (ValueError, "engine is 'stack'", lambda: rekvashu.build(TWO, engine="stack")),
    (ValueError, "engine is 'Queue'", lambda: rekvashu.build(TWO, engine="Queue")),
    (TypeError, "engine is None", lambda: rekvashu.build(TWO, engine=None)),
    (TypeError, "engine is ['queue']", lambda: rekvashu.build(TWO, engine=["queue"])),
    (ValueError, "wanted is -1", lambda: rekvashu.sample(TWO, -1, 0)),
    (ValueError, "seed is 18446744073709551616", lambda: rekvashu.sample(TWO, 1, 2 ** 64)),
    (ValueError, "active is -3", lambda: rekvashu.level_size(-3, 1, 1)),
    (ValueError, "threshold is 4294967297", lambda: rekvashu.level_size(3, 2 ** 32 + 1, 1)),
    (ValueError, "reductions is -1", lambda: rekvashu.level_size(3, 1, -1)),
    (ValueError, "sizes[1] is -1", lambda: rekvashu.quotas([1, -1], 1)),
    (TypeError, "sizes[0] is 1.5", lambda: rekvashu.quotas([1.5], 1)),
    (ValueError, "count is -1", lambda: rekvashu.row_test(0, -1, 1)),
    (TypeError, "'2' is no number", lambda: rekvashu.square_root("2")),
    (ValueError, "64-bit float", lambda: rekvashu.square_root(10 ** 400)),
    (ValueError, "points[1] has 1 coordinates, where points[0] has 2", lambda: rekvashu.build([[0, 1], [2]])),
    (ValueError, "points[1] has 3 coordinates, where points[0] has 2", lambda: rekvashu.build([[0, 1], [2, 3, 4]])),
    (TypeError, "points[1] holds '1.5'", lambda: rekvashu.build([[0.0], ["1.5"]])),
    (TypeError, "points[0] holds None", lambda: rekvashu.build([[None, 1]])),
    (TypeError, "points[1] is 3", lambda: rekvashu.build([[0], 3])),
    (TypeError, "points[1] holds [3]", lambda: rekvashu.build([0, [3]])),
    (TypeError, "points[0] holds (1+2j)", lambda: rekvashu.build([[1 + 2j]])),
    (TypeError, "points is '12'", lambda: rekvashu.build("12")),
    (TypeError, "points is None", lambda: rekvashu.build(None)),
    (TypeError, "points is {", lambda: rekvashu.build({1: 2})),
    (ValueError, "64-bit float", lambda: rekvashu.build([10 ** 400])),
    (ValueError, "dimension is -1", lambda: rekvashu.build([0.0], dimension=-1)),
    (ValueError, "2 columns", lambda: rekvashu.build(TWO, dimension=3)),
]


class Wrong(unittest.TestCase):
    @both
    def test_each(self):
        for kind, words, call in WRONG:
            with self.assertRaises(kind) as raised:
                call()
            self.assertIn(words, str(raised.exception))


class Given(unittest.TestCase):
    def test_what_is_taken_where_nothing_is_given(self):
        taken = {name: p.default for name, p in inspect.signature(rekvashu.build).parameters.items()}
        self.assertEqual(list(taken.items())[1:5], [("leaf", 256), ("neighbours", 16), ("factor", 128), ("coarse", "auto")])
        self.assertEqual(taken["engine"], "queue")

    @both
    def test_the_same_points_in_many_forms(self):
        flat = [0.0, 0.0, 5.0, 1.0, 2.0, 8.0]
        rows = [flat[i:i + 2] for i in (0, 2, 4)]
        forms = [rows, tuple(map(tuple, rows)), iter(rows), memoryview(array.array("d", flat)).cast("B").cast("d", [3, 2])]
        trees = [rekvashu.build(f, 2, 1, 2, 1) for f in forms]
        trees += [rekvashu.build(f, 2, 1, 2, 1, dimension=2) for f in (flat, tuple(flat), array.array("d", flat), array.array("f", flat))]
        seen = [[[(plain(leaf.own), plain(leaf.borrowed)) for leaf in level.leaves] for level in tree.levels] for tree in trees]
        self.assertEqual(seen, [seen[0]] * len(seen))
        self.assertEqual(seen[0][0][0][0], [0])

    @both
    def test_a_buffer_of_floats_is_not_copied(self):
        flat = array.array("d", [0.0, 1.0])
        given = coordinates(flat)
        self.assertEqual(ctypes.addressof(given.c), flat.buffer_info()[0])


class Room(unittest.TestCase):
    def test_settings_are_judged_before_room_is_asked_for(self):
        """Under a limit of memory that the lists of 1,048,576 points do not fit."""
        code = """
import resource, sys
sys.path.insert(0, sys.argv[1])
import rekvashu
rekvashu.library_version()
points = memoryview(bytes(8 * 1_048_576)).cast("d")
resource.setrlimit(resource.RLIMIT_AS, (400 << 20, 400 << 20))
for settings in ({"leaf": 0}, {}):
    try:
        rekvashu.build(points, **settings)
    except (rekvashu.Refusal, MemoryError) as error:
        print(type(error).__name__, error)
"""
        done = subprocess.run([sys.executable, "-c", code, os.path.join(support.ROOT, "python")], capture_output=True, text=True,
                              env={**os.environ, "OPENBLAS_NUM_THREADS": "1"})
        self.assertEqual(done.stderr, "")
        refused, room = done.stdout.splitlines()
        self.assertTrue(refused.startswith("Refusal refused 2 at 0"))
        self.assertTrue(room.startswith("MemoryError there is no memory for a list of"))

    def test_a_list_that_no_memory_holds(self):
        for entries in (2 ** 50, 2 ** 62):
            with self.assertRaises(MemoryError):
                Lent(ctypes.c_size_t, entries)


class Views(unittest.TestCase):
    @unittest.skipUnless(NUMPY, "NOT RUN, there is no numpy")
    def test_views_into_the_lent_lists(self):
        level = rekvashu.build(TWO, 2, 1, 2, 1).levels[0]
        own = level.leaves[0].own
        self.assertIsInstance(own, NUMPY.ndarray)
        self.assertIs(type(own.base), type(level.leaves[1].own.base))
        self.assertFalse(own.flags.owndata)
        with self.assertRaises(ValueError):
            own[0] = 7

    def test_plain_lists_without_numpy(self):
        with support.arrays(None):
            level = rekvashu.build(TWO, 2, 1, 2, 1).levels[0]
            self.assertEqual((level.points, level.leaves[0].own, level.leaves[0].borrowed), ([0, 1], [0], [1]))
            self.assertEqual(level.leaves[1].box, ([1.0, 0.0], [1.0, 1.0]))


@unittest.skipUnless(NUMPY, "NOT RUN, there is no numpy")
class Arrays(unittest.TestCase):
    def test_an_array_in_row_order_is_lent_as_it_is(self):
        points = NUMPY.array(TWO)
        self.assertIs(coordinates(points).kept, points)

    def test_any_other_is_copied_once(self):
        for points in (NUMPY.array(TWO).T, NUMPY.array(TWO, dtype=NUMPY.float32), NUMPY.array(TWO, dtype=int), NUMPY.array(TWO)[::-1]):
            given = coordinates(points)
            self.assertEqual(given.kept.tolist(), points.astype(float).tolist())
            self.assertTrue(given.kept.flags.c_contiguous)

    def test_types_and_shapes(self):
        for kind, points in ((TypeError, NUMPY.array([["1", "2"]])), (TypeError, NUMPY.array([[1j]])), (TypeError, NUMPY.array([[True]])),
                             (ValueError, NUMPY.zeros((2, 2, 2))), (ValueError, NUMPY.array(3.0)),
                             (ValueError, NUMPY.ma.masked_array([1.0, 2.0], [0, 1]))):
            with self.assertRaises(kind):
                rekvashu.build(points)

    def test_whole_numbers_of_numpy_are_settings(self):
        tree = rekvashu.build(NUMPY.array(TWO), NUMPY.uint32(1), NUMPY.int64(1), NUMPY.int8(2), NUMPY.uint8(1))
        self.assertEqual(len(tree.levels), 2)
        with self.assertRaises(ValueError):
            rekvashu.build(NUMPY.array(TWO), NUMPY.int64(-1))


if __name__ == "__main__":
    unittest.main()
