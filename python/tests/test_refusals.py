"""Every refusal comes back as a Refusal with its number and place, and the sentences agree with README.md and c/ddm.h."""
import unittest

import support
from support import both

import rekvashu
from rekvashu import calls, layout, refusals
from rekvashu.coordinates import coordinates

NAN, INF = float("nan"), float("inf")
TWO = [[0.0, 0.0], [1.0, 1.0]]

# number, place, call
ROUND_TRIPS = [
    (1, 0, lambda: rekvashu.build([[1, 2, 3, 4]])),
    (1, 0, lambda: rekvashu.build([[]])),
    (1, 0, lambda: rekvashu.build([1.0], dimension=0)),
    (2, 0, lambda: rekvashu.build(TWO, leaf=0)),
    (3, 0, lambda: rekvashu.build(TWO, factor=1)),
    (4, 0, lambda: rekvashu.build(TWO, coarse=0)),
    (5, 0, lambda: rekvashu.build(TWO, neighbours=65)),
    (6, 0, lambda: rekvashu.build([])),
    (7, 0, lambda: rekvashu.build([1.0], dimension=2)),
    (8, 0, lambda: rekvashu.build(bytes_of_points(1_048_577), dimension=1)),
    (9, 0, lambda: rekvashu.build(range(9), leaf=1, factor=2, coarse=1)),
    (10, 3, lambda: rekvashu.build([[0.0, 0.0], [1.0, NAN]])),
    (10, 0, lambda: rekvashu.build([-INF, NAN])),
    (10, 3, lambda: rekvashu.build([[0.0, 0.0], [1.0, NAN]], engine="depth-first")),
    (2, 0, lambda: rekvashu.build([NAN], leaf=0, engine="depth-first")),
    (11, 0, lambda: short_table_build("cuts")),
    (11, 0, lambda: short_table_build("planes")),
    (11, 0, lambda: short_table_build("wholes")),
    *[(11, 0, lambda build=build, name=name, points=points: short_build(build, name, points))
      for build in calls.ENGINES.values() for name in layout.LISTS for points in (TWO, [[0.0, NAN], [1.0, 1.0]])],
    (12, 0, lambda: rekvashu.row_test(3, 2, 4)),
    (12, 0, lambda: rekvashu.row_test(2 ** 64 - 1, 2, 4)),
    (13, 0, lambda: rekvashu.sample(TWO, 3, 0)),
    (13, 0, lambda: rekvashu.sample(TWO, 0, 0)),
    (13, 0, lambda: rekvashu.sample(TWO, 2 ** 64 - 1, 0)),
    (13, 0, lambda: rekvashu.sample(TWO, 1, 2)),
    (14, 0, lambda: rekvashu.level_size(3, 3, 1)),
    (15, 0, lambda: rekvashu.square_root(-1.0)),
    (15, 0, lambda: rekvashu.square_root(NAN)),
    # the same numbers from the other calls
    (1, 0, lambda: rekvashu.sample([[1, 2, 3, 4]], 1, 0)),
    (6, 0, lambda: rekvashu.sample([], 1, 0)),
    (7, 0, lambda: rekvashu.sample([1.0], 1, 0, dimension=2)),
    (10, 1, lambda: rekvashu.sample([0.0, INF], 1, 0)),
    (4, 0, lambda: rekvashu.level_size(3, 0, 1)),
    (8, 0, lambda: rekvashu.level_size(1_048_577, 1, 1)),
    (9, 0, lambda: rekvashu.level_size(9, 1, 0)),
    (8, 0, lambda: rekvashu.quotas([1_048_576, 1], 1)),
    (1, 0, lambda: rekvashu.build_sizes(1, 4, 1)),
    (5, 0, lambda: rekvashu.build_sizes(1, 1, 65)),
    (6, 0, lambda: rekvashu.build_sizes(0, 1, 1)),
    (8, 0, lambda: rekvashu.build_sizes(1_048_577, 1, 1)),
    # a table of wells
    (1, 0, lambda: rekvashu.Table(4, 4)),
    (6, 0, lambda: rekvashu.Table(4, 2).build()),
    (7, 0, lambda: rekvashu.Table(4, 2).add([1.0])),
    (7, 0, lambda: rekvashu.Table(4, 2).add([1.0, 2.0, 3.0])),
    (10, 1, lambda: rekvashu.Table(4, 2).add([1.0, NAN])),
    (21, 0, lambda: rekvashu.Table(0, 1).add(1.0)),
    (22, 0, lambda: rekvashu.Table(4, 1).retire(0)),
    (22, 0, lambda: rekvashu.Table(4, 1).retire(2 ** 64 - 1)),
    (27, 0, lambda: unsound_table().add([])),
    (27, 0, lambda: unsound_table().retire(0)),
    (27, 0, lambda: unsound_table().build(leaf=0)),
    # the first in document 01's order is the one that is said
    (2, 0, lambda: rekvashu.build([], leaf=0, factor=0)),
    (5, 0, lambda: rekvashu.build([1.0], neighbours=65, dimension=2)),
]

setUpModule = support.need_library


def bytes_of_points(count):
    return memoryview(bytes(8 * count)).cast("d")


def unsound_table():
    """A table whose head says another number of live slots than its flags: the package never makes one itself."""
    table = rekvashu.Table(4, 1)
    table._head.slots, table._head.live = 2, 1
    return table


def short_lists(name):
    """Lists for two points on two axes, of which this one is one entry too short: the package never lends such lists itself."""
    lengths = rekvashu.build_sizes(2, 2, 1)
    lengths[name] -= 1
    return calls.lists_of(lengths)


def short_build(build, name, points):
    number, slot = calls.build_into(build, coordinates(points), [1, 1, 2, 1, 1], short_lists(name))
    calls.passed(number, slot[0])


def short_table_build(name):
    table = rekvashu.Table(2, 2)
    for point in TWO:
        table.add(point)
    number, slot = table._build_into(None, [1, 1, 2, 1, 1], short_lists(name))
    calls.passed(number, slot[0])


class RoundTrips(unittest.TestCase):
    @both
    def test_each(self):
        for number, place, call in ROUND_TRIPS:
            with self.assertRaises(rekvashu.Refusal) as raised:
                call()
            refusal = raised.exception
            self.assertEqual((refusal.number, refusal.place), (number, place))
            self.assertIn(refusals.REFUSALS[number][0], refusal.text)
            self.assertEqual(str(refusal), refusal.text)

    def test_every_number_of_the_library(self):
        self.assertEqual({number for number, _, _ in ROUND_TRIPS}, set(range(1, 16)) | {21, 22, 27})


if __name__ == "__main__":
    unittest.main()
