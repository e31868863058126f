"""The table of wells against its plain model (tools/table_model.py)."""
import math
import random
import unittest

import support
from support import both, plain

import model
import rekvashu
import table_model
from test_calls import as_seen, bits, coordinate, seen

setUpModule = support.need_library

FOUR = dict(leaf=2, neighbours=1, factor=2, coarse=2)


def outcome(call, *words):
    """What a call of the package or of the model answers: (number, place, answer)."""
    try:
        return 0, 0, call(*words)
    except (rekvashu.Refusal, model.Refused) as refusal:
        return refusal.number, refusal.place, None


def empty(capacity, d):
    """The model's table without wells, in whose lists stands what no answer may depend on."""
    return table_model.Table([9] * capacity, [math.nan] * (capacity * d))


class Edits(unittest.TestCase):
    @both
    def test_slots(self):
        table = rekvashu.Table(3, 2)
        self.assertEqual([table.add([0, 0]), table.add((1, 4)), table.add(support.table([3, 1]))], [0, 1, 2])
        self.assertEqual(outcome(table.add, [7, 2]), (21, 0, None))
        table.retire(2)
        table.retire(0)
        self.assertEqual((table.live, len(table), table.slots, table.capacity, table.dimension), ([1], 1, 3, 3, 2))
        self.assertEqual([table.point(slot) for slot in range(4)], [None, [1.0, 4.0], None, None])
        self.assertEqual(repr(table), "<Table: 1 live of 3 slots, capacity 3>")
        self.assertEqual([table.add([7, 2]), table.add([5, 5])], [0, 2])
        self.assertEqual([table.point(slot) for slot in table.live], [[7.0, 2.0], [1.0, 4.0], [5.0, 5.0]])

    @both
    def test_one_axis(self):
        table = rekvashu.Table(2, 1)
        self.assertEqual([table.add(5), table.add([6.5])], [0, 1])
        self.assertEqual([table.point(slot) for slot in table.live], [[5.0], [6.5]])

    def test_input(self):
        table = rekvashu.Table(2, 1)
        for wrong in ("1", None, [[1.0]], ["1"], True):
            with self.assertRaises(TypeError):
                table.add(wrong)
        for wrong in (-1, 2 ** 64):
            with self.assertRaises(ValueError):
                table.retire(wrong)
        for words in ((1.5, 1), (1, "1"), (-1, 1)):
            with self.assertRaises((TypeError, ValueError)):
                rekvashu.Table(*words)
        self.assertEqual((table.live, table.slots), ([], 0))

    def test_the_capacity_is_held_to_the_most_points(self):
        self.assertEqual(rekvashu.Table(2 ** 63, 1).capacity, model.MOST_POINTS)

    @both
    def test_sequences(self):
        r = random.Random(29)
        numbers = set()
        for _ in range(60):
            d, capacity, kind = r.randint(1, 3), r.randint(0, 12), r.randint(0, 3)
            table, plainly = rekvashu.Table(capacity, d), empty(capacity, d)
            for _ in range(50):
                edit = r.random()
                if edit < 0.1:
                    names = [None] * plainly.slots
                    table_model.close(plainly, d, names)
                    due, found = (0, 0, names), outcome(table.close)
                elif edit < 0.6:
                    point = [coordinate(r, kind) for _ in range(d if r.random() < 0.95 else r.randint(0, 4))]
                    if point and r.random() < 0.05:
                        point[r.randrange(len(point))] = r.choice([math.nan, math.inf, -math.inf])
                    due, found = outcome(table_model.add, plainly, d, point), outcome(table.add, point)
                else:
                    slot = r.choice([r.randint(0, capacity), 2 ** 64 - 1])
                    due, found = outcome(table_model.retire, plainly, d, slot), outcome(table.retire, slot)
                self.assertEqual(found, due)
                numbers.add(due[0])
                self.assertEqual((table.slots, len(table), table.live), (plainly.slots, plainly.live, plainly.live_slots()))
                for slot in range(capacity + 1):
                    well = plainly.coordinates[slot * d:(slot + 1) * d] if slot in plainly.live_slots() else None
                    self.assertEqual(table.point(slot) and bits(table.point(slot)), well and bits(well))
        self.assertEqual(numbers, {0, 7, 10, 21, 22})


def renamed(levels, names):
    """What `seen` gives of a tree, with each row named by this list."""
    def name(rows):
        return [names[row] for row in rows]
    return [(name(points), [(name(own), name(borrowed), *rest) for own, borrowed, *rest in leaves]) for points, leaves in levels]


def cuts_of(tree):
    """The cuts of each level, planes by their bits."""
    return [[(node.depth, node.axis, node.plane is not None and bits([node.plane]), node.leaf) for node in level.cuts] for level in tree.levels]


class Closing(unittest.TestCase):
    @both
    def test_gaps(self):
        table = rekvashu.Table(7, 2)
        self.assertEqual(table.close(), [])
        for x in (0.0, 1.0, -0.0, 3.0, 4.0, 5.0):
            table.add([x, -x])
        self.assertEqual(table.close(), [0, 1, 2, 3, 4, 5])
        for slot in (0, 3, 5):
            table.retire(slot)
        names = table.close()
        self.assertEqual((type(names), names), (list, [6, 0, 1, 6, 2, 6]))
        self.assertEqual((table.slots, len(table), table.capacity, table.live), (3, 3, 7, [0, 1, 2]))
        self.assertEqual([table.point(slot) and bits(table.point(slot)) for slot in range(4)],
                         [bits([1.0, -1.0]), bits([-0.0, 0.0]), bits([4.0, -4.0]), None])
        self.assertEqual((list(table._flags.c), list(table._coordinates.c[6:])), ([1] * 3 + [0] * 4, [0.0] * 8))
        self.assertEqual(table.add([9, 9]), 3)
        for slot in range(4):
            table.retire(slot)
        self.assertEqual((table.close(), table.slots, len(table)), ([4] * 4, 0, 0))
        self.assertEqual(rekvashu.Table(0, 3).close(), [])

    @both
    def test_flags_and_coordinates_of_others(self):
        """Any flag but 0 is live and becomes 1, a float that is not a number is moved too, and what stands from the old slot count on
        stays."""
        table = rekvashu.Table(8, 1)
        table._head.slots, table._head.live = 6, 3
        table._flags.c[:] = [0, 2, 0, 255, 128, 0, 77, 0]
        table._coordinates.c[:] = [5.0, math.nan, math.inf, -0.0, 3.0, math.nan, -7.0, -0.0]
        self.assertEqual(table.close(), [6, 0, 6, 1, 2, 6])
        self.assertEqual(list(table._flags.c), [1, 1, 1, 0, 0, 0, 77, 0])
        self.assertEqual(bits(table._coordinates.c), bits([math.nan, -0.0, 3.0, 0.0, 0.0, 0.0, -7.0, -0.0]))
        # a head that does not fit, and coordinates that are short
        table._head.live = 2
        self.assertEqual(outcome(table.close), (27, 0, None))
        table._coordinates.entries = 7
        self.assertEqual(outcome(table.close), (11, 0, None))
        table._dimension = 4
        self.assertEqual((outcome(table.close), table.slots, list(table._flags.c[:4])), ((1, 0, None), 3, [1, 1, 1, 0]))

    @both
    def test_the_build_before_renamed_is_the_build_after(self):
        r = random.Random(37)
        numbers = set()
        for _ in range(100):
            d, capacity, kind = r.randint(1, 3), r.randint(1, 60), r.randint(0, 3)
            table = rekvashu.Table(capacity, d)
            for _ in range(r.randint(0, capacity)):
                table.add([coordinate(r, kind) for _ in range(d)])
            for slot in r.sample(table.live, r.randint(0, len(table))):
                table.retire(slot)
            settings = (r.randint(0, 9), r.randint(0, 6), r.randint(2, 4), r.choice(["auto", r.randint(0, 9)]))
            number, place, tree = outcome(table.build, *settings)
            names = table.close()
            number_after, place_after, after = outcome(table.build, *settings)
            self.assertEqual((number, place), (number_after, place_after))
            numbers.add(number)
            if number == 0:
                self.assertEqual(renamed(seen(tree), names), seen(after))
                # the cuts name no slots
                self.assertEqual(cuts_of(tree), cuts_of(after))
                # the slots are 0 to n - 1 now
                points = [x for slot in table.live for x in table.point(slot)]
                self.assertEqual(after.to_bytes(), rekvashu.build(points, *settings, dimension=d).to_bytes())
        self.assertTrue({0, 2, 6} <= numbers)


class Build(unittest.TestCase):
    @both
    def test_the_papers_example_in_other_slots(self):
        table = rekvashu.Table(9, 1)
        for x in (9, 0, 9, 1, 3, 9, 7):
            table.add(x)
        for slot in (0, 2, 5):
            table.retire(slot)
        tree = table.build(**FOUR)
        # an edit afterwards does not change it
        table.add(100)
        self.assertEqual([plain(level.points) for level in tree.levels], [[1, 3, 4, 6], [1, 3]])
        self.assertEqual([plain(leaf.own) for leaf in tree.levels[0].leaves], [[1], [3], [4], [6]])
        self.assertEqual([plain(leaf.borrowed) for leaf in tree.levels[0].leaves], [[3], [1, 4], [3, 6], [4]])
        self.assertEqual(plain(table.build(**FOUR).levels[0].points), [0, 1, 3, 4, 6])

    @both
    def test_random_tables(self):
        r = random.Random(31)
        numbers = set()
        for _ in range(150):
            d, capacity, kind = r.randint(1, 3), r.randint(1, 60), r.randint(0, 3)
            table, plainly = rekvashu.Table(capacity, d), empty(capacity, d)
            for _ in range(r.randint(0, capacity)):
                point = [coordinate(r, kind) for _ in range(d)]
                self.assertEqual(table.add(point), table_model.add(plainly, d, point))
            for slot in r.sample(plainly.live_slots(), r.randint(0, len(plainly.live_slots()))):
                table.retire(slot)
                table_model.retire(plainly, d, slot)
            leaf, neighbours, factor = r.randint(0, 9), r.randint(0, 6), r.randint(2, 4)
            coarse = r.choice(["auto", r.randint(0, 9)])
            policy = (0, 0) if coarse == "auto" else (1, coarse)
            number, place, tree = outcome(table.build, leaf, neighbours, factor, coarse)
            due, where, levels = outcome(table_model.build, plainly, d, leaf, neighbours, factor, *policy)
            self.assertEqual((number, place), (due, where))
            numbers.add(number)
            if number == 0:
                self.assertEqual(seen(tree), as_seen(levels))
                points = [x for slot in table.live for x in table.point(slot)]
                self.assertEqual(cuts_of(tree), cuts_of(rekvashu.build(points, leaf, neighbours, factor, coarse, dimension=d)))
        self.assertEqual(numbers, {0, 2, 4, 6, 9})

    @both
    def test_flags_and_coordinates_of_others(self):
        """What a caller of the library may have left in the lists: any flag but 0 is live, below the slot count alone, and what stands in
        other slots is not looked at."""
        table = rekvashu.Table(9, 1)
        table._head.slots, table._head.live = 7, 4
        table._flags.c[:] = [0, 2, 0, 255, 1, 0, 128, 1, 77]
        table._coordinates.c[:] = [math.nan, 0.0, math.inf, 1.0, 3.0, math.nan, 7.0, math.nan, -math.inf]
        self.assertEqual(table.live, [1, 3, 4, 6])
        self.assertEqual([plain(level.points) for level in table.build(**FOUR).levels], [[1, 3, 4, 6], [1, 3]])
        self.assertEqual([outcome(table.retire, slot) for slot in (0, 7, 8, 9)], [(22, 0, None)] * 4)
        # the place is counted in the list, not in the live wells
        table._coordinates.c[6] = math.nan
        self.assertEqual(outcome(table.build), (10, 6, None))
        table.retire(6)
        self.assertEqual([table.add(x) for x in (20, 21, 22, 23, 24, 25)], [0, 2, 5, 6, 7, 8])

    @both
    def test_only_a_tree_over_the_first_slots_is_stored(self):
        table = rekvashu.Table(8, 1)
        for x in (0, 1, 3, 7):
            table.add(x)
        tree = table.build(**FOUR)
        table.retire(3)
        self.assertEqual(tree.to_bytes(), rekvashu.build([0, 1, 3, 7], **FOUR).to_bytes())
        self.assertEqual(table.build(**FOUR).to_bytes(), rekvashu.build([0, 1, 3], **FOUR).to_bytes())
        table.retire(1)
        self.assertEqual(outcome(table.build(**FOUR).to_bytes), (20, 0, None))


if __name__ == "__main__":
    unittest.main()
