"""Tests of the plain model of the table: document 02's requests 7, 8 and 9."""
import math
import random
import struct
import unittest

import support  # noqa: F401

import model
import table_model
from table_model import Table, add, build, close, retire

NAN, INF = math.nan, math.inf


def empty(capacity, d):
    """A table without wells, whose lists hold what no answer may depend on."""
    return Table([9] * capacity, [NAN] * (capacity * d))


def state(table):
    """All of a table, floats by their bits."""
    return table.slots, table.live, list(table.flags), [struct.pack("<d", x) for x in table.coordinates]


class Calls(unittest.TestCase):
    def refused(self, number, place, call, table, *words, **more):
        """The call is refused with this number at this place, and leaves the table."""
        before = state(table)
        with self.assertRaises(model.Refused) as raised:
            call(table, *words, **more)
        self.assertEqual((raised.exception.number, raised.exception.place), (number, place))
        self.assertEqual(state(table), before)


class Edits(Calls):
    def test_the_lowest_retired_slot_or_else_the_next_new_one(self):
        t = empty(4, 2)
        self.assertEqual([add(t, 2, [float(i), -0.0]) for i in range(3)], [0, 1, 2])
        self.assertEqual((t.slots, t.live, t.flags), (3, 3, [1, 1, 1, 9]))
        retire(t, 2, 2)
        retire(t, 2, 1)
        self.assertEqual((t.slots, t.live, t.flags, t.coordinates[2:6]), (3, 1, [1, 0, 0, 9], [1.0, -0.0, 2.0, -0.0]))
        self.assertEqual([add(t, 2, [7.0, 8.0]) for _ in range(3)], [1, 2, 3])
        self.assertEqual((t.slots, t.live, t.flags, t.coordinates[2:4]), (4, 4, [1] * 4, [7.0, 8.0]))
        self.refused(21, 0, add, t, 2, [0.0, 0.0])

    def test_flags(self):
        t = Table([2, 255, 0, 1, 7, 0], [0.0] * 6, 4, 3)
        self.assertEqual((t.live_slots(), t.retired_slots()), ([0, 1, 3], [2]))
        for slot in (2, 4, 5, 6, 2 ** 64 - 1):
            self.refused(22, 0, retire, t, 1, slot)
        self.assertEqual([add(t, 1, [1.0]) for _ in range(2)], [2, 4])
        self.assertEqual(t.flags, [2, 255, 1, 1, 1, 0])
        retire(t, 1, 1)
        self.assertEqual((t.flags, t.slots, t.live), ([2, 0, 1, 1, 1, 0], 5, 4))

    def test_refusals_of_adding_in_their_order(self):
        bad = [0.0, NAN, INF]
        for slots, live in ((4, 3), (3, 2), (3, 4), (2, 3)):
            t = Table([1] * 3, [0.0] * 5, slots, live)
            for d in (0, 4):
                self.refused(1, 0, add, t, d, bad)
            self.refused(11, 0, add, t, 2, bad)
            t.coordinates.append(0.0)
            self.refused(27, 0, add, t, 2, bad)
        t = Table([1] * 3, [0.0] * 6, 3, 3)
        self.refused(7, 0, add, t, 2, bad)
        self.refused(7, 0, add, t, 2, bad[:1])
        self.refused(10, 1, add, t, 2, bad[:2])
        self.refused(10, 0, add, t, 2, bad[1:])
        self.refused(21, 0, add, t, 2, [0.0, 0.0])
        self.refused(21, 0, add, empty(0, 1), 1, [0.0])

    def test_refusals_of_retiring_in_their_order(self):
        t = Table([1] * 3, [0.0] * 5, 3, 2)
        self.refused(1, 0, retire, t, 4, 3)
        self.refused(11, 0, retire, t, 2, 3)
        t.coordinates.append(0.0)
        self.refused(27, 0, retire, t, 2, 3)
        t.live = 3
        self.refused(22, 0, retire, t, 2, 3)

    def test_the_capacity_is_held_to_the_most_points(self):
        most = model.MOST_POINTS
        t = Table([1] * most + [0], [0.0] * most, most, most)
        self.refused_shortly(21, t)
        t.coordinates.pop()
        self.refused_shortly(11, t)
        t.coordinates.append(0.0)
        t.slots += 1
        self.refused_shortly(27, t)

    def refused_shortly(self, number, table):
        with self.assertRaises(model.Refused) as raised:
            add(table, 1, [0.0])
        self.assertEqual(raised.exception.number, number)

    def test_a_longer_coordinate_list(self):
        t = Table([0, 0], [NAN] * 5)
        self.assertEqual([add(t, 2, [1.0, 2.0]) for _ in range(2)], [0, 1])
        self.assertTrue(math.isnan(t.coordinates[4]) and len(t.coordinates) == 5)

    def test_sequences(self):
        """The table against a plain account of which wells stand where."""
        r = random.Random(1)
        for _ in range(200):
            d, capacity = r.randint(1, 3), r.randint(0, 9)
            t, wells, given = empty(capacity, d), {}, 0
            for _ in range(60):
                if r.random() < 0.6:
                    point = [r.random() for _ in range(d)]
                    free = min(set(range(given + 1)) - set(wells))
                    if free == capacity:
                        self.refused(21, 0, add, t, d, point)
                    else:
                        self.assertEqual(add(t, d, point), free)
                        wells[free] = point
                        given = max(given, free + 1)
                else:
                    slot = r.randint(0, capacity)
                    if slot in wells:
                        retire(t, d, slot)
                        del wells[slot]
                    else:
                        self.refused(22, 0, retire, t, d, slot)
                self.assertEqual((t.slots, t.live, t.live_slots()), (given, len(wells), sorted(wells)))
                self.assertTrue(all(t.coordinates[i * d:(i + 1) * d] == point for i, point in wells.items()))


def renamed(levels, slots):
    """Levels with each row named by its slot."""
    def name(rows):
        return [slots[i] for i in rows]
    return [(name(rows), [(name(own), name(borrowed), *rest) for own, borrowed, *rest in leaves]) for rows, leaves in levels]


# What stands in a rename list before a call.
BEFORE = 777


class Closing(Calls):
    def refused_closing(self, number, table, d, entries):
        """Closing with a rename list of so many entries is refused with this number, and leaves both."""
        rename = [BEFORE] * entries
        self.refused(number, 0, close, table, d, rename)
        self.assertEqual(rename, [BEFORE] * entries)

    def test_gaps_in_front_between_and_at_the_end(self):
        t = Table([0, 2, 0, 255, 1, 0, 7, 0], [NAN, INF, -0.0, 3.0, 4.0, 5.0, -0.0, 7.0, 8.0, 9.0, NAN, 11.0, 12.0, NAN, 14.0, 15.0], 6, 3)
        rename = [BEFORE] * 8
        self.assertEqual(close(t, 2, rename), 3)
        self.assertEqual(rename, [6, 0, 6, 1, 2, 6, BEFORE, BEFORE])
        self.assertEqual((t.slots, t.live, t.flags), (3, 3, [1, 1, 1, 0, 0, 0, 7, 0]))
        # the sign of a zero goes with it, the room left behind is +0, and what stands from the old slot count on stays
        due = [-0.0, 3.0, -0.0, 7.0, 8.0, 9.0] + [0.0] * 6 + [12.0, NAN, 14.0, 15.0]
        self.assertEqual(state(t)[3], [struct.pack("<d", x) for x in due])

    def test_no_gap_all_gaps_and_no_slot(self):
        for d in (1, 2, 3):
            t, rename = Table([1, 2, 255, 9], [NAN] + [float(i) for i in range(4 * d)], 3, 3), [BEFORE] * 3
            before = state(t)
            self.assertEqual((close(t, d, rename), rename), (3, [0, 1, 2]))
            self.assertEqual(state(t), (3, 3, [1, 1, 1, 9], before[3]))
            t, rename = Table([0, 0, 0, 9], [NAN] * (4 * d), 3, 0), [BEFORE] * 4
            self.assertEqual((close(t, d, rename), rename), (0, [3, 3, 3, BEFORE]))
            self.assertEqual((t.slots, t.live, t.flags, t.coordinates[:3 * d]), (0, 0, [0, 0, 0, 9], [0.0] * (3 * d)))
            self.assertTrue(all(math.isnan(x) for x in t.coordinates[3 * d:]))
            for t in (empty(0, d), empty(3, d)):
                before = state(t)
                self.assertEqual((close(t, d, []), state(t)), (0, before))

    def test_refusals_in_their_order(self):
        for slots, live in ((4, 3), (3, 2), (3, 4), (2, 3)):
            for short, entries in ((False, slots - 1), (True, slots), (True, slots - 1)):
                t = Table([1] * 3, [0.0] * (5 if short else 6), slots, live)
                for d in (0, 4):
                    self.refused_closing(1, t, d, entries)
                self.refused_closing(11, t, 2, entries)
            self.refused_closing(27, Table([1] * 3, [0.0] * 6, slots, live), 2, slots)
        t = Table([1, 0, 1], [0.0] * 6, 3, 2)
        self.refused_closing(11, t, 2, 2)
        self.assertEqual(close(t, 2, [0] * 3), 2)
        self.refused_closing(11, Table([], [], 2 ** 64 - 1, 0), 1, 9)

    def test_the_capacity_is_held_to_the_most_points(self):
        most = model.MOST_POINTS
        t, rename = Table([0] * most + [1], [1.0] * most, most, 0), [BEFORE] * (most + 1)
        t.slots = most + 1
        with self.assertRaises(model.Refused) as raised:
            close(t, 1, rename)
        self.assertEqual(raised.exception.number, 27)
        t.slots = most
        self.assertEqual((close(t, 1, rename), t.flags[most], rename[-2:]), (0, 1, [most, BEFORE]))

    def test_sequences(self):
        """Edits and closings against a plain account of which wells stand in which order."""
        r = random.Random(3)
        for _ in range(200):
            d, capacity = r.randint(1, 3), r.randint(0, 9)
            t, wells, given = empty(capacity, d), {}, 0
            for _ in range(60):
                kind = r.random()
                if kind < 0.5 and len(wells) < capacity:
                    point = [r.random() for _ in range(d)]
                    free = min(set(range(given + 1)) - set(wells))
                    self.assertEqual(add(t, d, point), free)
                    wells[free] = point
                    given = max(given, free + 1)
                elif kind < 0.8 and wells:
                    slot = r.choice(list(wells))
                    retire(t, d, slot)
                    del wells[slot]
                else:
                    rename, old = [BEFORE] * (given + r.randint(0, 2)), sorted(wells)
                    self.assertEqual(close(t, d, rename), len(wells))
                    self.assertEqual(rename[given:], [BEFORE] * (len(rename) - given))
                    self.assertEqual([i for i in range(given) if rename[i] < given], old)
                    self.assertEqual([rename[i] for i in old], list(range(len(old))))
                    self.assertEqual(t.coordinates[len(old) * d:given * d], [0.0] * ((given - len(old)) * d))
                    self.assertEqual(t.flags[:given], [1] * len(old) + [0] * (given - len(old)))
                    wells, given = {rename[i]: wells[i] for i in old}, len(old)
                self.assertEqual((t.slots, t.live, t.live_slots()), (given, len(wells), sorted(wells)))
                self.assertTrue(all(t.coordinates[i * d:(i + 1) * d] == point for i, point in wells.items()))

    def test_the_build_before_renamed_is_the_build_after(self):
        r = random.Random(4)
        numbers = set()
        for _ in range(300):
            d, capacity = r.randint(1, 3), r.randint(1, 40)
            t = Table([r.choice([0, 1, r.randint(0, 255)]) for _ in range(capacity)], [NAN] * (capacity * d), r.randint(0, capacity))
            t.live = len(t.live_slots())
            for i in t.live_slots():
                t.coordinates[i * d:(i + 1) * d] = [float(r.randint(0, 9)) if r.random() < 0.99 else NAN for _ in range(d)]
            settings = (d, r.randint(0, 5), r.randint(0, 5), r.randint(2, 4), 1, r.randint(1, 12))
            rename = [BEFORE] * t.slots
            try:
                levels = build(t, *settings)
            except model.Refused as refusal:
                close(t, d, rename)
                place = rename[refusal.place // d] * d + refusal.place % d if refusal.number == 10 else 0
                self.refused(refusal.number, place, build, t, *settings)
                numbers.add(refusal.number)
            else:
                close(t, d, rename)
                self.assertEqual(build(t, *settings), renamed(levels, rename))
                numbers.add(0)
        self.assertEqual(numbers, {0, 2, 6, 9, 10})


class Builds(Calls):
    def test_the_papers_example_in_other_slots(self):
        t = Table([0, 2, 0, 255, 1, 0, 128], [NAN, 0.0, INF, 1.0, 3.0, NAN, 7.0], 7, 4)
        (fine, leaves), (coarse, _) = build(t, 1, 2, 1, 2, 1, 2)
        self.assertEqual((fine, coarse), ([1, 3, 4, 6], [1, 3]))
        self.assertEqual([own for own, *_ in leaves], [[1], [3], [4], [6]])
        self.assertEqual([borrowed for _, borrowed, *_ in leaves], [[3], [1, 4], [3, 6], [4]])

    def test_against_the_build_of_the_live_points(self):
        r = random.Random(2)
        for _ in range(300):
            d, capacity = r.randint(1, 3), r.randint(1, 40)
            t = Table([r.choice([0, 1, r.randint(0, 255)]) for _ in range(capacity)], [NAN] * (capacity * d), r.randint(0, capacity))
            live = t.live_slots()
            t.live = len(live)
            for i in live:
                t.coordinates[i * d:(i + 1) * d] = [float(r.randint(0, 9)) for _ in range(d)]
            points = [x for i in live for x in t.coordinates[i * d:(i + 1) * d]]
            settings = (d, r.randint(0, 5), r.randint(0, 5), r.randint(2, 4), 1, r.randint(1, 12))
            try:
                levels = model.build(points, *settings)
            except model.Refused as refusal:
                self.refused(refusal.number, 0, build, t, *settings)
            else:
                self.assertEqual(build(t, *settings), renamed(levels, live))

    def test_refusals_in_their_order(self):
        wells = [float(i) for i in range(12)]
        wells[3], wells[5], wells[7] = NAN, NAN, -INF
        t = Table([1, 1, 1, 0, 1, 1, 1, 1, 1, 1, 0, 1], wells[:-1], 12, 9)
        bad = [4, 0, 65, 1, 1, 0]
        enough = table_model.stated(1, 10, 1)
        short = {name: entries - 1 for name, entries in enough.items()}
        self.refused(27, 0, build, t, *bad, lent=short)
        t.live = 10
        for number, mended in ((1, (0, 1)), (2, (1, 1)), (3, (3, 2)), (4, (5, 1)), (5, (2, 1)), (9, (5, 2))):
            self.refused(number, 0, build, t, *bad, lent=short)
            bad[mended[0]] = mended[1]
        self.refused(11, 0, build, t, *bad)
        t.coordinates.append(11.0)
        for name in enough:
            self.refused(11, 0, build, t, *bad, lent={**enough, name: short[name]})
        self.refused(10, 5, build, t, *bad, lent=enough)
        t.coordinates[5] = 5.0
        self.refused(10, 7, build, t, *bad)
        t.coordinates[7] = 7.0
        self.assertEqual(build(t, *bad)[0][0], [0, 1, 2, 4, 5, 6, 7, 8, 9, 11])
        for t in (empty(0, 1), empty(3, 1), Table([0, 0], [0.0], 2, 0)):
            self.refused(6, 0, build, t, 1, 1, 1, 2, 1, 1)

    def test_the_stated_lengths(self):
        self.assertEqual(table_model.stated(2, 10, 3), {"level_points": 40, "internals": 40, "domains": 305, "boxes": 305, "borrowed": 240,
                                                        "floats": 320, "wholes": 720, "cuts": 120, "planes": 120})


def some_table(r):
    """A table with gaps, whose live slots stand on few places."""
    d, capacity = r.randint(1, 3), r.randint(1, 40)
    t = Table([r.choice([0, 1, r.randint(0, 255)]) for _ in range(capacity)], [NAN] * (capacity * d), r.randint(0, capacity))
    t.live = len(t.live_slots())
    for i in t.live_slots():
        t.coordinates[i * d:(i + 1) * d] = [float(r.randint(0, 9)) for _ in range(d)]
    return d, t


class Records(Calls):
    def lists(self, entries):
        return [BEFORE] * entries, [float(BEFORE)] * entries

    def test_the_papers_example_in_other_slots(self):
        t = Table([0, 2, 0, 255, 1, 0, 128], [NAN, 0.0, INF, 1.0, 3.0, NAN, 7.0], 7, 4)
        cuts, planes = self.lists(48)
        build(t, 1, 2, 1, 2, 1, 2, lent=table_model.stated(1, 4, 1), records=(cuts, planes))
        self.assertEqual(cuts, [0, 0, 3, 4, 0, 5, 6] + [BEFORE] * 41)
        self.assertEqual(planes, [3.0, 1.0, 0.0, 0.0, 7.0, 0.0, 0.0] + [float(BEFORE)] * 41)

    def test_one_after_the_other_those_of_the_live_points(self):
        r, most = random.Random(5), 0
        for _ in range(300):
            d, t = some_table(r)
            settings = (d, r.randint(1, 4), r.randint(0, 3), r.randint(2, 4), 1, r.randint(1, 12))
            cuts, planes = self.lists(12 * t.live + 2)
            try:
                build(t, *settings, records=(cuts, planes))
            except model.Refused:
                self.assertEqual((cuts, planes), self.lists(12 * t.live + 2))
                continue
            points = [x for i in t.live_slots() for x in t.coordinates[i * d:(i + 1) * d]]
            nodes = sum(model.records(points, d, settings[1], model.build(points, *settings)), [])
            rest = 12 * t.live + 2 - len(nodes)
            self.assertGreaterEqual(rest, 2)
            self.assertEqual(cuts, [whole for whole, _ in nodes] + [BEFORE] * rest)
            self.assertEqual(planes, [plane for _, plane in nodes] + [BEFORE] * rest)
            # closing moves the wells, and the record names none
            close(t, d, [BEFORE] * t.slots)
            again = self.lists(12 * t.live + 2)
            build(t, *settings, records=again)
            self.assertEqual(again, (cuts, planes))
            most = max(most, len(nodes))
        self.assertGreater(most, 100)

    def test_refused_builds_write_none(self):
        t = Table([1] * 5, [0.0, 1.0, NAN, 3.0, 4.0], 5, 5)
        enough = table_model.stated(1, 5, 1)
        before = self.lists(60)
        cuts, planes = self.lists(60)
        # as many whole numbers of room as before request 9 are too few now
        for name, entries in (("cuts", 59), ("planes", 59), ("wholes", 279), ("wholes", 240), ("floats", 159)):
            self.refused(11, 0, build, t, 1, 1, 1, 2, 1, 2, lent={**enough, name: entries}, records=(cuts, planes))
        self.refused(10, 2, build, t, 1, 1, 1, 2, 1, 2, lent=enough, records=(cuts, planes))
        self.assertEqual((cuts, planes), before)


if __name__ == "__main__":
    unittest.main()
